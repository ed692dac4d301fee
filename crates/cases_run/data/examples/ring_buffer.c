/* A ring of six bytes between an interrupt that puts bytes in and a reader that takes them out.
   The counters run freely and are cut to the ring's size at each access: customary, and wrong for a
   size that does not divide 256, since behind 255 comes 0 and the place jumps from 3 to 0. */
extern void reach_error(void);

unsigned char ring[6];
unsigned char head = 240;  /* put so far, modulo 256: the driver has run for a while */
unsigned char tail = 240;  /* taken so far, modulo 256 */

unsigned char waiting(void)
{
    return head - tail;
}

_Bool put(unsigned char byte)
{
    if (waiting() >= 6)
        return 0;
    ring[head % 6] = byte;
    head++;
    return 1;
}

int take(void)
{
    if (waiting() == 0)
        return -1;
    unsigned char byte = ring[tail % 6];
    tail++;
    return byte;
}

/* Bursts of five bytes, each numbered; what is taken must come in the order in which it was put. */
int main(void)
{
    unsigned char sent = 0;
    unsigned char seen = 0;
    for (int burst = 0; burst < 50; burst++) {
        for (int i = 0; i < 5; i++)
            if (!put(sent++))
                reach_error();
        for (int i = 0; i < 5; i++)
            if (take() != seen++)
                reach_error();
    }
    return 0;
}
