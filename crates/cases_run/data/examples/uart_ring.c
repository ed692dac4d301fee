/* A receive interrupt that puts bytes into a ring, and a reader that takes them out. */
extern unsigned char __VERIFIER_nondet_uchar(void);
extern _Bool __VERIFIER_nondet_bool(void);
extern void reach_error(void);

unsigned char ring[8];
unsigned char head;
unsigned char tail;
unsigned short dropped;

_Bool is_full(void)
{
    return (unsigned char)(head - tail) == 8;
}

void receive(unsigned char byte)
{
    if (is_full()) {
        dropped++;
        return;
    }
    ring[head & 7] = byte;
    head++;
}

int take(void)
{
    if (head == tail)
        return -1;
    return ring[tail++ & 7];
}

int main(void)
{
    unsigned short sum = 0;
    for (int turn = 0; turn < 20; turn++) {
        if (__VERIFIER_nondet_bool()) {
            receive(__VERIFIER_nondet_uchar());
        } else {
            int byte = take();
            if (byte < 0)
                break;
            sum += byte;
        }
        if ((unsigned char)(head - tail) > 8)
            reach_error();
    }
    if (sum == 300 && dropped == 0)
        reach_error();
    return 0;
}
