/* A frame of up to twelve bytes: address, function, count, data, sum. A frame is taken only where its
   count fits, and nothing is written outside the buffer. */
extern unsigned char __VERIFIER_nondet_uchar(void);
extern int __VERIFIER_nondet_int(void);
extern void abort(void);
void reach_error(void) {}

enum { ROOM = 12 };
unsigned char buffer[ROOM];
int filled;

void feed(unsigned char byte)
{
    if (filled < ROOM) {
        buffer[filled] = byte;
        filled++;
    }
}

unsigned char sum(int length)
{
    unsigned char total = 0;
    for (int i = 0; i < length; i++) {
        if (i >= ROOM)
            reach_error();
        total += buffer[i];
    }
    return total;
}

int parse(void)
{
    if (filled < 4)
        return -1;
    if (buffer[1] != 3 && buffer[1] != 16)
        return -2;
    int count = buffer[2];
    if (count > ROOM - 4)
        return -3;
    if (filled < count + 4)
        return -4;
    if (sum(count + 3) != buffer[count + 3 < ROOM ? count + 3 : 0])
        return -5;
    return count;
}

int main(void)
{
    int length = __VERIFIER_nondet_int();
    if (length < 0)
        abort();
    if (length > 16)
        length = 16;
    for (int i = 0; i < length; i++)
        feed(__VERIFIER_nondet_uchar());
    int count = parse();
    if (count > 8)
        reach_error();
    return 0;
}
