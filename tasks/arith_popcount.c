/* Ones of a word of 16 bits: by the trick, and one by one. */
extern unsigned short __VERIFIER_nondet_ushort(void);
void reach_error(void) {}

int main(void)
{
    unsigned short word = __VERIFIER_nondet_ushort();
    unsigned short v = word;
    v = v - ((v >> 1) & 0x5555);
    v = (v & 0x3333) + ((v >> 2) & 0x3333);
    v = (v + (v >> 4)) & 0x0f0f;
    v = (v + (v >> 8)) & 0x1f;
    int ones = 0;
    for (int i = 0; i < 16; i++)
        ones += word >> i & 1;
    if (!(v == ones))
        reach_error();
    return 0;
}
