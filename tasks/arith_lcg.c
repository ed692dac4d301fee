/* Three steps of a generator of 16 bits lead to one number. */
extern unsigned short __VERIFIER_nondet_ushort(void);
void reach_error(void) {}

int main(void)
{
    unsigned short seed = __VERIFIER_nondet_ushort();
    unsigned short x = seed;
    for (int i = 0; i < 3; i++)
        x = x * 25173 + 13849;
    if (x == 0xbeef)
        reach_error();
    return 0;
}
