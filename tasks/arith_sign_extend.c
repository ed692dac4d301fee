/* A field of 12 bits with a sign, by shifts and by a test: the same number. */
extern unsigned int __VERIFIER_nondet_uint(void);
void reach_error(void) {}
void __VERIFIER_assert(int holds)
{
    if (!holds)
        reach_error();
}

int main(void)
{
    unsigned int raw = __VERIFIER_nondet_uint() & 0xfff;
    int by_shift = (int) (raw << 20) >> 20;
    int by_test = raw & 0x800 ? (int) raw - 4096 : (int) raw;
    __VERIFIER_assert(by_shift == by_test);
    __VERIFIER_assert(by_shift >= -2048 && by_shift < 2048);
    return 0;
}
