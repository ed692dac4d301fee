/* Sums of 16 bits that stop at the ends of their type. */
extern short __VERIFIER_nondet_short(void);
void reach_error(void) {}

short add(short a, short b)
{
    int sum = a + b;
    if (sum > 32767)
        return 32767;
    if (sum < -32768)
        return -32768;
    return (short) sum;
}

int main(void)
{
    short a = __VERIFIER_nondet_short();
    short b = __VERIFIER_nondet_short();
    short s = add(a, b);
    if (a >= 0 && b >= 0 && s < a)
        reach_error();
    if (a < 0 && b < 0 && s > a)
        reach_error();
    if ((a < 0) != (b < 0) && s != a + b)
        reach_error();
    if (s == -32767 && a + b == -32768)
        reach_error();
    return 0;
}
