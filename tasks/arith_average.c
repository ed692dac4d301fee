/* The mean of two numbers without a sum that leaves the type. */
extern unsigned int __VERIFIER_nondet_uint(void);
void reach_error(void) {}

int main(void)
{
    unsigned int a = __VERIFIER_nondet_uint();
    unsigned int b = __VERIFIER_nondet_uint();
    unsigned int mean = (a & b) + ((a ^ b) >> 1);
    unsigned long wide = ((unsigned long) a + b) / 2;
    if (mean != wide)
        reach_error();
    return 0;
}
