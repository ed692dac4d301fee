/* The mean by the sum, in the type of the numbers: the sum leaves it. */
extern unsigned int __VERIFIER_nondet_uint(void);
void reach_error(void) {}

int main(void)
{
    unsigned int a = __VERIFIER_nondet_uint();
    unsigned int b = __VERIFIER_nondet_uint();
    if (a > b)
        return 0;
    unsigned int mean = (a + b) / 2;
    if (mean < a || mean > b)
        reach_error();
    return 0;
}
