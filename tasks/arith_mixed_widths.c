/* A difference of unsigned numbers in a wider type: what the sign is depends on where it is widened. */
extern unsigned int __VERIFIER_nondet_uint(void);
void reach_error(void) {}

long distance(unsigned int a, unsigned int b)
{
    return (long) a - (long) b;
}

int main(void)
{
    unsigned int a = __VERIFIER_nondet_uint();
    unsigned int b = __VERIFIER_nondet_uint();
    long d = distance(a, b);
    if (a < b && d >= 0)
        reach_error();
    if (a >= b && d < 0)
        reach_error();
    return 0;
}
