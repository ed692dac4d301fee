/* A division by zero ends the execution, so behind it the divisor is known. */
extern int __VERIFIER_nondet_int(void);
void reach_error(void) {}

int main(void)
{
    int divisor = __VERIFIER_nondet_int();
    if (divisor < 0 || divisor > 50)
        return 0;
    int part = 100 / divisor;
    if (divisor == 0)
        reach_error();
    if (part < 3)
        reach_error();
    return 0;
}
