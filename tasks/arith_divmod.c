/* A quotient and a rest, of numbers of eight bits, make the number. */
extern char __VERIFIER_nondet_char(void);
void reach_error(void) {}

int main(void)
{
    signed char a = (signed char) __VERIFIER_nondet_char();
    signed char b = (signed char) __VERIFIER_nondet_char();
    if (b == 0)
        return 0;
    int q = a / b;
    int r = a % b;
    if (q * b + r != a)
        reach_error();
    if (r != 0 && (r < 0) != (a < 0))
        reach_error();
    return 0;
}
