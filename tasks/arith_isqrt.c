/* The whole root of numbers below 1000, by Newton's steps. */
extern int __VERIFIER_nondet_int(void);
void reach_error(void) {}

int main(void)
{
    int n = __VERIFIER_nondet_int();
    if (n < 1 || n >= 1000)
        return 0;
    int x = n, steps = 0;
    int next = (x + 1) / 2;
    while (next < x) {
        x = next;
        next = (x + n / x) / 2;
        steps++;
    }
    if (x * x > n)
        reach_error();
    if ((x + 1) * (x + 1) <= n)
        reach_error();
    if (steps > 12)
        reach_error();
    return 0;
}
