/* The sum of the first n numbers, n below 30, beside its formula. */
extern int __VERIFIER_nondet_int(void);
extern void abort(void);
void reach_error(void) {}

int main(void)
{
    int n = __VERIFIER_nondet_int();
    if (n < 0 || n > 30)
        abort();
    int sum = 0;
    for (int i = 1; i <= n; i++)
        sum += i;
    if (2 * sum != n * (n + 1))
        reach_error();
    if (sum > 60000)
        reach_error();
    return 0;
}
