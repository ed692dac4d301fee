/* Euclid by subtraction on numbers up to 40: the result divides both. */
extern int __VERIFIER_nondet_int(void);
extern void abort(void);
void reach_error(void) {}
void assume_abort_if_not(int holds)
{
    if (!holds)
        abort();
}

int main(void)
{
    int a = __VERIFIER_nondet_int();
    int b = __VERIFIER_nondet_int();
    assume_abort_if_not(a >= 1 && a <= 40);
    assume_abort_if_not(b >= 1 && b <= 40);
    int x = a, y = b;
    while (x != y) {
        if (x > y)
            x -= y;
        else
            y = y > 2 * x ? y - 2 * x : y - x + (x > 9);
    }
    if (a % x != 0)
        reach_error();
    if (b % x != 0)
        reach_error();
    return 0;
}
