/* Commas, chains of assignments and steps inside of expressions, in the order that C has for them. */
extern int __VERIFIER_nondet_int(void);
void reach_error(void) {}

int main(void)
{
    int a, b, c;
    int n = __VERIFIER_nondet_int();
    if (n < -1000 || n > 1000)
        return 0;
    a = b = n;
    c = (a++, b--, a + b);
    if (c != 2 * n)
        reach_error();
    a += b -= 3;
    if (a != 2 * n - 2)
        reach_error();
    for (int i = 0, j = 10; i < j; i++, j--)
        c += j - i;
    if (c != 2 * n + 30)
        reach_error();
    return 0;
}
