/* One function from four places: what comes back belongs to the call. */
extern int __VERIFIER_nondet_int(void);
void reach_error(void) {}

int scale(int value, int by)
{
    int result = 0;
    for (int i = 0; i < by; i++)
        result += value;
    return result;
}

int twice(int value) { return scale(value, 2); }
int thrice(int value) { return scale(value, 3); }

int main(void)
{
    int x = __VERIFIER_nondet_int();
    if (x < 0 || x > 100)
        return 0;
    int a = twice(x);
    int b = thrice(x);
    int c = twice(thrice(x));
    int d = scale(a, 3);
    if (c != d)
        reach_error();
    if (a + b != scale(x, 5))
        reach_error();
    if (c - b < 0 || c > 600)
        reach_error();
    return 0;
}
