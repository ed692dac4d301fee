/* A number of up to five digits leaves the same rest by nine as the sum of its digits. */
extern unsigned int __VERIFIER_nondet_uint(void);
void reach_error(void) {}
void __VERIFIER_assert(int holds)
{
    if (!holds)
        reach_error();
}

int main(void)
{
    unsigned int number = __VERIFIER_nondet_uint();
    if (number > 99999)
        return 0;
    unsigned int rest = number, sum = 0;
    int digits = 0;
    do {
        sum += rest % 10;
        rest /= 10;
        digits++;
    } while (rest != 0);
    __VERIFIER_assert(digits <= 5);
    __VERIFIER_assert(sum <= 45);
    __VERIFIER_assert(sum % 9 == number % 9);
    return 0;
}
