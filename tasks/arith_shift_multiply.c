/* A product of two bytes by shifts and sums is the product. */
extern unsigned char __VERIFIER_nondet_uchar(void);
extern void abort(void);
void reach_error(void) {}
void assume_abort_if_not(int holds)
{
    if (!holds)
        abort();
}

int main(void)
{
    unsigned char a = __VERIFIER_nondet_uchar();
    unsigned char b = __VERIFIER_nondet_uchar();
    assume_abort_if_not(a < 64 && b < 16);
    unsigned short product = 0;
    for (int i = 0; i < 4; i++)
        if (b >> i & 1)
            product += a << i;
    if (product != a * b)
        reach_error();
    return 0;
}
