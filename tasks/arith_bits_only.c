/* One number of 32 bits has this sum of its halves, this product of its ends and this parity. */
extern unsigned int __VERIFIER_nondet_uint(void);
void reach_error(void) {}

int main(void)
{
    unsigned int x = __VERIFIER_nondet_uint();
    unsigned int halves = (x >> 16) + (x & 0xffff);
    unsigned int ends = (x >> 24) * (x & 0xff);
    if (halves == 0x1234 && ends == 0x30 && (x ^ x >> 8) % 2 == 1)
        reach_error();
    return 0;
}
