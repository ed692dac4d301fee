/* Neighbours in Gray's code differ in one bit, and the code is read back. */
extern unsigned char __VERIFIER_nondet_uchar(void);
void reach_error(void) {}

int main(void)
{
    unsigned char n = __VERIFIER_nondet_uchar();
    unsigned char code = n ^ n >> 1;
    unsigned char next = (unsigned char) (n + 1);
    unsigned char next_code = next ^ next >> 1;
    unsigned char change = code ^ next_code;
    if (change == 0 || (change & (change - 1)) != 0)
        reach_error();
    unsigned char back = code;
    back ^= back >> 4;
    back ^= back >> 2;
    back ^= back >> 1;
    if (back != n)
        reach_error();
    return 0;
}
