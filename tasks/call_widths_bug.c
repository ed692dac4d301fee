/* Parameters of several widths: what a call narrows is narrow inside of it, and its result again. */
extern unsigned int __VERIFIER_nondet_uint(void);
void reach_error(void) {}

unsigned char low_byte(unsigned char value) { return value; }
signed char signed_byte(signed char value) { return value; }
unsigned short half(unsigned short value) { return value; }
long wide(long value) { return value; }

int join(unsigned char high, unsigned char low)
{
    return high << 8 | low;
}

int main(void)
{
    unsigned int word = __VERIFIER_nondet_uint();
    unsigned char low = low_byte(word);
    unsigned char high = low_byte(word >> 8);
    if (join(high, low) != half(word))
        reach_error();
    signed char s = signed_byte(low);
    if (wide(s) < -128 || wide(s) > 127)
        reach_error();
    if (s != low)
        reach_error();
    if (s < 0 && low < 128)
        reach_error();
    return 0;
}
