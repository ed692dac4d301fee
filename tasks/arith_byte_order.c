/* A word of 32 bits is sent byte by byte and put together again. */
extern unsigned int __VERIFIER_nondet_uint(void);
void reach_error(void) {}

unsigned char line[4];

unsigned int load(void)
{
    unsigned int word = 0;
    for (int i = 0; i < 4; i++)
        word = word << 8 | line[i];
    return word;
}

int main(void)
{
    unsigned int word = __VERIFIER_nondet_uint();
    for (int i = 0; i < 4; i++)
        line[i] = (unsigned char) (word >> (24 - 8 * i));
    if (load() != word)
        reach_error();
    return 0;
}
