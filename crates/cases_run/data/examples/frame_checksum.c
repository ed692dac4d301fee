/* A parser of frames: a mark, a length, that many bytes, and their checksum. */
extern unsigned int __VERIFIER_nondet_uint(void);
extern void abort(void);
extern void reach_error(void);

unsigned char buffer[6];

unsigned int next_byte(void)
{
    unsigned int byte = __VERIFIER_nondet_uint();
    if (byte > 255)
        abort();
    return byte;
}

unsigned short checksum(int length)
{
    unsigned short sum = 0xFFFF;
    int i = 0;
    while (i < length) {
        sum = (unsigned short)(sum << 3) ^ buffer[i];
        i++;
    }
    return sum;
}

int main(void)
{
    int length = 0;
    if (next_byte() != 0x7E)
        return 1;
    length = next_byte();
    for (int i = 0; i < length; i++)
        buffer[i] = next_byte();
    if (checksum(length) % 256 == next_byte() && length > 0)
        reach_error();
    return 0;
}
