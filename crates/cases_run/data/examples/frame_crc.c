/* A command byte with its CRC (polynomial x^8 + x^2 + x + 1), and a receiver that turns a frame away
   where the CRC of both bytes is not 0. No single bit that falls over on the line may pass: each of
   the 16 is turned over in turn. */
extern void reach_error(void);

unsigned char frame[2] = { 0x4d, 0 };

unsigned char crc(int length)
{
    unsigned char rest = 0;
    for (int i = 0; i < length; i++) {
        rest ^= frame[i];
        for (int bit = 0; bit < 8; bit++) {
            if (rest & 0x80)
                rest = rest << 1 ^ 0x07;
            else
                rest <<= 1;
        }
    }
    return rest;
}

_Bool is_accepted(void)
{
    return crc(2) == 0;
}

int main(void)
{
    frame[1] = crc(1);
    if (!is_accepted())
        reach_error();           /* a sound frame is turned away */
    for (int i = 0; i < 2; i++) {
        unsigned char mask = 1;
        while (mask != 0) {
            frame[i] ^= mask;
            if (is_accepted())
                reach_error();   /* a faulty one is taken */
            frame[i] ^= mask;
            mask <<= 1;
        }
    }
    return 0;
}
