/* A decoder of UTF-8: what it accepts is below 0x110000 and no surrogate, and in its shortest form. */
extern unsigned char __VERIFIER_nondet_uchar(void);
void reach_error(void) {}

unsigned int point;
int more;
unsigned int least;
_Bool bad;

_Bool first(unsigned char b)
{
    if (b < 0x80) {
        point = b;
        more = 0;
        least = 0;
    } else if (b >= 0xc2 && b < 0xe0) {
        point = b & 0x1f;
        more = 1;
        least = 0x80;
    } else if (b >= 0xe0 && b < 0xf0) {
        point = b & 0x0f;
        more = 2;
        least = 0x800;
    } else if (b >= 0xf0 && b < 0xf5) {
        point = b & 0x07;
        more = 3;
        least = 0x10000;
    } else {
        return 0;
    }
    return 1;
}

_Bool following(unsigned char b)
{
    if ((b & 0xc0) != 0x80)
        return 0;
    point = point << 6 | (b & 0x3f);
    more--;
    if (more > 0)
        return 1;
    if (point < least)
        return 0;
    if (point >= 0xd800 && point < 0xe000)
        return 0;
    return point < 0x110000;
}

int main(void)
{
    while (!bad) {
        unsigned char b = __VERIFIER_nondet_uchar();
        if (more == 0)
            bad = !first(b);
        else
            bad = !following(b);
        if (!bad && more == 0) {
            if (point >= 0x110000 || (point >= 0xd800 && point < 0xe000))
                reach_error();
            if (point < least)
                reach_error();
        }
        if (more < 0 || more > 3)
            reach_error();
    }
    return 0;
}
