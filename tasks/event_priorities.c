/* Requests of four priorities as bits of a word; the lowest number goes first, and none that is masked
   is served. */
extern unsigned char __VERIFIER_nondet_uchar(void);
void reach_error(void) {}
void __VERIFIER_assert(int holds)
{
    if (!holds)
        reach_error();
}

typedef unsigned char u8;
u8 pending, enabled;

int pick(void)
{
    for (int i = 0; i < 4; i++)
        if (pending & enabled & (1 << i))
            return i;
    return -1;
}

int main(void)
{
    while (1) {
        u8 word = __VERIFIER_nondet_uchar();
        if (word & 0x80)
            enabled = word & 15;
        else
            pending |= word & 15;
        int line = pick();
        if (line >= 0) {
            __VERIFIER_assert(enabled >> line & 1);
            for (int i = 0; i < line; i++)
                __VERIFIER_assert(!(pending >> i & 1) || !(enabled >> i & 1));
            pending &= ~(1 << line);
        }
        __VERIFIER_assert(pending < 16);
    }
}
