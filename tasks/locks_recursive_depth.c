/* A lock that its owner may take again, up to a depth of eight. */
extern _Bool __VERIFIER_nondet_bool(void);
extern unsigned char __VERIFIER_nondet_uchar(void);
void reach_error(void) {}
void __VERIFIER_assert(int holds)
{
    if (!holds)
        reach_error();
}

typedef unsigned char u8;
u8 owner;
u8 depth;

_Bool take(u8 who)
{
    if (depth == 0) {
        owner = who;
        depth = 1;
        return 1;
    }
    if (owner != who || depth >= 8)
        return 0;
    depth++;
    return 1;
}

_Bool give(u8 who)
{
    if (depth == 0 || owner != who)
        return 0;
    depth--;
    if (depth == 0)
        owner = 0;
    return 1;
}

int main(void)
{
    while (1) {
        u8 who = __VERIFIER_nondet_uchar();
        if (who == 0 || who > 3)
            continue;
        if (__VERIFIER_nondet_bool())
            take(who);
        else
            give(who);
        __VERIFIER_assert(depth <= 8);
        __VERIFIER_assert(depth != 0 || owner == 0);
        __VERIFIER_assert(depth == 0 || owner != 0);
    }
}
