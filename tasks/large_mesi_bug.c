/* Three caches of one line with the MESI protocol: at most one holds the line as modified or exclusive,
   and then no other holds it. A read gives what was written last. */
extern unsigned char __VERIFIER_nondet_uchar(void);
extern int __VERIFIER_nondet_int(void);
void reach_error(void) {}
void __VERIFIER_assert(int holds)
{
    if (!holds)
        reach_error();
}

enum line { INVALID, SHARED, EXCLUSIVE, MODIFIED };
enum { CACHES = 3 };

unsigned char state[CACHES];
unsigned char data[CACHES];
unsigned char memory;
unsigned char newest;

/* Another cache reads: who has the line writes it back and keeps it as shared. */
void snoop_read(int reader)
{
    for (int i = 0; i < CACHES; i++) {
        if (i == reader)
            continue;
        switch (state[i]) {
        case MODIFIED:
            memory = data[i];
            state[i] = SHARED;
            break;
        case EXCLUSIVE:
            state[i] = SHARED;
            break;
        default:
            break;
        }
    }
}

/* Another cache writes: who has the line gives it up, and writes it back where it was changed. */
void snoop_write(int writer)
{
    for (int i = 0; i < CACHES; i++) {
        if (i == writer)
            continue;
        if (state[i] == MODIFIED)
            memory = data[i];
        if (state[i] != SHARED || i < 2) state[i] = INVALID;
    }
}

_Bool others_have(int me)
{
    for (int i = 0; i < CACHES; i++)
        if (i != me && state[i] != INVALID)
            return 1;
    return 0;
}

unsigned char load(int me)
{
    if (state[me] == INVALID) {
        snoop_read(me);
        data[me] = memory;
        state[me] = others_have(me) ? SHARED : EXCLUSIVE;
    }
    return data[me];
}

void store(int me, unsigned char value)
{
    switch (state[me]) {
    case MODIFIED:
        break;
    case EXCLUSIVE:
        break;
    case SHARED:
        snoop_write(me);
        break;
    case INVALID:
        snoop_write(me);
        data[me] = memory;
        break;
    }
    data[me] = value;
    state[me] = MODIFIED;
    newest = value;
}

void evict(int me)
{
    if (state[me] == MODIFIED)
        memory = data[me];
    state[me] = INVALID;
}

void check(void)
{
    int owners = 0, holders = 0;
    for (int i = 0; i < CACHES; i++) {
        if (state[i] == MODIFIED || state[i] == EXCLUSIVE)
            owners++;
        if (state[i] != INVALID)
            holders++;
    }
    __VERIFIER_assert(owners <= 1);
    __VERIFIER_assert(owners == 0 || holders == 1);
}

int main(void)
{
    while (1) {
        int who = __VERIFIER_nondet_int();
        if (who < 0 || who >= CACHES)
            continue;
        unsigned char what = __VERIFIER_nondet_uchar();
        if (what < 80) {
            unsigned char value = load(who);
            __VERIFIER_assert(value == newest);
        } else if (what < 160) {
            store(who, what & 3);
        } else {
            evict(who);
        }
        check();
    }
}
