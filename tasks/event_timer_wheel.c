/* Three timers that are set to up to 50 ticks; each fires once, when its time has come. */
extern _Bool __VERIFIER_nondet_bool(void);
extern unsigned char __VERIFIER_nondet_uchar(void);
extern int __VERIFIER_nondet_int(void);
void reach_error(void) {}

enum { TIMERS = 3 };
unsigned char left[TIMERS];
_Bool running[TIMERS];
unsigned char waited[TIMERS];
unsigned char asked[TIMERS];

void set(int which, unsigned char ticks)
{
    if (ticks == 0 || ticks > 50)
        return;
    left[which] = ticks;
    asked[which] = ticks;
    waited[which] = 0;
    running[which] = 1;
}

void tick(void)
{
    for (int i = 0; i < TIMERS; i++) {
        if (!running[i])
            continue;
        left[i]--;
        waited[i]++;
        if (left[i] == 0) {
            if (waited[i] != asked[i])
                reach_error();
            running[i] = 0;
        }
    }
}

int main(void)
{
    while (__VERIFIER_nondet_bool()) {
        int which = __VERIFIER_nondet_int();
        if (which >= 0 && which < TIMERS)
            set(which, __VERIFIER_nondet_uchar());
        else
            tick();
    }
    return 0;
}
