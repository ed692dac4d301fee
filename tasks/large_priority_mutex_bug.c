/* Three tasks, one lock with inheritance: while a task of a high priority waits, the holder runs with
   that priority, so the middle one never runs in between. */
extern unsigned char __VERIFIER_nondet_uchar(void);
void reach_error(void) {}
void __VERIFIER_assert(int holds)
{
    if (!holds)
        reach_error();
}

enum task { LOW, MIDDLE, HIGH, NO_TASK };
enum phase { SLEEPS, READY, WAITS, HOLDS };

unsigned char phase[3];
unsigned char base[3] = { 1, 2, 3 };
unsigned char priority[3] = { 1, 2, 3 };
unsigned char holder = NO_TASK;
int inversions;

int pick(void)
{
    int best = NO_TASK;
    for (int i = 0; i < 3; i++) {
        if (phase[i] != READY && phase[i] != HOLDS)
            continue;
        if (best == NO_TASK || priority[i] > priority[best])
            best = i;
    }
    return best;
}

void inherit(void)
{
    if (holder == NO_TASK)
        return;
    unsigned char most = base[holder];
    for (int i = 0; i < 3; i++)
        if (phase[i] == WAITS && base[i] > most)
            most = base[i];
    priority[holder] = phase[MIDDLE] == READY ? base[holder] : most;
}

void lock(int me)
{
    if (phase[me] != READY)
        return;
    if (holder == NO_TASK) {
        holder = me;
        phase[me] = HOLDS;
    } else {
        phase[me] = WAITS;
    }
    inherit();
}

void unlock(int me)
{
    if (phase[me] != HOLDS)
        return;
    __VERIFIER_assert(holder == me);
    priority[me] = base[me];
    phase[me] = READY;
    holder = NO_TASK;
    for (int i = 2; i >= 0; i--) {
        if (phase[i] == WAITS && holder == NO_TASK) {
            holder = i;
            phase[i] = HOLDS;
        }
    }
    inherit();
}

void run(int me)
{
    if (me == MIDDLE && phase[HIGH] == WAITS && holder == LOW)
        inversions++;
    switch (__VERIFIER_nondet_uchar()) {
    case 1:
        if (me != MIDDLE)
            lock(me);
        break;
    case 2:
        unlock(me);
        break;
    case 3:
        if (phase[me] == READY)
            phase[me] = SLEEPS;
        break;
    default:
        break;
    }
}

int main(void)
{
    for (;;) {
        unsigned char wakes = __VERIFIER_nondet_uchar();
        if (wakes < 3 && phase[wakes] == SLEEPS)
            phase[wakes] = READY;
        inherit();
        int me = pick();
        if (me != NO_TASK)
            run(me);
        __VERIFIER_assert(inversions == 0);
        int holders = 0;
        for (int i = 0; i < 3; i++)
            holders += phase[i] == HOLDS;
        __VERIFIER_assert(holders <= 1);
        __VERIFIER_assert((holder == NO_TASK) == (holders == 0));
    }
}
