/* A coordinator and three parts: all of them commit, or none. Votes and deliveries in any order. */
extern _Bool __VERIFIER_nondet_bool(void);
extern unsigned char __VERIFIER_nondet_uchar(void);
void reach_error(void) {}

enum { WORKING, PREPARED, COMMITTED, ABORTED };
enum { OPEN, COMMIT, ABORT };
unsigned char part[3];
_Bool voted[3];
unsigned char decision;

void vote(int i)
{
    if (part[i] != WORKING)
        return;
    if (__VERIFIER_nondet_bool()) {
        part[i] = PREPARED;
        voted[i] = 1;
    } else {
        part[i] = ABORTED;
    }
}

void decide(void)
{
    if (decision != OPEN)
        return;
    if (voted[0] && voted[1] && voted[2])
        decision = COMMIT;
    else if (__VERIFIER_nondet_bool())
        decision = ABORT;
}

void deliver(int i)
{
    if (decision == OPEN)
        return;
    if (part[i] == PREPARED)
        part[i] = decision == COMMIT ? COMMITTED : ABORTED;
    else if (part[i] == WORKING && decision == ABORT)
        part[i] = ABORTED;
}

int main(void)
{
    while (1) {
        unsigned char what = __VERIFIER_nondet_uchar();
        int i = what % 3;
        if (what < 3)
            vote(i);
        else if (what < 6)
            deliver(i);
        else
            decide();
        _Bool some_committed = 0, some_aborted = 0;
        for (int k = 0; k < 3; k++) {
            if (part[k] == COMMITTED)
                some_committed = 1;
            if (part[k] == ABORTED)
                some_aborted = 1;
        }
        if (some_committed && some_aborted)
            reach_error();
    }
}
