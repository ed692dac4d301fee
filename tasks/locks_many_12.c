/* 12 locks in a loop, each taken and given back by its own condition. */
extern int __VERIFIER_nondet_int(void);
extern void abort(void);
void reach_error(void) {}

int main(void)
{
    while (__VERIFIER_nondet_int()) {
        int p0 = __VERIFIER_nondet_int();
        int lock0 = 0;
        int p1 = __VERIFIER_nondet_int();
        int lock1 = 0;
        int p2 = __VERIFIER_nondet_int();
        int lock2 = 0;
        int p3 = __VERIFIER_nondet_int();
        int lock3 = 0;
        int p4 = __VERIFIER_nondet_int();
        int lock4 = 0;
        int p5 = __VERIFIER_nondet_int();
        int lock5 = 0;
        int p6 = __VERIFIER_nondet_int();
        int lock6 = 0;
        int p7 = __VERIFIER_nondet_int();
        int lock7 = 0;
        int p8 = __VERIFIER_nondet_int();
        int lock8 = 0;
        int p9 = __VERIFIER_nondet_int();
        int lock9 = 0;
        int p10 = __VERIFIER_nondet_int();
        int lock10 = 0;
        int p11 = __VERIFIER_nondet_int();
        int lock11 = 0;
        if (p0 != 0)
            lock0 = 1;
        if (p1 != 0)
            lock1 = 1;
        if (p2 != 0)
            lock2 = 1;
        if (p3 != 0)
            lock3 = 1;
        if (p4 != 0)
            lock4 = 1;
        if (p5 != 0)
            lock5 = 1;
        if (p6 != 0)
            lock6 = 1;
        if (p7 != 0)
            lock7 = 1;
        if (p8 != 0)
            lock8 = 1;
        if (p9 != 0)
            lock9 = 1;
        if (p10 != 0)
            lock10 = 1;
        if (p11 != 0)
            lock11 = 1;
        if (p0 != 0) {
            if (lock0 != 1)
                reach_error();
            lock0 = 0;
        }
        if (p1 != 0) {
            if (lock1 != 1)
                reach_error();
            lock1 = 0;
        }
        if (p2 != 0) {
            if (lock2 != 1)
                reach_error();
            lock2 = 0;
        }
        if (p3 != 0) {
            if (lock3 != 1)
                reach_error();
            lock3 = 0;
        }
        if (p4 != 0) {
            if (lock4 != 1)
                reach_error();
            lock4 = 0;
        }
        if (p5 != 0) {
            if (lock5 != 1)
                reach_error();
            lock5 = 0;
        }
        if (p6 != 0) {
            if (lock6 != 1)
                reach_error();
            lock6 = 0;
        }
        if (p7 != 0) {
            if (lock7 != 1)
                reach_error();
            lock7 = 0;
        }
        if (p8 != 0) {
            if (lock8 != 1)
                reach_error();
            lock8 = 0;
        }
        if (p9 != 0) {
            if (lock9 != 1)
                reach_error();
            lock9 = 0;
        }
        if (p10 != 0) {
            if (lock10 != 1)
                reach_error();
            lock10 = 0;
        }
        if (p11 != 0) {
            if (lock11 != 1)
                reach_error();
            lock11 = 0;
        }
    }
    return 0;
}
