/* 4 locks in a loop, each taken and given back by its own condition. */
extern int __VERIFIER_nondet_int(void);
extern void abort(void);
void reach_error(void) {}

int main(void)
{
    while (__VERIFIER_nondet_int()) {
        int p0 = __VERIFIER_nondet_int();
        int lock0 = 0;
        int p1 = __VERIFIER_nondet_int();
        int lock1 = 0;
        int p2 = __VERIFIER_nondet_int();
        int lock2 = 0;
        int p3 = __VERIFIER_nondet_int();
        int lock3 = 0;
        if (p0 != 0)
            lock0 = 1;
        if (p1 != 0)
            lock1 = 1;
        if (p2 != 0)
            lock2 = 1;
        if (p3 != 0)
            lock3 = 1;
        if (p0 != 0) {
            if (lock0 != 1)
                reach_error();
            lock0 = 0;
        }
        if (p1 != 0) {
            if (lock1 != 1)
                reach_error();
            lock1 = 0;
        }
        if (p2 != 0) {
            if (lock2 != 1)
                reach_error();
            lock2 = 0;
        }
        if (p3 != 0) {
            if (lock3 != 1)
                reach_error();
            lock3 = 0;
        }
    }
    return 0;
}
