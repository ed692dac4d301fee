/* A counting semaphore of four; who waits is counted, and one that gives wakes one that waits. */
extern _Bool __VERIFIER_nondet_bool(void);
extern int __VERIFIER_nondet_int(void);
void reach_error(void) {}
void __VERIFIER_assert(int holds)
{
    if (!holds)
        reach_error();
}

int count = 4;
int waiting;
int inside;

int main(void)
{
    while (__VERIFIER_nondet_bool()) {
        int what = __VERIFIER_nondet_int();
        if (what > 0) {
            if (count > 0) {
                count--;
                inside++;
            } else if (waiting < 10) {
                waiting++;
            }
        } else if (inside > 0) {
            if (waiting > 0)
                waiting--;
            else
                inside--;
            if (waiting == 0 && inside + count < 4)
                count++;
        }
        __VERIFIER_assert(inside <= 4);
        __VERIFIER_assert(inside >= 0 && count >= 0);
    }
    return 0;
}
