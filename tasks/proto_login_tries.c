/* Three tries, then a lock of some ticks; a right code after the lock is gone opens. */
extern int __VERIFIER_nondet_int(void);
void reach_error(void) {}
void __VERIFIER_assert(int holds)
{
    if (!holds)
        reach_error();
}

enum { LOCK = 30 };
int failures;
int lock;
_Bool open;
int opened_locked;

void enter(int code)
{
    if (lock > 0)
        return;
    if (code == 4711) {
        open = 1;
        failures = 0;
    } else {
        open = 0;
        failures++;
        if (failures >= 3) {
            lock = LOCK;
            failures = 0;
        }
    }
}

int main(void)
{
    while (1) {
        _Bool was_locked = lock > 0;
        if (lock > 0)
            lock--;
        int code = __VERIFIER_nondet_int();
        enter(code);
        if (open && was_locked && lock > 0)
            opened_locked = 1;
        __VERIFIER_assert(!opened_locked);
        __VERIFIER_assert(failures < 3);
        __VERIFIER_assert(lock >= 0 && lock <= LOCK);
    }
}
