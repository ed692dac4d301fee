/* Two locks that are taken where an input says so, and given back by the same word. */
extern _Bool __VERIFIER_nondet_bool(void);
extern int __VERIFIER_nondet_int(void);
void reach_error(void) {}
void __VERIFIER_assert(int holds)
{
    if (!holds)
        reach_error();
}

int lock_a;
int lock_b;

void take_a(void) { __VERIFIER_assert(lock_a == 0); lock_a = 1; }
void give_a(void) { __VERIFIER_assert(lock_a == 1); lock_a = 0; }
void take_b(void) { __VERIFIER_assert(lock_b == 0); lock_b = 1; }
void give_b(void) { __VERIFIER_assert(lock_b == 1); lock_b = 0; }

int main(void)
{
    while (__VERIFIER_nondet_bool()) {
        int mode = __VERIFIER_nondet_int();
        if (mode & 1)
            take_a();
        if (mode & 2)
            take_b();
        if (mode & 4) {
            int rest = mode >> 3;
            while (rest > 0)
                rest = rest / 2;
            mode = mode & 3;
        }
        if (mode & 2)
            give_b();
        if (mode & 1)
            give_a();
    }
    return 0;
}
