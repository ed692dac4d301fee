/* A spin lock that keeps the state of interrupts, nested once: what was saved has to come back. */
extern _Bool __VERIFIER_nondet_bool(void);
void reach_error(void) {}
void __VERIFIER_assert(int holds)
{
    if (!holds)
        reach_error();
}

_Bool irqs_on = 1;
_Bool outer_held, inner_held;
_Bool outer_flags, inner_flags;

_Bool save(void)
{
    _Bool before = irqs_on;
    irqs_on = 0;
    return before;
}

void inner_work(int work)
{
    outer_flags = save();
    __VERIFIER_assert(!inner_held);
    inner_held = 1;
    if (work % 3 == 0)
        work = work + 1;
    inner_held = 0;
    irqs_on = outer_flags;
}

int main(void)
{
    int turns = 0;
    while (turns < 20) {
        __VERIFIER_assert(irqs_on);
        outer_flags = save();
        __VERIFIER_assert(!outer_held);
        outer_held = 1;
        if (__VERIFIER_nondet_bool())
            inner_work(turns);
        __VERIFIER_assert(!irqs_on);
        outer_held = 0;
        irqs_on = outer_flags;
        turns++;
    }
    return 0;
}
