/* The right side of && and || runs only where the left side leaves it open. */
extern _Bool __VERIFIER_nondet_bool(void);
void reach_error(void) {}
void __VERIFIER_assert(int holds)
{
    if (!holds)
        reach_error();
}

int calls;

_Bool right(_Bool result)
{
    calls++;
    return result;
}

int main(void)
{
    while (1) {
        _Bool a = __VERIFIER_nondet_bool();
        _Bool b = __VERIFIER_nondet_bool();
        calls = 0;
        _Bool both = a && right(b);
        __VERIFIER_assert(calls == a);
        calls = 0;
        _Bool one = a || right(b);
        __VERIFIER_assert(calls == !a);
        calls = 0;
        _Bool other = a ? right(!b) : right(b);
        __VERIFIER_assert(calls == a && other == (a != b));
        __VERIFIER_assert(!both || one);
    }
}
