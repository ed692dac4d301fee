/* Two valves at a tank of 100: the inlet closes at 85, the outlet at 15; flows are measured. */
extern int __VERIFIER_nondet_int(void);
void reach_error(void) {}
void __VERIFIER_assert(int holds)
{
    if (!holds)
        reach_error();
}

int level = 50;
_Bool inlet = 1, outlet = 1;

int flow(int most)
{
    int measured = __VERIFIER_nondet_int();
    if (measured < 0)
        return 0;
    if (measured > most)
        return most;
    return measured;
}

int main(void)
{
    while (1) {
        if (level > 95)
            inlet = 0;
        else if (level < 70)
            inlet = 1;
        if (level <= 15)
            outlet = 0;
        else if (level > 30)
            outlet = 1;
        if (inlet)
            level += flow(10);
        if (outlet)
            level -= flow(15);
        __VERIFIER_assert(level >= 0);
        __VERIFIER_assert(level <= 100);
    }
}
