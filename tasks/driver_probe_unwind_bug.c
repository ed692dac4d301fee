/* A probe that takes four resources in turn, and gives back those that it has where one fails. */
extern _Bool __VERIFIER_nondet_bool(void);
void reach_error(void) {}
void __VERIFIER_assert(int holds)
{
    if (!holds)
        reach_error();
}

int clocks, regions, irqs, minors;
int error;

int take_clock(void) { if (__VERIFIER_nondet_bool()) return -2; clocks++; return 0; }
int take_region(void) { if (__VERIFIER_nondet_bool()) return -16; regions++; return 0; }
int take_irq(void) { if (__VERIFIER_nondet_bool()) return -22; irqs++; return 0; }
int take_minor(void) { if (__VERIFIER_nondet_bool()) return -28; minors++; return 0; }

int probe(void)
{
    error = take_clock();
    if (error)
        goto out;
    error = take_region();
    if (error)
        goto no_region;
    error = take_irq();
    if (error)
        goto no_region;
    error = take_minor();
    if (error)
        goto no_minor;
    return 0;
no_minor:
    irqs--;
no_irq:
    regions--;
no_region:
    clocks--;
out:
    return error;
}

void remove_device(void)
{
    minors--;
    irqs--;
    regions--;
    clocks--;
}

int main(void)
{
    _Bool bound = 0;
    for (;;) {
        if (!bound) {
            bound = probe() == 0;
        } else if (__VERIFIER_nondet_bool()) {
            remove_device();
            bound = 0;
        }
        int wanted = bound ? 1 : 0;
        __VERIFIER_assert(clocks == wanted && regions == wanted);
        __VERIFIER_assert(irqs == wanted && minors == wanted);
    }
}
