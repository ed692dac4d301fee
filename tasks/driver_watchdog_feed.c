/* A watchdog that has to be fed between two marks of its window; the loop below keeps to it. */
extern _Bool __VERIFIER_nondet_bool(void);
void reach_error(void) {}

unsigned short timer;
_Bool expired;

void tick(void)
{
    if (timer > 0)
        timer--;
    if (timer == 0)
        expired = 1;
}

void feed(void)
{
    if (timer > 60)
        expired = 1;
    timer = 100;
}

int main(void)
{
    timer = 100;
    int since = 0;
    while (1) {
        if (__VERIFIER_nondet_bool()) {
            tick();
            since++;
        }
        if (since >= 40 && (since == 95 || __VERIFIER_nondet_bool())) {
            feed();
            since = 0;
        }
        if (!(!expired))
        reach_error();
    }
}
