/* A watchdog: a timer of 16 bits counts down, the main loop winds it up again in time. A task that
   hangs leaves it alone, and then the reset has to come before 400 ticks have gone by. */
extern _Bool __VERIFIER_nondet_bool(void);
extern void abort(void);
extern void reach_error(void);

unsigned short left = 250;    /* ticks until the reset */
unsigned short since;         /* ticks since the timer was wound up */

void reset(void)
{
    abort();
}

void tick(void)
{
    since++;
    if (left == 0)
        reset();
    left--;
    if (since > 400)
        reach_error();
}

void wind_up(void)
{
    left = 250;
    since = 0;
}

int main(void)
{
    _Bool hangs = 0;
    while (1) {
        if (!hangs) {
            hangs = __VERIFIER_nondet_bool();
            wind_up();
        }
        tick();
    }
}
