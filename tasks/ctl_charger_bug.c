/* Charging in three phases: constant current, constant voltage, float. Too hot means a pause, and
   the charge goes on in the phase in which it was. */
extern _Bool __VERIFIER_nondet_bool(void);
extern char __VERIFIER_nondet_char(void);
void reach_error(void) {}
void __VERIFIER_assert(int holds)
{
    if (!holds)
        reach_error();
}

enum phase { BULK, ABSORB, FLOAT, PAUSE };
enum phase phase = BULK, kept = BULK;
int millivolts = 11000;
int limit = 14400;

int main(void)
{
    while (1) {
        int celsius = __VERIFIER_nondet_char();
        if (phase != PAUSE && celsius > 60) {
            kept = phase;
            phase = PAUSE;
        } else if (phase == PAUSE && celsius < 45) {
            phase = BULK;
        }
        switch (phase) {
        case BULK:
            if (millivolts < 14400)
                millivolts += 100;
            else
                phase = ABSORB;
            break;
        case ABSORB:
            if (__VERIFIER_nondet_bool()) {
                phase = FLOAT;
                limit = 13600;
                millivolts = 13600;
            }
            break;
        case FLOAT:
            break;
        case PAUSE:
            break;
        }
        __VERIFIER_assert(phase != BULK || limit == 14400);
        __VERIFIER_assert(millivolts <= 14400);
        __VERIFIER_assert(phase != FLOAT || millivolts <= 13600);
    }
}
