/* A programme of a washing machine: fill, wash, drain, spin. The door stays locked as long as there is
   water or the drum turns. */
extern _Bool __VERIFIER_nondet_bool(void);
extern char __VERIFIER_nondet_char(void);
void reach_error(void) {}

enum step { IDLE, FILL, WASH, DRAIN, SPIN };
enum step step = IDLE;
int water, drum, left;
_Bool locked;

void run(void)
{
    switch (step) {
    case IDLE:
        if (__VERIFIER_nondet_bool()) {
            locked = 1;
            step = FILL;
        }
        break;
    case FILL:
        water += 2;
        if (water >= 10) {
            step = WASH;
            left = 5;
        }
        break;
    case WASH:
        drum = 1;
        left--;
        if (left == 0) {
            drum = 0;
            step = DRAIN;
        }
        break;
    case DRAIN:
        water -= 5;
        if (water <= 0) {
            water = 0;
            step = SPIN;
            left = 3;
        }
        break;
    case SPIN:
        drum = 3;
        left--;
        if (left == 0) {
            drum = 0;
            locked = 0;
            step = IDLE;
        }
        break;
    }
}

void stop_button(void)
{
    if (step == FILL || step == WASH) {
        drum = 0;
        step = DRAIN;
    } else if (step == SPIN || step == DRAIN) {
        drum = 0;
        locked = 0;
        step = IDLE;
    }
}

int main(void)
{
    while (1) {
        if (__VERIFIER_nondet_char() == 's')
            stop_button();
        run();
        if (!locked && (water > 0 || drum > 0))
            reach_error();
        if (water < 0 || water > 10)
            reach_error();
    }
}
