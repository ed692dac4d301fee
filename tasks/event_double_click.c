/* One press, two presses within five ticks, or a long press: each gesture is told once. */
extern _Bool __VERIFIER_nondet_bool(void);
void reach_error(void) {}

enum { IDLE, DOWN, UP_ONCE, DOWN_TWICE };
int state = IDLE;
int ticks;
int singles, doubles, longs, presses;

void step(_Bool down)
{
    if (ticks < 100)
        ticks++;
    switch (state) {
    case IDLE:
        if (down) {
            state = DOWN;
            ticks = 0;
            presses++;
        }
        break;
    case DOWN:
        if (!down) {
            if (ticks > 10) {
                longs++;
                state = IDLE;
            } else {
                state = UP_ONCE;
                ticks = 0;
            }
        }
        break;
    case UP_ONCE:
        if (down) {
            state = DOWN_TWICE;
            presses++;
        } else if (ticks >= 5) {
            singles++;
            state = IDLE;
        }
        break;
    default:
        if (!down) {
            doubles++;
            state = IDLE;
        }
    }
}

int main(void)
{
    while (presses < 5) {
        step(__VERIFIER_nondet_bool());
        int open = state == IDLE ? 0 : state == DOWN_TWICE ? 2 : 1;
        if (presses != singles + 2 * doubles + longs + open)
            reach_error();
    }
    return 0;
}
