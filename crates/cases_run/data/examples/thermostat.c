/* A thermostat: idle (0), heating (1), cooling (2), or stopped by a fault (3). */
extern char __VERIFIER_nondet_char(void);
extern void reach_error(void);
extern void exit(int status);

const int low = 18, high = 24;
int state;
unsigned long long heated, cooled;

int next_state(int now, int degrees)
{
    if (degrees < -40 || degrees > 85)
        return 3;
    if (degrees < low)
        return 1;
    if (degrees > high)
        return 2;
    return now == 1 && degrees < (low + high) / 2 ? 1 : 0;
}

int main(void)
{
    int before = 0;
    while (1) {
        before = state;
        state = next_state(state, __VERIFIER_nondet_char());
        if (state == 3)
            exit(1);
        if (before == 1 && state == 2 && heated < 2)
            reach_error();
        heated += state == 1;
        cooled += state == 2;
        if (cooled > 3)
            goto done;
    }
done:
    return 0;
}
