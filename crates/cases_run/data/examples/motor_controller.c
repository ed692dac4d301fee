/* A controller of a motor: the wanted speed follows a table, the duty is held between its ends. */
extern short __VERIFIER_nondet_short(void);
extern void abort(void);
extern void reach_error(void);

short table[5] = { 0, 120, 250, 400, 600 };
short duty = 100;

int clamp(int value, int low, int high)
{
    return value < low ? low : value > high ? high : value;
}

void step(int wanted, int measured)
{
    int error = wanted - measured;
    duty += error / 4;
    duty = clamp(duty, 0, 1000);
}

int main(void)
{
    int gear = 0;
    do {
        short measured = __VERIFIER_nondet_short();
        if (measured < 0)
            abort();
        step(table[gear], measured);
        if (duty < 0 || duty > 1000)
            reach_error();
        if (measured >= table[gear])
            gear++;
    } while (duty != 0);
    return 0;
}
