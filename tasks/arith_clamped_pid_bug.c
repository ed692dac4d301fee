/* A controller in fixed point with limits on the sum and on what comes out. */
extern int __VERIFIER_nondet_int(void);
void reach_error(void) {}

int sum;

int clamp(int value, int most)
{
    if (value > most)
        return most;
    if (value < -most)
        return -most;
    return value;
}

int control(int error)
{
    error = clamp(error, 1000);
    sum = sum + error;
    int out = error * 12 + sum / 4;
    return clamp(out / 8, 2000);
}

int main(void)
{
    int turns = 0;
    while (1) {
        int out = control(__VERIFIER_nondet_int());
        if (out > 2000 || out < -2000)
            reach_error();
        if (sum > 20000 || sum < -20000)
            reach_error();
        turns = (turns + 1) & 1023;
    }
}
