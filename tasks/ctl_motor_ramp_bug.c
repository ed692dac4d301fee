/* A soft start: the voltage grows by at most 8 a tick towards what is wanted, and drops at once when
   the current is too high. */
extern short __VERIFIER_nondet_short(void);
void reach_error(void) {}

short voltage;
short wanted;

short limited(int value, int low, int high)
{
    if (value < low)
        return (short) low;
    if (value > high)
        return (short) high;
    return (short) value;
}

int main(void)
{
    for (;;) {
        short before = voltage;
        wanted = limited(__VERIFIER_nondet_short(), 0, 400);
        int step = limited(wanted - voltage, -8, 8);
        voltage = (short) (voltage + step);
        short current = __VERIFIER_nondet_short();
        if (current > 900)
            voltage = voltage / 2;
        if (voltage > before + 8)
            reach_error();
        if (voltage < 0 || voltage >= 400)
            reach_error();
    }
}
