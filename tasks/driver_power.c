/* Power states D0 to D3 of a device; between D0 and D3 it goes through D2, and a wake-up is armed
   before it sleeps. */
extern _Bool __VERIFIER_nondet_bool(void);
extern int __VERIFIER_nondet_int(void);
void reach_error(void) {}

int power;
_Bool armed;
int wakes;

void set_power(int wanted)
{
    if (wanted < 0 || wanted > 3 || wanted == power)
        return;
    if (wanted == 3 && power == 0)
        wanted = 2;
    if (wanted == 3)
        armed = 1;
    if (wanted < power && wanted == 1)
        wanted = 0;
    power = wanted;
    if (power == 0)
        armed = 0;
}

void signal_wake(void)
{
    if (power == 3) {
        if (!(armed))
        reach_error();
        wakes++;
        if (wakes > 50)
            wakes = 0;
        set_power(2);
        set_power(0);
    }
}

int main(void)
{
    while (__VERIFIER_nondet_bool()) {
        if (__VERIFIER_nondet_bool())
            set_power(__VERIFIER_nondet_int());
        else
            signal_wake();
        if (power == 0 && armed)
            reach_error();
    }
    return 0;
}
