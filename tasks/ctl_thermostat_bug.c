/* Heating with a band between 19 and 22 degrees; the room follows by at most one degree a turn. */
extern _Bool __VERIFIER_nondet_bool(void);
extern int __VERIFIER_nondet_int(void);
void reach_error(void) {}

int temperature = 20;
_Bool heating;

int main(void)
{
    while (__VERIFIER_nondet_bool()) {
        if (temperature <= 19)
            heating = 1;
        else if (temperature >= 22)
            heating = 0;
        int weather = __VERIFIER_nondet_int();
        if (weather < -1)
            weather = -1;
        if (weather > 1)
            weather = 1;
        if (heating) {
            if (weather >= 0 || temperature < 19)
                temperature = temperature + 1;
        } else {
            temperature = temperature + weather;
        }
        if (temperature < 18 || temperature > 22)
            reach_error();
    }
    return 0;
}
