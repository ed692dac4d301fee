/* An infusion pump: a dose a minute, a bolus on demand with a lock-out, alarms for air, an empty
   reservoir and a closed door. It never runs while an alarm is on, and never gives more than allowed. */
extern int __VERIFIER_nondet_int(void);
void reach_error(void) {}
void __VERIFIER_assert(int holds)
{
    if (!holds)
        reach_error();
}

enum mode { OFF, PAUSED, INFUSING, BOLUS, ALARM };
enum alarm { NONE, AIR, EMPTY, DOOR, BATTERY };

enum mode mode = OFF;
enum mode before_alarm = OFF;
enum alarm alarm = NONE;
int reservoir;
int basal;
int lockout;
int bolus_left;
int given_in_hour;
int minute;
_Bool motor;

int limited(int value, int least, int most)
{
    return value < least ? least : value > most ? most : value;
}

void raise_alarm(int which)
{
    if (mode == OFF || alarm != NONE)
        return;
    before_alarm = mode == BOLUS ? INFUSING : mode;
    bolus_left = 0;
    alarm = which;
    mode = ALARM;
    motor = which == BATTERY;
}

void clear_alarm(void)
{
    if (mode != ALARM)
        return;
    if (alarm == EMPTY && reservoir < 5)
        return;
    alarm = NONE;
    mode = PAUSED;
}

void start(int rate)
{
    if (mode != PAUSED)
        return;
    basal = limited(rate, 0, 4);
    mode = INFUSING;
}

void demand_bolus(void)
{
    if (mode != INFUSING || lockout > 0)
        return;
    mode = BOLUS;
    bolus_left = 10;
    lockout = 15;
}

int amount(void)
{
    int wanted = 0;
    if (mode == INFUSING)
        wanted = basal;
    if (mode == BOLUS)
        wanted = limited(bolus_left, 0, 5);
    wanted = limited(wanted, 0, reservoir);
    return limited(wanted, 0, 60 - given_in_hour);
}

void tick(void)
{
    minute = minute == 59 ? 0 : minute + 1;
    if (minute == 0)
        given_in_hour = 0;
    if (lockout > 0)
        lockout--;
    if (mode != INFUSING && mode != BOLUS) {
        return;
    }
    int now = amount();
    motor = now > 0;
    reservoir -= now;
    given_in_hour += now;
    if (mode == BOLUS) {
        bolus_left -= now;
        if (bolus_left <= 0 || now == 0) {
            bolus_left = 0;
            mode = INFUSING;
        }
    }
    if (reservoir == 0)
        raise_alarm(EMPTY);
}

int main(void)
{
    while (1) {
        int event = __VERIFIER_nondet_int();
        switch (event) {
        case 1:
            if (mode == OFF) {
                mode = PAUSED;
                reservoir = 100;
            }
            break;
        case 2:
            start(__VERIFIER_nondet_int());
            break;
        case 3:
            if (mode == INFUSING || mode == BOLUS) {
                mode = PAUSED;
                bolus_left = 0;
                motor = 0;
            }
            break;
        case 4:
            demand_bolus();
            break;
        case 5:
            raise_alarm(AIR);
            break;
        case 6:
            raise_alarm(DOOR);
            break;
        case 7:
            raise_alarm(BATTERY);
            break;
        case 8:
            clear_alarm();
            break;
        case 9:
            if (mode == PAUSED || mode == ALARM)
                reservoir = 100;
            break;
        default:
            tick();
        }
        __VERIFIER_assert(!(mode == ALARM && motor));
        __VERIFIER_assert(given_in_hour >= 0 && given_in_hour <= 60);
        __VERIFIER_assert(reservoir >= 0 && reservoir <= 100);
        __VERIFIER_assert((mode == ALARM) == (alarm != NONE));
    }
}
