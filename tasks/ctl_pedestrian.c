/* A crossing with a button: the light for feet is green only while cars have red, with a pause of two
   ticks on either side. */
extern _Bool __VERIFIER_nondet_bool(void);
void reach_error(void) {}
void __VERIFIER_assert(int holds)
{
    if (!holds)
        reach_error();
}

enum car { CAR_GREEN, CAR_AMBER, CAR_RED };
enum car car = CAR_GREEN;
_Bool walk;
_Bool asked;
int ticks;

void next(void)
{
    ticks = 0;
}

void tick(void)
{
    ticks++;
    switch (car) {
    case CAR_GREEN:
        if (asked && ticks >= 10) {
            car = CAR_AMBER;
            next();
        }
        if (ticks > 100)
            ticks = 100;
        break;
    case CAR_AMBER:
        if (ticks == 3) {
            car = CAR_RED;
            next();
        }
        break;
    case CAR_RED:
        if (ticks == 2)
            walk = 1;
        if (ticks == 10)
            walk = 0;
        if (ticks == 12) {
            car = CAR_GREEN;
            asked = 0;
            next();
        }
        break;
    }
}

int main(void)
{
    int since_walk = 100;
    while (1) {
        if (__VERIFIER_nondet_bool())
            asked = 1;
        tick();
        if (walk)
            since_walk = 0;
        else if (since_walk < 100)
            since_walk++;
        __VERIFIER_assert(!walk || car == CAR_RED);
        __VERIFIER_assert(car == CAR_RED || since_walk >= 2);
    }
}
