/* Cruise control: set, resume, brake, off. It never pulls while the brake is pressed, and resumes only
   a speed that was set. */
extern _Bool __VERIFIER_nondet_bool(void);
extern unsigned char __VERIFIER_nondet_uchar(void);
extern int __VERIFIER_nondet_int(void);
void reach_error(void) {}

enum mode { OFF, READY, ACTIVE, STANDBY };
enum mode mode = OFF;
int target, speed;
_Bool brake, pulling;

void buttons(int button)
{
    switch (button) {
    case 1:
        mode = mode == OFF ? READY : OFF;
        if (mode == OFF)
            target = 0;
        break;
    case 2:
        if ((mode == READY || mode == STANDBY) && speed >= 40 && !brake) {
            target = speed;
            mode = ACTIVE;
        }
        break;
    case 3:
        if (mode == STANDBY && !brake)
            mode = ACTIVE;
        break;
    case 4:
        if (mode == ACTIVE && target < 180)
            target += 5;
        break;
    default:
        ;
    }
}

int main(void)
{
    while (1) {
        speed = __VERIFIER_nondet_int();
        if (speed < 0 || speed > 200)
            return 0;
        brake = __VERIFIER_nondet_bool();
        if (brake && mode == ACTIVE)
            mode = STANDBY;
        buttons(__VERIFIER_nondet_uchar());
        pulling = mode == ACTIVE && speed < target;
        if (pulling && brake)
            reach_error();
        if (mode == ACTIVE && target < 40)
            reach_error();
        if (target > 205)
            reach_error();
    }
}
