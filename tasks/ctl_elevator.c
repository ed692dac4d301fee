/* A lift of four floors: doors are closed while it moves, it stops at the ends, and serves a call in
   its way. */
extern unsigned char __VERIFIER_nondet_uchar(void);
void reach_error(void) {}

enum { FLOORS = 4 };
_Bool calls[FLOORS];
int floor_now;
int direction;
_Bool door_open;

_Bool calls_above(void)
{
    for (int i = floor_now + 1; i < FLOORS; i++)
        if (calls[i])
            return 1;
    return 0;
}

_Bool calls_below(void)
{
    for (int i = 0; i < floor_now; i++)
        if (calls[i])
            return 1;
    return 0;
}

void choose(void)
{
    if (direction > 0 && !calls_above())
        direction = calls_below() ? -1 : 0;
    else if (direction < 0 && !calls_below())
        direction = calls_above() ? 1 : 0;
    else if (direction == 0)
        direction = calls_above() ? 1 : calls_below() ? -1 : 0;
}

void move(void)
{
    if (direction == 0)
        return;
    if (door_open)
        reach_error();
    floor_now += direction;
    if (floor_now < 0 || floor_now >= FLOORS)
        reach_error();
}

int main(void)
{
    while (1) {
        unsigned char call = __VERIFIER_nondet_uchar();
        if (call < FLOORS)
            calls[call] = 1;
        if (door_open) {
            door_open = 0;
            choose();
        } else if (calls[floor_now]) {
            calls[floor_now] = 0;
            door_open = 1;
        } else {
            choose();
            move();
        }
    }
}
