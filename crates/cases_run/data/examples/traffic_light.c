/* A crossing: main road, side road and a button for pedestrians. Each phase of the light has a
   duration in a table; the button shortens the green of the main road, but not below its least. */
extern _Bool __VERIFIER_nondet_bool(void);
extern void reach_error(void);

/* 0 main green, 1 main amber, 2 side green, 3 side amber */
const unsigned char lasts[4] = { 5, 1, 3, 1 };
const unsigned char least_green = 2;

unsigned char phase;
unsigned char elapsed;
_Bool wanted;            /* the button was pressed and is not served yet */

/* 0 red, 1 amber, 2 green */
int light_of(int road)
{
    if (phase / 2 != road)
        return 0;
    return phase % 2 == 1 ? 1 : 2;
}

_Bool is_over(void)
{
    if (elapsed >= lasts[phase])
        return 1;
    return phase == 0 && wanted && elapsed >= least_green;
}

void tick(void)
{
    elapsed++;
    if (!is_over())
        return;
    if (phase == 1)
        wanted = 0;
    phase = (phase + 1) % 4;
    elapsed = 0;
}

int main(void)
{
    while (1) {
        if (__VERIFIER_nondet_bool())
            wanted = 1;
        unsigned char before = phase;
        tick();
        if (light_of(0) != 0 && light_of(1) != 0)
            reach_error();       /* both roads may drive */
        if (before == 0 && phase == 2)
            reach_error();       /* no amber in between */
        if (elapsed > 5)
            reach_error();       /* a phase that does not end */
    }
}
