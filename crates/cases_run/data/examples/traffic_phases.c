/* The crossing of traffic_light.c, its phases and lights by name: each phase says by a switch how
   long it lasts, which comes next and what the roads see. A file of one's own, as it stands in the
   controller:
       gcc -E -nostdinc -I include examples/traffic_phases.c > examples/traffic_phases.i */
#include <assert.h>
#include <stdbool.h>
#include <stdint.h>
#include <verifier.h>

enum phase { MAIN_GREEN, MAIN_AMBER, SIDE_GREEN, SIDE_AMBER };
enum light { RED, AMBER, GREEN };
enum { LEAST_GREEN = 2, LONGEST = 5 };

static enum phase phase;
static uint8_t elapsed;
static bool wanted;      /* the button was pressed and is not served yet */

static enum light main_light(void)
{
    switch (phase) {
    case MAIN_GREEN: return GREEN;
    case MAIN_AMBER: return AMBER;
    default: return RED;
    }
}

static enum light side_light(void)
{
    switch (phase) {
    case SIDE_GREEN: return GREEN;
    case SIDE_AMBER: return AMBER;
    default: return RED;
    }
}

static uint8_t lasts(void)
{
    switch (phase) {
    case MAIN_GREEN:
        return wanted ? LEAST_GREEN : LONGEST;
    case SIDE_GREEN:
        return 3;
    case MAIN_AMBER:
    case SIDE_AMBER:
        break;
    }
    return 1;
}

static void tick(void)
{
    elapsed++;
    if (elapsed < lasts())
        return;
    elapsed = 0;
    switch (phase) {
    case MAIN_GREEN:
        phase = MAIN_AMBER;
        break;
    case MAIN_AMBER:
        wanted = false;
        phase = SIDE_GREEN;
        break;
    case SIDE_GREEN:
        phase = SIDE_AMBER;
        break;
    case SIDE_AMBER:
        phase = MAIN_GREEN;
    }
}

int main(void)
{
    for (;;) {
        enum phase before = phase;
        if (__VERIFIER_nondet_bool())
            wanted = true;
        tick();
        assert(main_light() == RED || side_light() == RED);
        assert(before != MAIN_GREEN || phase == MAIN_GREEN || phase == MAIN_AMBER);
        assert(elapsed < LONGEST);
    }
}
