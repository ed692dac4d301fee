/* The thermostat of thermostat.c, its states by name and its next state by a switch. The bug is the
   same: a room that is too cold and then too warm. A file of one's own, as it stands in the driver:
       gcc -E -nostdinc -I include examples/thermostat_states.c > examples/thermostat_states.i */
#include <stdbool.h>
#include <stdint.h>
#include <stdlib.h>
#include <verifier.h>

enum { COLDEST = -40, LOW = 18, MIDDLE = 21, HIGH = 24, WARMEST = 85 };

enum state { IDLE, HEATING, COOLING, BROKEN };

static enum state state = IDLE;
static unsigned heated, cooled;

static bool is_credible(int8_t degrees)
{
    return COLDEST <= degrees && degrees <= WARMEST;
}

static enum state next_state(int8_t degrees)
{
    if (!is_credible(degrees))
        return BROKEN;
    switch (state) {
    case HEATING:
        if (degrees < MIDDLE)
            return HEATING;
        break;
    case IDLE:
    case COOLING:
        if (degrees < LOW)
            return HEATING;
        break;
    case BROKEN:
        return BROKEN;
    }
    return degrees > HIGH ? COOLING : IDLE;
}

/* Counts how long it heats and cools; true where the machine is to be looked at. */
static bool count(void)
{
    switch (state) {
    case HEATING:
        heated++;
        break;
    case COOLING:
        cooled++;
        break;
    default:
        break;
    }
    return cooled > 3;
}

int main(void)
{
    do {
        enum state before = state;
        state = next_state(__VERIFIER_nondet_char());
        if (state == BROKEN)
            exit(EXIT_FAILURE);
        if (before == HEATING && state == COOLING && heated < 2)
            reach_error();
    } while (!count());
    return 0;
}
