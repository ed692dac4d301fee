# 0 "examples/thermostat_states.c"
# 0 "<built-in>"
# 0 "<command-line>"
# 1 "examples/thermostat_states.c"



# 1 "include/stdbool.h" 1
# 5 "examples/thermostat_states.c" 2
# 1 "include/stdint.h" 1




typedef signed char int8_t;
typedef short int16_t;
typedef int int32_t;
typedef unsigned char uint8_t;
typedef unsigned short uint16_t;
typedef unsigned int uint32_t;

typedef long int64_t;
typedef unsigned long uint64_t;




typedef int8_t int_least8_t;
typedef int16_t int_least16_t;
typedef int32_t int_least32_t;
typedef int64_t int_least64_t;
typedef uint8_t uint_least8_t;
typedef uint16_t uint_least16_t;
typedef uint32_t uint_least32_t;
typedef uint64_t uint_least64_t;
typedef signed char int_fast8_t;
typedef int64_t int_fast64_t;
typedef unsigned char uint_fast8_t;
typedef uint64_t uint_fast64_t;
typedef int64_t intmax_t;
typedef uint64_t uintmax_t;

typedef long int_fast16_t;
typedef long int_fast32_t;
typedef unsigned long uint_fast16_t;
typedef unsigned long uint_fast32_t;
typedef long intptr_t;
typedef unsigned long uintptr_t;
# 6 "examples/thermostat_states.c" 2
# 1 "include/stdlib.h" 1





_Noreturn void abort(void);
_Noreturn void exit(int status);
# 7 "examples/thermostat_states.c" 2
# 1 "include/verifier.h" 1




void reach_error(void);
_Bool __VERIFIER_nondet_bool(void);
char __VERIFIER_nondet_char(void);
unsigned char __VERIFIER_nondet_uchar(void);
short __VERIFIER_nondet_short(void);
unsigned short __VERIFIER_nondet_ushort(void);
int __VERIFIER_nondet_int(void);
unsigned int __VERIFIER_nondet_uint(void);
long __VERIFIER_nondet_long(void);
unsigned long __VERIFIER_nondet_ulong(void);
long long __VERIFIER_nondet_longlong(void);
unsigned long long __VERIFIER_nondet_ulonglong(void);
# 8 "examples/thermostat_states.c" 2

enum { COLDEST = -40, LOW = 18, MIDDLE = 21, HIGH = 24, WARMEST = 85 };

enum state { IDLE, HEATING, COOLING, BROKEN };

static enum state state = IDLE;
static unsigned heated, cooled;

static _Bool is_credible(int8_t degrees)
{
    return COLDEST <= degrees && degrees <= WARMEST;
}

static enum state next_state(int8_t degrees)
{
    if (!is_credible(degrees))
        return BROKEN;
    switch (state) {
    case HEATING:
        if (degrees < MIDDLE)
            return HEATING;
        break;
    case IDLE:
    case COOLING:
        if (degrees < LOW)
            return HEATING;
        break;
    case BROKEN:
        return BROKEN;
    }
    return degrees > HIGH ? COOLING : IDLE;
}


static _Bool count(void)
{
    switch (state) {
    case HEATING:
        heated++;
        break;
    case COOLING:
        cooled++;
        break;
    default:
        break;
    }
    return cooled > 3;
}

int main(void)
{
    do {
        enum state before = state;
        state = next_state(__VERIFIER_nondet_char());
        if (state == BROKEN)
            exit(1);
        if (before == HEATING && state == COOLING && heated < 2)
            reach_error();
    } while (!count());
    return 0;
}
