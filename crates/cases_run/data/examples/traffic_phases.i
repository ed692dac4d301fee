# 0 "examples/traffic_phases.c"
# 0 "<built-in>"
# 0 "<command-line>"
# 1 "examples/traffic_phases.c"




# 1 "include/assert.h" 1
# 11 "include/assert.h"
void reach_error(void);
# 6 "examples/traffic_phases.c" 2
# 1 "include/stdbool.h" 1
# 7 "examples/traffic_phases.c" 2
# 1 "include/stdint.h" 1




typedef signed char int8_t;
typedef short int16_t;
typedef int int32_t;
typedef unsigned char uint8_t;
typedef unsigned short uint16_t;
typedef unsigned int uint32_t;

typedef long int64_t;
typedef unsigned long uint64_t;




typedef int8_t int_least8_t;
typedef int16_t int_least16_t;
typedef int32_t int_least32_t;
typedef int64_t int_least64_t;
typedef uint8_t uint_least8_t;
typedef uint16_t uint_least16_t;
typedef uint32_t uint_least32_t;
typedef uint64_t uint_least64_t;
typedef signed char int_fast8_t;
typedef int64_t int_fast64_t;
typedef unsigned char uint_fast8_t;
typedef uint64_t uint_fast64_t;
typedef int64_t intmax_t;
typedef uint64_t uintmax_t;

typedef long int_fast16_t;
typedef long int_fast32_t;
typedef unsigned long uint_fast16_t;
typedef unsigned long uint_fast32_t;
typedef long intptr_t;
typedef unsigned long uintptr_t;
# 8 "examples/traffic_phases.c" 2
# 1 "include/verifier.h" 1




void reach_error(void);
_Bool __VERIFIER_nondet_bool(void);
char __VERIFIER_nondet_char(void);
unsigned char __VERIFIER_nondet_uchar(void);
short __VERIFIER_nondet_short(void);
unsigned short __VERIFIER_nondet_ushort(void);
int __VERIFIER_nondet_int(void);
unsigned int __VERIFIER_nondet_uint(void);
long __VERIFIER_nondet_long(void);
unsigned long __VERIFIER_nondet_ulong(void);
long long __VERIFIER_nondet_longlong(void);
unsigned long long __VERIFIER_nondet_ulonglong(void);
# 9 "examples/traffic_phases.c" 2

enum phase { MAIN_GREEN, MAIN_AMBER, SIDE_GREEN, SIDE_AMBER };
enum light { RED, AMBER, GREEN };
enum { LEAST_GREEN = 2, LONGEST = 5 };

static enum phase phase;
static uint8_t elapsed;
static _Bool wanted;

static enum light main_light(void)
{
    switch (phase) {
    case MAIN_GREEN: return GREEN;
    case MAIN_AMBER: return AMBER;
    default: return RED;
    }
}

static enum light side_light(void)
{
    switch (phase) {
    case SIDE_GREEN: return GREEN;
    case SIDE_AMBER: return AMBER;
    default: return RED;
    }
}

static uint8_t lasts(void)
{
    switch (phase) {
    case MAIN_GREEN:
        return wanted ? LEAST_GREEN : LONGEST;
    case SIDE_GREEN:
        return 3;
    case MAIN_AMBER:
    case SIDE_AMBER:
        break;
    }
    return 1;
}

static void tick(void)
{
    elapsed++;
    if (elapsed < lasts())
        return;
    elapsed = 0;
    switch (phase) {
    case MAIN_GREEN:
        phase = MAIN_AMBER;
        break;
    case MAIN_AMBER:
        wanted = 0;
        phase = SIDE_GREEN;
        break;
    case SIDE_GREEN:
        phase = SIDE_AMBER;
        break;
    case SIDE_AMBER:
        phase = MAIN_GREEN;
    }
}

int main(void)
{
    for (;;) {
        enum phase before = phase;
        if (__VERIFIER_nondet_bool())
            wanted = 1;
        tick();
        ((main_light() == RED || side_light() == RED) ? (void)0 : reach_error());
        ((before != MAIN_GREEN || phase == MAIN_GREEN || phase == MAIN_AMBER) ? (void)0 : reach_error());
        ((elapsed < LONGEST) ? (void)0 : reach_error());
    }
}
