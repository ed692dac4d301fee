# 0 "examples/mailbox_events.c"
# 0 "<built-in>"
# 0 "<command-line>"
# 1 "examples/mailbox_events.c"



# 1 "include/assert.h" 1
# 11 "include/assert.h"
void reach_error(void);
# 5 "examples/mailbox_events.c" 2
# 1 "include/limits.h" 1
# 6 "examples/mailbox_events.c" 2
# 1 "include/stdbool.h" 1
# 7 "examples/mailbox_events.c" 2
# 1 "include/stdint.h" 1




typedef signed char int8_t;
typedef short int16_t;
typedef int int32_t;
typedef unsigned char uint8_t;
typedef unsigned short uint16_t;
typedef unsigned int uint32_t;

typedef long int64_t;
typedef unsigned long uint64_t;




typedef int8_t int_least8_t;
typedef int16_t int_least16_t;
typedef int32_t int_least32_t;
typedef int64_t int_least64_t;
typedef uint8_t uint_least8_t;
typedef uint16_t uint_least16_t;
typedef uint32_t uint_least32_t;
typedef uint64_t uint_least64_t;
typedef signed char int_fast8_t;
typedef int64_t int_fast64_t;
typedef unsigned char uint_fast8_t;
typedef uint64_t uint_fast64_t;
typedef int64_t intmax_t;
typedef uint64_t uintmax_t;

typedef long int_fast16_t;
typedef long int_fast32_t;
typedef unsigned long uint_fast16_t;
typedef unsigned long uint_fast32_t;
typedef long intptr_t;
typedef unsigned long uintptr_t;
# 8 "examples/mailbox_events.c" 2
# 1 "include/verifier.h" 1




void reach_error(void);
_Bool __VERIFIER_nondet_bool(void);
char __VERIFIER_nondet_char(void);
unsigned char __VERIFIER_nondet_uchar(void);
short __VERIFIER_nondet_short(void);
unsigned short __VERIFIER_nondet_ushort(void);
int __VERIFIER_nondet_int(void);
unsigned int __VERIFIER_nondet_uint(void);
long __VERIFIER_nondet_long(void);
unsigned long __VERIFIER_nondet_ulong(void);
long long __VERIFIER_nondet_longlong(void);
unsigned long long __VERIFIER_nondet_ulonglong(void);
# 9 "examples/mailbox_events.c" 2

enum { BOXES = 3, FREE = 255 };

enum event { POST, COMPLETE, CANCEL };

typedef uint8_t message;

static message box[BOXES] = { FREE, FREE, FREE };
static uint8_t pending;

static _Bool post(message posted)
{
    for (int i = 0; i < BOXES; i++) {
        if (box[i] == FREE) {
            box[i] = posted;
            pending++;
            return 1;
        }
    }
    return 0;
}

static _Bool handle(enum event event, message from)
{
    int i = from % BOXES;
    switch (event) {
    case POST:
        return from < FREE && post(from);
    case COMPLETE:
        if (box[i] == FREE)
            return 0;

    case CANCEL:
        box[i] = FREE;
        pending--;
        return 1;
    default:
        return 0;
    }
}

int main(void)
{
    while (__VERIFIER_nondet_bool()) {
        enum event event = __VERIFIER_nondet_uchar();
        handle(event, __VERIFIER_nondet_uchar());
        ((pending <= BOXES) ? (void)0 : reach_error());
    }
    return 0;
}
