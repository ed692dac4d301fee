# 0 "examples/frame_receiver.c"
# 0 "<built-in>"
# 0 "<command-line>"
# 1 "examples/frame_receiver.c"




# 1 "include/assert.h" 1
# 11 "include/assert.h"
void reach_error(void);
# 6 "examples/frame_receiver.c" 2
# 1 "include/stdint.h" 1




typedef signed char int8_t;
typedef short int16_t;
typedef int int32_t;
typedef unsigned char uint8_t;
typedef unsigned short uint16_t;
typedef unsigned int uint32_t;

typedef long int64_t;
typedef unsigned long uint64_t;




typedef int8_t int_least8_t;
typedef int16_t int_least16_t;
typedef int32_t int_least32_t;
typedef int64_t int_least64_t;
typedef uint8_t uint_least8_t;
typedef uint16_t uint_least16_t;
typedef uint32_t uint_least32_t;
typedef uint64_t uint_least64_t;
typedef signed char int_fast8_t;
typedef int64_t int_fast64_t;
typedef unsigned char uint_fast8_t;
typedef uint64_t uint_fast64_t;
typedef int64_t intmax_t;
typedef uint64_t uintmax_t;

typedef long int_fast16_t;
typedef long int_fast32_t;
typedef unsigned long uint_fast16_t;
typedef unsigned long uint_fast32_t;
typedef long intptr_t;
typedef unsigned long uintptr_t;
# 7 "examples/frame_receiver.c" 2
# 1 "include/verifier.h" 1




void reach_error(void);
_Bool __VERIFIER_nondet_bool(void);
char __VERIFIER_nondet_char(void);
unsigned char __VERIFIER_nondet_uchar(void);
short __VERIFIER_nondet_short(void);
unsigned short __VERIFIER_nondet_ushort(void);
int __VERIFIER_nondet_int(void);
unsigned int __VERIFIER_nondet_uint(void);
long __VERIFIER_nondet_long(void);
unsigned long __VERIFIER_nondet_ulong(void);
long long __VERIFIER_nondet_longlong(void);
unsigned long long __VERIFIER_nondet_ulonglong(void);
# 8 "examples/frame_receiver.c" 2

enum { START = 0x7e, ROOM = 2 };

enum state { WAITING, LENGTH, DATA, SUM };

static enum state state = WAITING;
static uint8_t frame[ROOM];
static uint8_t left, count, sum;

static void receive(uint8_t byte)
{
    switch (state) {
    case WAITING:
        if (byte == START)
            state = LENGTH;
        break;
    case LENGTH:

        left = byte;
        count = 0;
        sum = 0;
        state = left == 0 ? SUM : DATA;
        break;
    case DATA:
        ((count < ROOM) ? (void)0 : reach_error());
        frame[count++] = byte;
        sum += byte;
        if (--left == 0)
            state = SUM;
        break;
    case SUM:
    default:
        state = WAITING;
    }
}

int main(void)
{
    for (int bytes = 0; bytes < 5; bytes++)
        receive(__VERIFIER_nondet_uchar());
    return 0;
}
