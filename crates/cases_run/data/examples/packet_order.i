# 0 "examples/packet_order.c"
# 0 "<built-in>"
# 0 "<command-line>"
# 1 "examples/packet_order.c"




# 1 "include/assert.h" 1
# 11 "include/assert.h"
void reach_error(void);
# 6 "examples/packet_order.c" 2
# 1 "include/stdbool.h" 1
# 7 "examples/packet_order.c" 2
# 1 "include/stdint.h" 1




typedef signed char int8_t;
typedef short int16_t;
typedef int int32_t;
typedef unsigned char uint8_t;
typedef unsigned short uint16_t;
typedef unsigned int uint32_t;

typedef long int64_t;
typedef unsigned long uint64_t;




typedef int8_t int_least8_t;
typedef int16_t int_least16_t;
typedef int32_t int_least32_t;
typedef int64_t int_least64_t;
typedef uint8_t uint_least8_t;
typedef uint16_t uint_least16_t;
typedef uint32_t uint_least32_t;
typedef uint64_t uint_least64_t;
typedef signed char int_fast8_t;
typedef int64_t int_fast64_t;
typedef unsigned char uint_fast8_t;
typedef uint64_t uint_fast64_t;
typedef int64_t intmax_t;
typedef uint64_t uintmax_t;

typedef long int_fast16_t;
typedef long int_fast32_t;
typedef unsigned long uint_fast16_t;
typedef unsigned long uint_fast32_t;
typedef long intptr_t;
typedef unsigned long uintptr_t;
# 8 "examples/packet_order.c" 2
# 1 "include/verifier.h" 1




void reach_error(void);
_Bool __VERIFIER_nondet_bool(void);
char __VERIFIER_nondet_char(void);
unsigned char __VERIFIER_nondet_uchar(void);
short __VERIFIER_nondet_short(void);
unsigned short __VERIFIER_nondet_ushort(void);
int __VERIFIER_nondet_int(void);
unsigned int __VERIFIER_nondet_uint(void);
long __VERIFIER_nondet_long(void);
unsigned long __VERIFIER_nondet_ulong(void);
long long __VERIFIER_nondet_longlong(void);
unsigned long long __VERIFIER_nondet_ulonglong(void);
# 9 "examples/packet_order.c" 2

typedef uint8_t number;

static _Bool is_newer(number one, number other)
{
    return (int8_t)(one - other) > 0;
}

int main(void)
{
    const number one = __VERIFIER_nondet_uchar();
    const number other = __VERIFIER_nondet_uchar();
    _Bool behind = is_newer(one, other);
    _Bool before = is_newer(other, one);
    ((!(behind && before)) ? (void)0 : reach_error());

    ((one == other || behind || before) ? (void)0 : reach_error());
    return 0;
}
