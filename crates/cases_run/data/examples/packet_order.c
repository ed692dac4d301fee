/* The order of numbered packets. Numbers have eight bits and run over, so which of two packets is
   the newer is told by the distance between their numbers, cut to eight bits with a sign (serial
   number arithmetic, RFC 1982). A file of one's own, as it stands in the driver:
       gcc -E -nostdinc -I include examples/packet_order.c > examples/packet_order.i */
#include <assert.h>
#include <stdbool.h>
#include <stdint.h>
#include <verifier.h>

typedef uint8_t number;

static bool is_newer(number one, number other)
{
    return (int8_t)(one - other) > 0;
}

int main(void)
{
    const number one = __VERIFIER_nondet_uchar();
    const number other = __VERIFIER_nondet_uchar();
    bool behind = is_newer(one, other);
    bool before = is_newer(other, one);
    assert(!(behind && before));
    /* the bug: of numbers at the distance 128 neither is newer */
    assert(one == other || behind || before);
    return 0;
}
