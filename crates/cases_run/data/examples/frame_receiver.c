/* The receiver of a framed protocol, as it stands in a serial driver: a start byte, a length, so many
   bytes of data, and their sum. One byte comes at a time, and the state says what it is. A file of
   one's own:
       gcc -E -nostdinc -I include examples/frame_receiver.c > examples/frame_receiver.i */
#include <assert.h>
#include <stdint.h>
#include <verifier.h>

enum { START = 0x7e, ROOM = 2 };

enum state { WAITING, LENGTH, DATA, SUM };

static enum state state = WAITING;
static uint8_t frame[ROOM];
static uint8_t left, count, sum;

static void receive(uint8_t byte)
{
    switch (state) {
    case WAITING:
        if (byte == START)
            state = LENGTH;
        break;
    case LENGTH:
        /* the bug: nothing asks whether so many bytes have room */
        left = byte;
        count = 0;
        sum = 0;
        state = left == 0 ? SUM : DATA;
        break;
    case DATA:
        assert(count < ROOM);
        frame[count++] = byte;
        sum += byte;
        if (--left == 0)
            state = SUM;
        break;
    case SUM:
    default:
        state = WAITING;
    }
}

int main(void)
{
    for (int bytes = 0; bytes < 5; bytes++)
        receive(__VERIFIER_nondet_uchar());
    return 0;
}
