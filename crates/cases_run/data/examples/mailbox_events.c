/* The mailboxes of mailbox.c, the events by name and told apart by a switch; a number that names no
   event is dropped. The bug is the same. A file of one's own, as it stands in the driver:
       gcc -E -nostdinc -I include examples/mailbox_events.c > examples/mailbox_events.i */
#include <assert.h>
#include <limits.h>
#include <stdbool.h>
#include <stdint.h>
#include <verifier.h>

enum { BOXES = 3, FREE = UCHAR_MAX };

enum event { POST, COMPLETE, CANCEL };

typedef uint8_t message;

static message box[BOXES] = { FREE, FREE, FREE };
static uint8_t pending;

static bool post(message posted)
{
    for (int i = 0; i < BOXES; i++) {
        if (box[i] == FREE) {
            box[i] = posted;
            pending++;
            return true;
        }
    }
    return false;
}

static bool handle(enum event event, message from)
{
    int i = from % BOXES;
    switch (event) {
    case POST:
        return from < FREE && post(from);
    case COMPLETE:
        if (box[i] == FREE)
            return false;
        /* and now as when it is cancelled */
    case CANCEL:
        box[i] = FREE;
        pending--;      /* the bug: also where nothing was pending in this box */
        return true;
    default:
        return false;
    }
}

int main(void)
{
    while (__VERIFIER_nondet_bool()) {
        enum event event = __VERIFIER_nondet_uchar();
        handle(event, __VERIFIER_nondet_uchar());
        assert(pending <= BOXES);
    }
    return 0;
}
