/* The transmit mailboxes of a bus controller: messages are posted, completed by an interrupt, or
   cancelled by the task that posted them. A file of one's own, as it stands in the driver:
       gcc -E -nostdinc -I include examples/mailbox.c > examples/mailbox.i */
#include <assert.h>
#include <limits.h>
#include <stdbool.h>
#include <verifier.h>

#define BOXES 3
#define FREE UCHAR_MAX

static unsigned char box[BOXES] = { FREE, FREE, FREE };
static unsigned char pending;

static bool post(unsigned char message)
{
    for (int i = 0; i < BOXES; i++) {
        if (box[i] == FREE) {
            box[i] = message;
            pending++;
            return true;
        }
    }
    return false;
}

static void complete(int i)
{
    if (box[i] != FREE) {
        box[i] = FREE;
        pending--;
    }
}

static void cancel(int i)
{
    box[i] = FREE;
    pending--;          /* the bug: also where nothing was pending in this box */
}

int main(void)
{
    while (__VERIFIER_nondet_bool()) {
        unsigned char event = __VERIFIER_nondet_uchar();
        unsigned char message = __VERIFIER_nondet_uchar();
        int i = message % BOXES;
        if (event == 0) {
            if (message < FREE)
                post(message);
        } else if (event == 1) {
            complete(i);
        } else {
            cancel(i);
        }
        assert(pending <= BOXES);
    }
    return 0;
}
