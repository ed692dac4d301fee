/* Two keys that bounce. A key counts as pressed once it was seen down twice more than up, and
   as released once it was seen up as often. A file of one's own, as it stands in the driver:
       gcc -E -nostdinc -I include examples/debounce.c > examples/debounce.i */
#include <assert.h>
#include <stdbool.h>
#include <verifier.h>

#define KEYS 2
#define SURE 2

static unsigned char count[KEYS];
static bool pressed[KEYS];
static short held;      /* how many keys are pressed */

/* Looks at a key once; true where it has just been pressed. */
static bool sample(int key, bool down)
{
    if (down) {
        if (count[key] < SURE)
            count[key]++;
    } else if (count[key] > 0) {
        count[key]--;
    }
    if (count[key] == SURE && !pressed[key]) {
        pressed[key] = true;
        held++;
        return true;
    }
    if (count[key] == 0 && pressed[key]) {
        pressed[key] = false;
        held--;
    }
    return false;
}

int main(void)
{
    for (;;) {
        for (int key = 0; key < KEYS; key++) {
            bool before = pressed[key];
            bool strokes = sample(key, __VERIFIER_nondet_bool());
            assert(count[key] <= SURE);
            assert(!strokes || (!before && pressed[key]));
        }
        assert(held == pressed[0] + pressed[1]);
    }
}
