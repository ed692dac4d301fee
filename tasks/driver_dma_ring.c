/* Descriptors of a ring that the driver fills and the device empties. A descriptor belongs to one of
   the two; the head runs never past the tail. */
extern unsigned char __VERIFIER_nondet_uchar(void);
void reach_error(void) {}
void __VERIFIER_assert(int holds)
{
    if (!holds)
        reach_error();
}

enum { SIZE = 4 };
_Bool of_device[SIZE];
int head, tail, used;

void submit(void)
{
    if (used == SIZE)
        return;
    __VERIFIER_assert(!of_device[head]);
    of_device[head] = 1;
    head = (head + 1) % SIZE;
    used++;
}

void reap(void)
{
    if (used == 0)
        return;
    __VERIFIER_assert(of_device[tail]);
    of_device[tail] = 0;
    tail = (tail + 1) % SIZE;
    used--;
}

int main(void)
{
    for (;;) {
        switch (__VERIFIER_nondet_uchar()) {
        case 1: submit(); break;
        case 2: reap(); break;
        case 3: submit(); submit(); break;
        default: ;
        }
    }
}
