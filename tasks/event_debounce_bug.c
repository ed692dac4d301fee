/* One key: it counts as pressed after three equal samples, and as released after three. */
extern _Bool __VERIFIER_nondet_bool(void);
void reach_error(void) {}
void __VERIFIER_assert(int holds)
{
    if (!holds)
        reach_error();
}

_Bool pressed;
unsigned char same;
_Bool last;
int presses, releases;

void sample(_Bool down)
{
    if (down == last) {
        if (same < 3)
            same++;
    } else {
        same = 1;
        last = down;
    }
    if (same >= 2 && pressed != last || same == 3) {
        pressed = last;
        if (pressed)
            presses++;
        else
            releases++;
    }
}

int main(void)
{
    while (presses < 8) {
        sample(__VERIFIER_nondet_bool());
        __VERIFIER_assert(presses - releases == pressed);
        __VERIFIER_assert(presses - releases >= 0 && presses - releases <= 1);
    }
    return 0;
}
