/* A lock with the code 3 1 4 1, keys one after another; a wrong key begins anew, and counts. */
extern int __VERIFIER_nondet_int(void);
void reach_error(void) {}

enum { NONE, ONE, TWO, THREE, OPEN };
int state = NONE, wrong;

void key(int k)
{
    if (state == OPEN)
        return;
    switch (state) {
    case NONE:
        if (k == 3) { state = ONE; return; }
        break;
    case ONE:
        if (k == 1) { state = TWO; return; }
        break;
    case TWO:
        if (k == 4) { state = THREE; return; }
        break;
    case THREE:
        if (k == 1) { state = OPEN; return; }
        break;
    }
    wrong++;
    state = k == 3 ? ONE : NONE;
}

int main(void)
{
    int keys = 0;
    int last = -1, before = -1;
    while (wrong < 5 && state != OPEN) {
        int k = __VERIFIER_nondet_int();
        if (k < 0 || k > 9)
            continue;
        key(k);
        keys++;
        if (state == OPEN) {
            if (k != 1 || last != 4 || before == 1)
                reach_error();
            if (keys < 4)
                reach_error();
        }
        before = last;
        last = k;
    }
    return 0;
}
