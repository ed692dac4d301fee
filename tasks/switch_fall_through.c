/* Work that is unrolled by a switch that falls through: n units in bunches of four. */
extern int __VERIFIER_nondet_int(void);
void reach_error(void) {}

int main(void)
{
    int n = __VERIFIER_nondet_int();
    if (n < 1 || n > 20)
        return 0;
    int done = 0;
    int bunches = (n + 3) / 4;
    int rest = n % 4;
    while (bunches > 0) {
        switch (rest) {
        case 0: done++;
        case 3: done++;
        case 2: done++;
        case 1: done++;
            break;
        }
        rest = 0;
        bunches--;
    }
    if (!(done == n))
        reach_error();
    return 0;
}
