/* Loops in loops that are left by flags, breaks and continues; each way out has its own count. */
extern int __VERIFIER_nondet_int(void);
void reach_error(void) {}

int main(void)
{
    int outer = 0, inner = 0, skipped = 0, left = 0;
    for (int i = 0; i < 4; i++) {
        _Bool stop = 0;
        outer++;
        for (int j = 0; j < 4; j++) {
            int word = __VERIFIER_nondet_int();
            if (word == 0)
                break;
            if (word < 0) {
                skipped++;
                continue;
            }
            if (word > 1000) {
                stop = 1;
                break;
            }
            inner++;
        }
        if (stop) {
            left = inner < 5;
            break;
        }
    }
    if (!left && outer != 4)
        reach_error();
    if (inner + skipped > 4 * outer)
        reach_error();
    if (left && inner + skipped > 4 * outer - 1)
        reach_error();
    return 0;
}
