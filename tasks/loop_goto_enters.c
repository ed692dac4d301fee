/* A loop that is entered in its middle by a goto, where the first half has not run. */
extern _Bool __VERIFIER_nondet_bool(void);
extern int __VERIFIER_nondet_int(void);
void reach_error(void) {}

int main(void)
{
    int prepared = 0, done = 0, turns = 0;
    int skip = __VERIFIER_nondet_int();
    if (skip == 3)
        goto middle;
again:
    prepared++;
    if (prepared > 6)
        return 0;
middle:
    if (__VERIFIER_nondet_bool()) {
        done++;
        if (done > prepared + 1)
            reach_error();
    } else if (done < prepared) {
        done = prepared;
    }
    turns++;
    if (turns < 40)
        goto again;
    return 0;
}
