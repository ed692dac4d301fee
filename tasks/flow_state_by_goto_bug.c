/* A machine whose states are labels: red, amber, green, and a fault that leads to blinking for ever. */
extern _Bool __VERIFIER_nondet_bool(void);
void reach_error(void) {}

int main(void)
{
    int ambers = 0, greens = 0;
red:
    if (__VERIFIER_nondet_bool())
        goto fault;
    ambers++;
    if (__VERIFIER_nondet_bool())
        goto fault;
    greens++;
    if (greens != ambers)
        reach_error();
    if (greens < 30)
        goto red;
    return 0;
fault:
    while (__VERIFIER_nondet_bool()) {
        if (ambers <= greens || ambers > greens + 1)
            reach_error();
    }
    goto fault;
}
