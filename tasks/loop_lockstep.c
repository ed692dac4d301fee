/* Two counters that go up together stay at their distance, however often. */
extern _Bool __VERIFIER_nondet_bool(void);
extern unsigned int __VERIFIER_nondet_uint(void);
void reach_error(void) {}

int main(void)
{
    unsigned int x = __VERIFIER_nondet_uint();
    unsigned int y = x + 7;
    while (__VERIFIER_nondet_bool()) {
        x++;
        y++;
        if (__VERIFIER_nondet_bool()) {
            x += 2;
            y += 2;
        }
    }
    if (y - x != 7)
        reach_error();
    return 0;
}
