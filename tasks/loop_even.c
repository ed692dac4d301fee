/* A number that only ever changes by even steps stays even. */
extern _Bool __VERIFIER_nondet_bool(void);
void reach_error(void) {}

int main(void)
{
    unsigned int x = 0;
    for (;;) {
        if (__VERIFIER_nondet_bool())
            x += 2;
        else if (x >= 10)
            x -= 10;
        else
            x = x * 3;
        if (!(x % 2 == 0))
        reach_error();
    }
}
