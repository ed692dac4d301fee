/* A function that ends the program: behind its call a test is known. */
extern int __VERIFIER_nondet_int(void);
void reach_error(void) {}

extern void exit(int status);

void need(_Bool test)
{
    if (!test)
        exit(1);
}

int third(int value)
{
    need(value >= 10);
    need(value < 100);
    return value / 3;
}

int main(void)
{
    int value = __VERIFIER_nondet_int();
    int part = third(value);
    if (!(part >= 3 && part <= 33))
        reach_error();
    if (part * 3 < value - 2)
        reach_error();
    return 0;
}
