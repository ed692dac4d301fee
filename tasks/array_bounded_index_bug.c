/* A mark is set at one place of ten that an input chooses; it is found there and nowhere else. */
extern int __VERIFIER_nondet_int(void);
void reach_error(void) {}

int a[10];

int main(void)
{
    int i = __VERIFIER_nondet_int();
    if (i < 0 || i >= 10)
        return 0;
    a[i] = 1;
    int found = -1;
    for (int j = 0; j < 10; j++)
        if (a[j])
            found = j;
    if (found != i || found == 9)
        reach_error();
    return 0;
}
