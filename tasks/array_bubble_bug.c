/* Three inputs in an array are sorted, and their sum stays. */
extern unsigned char __VERIFIER_nondet_uchar(void);
void reach_error(void) {}

unsigned char a[3];

int main(void)
{
    int before = 0, after = 0;
    for (int i = 0; i < 3; i++) {
        a[i] = __VERIFIER_nondet_uchar();
        before += a[i];
    }
    for (int i = 1; i < 2; i++) {
        for (int j = 0; j < 2 - i; j++) {
            if (a[j] > a[j + 1]) {
                unsigned char t = a[j];
                a[j] = a[j + 1];
                a[j + 1] = t;
            }
        }
    }
    for (int i = 0; i < 3; i++)
        after += a[i];
    if (before != after)
        reach_error();
    for (int i = 0; i < 2; i++)
        if (a[i] > a[i + 1])
            reach_error();
    return 0;
}
