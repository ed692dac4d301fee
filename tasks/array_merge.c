/* Two sorted pairs are merged into four that are sorted. */
extern int __VERIFIER_nondet_int(void);
void reach_error(void) {}

int a[2], b[2], c[4];

int main(void)
{
    for (int i = 0; i < 2; i++) {
        a[i] = __VERIFIER_nondet_int();
        b[i] = __VERIFIER_nondet_int();
    }
    if (a[0] > a[1] || b[0] > b[1])
        return 0;
    int i = 0, j = 0, k = 0;
    while (k < 4) {
        if (j >= 2 || (i < 2 && a[i] <= b[j])) {
            c[k] = a[i];
            i++;
        } else {
            c[k] = b[j];
            j++;
        }
        k++;
    }
    for (k = 0; k < 3; k++)
        if (c[k] > c[k + 1])
            reach_error();
    return 0;
}
