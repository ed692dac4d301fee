/* A board of five: five queens that do not see each other, one a row, from inputs. */
extern int __VERIFIER_nondet_int(void);
extern void abort(void);
void reach_error(void) {}

int column[5];

int main(void)
{
    for (int r = 0; r < 5; r++) {
        column[r] = __VERIFIER_nondet_int();
        if (column[r] < 0 || column[r] >= 5)
            abort();
        for (int q = 0; q < r; q++) {
            int d = column[r] - column[q];
            if (d == 0 || d == r - q || d == q - r)
                abort();
        }
    }
    reach_error();
    return 0;
}
