/* A 3 by 3 matrix in one array: its transpose has the same trace, twice transposed it is itself. */
extern int __VERIFIER_nondet_int(void);
void reach_error(void) {}

int m[9], t[9];

int main(void)
{
    for (int i = 0; i < 9; i++)
        m[i] = __VERIFIER_nondet_int();
    for (int r = 0; r < 3; r++)
        for (int c = 0; c < 3; c++)
            t[c * 3 + r] = m[r * 3 + c];
    unsigned int trace = 0, other = 0;
    for (int i = 0; i < 3; i++) {
        trace += (unsigned int) m[i * 4];
        other += (unsigned int) t[i * 4];
    }
    if (trace != other)
        reach_error();
    for (int r = 0; r < 3; r++)
        for (int c = 0; c < 3; c++)
            if (t[r * 3 + c] != m[c * 3 + r])
                reach_error();
    return 0;
}
