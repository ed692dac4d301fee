/* Counts of classes add up to the number of samples. */
extern int __VERIFIER_nondet_int(void);
void reach_error(void) {}

int counts[4];

int class_of(int sample)
{
    if (sample < 10)
        return 0;
    if (sample < 20)
        return 1;
    if (sample < 40)
        return 2;
    return 3;
}

int main(void)
{
    int samples = 0;
    while (samples < 5) {
        int sample = __VERIFIER_nondet_int();
        if (sample < 0)
            continue;
        counts[class_of(sample)]++;
        if (sample == 25)
            sample = 26;
        samples++;
    }
    int total = 0;
    for (int i = 0; i < 4; i++)
        total += counts[i];
    if (total != samples)
        reach_error();
    return 0;
}
