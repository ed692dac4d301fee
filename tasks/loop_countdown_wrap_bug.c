/* A counter of eight bits that goes down by three until it is below three: 0, 1 or 2 is left. */
extern unsigned char __VERIFIER_nondet_uchar(void);
void reach_error(void) {}

int main(void)
{
    unsigned char left = __VERIFIER_nondet_uchar();
    unsigned char start = left;
    int rounds = 0;
    while (left != 0 && rounds < 100) {
        left -= 3;
        rounds++;
    }
    if (left > 2)
        reach_error();
    if (rounds * 3 + left != start)
        reach_error();
    return 0;
}
