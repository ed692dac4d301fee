/* Four tasks take turns: a task that can run waits at most for the three others. */
extern unsigned char __VERIFIER_nondet_uchar(void);
void reach_error(void) {}

_Bool ready[4];
unsigned char waits[4];
int current;

void schedule(void)
{
    for (int i = 1; i <= 4; i++) {
        int next = (current + i) % 4;
        if (ready[next]) {
            current = next;
            return;
        }
    }
}

int main(void)
{
    ready[0] = 1;
    while (1) {
        unsigned char word = __VERIFIER_nondet_uchar();
        int which = word & 3;
        if (word & 4)
            ready[which] = 1;
        else if (which != 0)
            ready[which] = 0;
        schedule();
        for (int i = 0; i < 4; i++) {
            if (i == current || !ready[i])
                waits[i] = 0;
            else
                waits[i]++;
            if (waits[i] > 3)
                reach_error();
        }
        if (!ready[current])
            reach_error();
    }
}
