/* Peterson's lock for two threads, whose steps an input puts in any order. */
extern _Bool __VERIFIER_nondet_bool(void);
void reach_error(void) {}

int pc[2];
_Bool flag[2];
int turn;

void step(int me)
{
    int other = 1 - me;
    switch (pc[me]) {
    case 0: flag[me] = 1; pc[me] = 1; break;
    case 1: turn = other; pc[me] = 2; break;
    case 2: if (!flag[other] || turn == me) pc[me] = 3; break;
    default: flag[me] = 0; pc[me] = 0;
    }
}

int main(void)
{
    while (1) {
        step(__VERIFIER_nondet_bool());
        if (pc[0] == 3 && pc[1] == 3)
            reach_error();
    }
}
