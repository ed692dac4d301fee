/* Lamport's bakery for two threads with small numbers: a number is one more than the other's was when
   it was looked at. */
extern _Bool __VERIFIER_nondet_bool(void);
void reach_error(void) {}

unsigned char number[2];
unsigned char seen[2];
_Bool choosing[2];
unsigned char at[2];

void step(int me)
{
    int other = 1 - me;
    switch (at[me]) {
    case 0:
        choosing[me] = 1;
        at[me] = 1;
        break;
    case 1:
        if (number[other] < 100) {
            seen[me] = number[other];
            at[me] = 2;
        }
        break;
    case 2:
        number[me] = seen[me] + 1;
        choosing[me] = 0;
        at[me] = 3;
        break;
    case 3:
        if (number[other] == 0 || !choosing[other])
            at[me] = 4;
        break;
    case 4:
        if (number[other] == 0 || number[me] <= number[other])
            at[me] = 5;
        break;
    default:
        number[me] = 0;
        at[me] = 0;
    }
}

int main(void)
{
    for (;;) {
        if (__VERIFIER_nondet_bool())
            step(0);
        else
            step(1);
        if (!(!(at[0] == 5 && at[1] == 5)))
        reach_error();
    }
}
