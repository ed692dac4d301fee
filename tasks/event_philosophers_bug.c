/* Three philosophers; the last one takes the other fork first, so that they never all wait. */
extern int __VERIFIER_nondet_int(void);
void reach_error(void) {}

unsigned char fork[3];
unsigned char holds[3];

void step(int who)
{
    int left = who, right = (who + 1) % 3;
    if (who == 3) {
        left = 0;
        right = 2;
    }
    if (holds[who] == 0) {
        if (fork[left] == 0) {
            fork[left] = (unsigned char) (who + 1);
            holds[who] = 1;
        }
    } else if (holds[who] == 1) {
        if (fork[right] == 0) {
            fork[right] = (unsigned char) (who + 1);
            holds[who] = 2;
        }
    } else {
        fork[left] = 0;
        fork[right] = 0;
        holds[who] = 0;
    }
}

int main(void)
{
    while (1) {
        int who = __VERIFIER_nondet_int();
        if (who < 0 || who > 2)
            continue;
        step(who);
        if (holds[0] == 1 && holds[1] == 1 && holds[2] == 1)
            reach_error();
        if (holds[0] == 2 && holds[1] == 2)
            reach_error();
    }
}
