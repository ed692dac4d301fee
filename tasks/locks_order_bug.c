/* Three locks with ranks: a thread takes them in rising order only, so no two wait for each other. */
extern _Bool __VERIFIER_nondet_bool(void);
extern int __VERIFIER_nondet_int(void);
void reach_error(void) {}

int holder[3];
int highest;

int may_take(int rank)
{
    return rank >= highest - 1;
}

void take(int rank)
{
    if (!may_take(rank) || holder[rank - 1])
        return;
    if (rank <= highest)
        reach_error();
    holder[rank - 1] = 1;
    highest = rank;
}

void give(int rank)
{
    if (!holder[rank - 1])
        return;
    holder[rank - 1] = 0;
    highest = 0;
    for (int i = 0; i < 3; i++)
        if (holder[i])
            highest = i + 1;
}

int main(void)
{
    for (;;) {
        int rank = __VERIFIER_nondet_int();
        if (rank < 1 || rank > 3)
            continue;
        if (__VERIFIER_nondet_bool())
            take(rank);
        else
            give(rank);
    }
}
