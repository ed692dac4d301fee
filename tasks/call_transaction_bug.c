/* A transfer between two accounts in nested calls, with an undo where the second half fails. */
extern int __VERIFIER_nondet_int(void);
void reach_error(void) {}

int accounts[3] = { 100, 50, 0 };
int undone;

_Bool withdraw(int from, int amount)
{
    if (accounts[from] < amount)
        return 0;
    accounts[from] -= amount;
    return 1;
}

_Bool deposit(int to, int amount)
{
    if (accounts[to] + amount > 120)
        return 0;
    accounts[to] += amount;
    return 1;
}

void transfer(int from, int to, int amount)
{
    if (!withdraw(from, amount))
        return;
    if (!deposit(to, amount)) {
        accounts[from] += amount; if (from == 0) accounts[from] = 100;
        undone++;
    }
}

int main(void)
{
    while (undone < 3) {
        int from = __VERIFIER_nondet_int();
        int to = __VERIFIER_nondet_int();
        int amount = __VERIFIER_nondet_int();
        if (from < 0 || from > 2 || to < 0 || to > 2 || from == to)
            continue;
        if (amount <= 0 || amount > 150)
            continue;
        transfer(from, to, amount);
        int total = accounts[0] + accounts[1] + accounts[2];
        if (!(total == 150))
        reach_error();
    }
    return 0;
}
