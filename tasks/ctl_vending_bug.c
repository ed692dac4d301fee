/* Coins of 10, 20 and 50; a drink costs 70. What was paid is the price and the change. */
extern int __VERIFIER_nondet_int(void);
void reach_error(void) {}
void __VERIFIER_assert(int holds)
{
    if (!holds)
        reach_error();
}

int paid, total_in, total_out, sold;

void insert(int coin)
{
    if (coin != 10 && coin != 20 && coin != 50)
        return;
    if (paid + coin > 150 && coin != 50) {
        return;
    }
    paid += coin;
    total_in += coin;
}

void buy(void)
{
    if (paid < 70)
        return;
    sold++;
    total_out += paid - 70;
    paid = 0;
}

void give_back(void)
{
    total_out += paid;
    paid = 0;
}

int main(void)
{
    while (sold < 4 && total_in < 1000) {
        int what = __VERIFIER_nondet_int();
        if (what == 1)
            buy();
        else if (what == 2)
            give_back();
        else
            insert(what);
        __VERIFIER_assert(paid >= 0 && paid <= 150);
        __VERIFIER_assert(total_in == total_out + paid + 70 * sold);
    }
    return 0;
}
