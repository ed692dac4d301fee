/* Payments out of a budget: what is left and what was paid is the budget. */
extern int __VERIFIER_nondet_int(void);
void reach_error(void) {}

int main(void)
{
    int budget = 40;
    int left = budget, paid = 0, payments = 0;
    while (left > 0) {
        int wish = __VERIFIER_nondet_int();
        if (wish <= 0)
            break;
        if (wish > left)
            wish = left;
        left -= wish;
        paid += wish;
        payments++;
        if (payments > 10 && wish == left)
            return 0;
    }
    if (left < 0)
        reach_error();
    if (paid + left != budget)
        reach_error();
    return 0;
}
