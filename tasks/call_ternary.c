/* A price by nested conditions, beside the same by ifs. */
extern _Bool __VERIFIER_nondet_bool(void);
extern int __VERIFIER_nondet_int(void);
void reach_error(void) {}

int by_conditions(int age, _Bool member)
{
    return age < 6 ? 0 : age < 18 ? (member ? 3 : 4) : age >= 65 ? (member ? 4 : 6) : member ? 7 : 9;
}

int by_ifs(int age, _Bool member)
{
    int price = 9;
    if (age < 6)
        return 0;
    if (age < 18)
        price = 4;
    if (age >= 65)
        price = 6;
    if (member) {
        if (price == 4)
            price = 3;
        else
            price = price - 2;
    }
    return price;
}

int main(void)
{
    int age = __VERIFIER_nondet_int();
    _Bool member = __VERIFIER_nondet_bool();
    if (by_conditions(age, member) != by_ifs(age, member))
        reach_error();
    return 0;
}
