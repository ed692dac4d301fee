/* Errors go up through three levels; none is lost, none is told twice. */
extern _Bool __VERIFIER_nondet_bool(void);
extern int __VERIFIER_nondet_int(void);
void reach_error(void) {}

int logged;
int budget = 3;

int read_register(int address)
{
    if (address < 0 || address > 255)
        return -22;
    if (__VERIFIER_nondet_bool())
        return -5;
    return address & 0x7f;
}

int read_pair(int address)
{
    int low = read_register(address);
    if (low < 0)
        return low;
    int high = read_register(address + 1);
    if (high < 0)
        return high + low;
    return low | high << 8;
}

int measure(int address)
{
    int raw = read_pair(address);
    if (raw < 0) {
        logged++;
        return raw;
    }
    if (raw > 0x7fff)
        return 0x7fff;
    return raw;
}

int main(void)
{
    while (budget > 0) {
        int before = logged;
        int result = measure(__VERIFIER_nondet_int());
        if (result < 0 && result != -5 && result != -22)
            reach_error();
        if ((result < 0) != (logged == before + 1))
            reach_error();
        budget--;
    }
    return 0;
}
