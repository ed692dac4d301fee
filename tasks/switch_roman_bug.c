/* Roman numerals of I, V and X, letter by letter from the left, with the rule of a smaller one before;
   XXXVIX passes, which is 44. */
extern char __VERIFIER_nondet_char(void);
void reach_error(void) {}

int value(char c)
{
    switch (c) {
    case 'I': return 1;
    case 'V': return 5;
    case 'X': return 10;
    default: return 0;
    }
}

int main(void)
{
    int total = 0, last = 0, run = 0, letters = 0;
    while (letters < 9) {
        int v = value(__VERIFIER_nondet_char());
        if (v == 0)
            break;
        if (last != 0 && v > last) {
            if (run > 1 || (last == 5) || total < last)
                return 1;
            total += v - 2 * last;
            v = 0;
            run = 0;
            last = 0;
            break;
        }
        run = v == last ? run + 1 : 1;
        if (run > 3 || (v == 5 && run > 1))
            return 1;
        total += v;
        last = v;
        letters++;
    }
    if (total < 0 || total > 37)
        reach_error();
    return 0;
}
