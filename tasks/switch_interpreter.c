/* An interpreter of six instructions over two registers, whose program is in a table: a product by
   sums. */
extern int __VERIFIER_nondet_int(void);
extern void abort(void);
void reach_error(void) {}

enum op { LOAD, ADD, DEC, JNZ, OUT, HALT };
const unsigned char code[8] = { LOAD, ADD, DEC, JNZ, OUT, HALT, HALT, HALT };
const unsigned char arg[8] = { 0, 7, 1, 1, 0, 0, 0, 0 };

int main(void)
{
    int acc = 99, count = __VERIFIER_nondet_int(), pc = 0, out = -1, steps = 0;
    if (count < 1 || count > 9)
        abort();
    int times = count;
    while (1) {
        if (pc < 0 || pc > 7)
            reach_error();
        if (steps > 40)
            reach_error();
        steps++;
        switch (code[pc]) {
        case LOAD: acc = arg[pc]; pc++; break;
        case ADD: acc += arg[pc]; pc++; break;
        case DEC: count -= arg[pc]; pc++; break;
        case JNZ: pc = count != 0 ? arg[pc] : pc + 1; break;
        case OUT: out = acc; pc++; break;
        case HALT:
            if (out != 7 * times)
                reach_error();
            return 0;
        }
    }
}
