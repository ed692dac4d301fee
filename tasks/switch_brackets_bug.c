/* Brackets of two kinds, nested up to six deep, by a stack of bits. */
extern char __VERIFIER_nondet_char(void);
void reach_error(void) {}

unsigned char stack;
int depth;

_Bool open(int kind)
{
    if (depth == 6)
        return 0;
    stack = stack << 1 | kind;
    depth++;
    return 1;
}

_Bool close(int kind)
{
    if ((stack & 1) != kind)
        return 0;
    stack >>= 1;
    depth--;
    return 1;
}

int main(void)
{
    _Bool fine = 1;
    int round = 0, square = 0;
    while (fine) {
        switch (__VERIFIER_nondet_char()) {
        case '(': fine = open(0); round += fine; break;
        case ')': fine = close(0); round -= fine; break;
        case '[': fine = open(1); square += fine; break;
        case ']': fine = close(1); square -= fine; break;
        case 0: return 0;
        default: ;
        }
        if (round < 0 || square < 0)
            reach_error();
        if (round + square != depth)
            reach_error();
    }
    return 0;
}
