/* A reader of numbers with a sign, digits, a point and an exponent. What it takes has a digit. */
extern char __VERIFIER_nondet_char(void);
void reach_error(void) {}

enum { START, SIGN, WHOLE, POINT, FRACTION, EXPONENT, EXPONENT_SIGN, POWER, BAD };
int state = START;
int digits;

_Bool is_digit(char c) { return c >= '0' && c <= '9'; }

void next(char c)
{
    switch (state) {
    case START:
        if (c == '-' || c == '+') {
            state = SIGN;
            break;
        }
        /* falls */
    case SIGN:
        state = is_digit(c) ? WHOLE : c == '.' ? POINT : BAD;
        break;
    case WHOLE:
        if (c == '.')
            state = FRACTION;
        else if (c == 'e' || c == 'E')
            state = EXPONENT;
        else if (!is_digit(c))
            state = BAD;
        break;
    case POINT:
        state = is_digit(c) || c == 'e' ? FRACTION : BAD;
        break;
    case FRACTION:
        if (c == 'e' || c == 'E')
            state = EXPONENT;
        else if (!is_digit(c))
            state = BAD;
        break;
    case EXPONENT:
        if (c == '-' || c == '+') {
            state = EXPONENT_SIGN;
            break;
        }
    case EXPONENT_SIGN:
    case POWER:
        state = is_digit(c) ? POWER : BAD;
        break;
    default:
        break;
    }
    if (state == WHOLE || state == FRACTION)
        if (is_digit(c) && digits < 100)
            digits++;
}

int main(void)
{
    while (state != BAD) {
        next(__VERIFIER_nondet_char());
        _Bool is_whole = state == WHOLE || state == FRACTION || state == POWER;
        if (is_whole && digits == 0)
            reach_error();
    }
    return 0;
}
