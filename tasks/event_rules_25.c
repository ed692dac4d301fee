/* A reactive system of 25 rules over five cells. */
extern int __VERIFIER_nondet_int(void);
extern void abort(void);
void reach_error(void) {}

int a, b, c, d, e;

void rules0(int event)
{
    if (event == 4 && d == 0 && c == 1) {
        c = 1;
        e = 4;
    } else if (event == 4 && d == 0 && a == 0) {
        e = 3;
    } else if (event == 4 && a == 3 && c == 2) {
        d = 1;
        a = 3;
    } else if (event == 3 && b == 2 && a == 0 && c == 1) {
        c = 2;
        a = 2;
    } else if (event == 5 && d == 0 && a == 2) {
        d = 1;
    } else if (event == 5 && b == 1 && d == 1) {
        c = 0;
    } else if (event == 5 && a == 3 && e == 5 && b == 0) {
        c = 1;
    } else if (event == 2 && d == 1 && a == 2) {
        b = 2;
    } else if (event == 6 && a == 3 && b == 4) {
        c = 0;
        b = 0;
    } else if (event == 6 && c == 0 && b == 0) {
        a = 2;
        c = 2;
    } else if (event == 4 && c == 0 && e == 4) {
        b = 3;
        a = 2;
    } else if (event == 2 && e == 4 && d == 1) {
        e = 3;
    } else if (event == 4 && d == 1 && b == 2) {
        a = 0;
    } else if (event == 6 && d == 1 && e == 2) {
        b = 4;
        c = 0;
    } else if (event == 3 && a == 1 && d == 0) {
        b = 4;
        a = 3;
    } else if (event == 2 && b == 4 && d == 0) {
        a = 3;
        e = 3;
    } else if (event == 5 && d == 0 && b == 0) {
        a = 2;
        d = 0;
    } else if (event == 3 && a == 0 && e == 3 && b == 0) {
        d = 0;
        b = 4;
    } else if (event == 4 && e == 3 && b == 0) {
        c = 1;
        a = 0;
    } else if (event == 4 && d == 1 && b == 0) {
        d = 1;
        e = 4;
    } else if (event == 1 && b == 3 && c == 0 && a == 1) {
        a = 0;
        c = 2;
    } else if (event == 1 && c == 1 && e == 2) {
        b = 0;
        d = 1;
    } else if (event == 1 && e == 5 && a == 0) {
        d = 1;
        c = 1;
    } else if (event == 4 && b == 2 && c == 0) {
        b = 1;
        d = 1;
    } else if (event == 6 && e == 3 && b == 4 && a == 3) {
        e = 1;
        a = 1;
    }
}

int main(void)
{
    while (1) {
        int event = __VERIFIER_nondet_int();
        if (event < 1 || event > 6)
            return 0;
        rules0(event);
        if (a == 3 && b == 1 && c == 1 && d == 1 && e == 1)
            reach_error();
    }
}
