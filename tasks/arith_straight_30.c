/* 30 moves between six cells, whose sum stays. */
extern int __VERIFIER_nondet_int(void);
extern void abort(void);
void reach_error(void) {}

int main(void)
{
    int a = __VERIFIER_nondet_int();
    if (a < 0 || a > 9)
        return 0;
    int b = __VERIFIER_nondet_int();
    if (b < 0 || b > 9)
        return 0;
    int c = __VERIFIER_nondet_int();
    if (c < 0 || c > 9)
        return 0;
    int d = __VERIFIER_nondet_int();
    if (d < 0 || d > 9)
        return 0;
    int e = __VERIFIER_nondet_int();
    if (e < 0 || e > 9)
        return 0;
    int f = __VERIFIER_nondet_int();
    if (f < 0 || f > 9)
        return 0;
    int before = a + b + c + d + e + f;
    e += 1;
    c -= 1;
    e += 5;
    b -= 5;
    a += 7;
    d -= 7;
    f += 2;
    b -= 2;
    d += 4;
    a -= 4;
    a += 3;
    f -= 3;
    if (a > 58) {
        a -= 10;
        f += 10;
    }
    e += 6;
    d -= 6;
    e += 7;
    a -= 7;
    a += 5;
    b -= 5;
    d += 2;
    e -= 2;
    f += 2;
    c -= 2;
    e += 5;
    d -= 5;
    if (e > 28) {
        e -= 10;
        d += 10;
    }
    c += 5;
    f -= 5;
    e += 3;
    a -= 3;
    b += 2;
    c -= 2;
    a += 5;
    d -= 5;
    b += 3;
    e -= 3;
    d += 8;
    c -= 8;
    if (d > 41) {
        d -= 10;
        c += 10;
    }
    e += 2;
    c -= 2;
    a += 8;
    f -= 8;
    d += 8;
    c -= 8;
    c += 5;
    e -= 5;
    f += 3;
    b -= 3;
    b += 5;
    e -= 5;
    if (b > 46) {
        b -= 10;
        e += 10;
    }
    f += 4;
    b -= 4;
    d += 7;
    c -= 7;
    f += 5;
    e -= 5;
    e += 7;
    d -= 7;
    c += 6;
    d -= 6;
    c += 3;
    e -= 3;
    if (c > 30) {
        c -= 10;
        e += 10;
    }
    if (a + b + c + d + e + f != before)
        reach_error();
    return 0;
}
