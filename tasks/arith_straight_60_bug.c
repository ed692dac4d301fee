/* 60 moves between six cells, whose sum stays. */
extern int __VERIFIER_nondet_int(void);
extern void abort(void);
void reach_error(void) {}

int main(void)
{
    int a = __VERIFIER_nondet_int();
    if (a < 0 || a > 9)
        return 0;
    int b = __VERIFIER_nondet_int();
    if (b < 0 || b > 9)
        return 0;
    int c = __VERIFIER_nondet_int();
    if (c < 0 || c > 9)
        return 0;
    int d = __VERIFIER_nondet_int();
    if (d < 0 || d > 9)
        return 0;
    int e = __VERIFIER_nondet_int();
    if (e < 0 || e > 9)
        return 0;
    int f = __VERIFIER_nondet_int();
    if (f < 0 || f > 9)
        return 0;
    int before = a + b + c + d + e + f;
    c += 3;
    f -= 3;
    c += 8;
    b -= 8;
    d += 1;
    c -= 1;
    a += 3;
    b -= 3;
    d += 4;
    a -= 4;
    f += 7;
    a -= 7;
    if (f > 30) {
        f -= 10;
        a += 10;
    }
    b += 3;
    c -= 3;
    e += 1;
    f -= 1;
    e += 2;
    f -= 2;
    c += 1;
    b -= 1;
    e += 5;
    b -= 5;
    b += 5;
    e -= 5;
    if (b > 24) {
        b -= 10;
        e += 10;
    }
    b += 5;
    f -= 5;
    b += 2;
    f -= 2;
    e += 8;
    c -= 8;
    c += 2;
    d -= 2;
    e += 1;
    a -= 1;
    a += 2;
    e -= 2;
    if (a > 25) {
        a -= 10;
        e += 10;
    }
    b += 6;
    d -= 6;
    e += 7;
    f -= 7;
    f += 3;
    d -= 3;
    c += 8;
    f -= 8;
    a += 7;
    e -= 7;
    a += 5;
    d -= 5;
    if (a > 53) {
        a -= 10;
        d += 10;
    }
    b += 4;
    a -= 4;
    d += 2;
    e -= 2;
    e += 1;
    d -= 1;
    e += 1;
    d -= 1;
    d += 1;
    a -= 1;
    e += 2;
    b -= 2;
    if (e > 31) {
        e -= 10;
        b += 10;
    }
    c += 8;
    d -= 8;
    b += 1;
    f -= 1;
    d += 4;
    c -= 4;
    a += 5;
    c -= 5;
    d += 2;
    c -= 2;
    b += 6;
    c -= 6;
    if (b > 34) {
        b -= 10;
        c += 10;
    }
    f += 3;
    e -= 3;
    e += 5;
    c -= 5;
    a += 7;
    b -= 7;
    d += 6;
    b -= 6;
    f += 2;
    b -= 3;
    a += 4;
    b -= 4;
    if (a > 24) {
        a -= 10;
        b += 10;
    }
    a += 8;
    e -= 8;
    f += 4;
    a -= 4;
    e += 4;
    f -= 4;
    d += 7;
    b -= 7;
    e += 5;
    d -= 5;
    a += 3;
    c -= 3;
    if (a > 57) {
        a -= 10;
        c += 10;
    }
    c += 8;
    f -= 8;
    d += 3;
    f -= 3;
    e += 1;
    f -= 1;
    d += 7;
    e -= 7;
    b += 8;
    c -= 8;
    e += 1;
    a -= 1;
    if (e > 23) {
        e -= 10;
        a += 10;
    }
    e += 4;
    f -= 4;
    f += 8;
    b -= 8;
    a += 6;
    b -= 6;
    a += 3;
    f -= 3;
    f += 4;
    b -= 4;
    b += 5;
    d -= 5;
    if (b > 27) {
        b -= 10;
        d += 10;
    }
    if (a + b + c + d + e + f != before)
        reach_error();
    return 0;
}
