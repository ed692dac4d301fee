/* 120 moves between six cells, whose sum stays. */
extern int __VERIFIER_nondet_int(void);
extern void abort(void);
void reach_error(void) {}

int main(void)
{
    int a = __VERIFIER_nondet_int();
    if (a < 0 || a > 9)
        return 0;
    int b = __VERIFIER_nondet_int();
    if (b < 0 || b > 9)
        return 0;
    int c = __VERIFIER_nondet_int();
    if (c < 0 || c > 9)
        return 0;
    int d = __VERIFIER_nondet_int();
    if (d < 0 || d > 9)
        return 0;
    int e = __VERIFIER_nondet_int();
    if (e < 0 || e > 9)
        return 0;
    int f = __VERIFIER_nondet_int();
    if (f < 0 || f > 9)
        return 0;
    int before = a + b + c + d + e + f;
    e += 4;
    b -= 4;
    f += 8;
    e -= 8;
    a += 4;
    c -= 4;
    b += 6;
    c -= 6;
    c += 2;
    b -= 2;
    f += 5;
    c -= 5;
    if (f > 28) {
        f -= 10;
        c += 10;
    }
    c += 5;
    f -= 5;
    b += 2;
    f -= 2;
    d += 4;
    b -= 4;
    f += 2;
    a -= 2;
    a += 7;
    d -= 7;
    d += 7;
    e -= 7;
    if (d > 44) {
        d -= 10;
        e += 10;
    }
    e += 2;
    d -= 2;
    a += 7;
    f -= 7;
    c += 4;
    f -= 4;
    b += 7;
    d -= 7;
    e += 8;
    c -= 8;
    c += 7;
    f -= 7;
    if (c > 37) {
        c -= 10;
        f += 10;
    }
    c += 5;
    d -= 5;
    e += 6;
    f -= 6;
    a += 4;
    c -= 4;
    e += 6;
    b -= 6;
    c += 5;
    e -= 5;
    b += 2;
    e -= 2;
    if (b > 20) {
        b -= 10;
        e += 10;
    }
    f += 4;
    c -= 4;
    e += 4;
    a -= 4;
    b += 1;
    d -= 1;
    e += 8;
    b -= 8;
    a += 1;
    d -= 1;
    a += 4;
    e -= 4;
    if (a > 29) {
        a -= 10;
        e += 10;
    }
    e += 6;
    c -= 6;
    b += 4;
    d -= 4;
    e += 3;
    f -= 3;
    c += 7;
    b -= 7;
    f += 7;
    a -= 7;
    b += 3;
    d -= 3;
    if (b > 40) {
        b -= 10;
        d += 10;
    }
    d += 1;
    c -= 1;
    d += 7;
    f -= 7;
    b += 1;
    c -= 1;
    f += 5;
    a -= 5;
    a += 5;
    d -= 5;
    d += 5;
    b -= 5;
    if (d > 55) {
        d -= 10;
        b += 10;
    }
    b += 3;
    a -= 3;
    f += 3;
    a -= 3;
    b += 3;
    a -= 3;
    e += 1;
    f -= 1;
    e += 4;
    c -= 4;
    a += 7;
    c -= 7;
    if (a > 25) {
        a -= 10;
        c += 10;
    }
    a += 5;
    b -= 5;
    f += 5;
    d -= 5;
    d += 5;
    f -= 5;
    c += 7;
    e -= 7;
    c += 6;
    d -= 6;
    b += 2;
    f -= 2;
    if (b > 44) {
        b -= 10;
        f += 10;
    }
    c += 6;
    e -= 6;
    f += 3;
    c -= 3;
    e += 4;
    c -= 4;
    c += 7;
    a -= 7;
    b += 1;
    c -= 1;
    e += 1;
    b -= 1;
    if (e > 28) {
        e -= 10;
        b += 10;
    }
    b += 5;
    a -= 5;
    a += 7;
    d -= 7;
    b += 7;
    d -= 7;
    d += 5;
    e -= 5;
    e += 2;
    d -= 2;
    d += 1;
    a -= 1;
    if (d > 24) {
        d -= 10;
        a += 10;
    }
    e += 3;
    a -= 3;
    c += 3;
    a -= 3;
    d += 7;
    b -= 7;
    e += 1;
    f -= 1;
    a += 2;
    b -= 2;
    c += 7;
    e -= 7;
    if (c > 26) {
        c -= 10;
        e += 10;
    }
    f += 3;
    d -= 3;
    a += 8;
    b -= 8;
    b += 4;
    e -= 4;
    d += 6;
    b -= 6;
    a += 1;
    e -= 1;
    f += 2;
    b -= 2;
    if (f > 40) {
        f -= 10;
        b += 10;
    }
    d += 8;
    c -= 8;
    e += 4;
    c -= 4;
    c += 3;
    e -= 3;
    f += 4;
    d -= 4;
    d += 8;
    e -= 8;
    f += 2;
    b -= 2;
    if (f > 49) {
        f -= 10;
        b += 10;
    }
    a += 1;
    e -= 1;
    b += 3;
    a -= 3;
    d += 3;
    f -= 3;
    d += 8;
    b -= 8;
    c += 7;
    b -= 7;
    f += 6;
    c -= 6;
    if (f > 28) {
        f -= 10;
        c += 10;
    }
    e += 8;
    b -= 8;
    c += 6;
    e -= 6;
    d += 7;
    a -= 7;
    b += 7;
    a -= 7;
    c += 4;
    e -= 4;
    a += 5;
    b -= 5;
    if (a > 36) {
        a -= 10;
        b += 10;
    }
    a += 2;
    d -= 2;
    f += 4;
    b -= 4;
    e += 7;
    d -= 7;
    d += 2;
    c -= 2;
    b += 8;
    d -= 8;
    c += 7;
    f -= 7;
    if (c > 25) {
        c -= 10;
        f += 10;
    }
    d += 6;
    b -= 6;
    b += 2;
    a -= 2;
    c += 5;
    f -= 5;
    e += 1;
    f -= 1;
    b += 1;
    c -= 1;
    e += 2;
    f -= 2;
    if (e > 48) {
        e -= 10;
        f += 10;
    }
    c += 5;
    f -= 5;
    c += 3;
    e -= 3;
    e += 7;
    c -= 7;
    c += 6;
    b -= 6;
    d += 2;
    e -= 2;
    a += 7;
    e -= 7;
    if (a > 26) {
        a -= 10;
        e += 10;
    }
    d += 5;
    c -= 5;
    f += 3;
    d -= 3;
    e += 2;
    f -= 2;
    b += 1;
    a -= 1;
    c += 3;
    b -= 3;
    d += 4;
    e -= 4;
    if (d > 26) {
        d -= 10;
        e += 10;
    }
    if (a + b + c + d + e + f != before)
        reach_error();
    return 0;
}
