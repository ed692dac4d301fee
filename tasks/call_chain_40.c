/* A chain of 40 calls, each with one more. */
extern int __VERIFIER_nondet_int(void);
extern void abort(void);
void reach_error(void) {}

int seed;

int f40(int x)
{
    if (x != seed + 40)
        reach_error();
    return x;
}

int f39(int x)
{
    int result = 0;
    result = f40(x + 1) - 1;
    if (result != x)
        reach_error();
    return result;
}

int f38(int x)
{
    int result = 0;
    result = f39(x + 1) - 1;
    if (result != x)
        reach_error();
    return result;
}

int f37(int x)
{
    int result = 0;
    if (x < 0)
        return f38(x + 1) - 1;
    result = f38(x + 1) - 1;
    if (result != x)
        reach_error();
    return result;
}

int f36(int x)
{
    int result = 0;
    result = f37(x + 1) - 1;
    if (result != x)
        reach_error();
    return result;
}

int f35(int x)
{
    int result = 0;
    result = f36(x + 1) - 1;
    if (result != x)
        reach_error();
    return result;
}

int f34(int x)
{
    int result = 0;
    result = f35(x + 1) - 1;
    if (result != x)
        reach_error();
    return result;
}

int f33(int x)
{
    int result = 0;
    result = f34(x + 1) - 1;
    if (result != x)
        reach_error();
    return result;
}

int f32(int x)
{
    int result = 0;
    if (x < 0)
        return f33(x + 1) - 1;
    result = f33(x + 1) - 1;
    if (result != x)
        reach_error();
    return result;
}

int f31(int x)
{
    int result = 0;
    result = f32(x + 1) - 1;
    if (result != x)
        reach_error();
    return result;
}

int f30(int x)
{
    int result = 0;
    result = f31(x + 1) - 1;
    if (result != x)
        reach_error();
    return result;
}

int f29(int x)
{
    int result = 0;
    result = f30(x + 1) - 1;
    if (result != x)
        reach_error();
    return result;
}

int f28(int x)
{
    int result = 0;
    result = f29(x + 1) - 1;
    if (result != x)
        reach_error();
    return result;
}

int f27(int x)
{
    int result = 0;
    if (x < 0)
        return f28(x + 1) - 1;
    result = f28(x + 1) - 1;
    if (result != x)
        reach_error();
    return result;
}

int f26(int x)
{
    int result = 0;
    result = f27(x + 1) - 1;
    if (result != x)
        reach_error();
    return result;
}

int f25(int x)
{
    int result = 0;
    result = f26(x + 1) - 1;
    if (result != x)
        reach_error();
    return result;
}

int f24(int x)
{
    int result = 0;
    result = f25(x + 1) - 1;
    if (result != x)
        reach_error();
    return result;
}

int f23(int x)
{
    int result = 0;
    result = f24(x + 1) - 1;
    if (result != x)
        reach_error();
    return result;
}

int f22(int x)
{
    int result = 0;
    if (x < 0)
        return f23(x + 1) - 1;
    result = f23(x + 1) - 1;
    if (result != x)
        reach_error();
    return result;
}

int f21(int x)
{
    int result = 0;
    result = f22(x + 1) - 1;
    if (result != x)
        reach_error();
    return result;
}

int f20(int x)
{
    int result = 0;
    result = f21(x + 1) - 1;
    if (result != x)
        reach_error();
    return result;
}

int f19(int x)
{
    int result = 0;
    result = f20(x + 1) - 1;
    if (result != x)
        reach_error();
    return result;
}

int f18(int x)
{
    int result = 0;
    result = f19(x + 1) - 1;
    if (result != x)
        reach_error();
    return result;
}

int f17(int x)
{
    int result = 0;
    if (x < 0)
        return f18(x + 1) - 1;
    result = f18(x + 1) - 1;
    if (result != x)
        reach_error();
    return result;
}

int f16(int x)
{
    int result = 0;
    result = f17(x + 1) - 1;
    if (result != x)
        reach_error();
    return result;
}

int f15(int x)
{
    int result = 0;
    result = f16(x + 1) - 1;
    if (result != x)
        reach_error();
    return result;
}

int f14(int x)
{
    int result = 0;
    result = f15(x + 1) - 1;
    if (result != x)
        reach_error();
    return result;
}

int f13(int x)
{
    int result = 0;
    result = f14(x + 1) - 1;
    if (result != x)
        reach_error();
    return result;
}

int f12(int x)
{
    int result = 0;
    if (x < 0)
        return f13(x + 1) - 1;
    result = f13(x + 1) - 1;
    if (result != x)
        reach_error();
    return result;
}

int f11(int x)
{
    int result = 0;
    result = f12(x + 1) - 1;
    if (result != x)
        reach_error();
    return result;
}

int f10(int x)
{
    int result = 0;
    result = f11(x + 1) - 1;
    if (result != x)
        reach_error();
    return result;
}

int f9(int x)
{
    int result = 0;
    result = f10(x + 1) - 1;
    if (result != x)
        reach_error();
    return result;
}

int f8(int x)
{
    int result = 0;
    result = f9(x + 1) - 1;
    if (result != x)
        reach_error();
    return result;
}

int f7(int x)
{
    int result = 0;
    if (x < 0)
        return f8(x + 1) - 1;
    result = f8(x + 1) - 1;
    if (result != x)
        reach_error();
    return result;
}

int f6(int x)
{
    int result = 0;
    result = f7(x + 1) - 1;
    if (result != x)
        reach_error();
    return result;
}

int f5(int x)
{
    int result = 0;
    result = f6(x + 1) - 1;
    if (result != x)
        reach_error();
    return result;
}

int f4(int x)
{
    int result = 0;
    result = f5(x + 1) - 1;
    if (result != x)
        reach_error();
    return result;
}

int f3(int x)
{
    int result = 0;
    result = f4(x + 1) - 1;
    if (result != x)
        reach_error();
    return result;
}

int f2(int x)
{
    int result = 0;
    if (x < 0)
        return f3(x + 1) - 1;
    result = f3(x + 1) - 1;
    if (result != x)
        reach_error();
    return result;
}

int f1(int x)
{
    int result = 0;
    result = f2(x + 1) - 1;
    if (result != x)
        reach_error();
    return result;
}

int f0(int x)
{
    int result = 0;
    result = f1(x + 1) - 1;
    if (result != x)
        reach_error();
    return result;
}

int main(void)
{
    seed = __VERIFIER_nondet_int();
    if (seed > 1000 || seed < -100)
        abort();
    int result = f0(seed);
    if (result != seed)
        reach_error();
    return 0;
}
