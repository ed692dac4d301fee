# 0 "examples/debounce.c"
# 0 "<built-in>"
# 0 "<command-line>"
# 1 "examples/debounce.c"



# 1 "include/assert.h" 1
# 11 "include/assert.h"
void reach_error(void);
# 5 "examples/debounce.c" 2
# 1 "include/stdbool.h" 1
# 6 "examples/debounce.c" 2
# 1 "include/verifier.h" 1




void reach_error(void);
_Bool __VERIFIER_nondet_bool(void);
char __VERIFIER_nondet_char(void);
unsigned char __VERIFIER_nondet_uchar(void);
short __VERIFIER_nondet_short(void);
unsigned short __VERIFIER_nondet_ushort(void);
int __VERIFIER_nondet_int(void);
unsigned int __VERIFIER_nondet_uint(void);
long __VERIFIER_nondet_long(void);
unsigned long __VERIFIER_nondet_ulong(void);
long long __VERIFIER_nondet_longlong(void);
unsigned long long __VERIFIER_nondet_ulonglong(void);
# 7 "examples/debounce.c" 2




static unsigned char count[2];
static _Bool pressed[2];
static short held;


static _Bool sample(int key, _Bool down)
{
    if (down) {
        if (count[key] < 2)
            count[key]++;
    } else if (count[key] > 0) {
        count[key]--;
    }
    if (count[key] == 2 && !pressed[key]) {
        pressed[key] = 1;
        held++;
        return 1;
    }
    if (count[key] == 0 && pressed[key]) {
        pressed[key] = 0;
        held--;
    }
    return 0;
}

int main(void)
{
    for (;;) {
        for (int key = 0; key < 2; key++) {
            _Bool before = pressed[key];
            _Bool strokes = sample(key, __VERIFIER_nondet_bool());
            ((count[key] <= 2) ? (void)0 : reach_error());
            ((!strokes || (!before && pressed[key])) ? (void)0 : reach_error());
        }
        ((held == pressed[0] + pressed[1]) ? (void)0 : reach_error());
    }
}
