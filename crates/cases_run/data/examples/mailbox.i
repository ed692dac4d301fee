# 0 "examples/mailbox.c"
# 0 "<built-in>"
# 0 "<command-line>"
# 1 "examples/mailbox.c"



# 1 "include/assert.h" 1
# 11 "include/assert.h"
void reach_error(void);
# 5 "examples/mailbox.c" 2
# 1 "include/limits.h" 1
# 6 "examples/mailbox.c" 2
# 1 "include/stdbool.h" 1
# 7 "examples/mailbox.c" 2
# 1 "include/verifier.h" 1




void reach_error(void);
_Bool __VERIFIER_nondet_bool(void);
char __VERIFIER_nondet_char(void);
unsigned char __VERIFIER_nondet_uchar(void);
short __VERIFIER_nondet_short(void);
unsigned short __VERIFIER_nondet_ushort(void);
int __VERIFIER_nondet_int(void);
unsigned int __VERIFIER_nondet_uint(void);
long __VERIFIER_nondet_long(void);
unsigned long __VERIFIER_nondet_ulong(void);
long long __VERIFIER_nondet_longlong(void);
unsigned long long __VERIFIER_nondet_ulonglong(void);
# 8 "examples/mailbox.c" 2




static unsigned char box[3] = { 255, 255, 255 };
static unsigned char pending;

static _Bool post(unsigned char message)
{
    for (int i = 0; i < 3; i++) {
        if (box[i] == 255) {
            box[i] = message;
            pending++;
            return 1;
        }
    }
    return 0;
}

static void complete(int i)
{
    if (box[i] != 255) {
        box[i] = 255;
        pending--;
    }
}

static void cancel(int i)
{
    box[i] = 255;
    pending--;
}

int main(void)
{
    while (__VERIFIER_nondet_bool()) {
        unsigned char event = __VERIFIER_nondet_uchar();
        unsigned char message = __VERIFIER_nondet_uchar();
        int i = message % 3;
        if (event == 0) {
            if (message < 255)
                post(message);
        } else if (event == 1) {
            complete(i);
        } else {
            cancel(i);
        }
        ((pending <= 3) ? (void)0 : reach_error());
    }
    return 0;
}
