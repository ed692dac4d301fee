/* A sliding window of four over numbers of three bits: no acknowledgement moves the base backwards or
   past what was sent. */
extern _Bool __VERIFIER_nondet_bool(void);
extern unsigned char __VERIFIER_nondet_uchar(void);
void reach_error(void) {}

typedef unsigned char u8;
u8 base, next;
u8 outstanding;

void send(void)
{
    if (outstanding < 4) {
        next = (next + 1) & 7;
        outstanding++;
    }
}

void acknowledge(u8 number)
{
    u8 ahead = (number - base) & 7;
    if (ahead == 0 || ahead > outstanding)
        return;
    base = number & 7;
    outstanding -= ahead;
}

int main(void)
{
    while (__VERIFIER_nondet_bool()) {
        if (__VERIFIER_nondet_bool())
            send();
        else
            acknowledge(__VERIFIER_nondet_uchar());
        if (((next - base) & 7) != outstanding)
            reach_error();
    }
    return 0;
}
