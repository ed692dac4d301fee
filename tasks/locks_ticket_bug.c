/* A ticket lock: who comes draws a number, and is served when it is shown. Numbers wrap at 256. */
extern _Bool __VERIFIER_nondet_bool(void);
void reach_error(void) {}

typedef unsigned char u8;
u8 next_ticket;
u8 now_serving;
u8 waiting;
_Bool held;

int main(void)
{
    for (;;) {
        if (__VERIFIER_nondet_bool()) {
            if (waiting < 255 || held) {
                next_ticket++;
                waiting++;
            }
        } else if (held) {
            held = 0;
            now_serving++;
            waiting--;
        } else if (waiting > 0) {
            held = 1;
        }
        if ((u8) (next_ticket - now_serving) != waiting)
            reach_error();
        if (held && next_ticket == now_serving)
            reach_error();
    }
}
