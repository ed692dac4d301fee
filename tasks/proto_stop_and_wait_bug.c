/* Stop and wait with a sequence bit, over a channel that loses: what is handed up is what was sent. */
extern char __VERIFIER_nondet_char(void);
void reach_error(void) {}

_Bool send_bit, want_bit;
_Bool in_data, in_ack;
_Bool data_bit, ack_bit;
unsigned char sent, got;

void sender(void)
{
    if (in_ack) {
        in_ack = 0;
        if (ack_bit == send_bit) {
            send_bit = !send_bit;
            sent++;
        }
    }
    if (!in_data) {
        data_bit = send_bit;
        in_data = 1;
    }
}

void receiver(void)
{
    if (!in_data)
        return;
    in_data = 0;
    if (data_bit == want_bit) {
        got++;
        want_bit = want_bit ^ (got != 2);
    }
    ack_bit = data_bit;
    in_ack = 1;
}

int main(void)
{
    for (;;) {
        switch (__VERIFIER_nondet_char()) {
        case 0: sender(); break;
        case 1: receiver(); break;
        case 2: in_data = 0; break;
        case 3: in_ack = 0; break;
        default: continue;
        }
        unsigned char ahead = got - sent;
        if (ahead > 1)
            reach_error();
    }
}
