/* The states of one end of a connection; segments and calls come in any order. */
extern int __VERIFIER_nondet_int(void);
void reach_error(void) {}

enum state { CLOSED, LISTEN, SYN_SENT, SYN_RECEIVED, ESTABLISHED, FIN_WAIT_1, FIN_WAIT_2, CLOSE_WAIT,
             CLOSING, LAST_ACK, TIME_WAIT };
enum event { PASSIVE_OPEN, ACTIVE_OPEN, CLOSE, SYN, SYN_ACK, ACK, FIN, RST, TIMEOUT };

enum state now = CLOSED;
_Bool sent_syn, sent_fin, got_fin;

void forget(void)
{
    now = CLOSED;
    sent_syn = 0;
    sent_fin = 0;
    got_fin = 0;
}

void send_syn(void)
{
    if (sent_syn)
        reach_error();
    sent_syn = 1;
}

void send_fin(void)
{
    if (sent_fin)
        reach_error();
    if (!sent_syn)
        reach_error();
    sent_fin = 1;
}

void handle(int event)
{
    if (event == RST) {
        if (now != LISTEN)
            forget();
        return;
    }
    switch (now) {
    case CLOSED:
        if (event == PASSIVE_OPEN)
            now = LISTEN;
        if (event == ACTIVE_OPEN) {
            send_syn();
            now = SYN_SENT;
        }
        break;
    case LISTEN:
        if (event == SYN) {
            send_syn();
            now = SYN_RECEIVED;
        } else if (event == CLOSE) {
            forget();
        }
        break;
    case SYN_SENT:
        if (event == SYN_ACK)
            now = ESTABLISHED;
        else if (event == SYN)
            now = SYN_RECEIVED;
        else if (event == CLOSE)
            forget();
        break;
    case SYN_RECEIVED:
        if (event == ACK) {
            now = ESTABLISHED;
        } else if (event == CLOSE) {
            send_fin();
            now = FIN_WAIT_1;
        } else if (event == TIMEOUT) {
            now = LISTEN;
            ;
        }
        break;
    case ESTABLISHED:
        if (event == CLOSE) {
            send_fin();
            now = FIN_WAIT_1;
        } else if (event == FIN) {
            got_fin = 1;
            now = CLOSE_WAIT;
        }
        break;
    case FIN_WAIT_1:
        if (event == ACK) {
            now = FIN_WAIT_2;
        } else if (event == FIN) {
            got_fin = 1;
            now = CLOSING;
        }
        break;
    case FIN_WAIT_2:
        if (event == FIN) {
            got_fin = 1;
            now = TIME_WAIT;
        }
        break;
    case CLOSE_WAIT:
        if (event == CLOSE) {
            send_fin();
            now = LAST_ACK;
        }
        break;
    case CLOSING:
        if (event == ACK)
            now = TIME_WAIT;
        break;
    case LAST_ACK:
        if (event == ACK)
            forget();
        break;
    case TIME_WAIT:
        if (event == TIMEOUT)
            forget();
        break;
    }
}

int main(void)
{
    while (1) {
        int event = __VERIFIER_nondet_int();
        if (event < PASSIVE_OPEN || event > TIMEOUT)
            continue;
        handle(event);
        if (now == TIME_WAIT && !(sent_fin && got_fin))
            reach_error();
        if (now == CLOSED && (sent_syn || sent_fin))
            reach_error();
    }
}
