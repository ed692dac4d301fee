/* A client that asks for an address: discover, offer, request, acknowledge, renew, rebind. It uses an
   address only while its lease runs. */
extern unsigned char __VERIFIER_nondet_uchar(void);
extern int __VERIFIER_nondet_int(void);
extern unsigned int __VERIFIER_nondet_uint(void);
void reach_error(void) {}

enum state { INIT, SELECTING, REQUESTING, BOUND, RENEWING, REBINDING, REBOOT };
enum message { NO_MESSAGE, OFFER, ACK, NAK };

enum state state = INIT;
unsigned int address, offered;
int lease, spent;
int tries;
int lease_of_offer;

void drop(void)
{
    address = 0;
    lease = 0;
    spent = 0;
    state = INIT;
    tries = 0;
}

void on_offer(unsigned int given, int seconds)
{
    if (state != SELECTING)
        return;
    if (given == 0 || seconds < 60)
        return;
    offered = given;
    lease_of_offer = seconds > 3600 ? 3600 : seconds;
    state = REQUESTING;
    tries = 0;
}

void on_ack(void)
{
    switch (state) {
    case REQUESTING:
        address = offered;
        lease = lease_of_offer;
        spent = 0;
        state = BOUND;
        break;
    case RENEWING:
    case REBINDING:
        spent = 0;
        state = BOUND;
        break;
    default:
        break;
    }
}

void on_nak(void)
{
    if (state == REQUESTING || state == RENEWING || state == REBINDING)
        drop();
}

void on_time(int seconds)
{
    switch (state) {
    case INIT:
        state = SELECTING;
        tries = 0;
        break;
    case SELECTING:
    case REQUESTING:
        tries++;
        if (tries > 4)
            drop();
        break;
    case BOUND:
    case RENEWING:
    case REBINDING:
        spent += seconds;
        if (spent > lease)
            drop();
        else if (spent >= lease / 8 * 7)
            state = REBINDING;
        else if (spent >= lease / 2)
            state = RENEWING;
        break;
    default:
        break;
    }
}

int main(void)
{
    while (1) {
        switch (__VERIFIER_nondet_int()) {
        case OFFER: {
            unsigned int given = __VERIFIER_nondet_uint();
            int seconds = __VERIFIER_nondet_int();
            on_offer(given, seconds);
            break;
        }
        case ACK:
            on_ack();
            break;
        case NAK:
            on_nak();
            break;
        default: {
            unsigned char seconds = __VERIFIER_nondet_uchar();
            on_time(seconds);
        }
        }
        _Bool uses = state == BOUND || state == RENEWING || state == REBINDING;
        if (uses && address == 0)
            reach_error();
        if (!uses && address != 0)
            reach_error();
        if (uses && spent >= lease)
            reach_error();
    }
}
