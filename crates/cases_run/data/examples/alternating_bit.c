/* The alternating bit protocol over a channel that loses messages: the sender repeats a byte with its
   bit until the acknowledgement with this bit has come, the receiver takes a byte whose bit is the
   one that it waits for. What is received is what was sent, whatever is lost. */
extern int __VERIFIER_nondet_int(void);
extern void reach_error(void);

unsigned char payload[4] = { 3, 1, 4, 1 };
unsigned char received[4];
int sent, got;
_Bool sender_bit, receiver_bit;

_Bool arrives(void)
{
    return __VERIFIER_nondet_int() != 0;
}

void deliver(_Bool bit, unsigned char value)
{
    if (bit != receiver_bit)
        return;
    received[got++] = value;
    receiver_bit = !receiver_bit;
}

int main(void)
{
    while (sent < 4) {
        if (arrives())
            deliver(sender_bit, payload[sent]);
        if (receiver_bit != sender_bit && arrives()) {
            sender_bit = !sender_bit;
            sent++;
        }
    }
    for (int i = 0; i < 4; i++)
        if (received[i] != payload[i])
            reach_error();
    return 0;
}
