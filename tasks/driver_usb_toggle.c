/* A bulk endpoint: the data toggle of host and device has to agree; a reset of the one without the
   other is the fault. */
extern _Bool __VERIFIER_nondet_bool(void);
extern unsigned char __VERIFIER_nondet_uchar(void);
void reach_error(void) {}

_Bool host, device;
int accepted, doubled;
int stalls;

void send(void)
{
    if (host == device) {
        device = !device;
        accepted++;
        if (!__VERIFIER_nondet_bool())
            return;
        host = !host;
    } else {
        doubled++;
        host = device;
    }
}

void clear_stall(void)
{
    stalls++;
    host = 0;
    if (stalls < 3)
        device = 0;
}

int main(void)
{
    while (accepted < 40) {
        _Bool in_step = host == device;
        int before = accepted;
        if (__VERIFIER_nondet_uchar() == 200)
            clear_stall();
        else
            send();
        if (stalls == 3 && doubled == 1 && in_step && accepted == before && host != device)
            reach_error();
    }
    return 0;
}
