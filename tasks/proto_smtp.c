/* A session of mail: a message is taken after a sender and at least one receiver. */
extern unsigned char __VERIFIER_nondet_uchar(void);
void reach_error(void) {}
void __VERIFIER_assert(int holds)
{
    if (!holds)
        reach_error();
}

typedef enum { NONE, GREETED, MAIL, RCPT, DATA } phase_t;
phase_t phase;
int receivers;
int taken;

int helo(void) { phase = GREETED; receivers = 0; return 250; }

int mail(void)
{
    if (phase != GREETED)
        return 503;
    phase = MAIL;
    receivers = 0;
    return 250;
}

int rcpt(void)
{
    if (phase != MAIL && phase != RCPT)
        return 503;
    if (receivers >= 100)
        return 452;
    receivers++;
    phase = RCPT;
    return 250;
}

int data(void)
{
    if (phase != RCPT)
        return 503;
    phase = DATA;
    return 354;
}

int dot(void)
{
    if (phase != DATA)
        return 500;
    __VERIFIER_assert(receivers > 0);
    __VERIFIER_assert(receivers <= 100);
    if (taken < 1000)
        taken++;
    phase = GREETED;
    return 250;
}

int rset(void)
{
    if (phase == NONE)
        return 250;
    phase = GREETED;
    receivers = 0;
    return 250;
}

int main(void)
{
    int replies = 0;
    while (replies < 1000000) {
        int code;
        switch (__VERIFIER_nondet_uchar()) {
        case 'H': code = helo(); break;
        case 'M': code = mail(); break;
        case 'R': code = rcpt(); break;
        case 'D': code = data(); break;
        case '.': code = dot(); break;
        case 'S': code = rset(); break;
        case 'Q': return 0;
        default: code = 500;
        }
        if (code == 354 && phase != DATA)
            reach_error();
        replies++;
    }
    return 0;
}
