/* A queue of eight events between an interrupt and the main loop; what does not fit is counted. */
extern unsigned char __VERIFIER_nondet_uchar(void);
void reach_error(void) {}

enum event { NOTHING, KEY, TIMER, RADIO };
unsigned char queue[8];
unsigned char first, length;
unsigned int lost, posted, handled;

void post(unsigned char event)
{
    posted++;
    if (length == 8) {
        lost++;
        return;
    }
    queue[(first + length) % 8] = event;
    length++;
}

unsigned char take(void)
{
    if (length == 0)
        return NOTHING;
    unsigned char event = queue[first];
    first = (first + 1) % 8;
    length--;
    return event;
}

void interrupt(void)
{
    unsigned char cause = __VERIFIER_nondet_uchar();
    if (cause & 1)
        post(KEY);
    if (cause & 2)
        post(TIMER);
    if (cause & 4)
        post((cause & 24) == 24 ? NOTHING : RADIO);
}

int main(void)
{
    int rounds = 0;
    while (rounds < 6) {
        interrupt();
        unsigned char had = length;
        unsigned char event = take();
        if (event != NOTHING)
            handled++;
        if (had > 0 && event == NOTHING)
            reach_error();
        if (posted != handled + lost + length)
            reach_error();
        rounds++;
    }
    return 0;
}
