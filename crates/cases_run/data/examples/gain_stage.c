/* A measuring amplifier: its gain is set in steps, and a step more has to add the raw value once, in
   16 bits that wrap. That is a law of products, and what a search for clauses finds hardest. */
extern unsigned short __VERIFIER_nondet_ushort(void);
extern void abort(void);
extern void reach_error(void);

unsigned short history[4];
unsigned char next;

unsigned short scaled(unsigned short raw, unsigned short gain)
{
    return (unsigned int)raw * gain;
}

void record(unsigned short value)
{
    history[next % 4] = value;
    next++;
}

int main(void)
{
    unsigned short gain = __VERIFIER_nondet_ushort();
    if (gain == 65535)
        abort();                 /* no step above the last */
    for (int i = 0; i < 4; i++) {
        unsigned short raw = __VERIFIER_nondet_ushort();
        unsigned short low = scaled(raw, gain);
        unsigned short high = scaled(raw, gain + 1);
        if ((unsigned short)(high - low) != raw)
            reach_error();
        record(high);
    }
    return 0;
}
