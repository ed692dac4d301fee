/* A driver of a sensor on a shared bus. The bus is taken for a transfer and given back behind it;
   a transfer whose checksum does not fit is tried again, three times in all. */
extern unsigned char __VERIFIER_nondet_uchar(void);
extern _Bool __VERIFIER_nondet_bool(void);
extern void reach_error(void);

_Bool taken;             /* does this driver hold the bus? */
unsigned char frame[3];  /* register, value, checksum */

void take_bus(void)
{
    if (taken)
        reach_error();   /* it would wait for itself, for ever */
    taken = 1;
}

void give_bus(void)
{
    if (!taken)
        reach_error();   /* it gives away what another one holds */
    taken = 0;
}

/* Reads a frame; 0 where a byte does not come in time. */
_Bool receive(void)
{
    for (int i = 0; i < 3; i++) {
        if (__VERIFIER_nondet_bool())
            return 0;
        frame[i] = __VERIFIER_nondet_uchar();
    }
    return 1;
}

/* The sensor's value, or -1 where three transfers failed. */
int read_sensor(void)
{
    for (int attempt = 0; attempt < 3; attempt++) {
        take_bus();
        if (!receive())
            continue;    /* the bug: the bus is still taken */
        give_bus();
        if ((unsigned char)(frame[0] ^ frame[1]) == frame[2])
            return frame[1];
    }
    return -1;
}

int main(void)
{
    int alarms = 0;
    for (int second = 0; second < 60; second++) {
        int value = read_sensor();
        if (value < 0 || value > 200)
            alarms++;
    }
    return alarms;
}
