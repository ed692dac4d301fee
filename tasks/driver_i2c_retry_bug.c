/* A transfer over I2C with at most three tries; the bus is released whatever happens. */
extern _Bool __VERIFIER_nondet_bool(void);
extern int __VERIFIER_nondet_int(void);
void reach_error(void) {}

_Bool bus_busy;
int starts, stops;

_Bool start(void)
{
    if (bus_busy)
        reach_error();
    bus_busy = 1;
    starts++;
    return __VERIFIER_nondet_bool();
}

void stop(void)
{
    bus_busy = 0;
    stops++;
}

int send(unsigned char byte)
{
    if (byte == 0xff)
        return 0;
    return __VERIFIER_nondet_bool() ? 1 : 0;
}

int transfer(int length)
{
    int tries = 0;
    while (tries < 3) {
        tries++;
        if (!start()) {
            stop();
            continue;
        }
        int i = 0;
        while (i < length && send((unsigned char) i))
            i++;
        if (i == length) {
            stop();
            return length;
        }
        if (tries < 2)
            stop();
    }
    if (bus_busy && length > 2)
        stop();
    return -1;
}

int main(void)
{
    int rounds = 0;
    while (__VERIFIER_nondet_bool() && rounds < 30) {
        int length = __VERIFIER_nondet_int();
        if (length < 1 || length > 4)
            continue;
        transfer(length);
        if (bus_busy)
            reach_error();
        rounds++;
    }
    if (starts != stops)
        reach_error();
    return 0;
}
