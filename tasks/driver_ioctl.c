/* A device that has to be opened, configured and started before it moves data; ioctl numbers
   come from outside. */
extern int __VERIFIER_nondet_int(void);
void reach_error(void) {}

enum command { OPEN = 17, CONFIGURE = 18, START = 33, TRANSFER = 34, STOP = 35, CLOSE = 49 };
enum state { CLOSED, OPENED, READY, RUNNING };

enum state state = CLOSED;
int rate;
int moved;

int do_open(void)
{
    if (state != CLOSED)
        return -1;
    state = OPENED;
    rate = 0;
    return 0;
}

int do_configure(int value)
{
    if (state != OPENED && state != READY)
        return -1;
    if (value < 100 || value > 4000)
        return -22;
    rate = value;
    state = READY;
    return 0;
}

int do_start(void)
{
    if (state != READY)
        return -1;
    moved = 0;
    state = RUNNING;
    return 0;
}

int do_transfer(void)
{
    if (state != RUNNING)
        return -1;
    if (!(rate >= 100))
        reach_error();
    moved += rate / 100;
    if (moved > 10000)
        moved = 10000;
    return moved;
}

int do_stop(void)
{
    if (state != RUNNING)
        return -1;
    state = READY;
    return 0;
}

int do_close(void)
{
    if (state == RUNNING)
        return -16;
    state = CLOSED;
    rate = 0;
    return 0;
}

int do_resume(void)
{
    if (state == CLOSED && moved > 0)
        return -5;
    return 0;
}

int ioctl(int command, int value)
{
    switch (command) {
    case OPEN: return do_open();
    case CONFIGURE: return do_configure(value);
    case START: return do_start();
    case TRANSFER: return do_transfer();
    case STOP: return do_stop();
    case CLOSE: return do_close();
    case 77: return do_resume();
    default: return -25;
    }
}

int main(void)
{
    while (1) {
        int command = __VERIFIER_nondet_int();
        int value = __VERIFIER_nondet_int();
        int result = ioctl(command, value);
        if (command == TRANSFER && result >= 0 && state != RUNNING)
            reach_error();
    }
}
