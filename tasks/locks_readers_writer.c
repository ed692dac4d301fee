/* Many readers or one writer. A writer that waits keeps new readers out. */
extern _Bool __VERIFIER_nondet_bool(void);
extern int __VERIFIER_nondet_int(void);
void reach_error(void) {}

enum limit { MOST_READERS = 6 };
int readers;
int writers;
_Bool waits;

void begin_read(void)
{
    if (writers == 0 && !waits && readers < MOST_READERS)
        readers++;
}

void end_read(void)
{
    if (readers > 0)
        readers--;
}

void begin_write(void)
{
    if (readers == 0 && writers == 0) {
        writers = 1;
        waits = 0;
    } else {
        waits = 1;
    }
}

void end_write(void)
{
    writers = 0;
}

int main(void)
{
    while (__VERIFIER_nondet_bool()) {
        switch (__VERIFIER_nondet_int() & 3) {
        case 0: begin_read(); break;
        case 1: end_read(); break;
        case 2: begin_write(); break;
        default: end_write();
        }
        if (writers != 0 && readers != 0)
            reach_error();
        if (readers < 0 || readers > MOST_READERS)
            reach_error();
    }
    return 0;
}
