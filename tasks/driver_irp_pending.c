/* A request packet of a dispatch routine: it is completed once, and not touched after that. A lower
   driver may leave it pending; then an event has to come first. */
extern int __VERIFIER_nondet_int(void);
void reach_error(void) {}
void __VERIFIER_assert(int holds)
{
    if (!holds)
        reach_error();
}

enum status { SUCCESS = 0, PENDING = 259, FAILED = -1073741823 };

int completed;
_Bool pended;
_Bool event_set;
int customised;

void complete(void)
{
    __VERIFIER_assert(completed == 0);
    completed = 1;
}

int call_lower(void)
{
    int choice = __VERIFIER_nondet_int();
    switch (choice) {
    case 0:
        return SUCCESS;
    case 1:
        pended = 1;
        return PENDING;
    default:
        return FAILED;
    }
}

void completion_routine(void)
{
    if (pended)
        event_set = 1;
}

int dispatch(int minor)
{
    int status;
    completed = 0;
    pended = 0;
    event_set = 0;
    customised = minor;
    switch (minor) {
    case 0:
        status = call_lower();
        if (status == PENDING) {
            completion_routine();
            __VERIFIER_assert(event_set);
            status = SUCCESS;
        }
        complete();
        return status;
    case 2:
    case 5:
        complete();
        status = SUCCESS;
        break;
    case 3:
        status = call_lower();
        if (status == FAILED)
            complete();
        break;
    default:
        status = FAILED;
        complete();
    }
    if (status == FAILED)
        __VERIFIER_assert(completed == 1);
    return status;
}

int main(void)
{
    int tries = 0;
    while (tries < 3) {
        int minor = __VERIFIER_nondet_int();
        if (minor < 0)
            minor = 0;
        int status = dispatch(minor);
        if (status == SUCCESS && minor == 2 && completed != 1)
            reach_error();
        tries++;
    }
    return 0;
}
