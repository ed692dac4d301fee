/* A module that is loaded by the first open and unloaded by the last close. */
extern _Bool __VERIFIER_nondet_bool(void);
void reach_error(void) {}
void __VERIFIER_assert(int holds)
{
    if (!holds)
        reach_error();
}

int users;
_Bool loaded;
int memory;

int load(void)
{
    __VERIFIER_assert(!loaded);
    if (__VERIFIER_nondet_bool())
        return -12;
    memory = memory + 64;
    loaded = 1;
    return 0;
}

void unload(void)
{
    __VERIFIER_assert(loaded);
    memory = memory - 64;
    loaded = 0;
}

int open_device(void)
{
    if (users == 0) {
        int error = load();
        if (error)
            return error;
    }
    users++;
    return 0;
}

int close_device(void)
{
    if (users == 0)
        return -9;
    users--;
    if (users == 0)
        unload();
    return 0;
}

int main(void)
{
    int opened = 0;
    while (__VERIFIER_nondet_bool()) {
        if (__VERIFIER_nondet_bool()) {
            if (opened < 5 && open_device() == 0)
                opened++;
        } else if (opened > 0) {
            if (close_device() == 0)
                opened--;
        }
        if (opened > 0 && !loaded)
            reach_error();
        if (opened == 0 && memory != 0)
            reach_error();
    }
    return 0;
}
