/* Two slots with images. A new image is tried once, and confirmed by itself; where it is not, the boot
   loader goes back to the old one. There is always one slot that boots, and no image older than the
   counter against a fall back is started. */
extern _Bool __VERIFIER_nondet_bool(void);
extern unsigned char __VERIFIER_nondet_uchar(void);
void reach_error(void) {}
void __VERIFIER_assert(int holds)
{
    if (!holds)
        reach_error();
}

enum slot_state { EMPTY, WRITING, WRITTEN, TRIED, GOOD, BROKEN };
typedef unsigned char u8;

u8 state[2] = { GOOD, EMPTY };
u8 version[2] = { 1, 0 };
u8 active;
u8 least_version = 1;
_Bool running;
u8 starts;

u8 other(u8 slot) { return slot == 0 ? 1 : 0; }

_Bool boots(u8 slot)
{
    if (version[slot] < least_version)
        return 0;
    return state[slot] == GOOD || state[slot] == WRITTEN;
}

void reboot(void)
{
    running = 0;
    starts = starts < 100 ? starts + 1 : 0;
    u8 spare = other(active);
    if (state[active] == TRIED) {
        state[active] = BROKEN;
        active = spare;
    } else if (state[spare] == WRITTEN && version[spare] > version[active]) {
        active = spare;
    }
    if (!boots(active)) {
        if (boots(other(active)))
            active = other(active);
        else
            reach_error();
    }
    if (state[active] == WRITTEN)
        state[active] = TRIED;
    running = 1;
}

int begin_update(u8 new_version)
{
    u8 spare = other(active);
    if (!running)
        return -1;
    if (state[active] != GOOD)
        return -2;
    if (new_version <= version[active] || new_version > 9)
        return -3;
    state[spare] = WRITING;
    version[spare] = new_version;
    return 0;
}

int end_update(_Bool is_signed)
{
    u8 spare = other(active);
    if (state[spare] != WRITING)
        return -1;
    if (!is_signed) {
        state[spare] = BROKEN;
        return -4;
    }
    state[spare] = WRITTEN;
    return 0;
}

int confirm(void)
{
    if (!running || state[active] != TRIED)
        return -1;
    state[active] = GOOD;
    if (version[active] > least_version)
        least_version = version[active];
    return 0;
}

int main(void)
{
    reboot();
    while (1) {
        switch (__VERIFIER_nondet_uchar() & 7) {
        case 0:
            reboot();
            break;
        case 1:
            begin_update(__VERIFIER_nondet_uchar());
            break;
        case 2:
            end_update(__VERIFIER_nondet_bool());
            break;
        case 3:
            confirm();
            break;
        default:
            break;
        }
        __VERIFIER_assert(running);
        __VERIFIER_assert(version[active] >= least_version);
        __VERIFIER_assert(state[active] == GOOD || state[active] == TRIED);
    }
}
