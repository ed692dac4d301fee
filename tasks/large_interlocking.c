/* A station with two tracks, a switch at either end and four signals. A signal shows green only while
   its route is set, locked and free, and no two routes that touch are set at once. */
extern int __VERIFIER_nondet_int(void);
void reach_error(void) {}

enum { NO_ROUTE, ROUTE_1, ROUTE_2, ROUTE_3, ROUTE_4 };
enum { LEFT, RIGHT };

_Bool set[5];
_Bool green[5];
_Bool occupied[4];          /* west, track 1, track 2, east */
unsigned char west_switch, east_switch;
_Bool west_locked, east_locked;

_Bool uses_west(int route) { return route == ROUTE_1 || route == ROUTE_2; }
int track_of(int route) { return route == ROUTE_1 || route == ROUTE_3 ? 1 : 2; }

_Bool conflict(int a, int b)
{
    if (a == b)
        return 0;
    if (uses_west(a) == uses_west(b))
        return 1;
    return track_of(a) == track_of(b);
}

_Bool is_free(int route)
{
    if (occupied[track_of(route)])
        return 0;
    return uses_west(route) ? !occupied[0] : !occupied[3];
}

void throw_switch(int route)
{
    unsigned char wanted = track_of(route) == 1 ? LEFT : RIGHT;
    if (uses_west(route)) {
        if (west_switch != wanted && west_locked)
            reach_error();
        west_switch = wanted;
        west_locked = 1;
    } else {
        if (east_switch != wanted && east_locked)
            reach_error();
        east_switch = wanted;
        east_locked = 1;
    }
}

void request(int route)
{
    if (set[route])
        return;
    for (int other = ROUTE_1; other <= ROUTE_4; other++)
        if (set[other] && conflict(route, other))
            return;
    if (!is_free(route))
        return;
    throw_switch(route);
    set[route] = 1;
    green[route] = 1;
}

void release(int route)
{
    if (!set[route])
        return;
    green[route] = 0;
    set[route] = 0;
    if (uses_west(route))
        west_locked = 0;
    else
        east_locked = 0;
}

void enter(int section)
{
    occupied[section] = 1;
    for (int route = ROUTE_1; route <= ROUTE_4; route++) {
        if (!green[route])
            continue;
        int entry = uses_west(route) ? 0 : 3;
        if (section == entry || section == track_of(route))
            green[route] = 0;
    }
}

int main(void)
{
    for (;;) {
        int what = __VERIFIER_nondet_int();
        if (what >= 1 && what <= 4)
            request(what);
        else if (what >= 11 && what <= 14)
            release(what - 10);
        else if (what >= 20 && what <= 23)
            enter(what - 20);
        else if (what >= 30 && what <= 33)
            occupied[what - 30] = 0;
        for (int a = ROUTE_1; a <= ROUTE_4; a++) {
            if (green[a] && !set[a])
                reach_error();
            if (green[a] && occupied[track_of(a)])
                reach_error();
        }
        if (set[ROUTE_1] && set[ROUTE_3])
            reach_error();
        if (set[ROUTE_2] && set[ROUTE_4])
            reach_error();
        if (set[ROUTE_1] && set[ROUTE_2])
            reach_error();
    }
}
