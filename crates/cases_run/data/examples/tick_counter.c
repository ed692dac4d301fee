/* A timer that counts to its period: the bounds of its ticks suffice, no tick is told apart. */
extern void reach_error(void);

int main(void)
{
    int tick = 0;
    while (tick < 1000)
        tick = tick + 1;
    if (tick != 1000)
        reach_error();
    return 0;
}
