/* The error comes after twelve hundred turns of a loop without an input. */
void reach_error(void) {}

int main(void)
{
    unsigned short tick = 0;
    unsigned int hash = 1;
    while (1) {
        tick++;
        hash = hash * 3 + tick;
        if (tick == 1200)
            if (hash != 0)
                reach_error();
    }
}
