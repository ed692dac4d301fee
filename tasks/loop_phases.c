/* A loop of two phases: up to fifty, then down; the second counter follows the turning point. */
void reach_error(void) {}

int main(void)
{
    int x = 0, y = 50;
    while (x < 100) {
        x = x + 1;
        if (x > 50)
            y = y + 1;
    }
    if (y != 100)
        reach_error();
    return 0;
}
