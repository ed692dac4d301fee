/* 3n + 1 from each start up to 26: all of them come to 1 in at most 111 steps but 27, which is not
   among them. */
void reach_error(void) {}

int main(void)
{
    int longest = 0;
    for (int start = 1; start <= 27; start++) {
        int n = start, steps = 0;
        while (n != 1) {
            if (n % 2 == 0)
                n = n / 2;
            else
                n = 3 * n + 1;
            steps++;
        }
        if (steps > longest)
            longest = steps;
    }
    if (!(longest < 30))
        reach_error();
    return 0;
}
