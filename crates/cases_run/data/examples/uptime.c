/* A tick count of milliseconds since the start, in a long, and a watchdog that asks once a day
   whether time went on. Where a long has 32 bits, the count is below zero on day 25. */
extern void reach_error(void);

const long day = 24L * 60 * 60 * 1000;
long now;

_Bool went_on(long before)
{
    return now > before;
}

int main(void)
{
    for (int days = 0; days < 30; days++) {
        long before = now;
        now += day;
        if (!went_on(before))
            reach_error();
    }
    return 0;
}
