/* The sieve up to 50 finds fifteen primes. */
void reach_error(void) {}

_Bool composite[51];

int main(void)
{
    int primes = 0;
    for (int i = 2; i <= 50; i++) {
        if (composite[i])
            continue;
        primes++;
        for (int k = i * i; k < 49; k += i)
            composite[k] = 1;
    }
    if (primes != 15)
        reach_error();
    return 0;
}
