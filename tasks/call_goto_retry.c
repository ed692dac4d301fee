/* A request with a budget of tries, written with gotos: the last error is told, or no error. */
extern int __VERIFIER_nondet_int(void);
void reach_error(void) {}

int tries, last;

int attempt(void)
{
    tries++;
    int word = __VERIFIER_nondet_int();
    if (word > 100)
        return 0;
    return word == 7 ? -7 : -1;
}

int request(void)
{
    int error;
    tries = 0;
retry:
    error = attempt();
    if (error == 0)
        goto done;
    last = error;
    if (error == -7)
        goto fatal;
    if (tries < 4)
        goto retry;
fatal:
    return last;
done:
    last = 0;
    return last;
}

int main(void)
{
    for (;;) {
        int result = request();
        if (!(tries >= 1 && tries <= 4))
        reach_error();
        if (result == -1 && tries != 4)
            reach_error();
        if (result > 0)
            reach_error();
    }
}
