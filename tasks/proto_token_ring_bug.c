/* Five stations in a ring; one token. A station that fails loses the token, and a monitor makes a new
   one only after none was seen for six turns. */
extern _Bool __VERIFIER_nondet_bool(void);
extern int __VERIFIER_nondet_int(void);
void reach_error(void) {}

_Bool has[5];
_Bool alive[5] = { 1, 1, 1, 1, 1 };
unsigned char unseen;

int main(void)
{
    has[0] = 1;
    while (1) {
        int at = __VERIFIER_nondet_int();
        if (at < 0 || at > 4)
            continue;
        if (has[at] && alive[at]) {
            int next = at == 4 ? 0 : at + 1;
            has[at] = 0;
            if (alive[next])
                has[next] = 1;
        } else if (__VERIFIER_nondet_bool()) {
            if (alive[at]) {
                alive[at] = 0;
                has[at] = 0;
            } else {
                alive[at] = 1;
            }
        }
        int tokens = 0;
        for (int i = 0; i < 5; i++)
            tokens += has[i];
        if (tokens == 0)
            unseen++;
        else
            unseen = 0;
        if (unseen >= 6) {
            has[at] = 1;
            unseen = 0;
        }
        for (int i = 0; i < 5; i++)
            if (has[i] && !alive[i])
                reach_error();
        if (!(tokens <= 1))
        reach_error();
    }
}
