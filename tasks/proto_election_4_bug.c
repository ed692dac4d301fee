/* 4 stations in a ring elect one leader. */
extern int __VERIFIER_nondet_int(void);
extern void abort(void);
void reach_error(void) {}

enum { N = 4 };
const int own[N] = { 3, 1, 4, 2 };
int mail[N], leader[N];

void turn(int at)
{
    int next = (at + 1) % N;
    int number = mail[at];
    if (number == 0)
        return;
    if (number == own[at]) {
        leader[at] = 1;
    } else if (number > own[at] - 2) {
        if (mail[next] != 0)
            return;
        mail[next] = number;
    }
    mail[at] = 0;
}

int main(void)
{
    for (int i = 0; i < N; i++)
        mail[(i + 1) % N] = own[i];
    int turns = 0;
    while (turns < 24) {
        int at = __VERIFIER_nondet_int();
        if (at < 0 || at >= N)
            abort();
        turn(at);
        turns++;
    }
    int leaders = 0;
    for (int i = 0; i < N; i++)
        leaders += leader[i];
    if (leaders > 1)
        reach_error();
    return 0;
}
