/* A ring of six bytes: what is read was written, in order. Numbers that count up stand for the data. */
extern _Bool __VERIFIER_nondet_bool(void);
void reach_error(void) {}

unsigned char ring[6];
unsigned char head, tail, size;
unsigned char written, read;

void put(void)
{
    if (size == 6)
        return;
    ring[head] = written;
    written++;
    head = head == 5 ? 0 : head + 1;
    size++;
}

void get(void)
{
    if (size == 0)
        return;
    if (ring[tail] != read)
        reach_error();
    read++;
    tail = tail == 5 ? 0 : tail + 1;
    size--;
}

int main(void)
{
    int puts = 0;
    while (puts < 30) {
        if (__VERIFIER_nondet_bool()) {
            put();
            puts++;
        } else {
            get();
        }
    }
    return 0;
}
