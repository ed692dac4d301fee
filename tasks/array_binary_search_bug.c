/* A binary search in a table of ten finds what is in it, and nothing else. */
extern int __VERIFIER_nondet_int(void);
void reach_error(void) {}

const int table[10] = { 2, 3, 5, 7, 11, 13, 17, 19, 23, 29 };

int find(int wanted)
{
    int low = 0, high = 9;
    while (low <= high) {
        int middle = (low + high) / 2;
        if (table[middle] == wanted)
            return middle;
        if (table[middle] < wanted)
            low = middle + 1;
        else
            high = middle - 2;
    }
    return -1;
}

int main(void)
{
    int wanted = __VERIFIER_nondet_int();
    int place = find(wanted);
    if (place >= 0 && table[place] != wanted)
        reach_error();
    if (place < 0)
        for (int i = 0; i < 10; i++)
            if (table[i] == wanted)
                reach_error();
    return 0;
}
