/* A flash whose pages have to be erased before they are written; a page is 4 words here. */
extern _Bool __VERIFIER_nondet_bool(void);
extern int __VERIFIER_nondet_int(void);
void reach_error(void) {}
void __VERIFIER_assert(int holds)
{
    if (!holds)
        reach_error();
}

enum { PAGES = 3, WORDS = 4 };
_Bool written[12];
int erases[3];
_Bool unlocked;

void erase(int page)
{
    __VERIFIER_assert(unlocked);
    for (int i = 0; i < WORDS; i++)
        written[page * WORDS + i] = 0;
    if (erases[page] < 1000)
        erases[page]++;
}

int program_word(int place)
{
    if (!unlocked)
        return -1;
    if (written[place]) {
        erase(place / WORDS);
    }
    __VERIFIER_assert(!written[place]);
    written[place] = 1;
    return 0;
}

int main(void)
{
    while (1) {
        int place = __VERIFIER_nondet_int();
        unlocked = __VERIFIER_nondet_bool();
        if (place < 0 || place >= PAGES * WORDS)
            continue;
        program_word(place);
    }
}
