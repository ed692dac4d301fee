/* A word of five letters that is turned round twice is the word. */
extern char __VERIFIER_nondet_char(void);
void reach_error(void) {}

char word[5], copy[5];

void reverse(void)
{
    for (int i = 0; i < 5 / 2; i++) {
        char t = word[i];
        word[i] = word[4 - i];
        word[4 - i] = t;
    }
}

int main(void)
{
    for (int i = 0; i < 5; i++) {
        word[i] = __VERIFIER_nondet_char();
        copy[i] = word[i];
    }
    reverse();
    if (!(word[0] == copy[4] && word[2] == copy[2]))
        reach_error();
    reverse();
    for (int i = 0; i < 5; i++)
        if (word[i] != copy[i])
            reach_error();
    return 0;
}
