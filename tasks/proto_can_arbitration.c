/* Three nodes send identifiers of four bits over a bus where 0 wins: the least identifier is on the
   bus in the end, and exactly its senders are left. */
extern unsigned char __VERIFIER_nondet_uchar(void);
void reach_error(void) {}

unsigned char id[3];
_Bool sending[3];

int main(void)
{
    for (int n = 0; n < 3; n++) {
        id[n] = __VERIFIER_nondet_uchar() & 15;
        sending[n] = 1;
    }
    unsigned char seen = 0;
    for (int bit = 3; bit >= 0; bit--) {
        _Bool level = 1;
        for (int n = 0; n < 3; n++)
            if (sending[n] && !(id[n] >> bit & 1))
                level = 0;
        for (int n = 0; n < 3; n++)
            if (sending[n] && (id[n] >> bit & 1) != level)
                sending[n] = 0;
        seen = seen << 1 | level;
    }
    for (int n = 0; n < 3; n++) {
        if (seen > id[n])
            reach_error();
        if (sending[n] != (id[n] == seen))
            reach_error();
    }
    return 0;
}
