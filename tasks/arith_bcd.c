/* A counter in decimal digits, two of them a byte, beside one in binary. */
extern _Bool __VERIFIER_nondet_bool(void);
void reach_error(void) {}

unsigned char bcd;
unsigned char binary;

void up(void)
{
    if ((bcd & 0x0f) == 9)
        bcd = (bcd & 0xf0) + 0x10;
    else
        bcd++;
    if (bcd == 0xa0)
        bcd = 0;
    binary = binary == 99 ? 0 : binary + 1;
}

int main(void)
{
    while (1) {
        if (__VERIFIER_nondet_bool())
            up();
        if ((bcd >> 4) * 10 + (bcd & 15) != binary)
            reach_error();
    }
}
