/* Blinds with a wind guard: after wind they have to be up before they may go down. */
extern unsigned char __VERIFIER_nondet_uchar(void);
extern int __VERIFIER_nondet_int(void);
void reach_error(void) {}

int position = 100;
int wind;
int target = 100;

int main(void)
{
    while (1) {
        unsigned char speed = __VERIFIER_nondet_uchar();
        if (speed > 60) {
            wind = 3;
            target = 100;
        } else if (wind > 0) {
            wind--;
        }
        int asked = __VERIFIER_nondet_int();
        if (asked >= 0 && asked <= 100)
            target = asked;
        if (position < target)
            position += 20;
        else if (position > target)
            position -= 20;
        if (wind == 3 && position < 40)
            reach_error();
    }
}
