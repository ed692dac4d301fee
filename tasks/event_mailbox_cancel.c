/* Mails of a task are counted; a cancel of an empty box counts down from 0. */
extern int __VERIFIER_nondet_int(void);
void reach_error(void) {}

unsigned char count;
unsigned int sent, gone;

int main(void)
{
    for (;;) {
        switch (__VERIFIER_nondet_int()) {
        case 1:
            if (count < 4) {
                count++;
                sent++;
            }
            break;
        case 2:
            if (count > 0) {
                count--;
                gone++;
            }
            break;
        case 9:
            count--;
            gone++;
            break;
        default:
            break;
        }
        if (count > 4)
            reach_error();
    }
}
