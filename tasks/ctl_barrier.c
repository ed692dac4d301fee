/* A car park with 20 places and two lanes; the counter of free places never leaves 0 to 20. */
extern int __VERIFIER_nondet_int(void);
void reach_error(void) {}

int free_places = 20;
_Bool in_up, out_up;

int main(void)
{
    while (1) {
        int sensor = __VERIFIER_nondet_int();
        switch (sensor) {
        case 1:
            if (free_places > 0)
                in_up = 1;
            break;
        case 2:
            if (in_up) {
                in_up = 0;
                free_places--;
            }
            break;
        case 3:
            if (free_places < 20)
                out_up = 1;
            break;
        case 4:
            if (out_up) {
                out_up = 0;
                if (free_places < 20)
                    free_places++;
            }
            break;
        default:
            break;
        }
        if (free_places < 0 || free_places > 20)
            reach_error();
    }
}
