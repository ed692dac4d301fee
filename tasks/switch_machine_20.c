/* A machine of 20 states, whose last one is the fault. */
extern int __VERIFIER_nondet_int(void);
extern void abort(void);
void reach_error(void) {}

int main(void)
{
    int state = 0;
    while (1) {
        int input = __VERIFIER_nondet_int();
        switch (state) {
        case 0:
            if (input < 37)
                state = 11;
            else if (input > 49)
                state = 4;
            else
                state = 14;
            break;
        case 1:
            if (input < 11)
                state = 7;
            else if (input > 16)
                state = 15;
            else
                state = 4;
            break;
        case 2:
            if (input < -31)
                state = 11;
            else if (input > -28)
                state = 10;
            else
                state = 17;
            break;
        case 3:
            if (input < -26)
                state = 4;
            else if (input > -25)
                state = 17;
            else
                state = 3;
            break;
        case 4:
            if (input < -35)
                state = 8;
            else if (input > -13)
                state = 1;
            else
                state = 16;
            break;
        case 5:
            if (input < -26)
                state = 6;
            else if (input > 7)
                state = 11;
            else
                state = 12;
            break;
        case 6:
            if (input < 1)
                state = 6;
            else if (input > 9)
                state = 17;
            else
                state = 16;
            break;
        case 7:
            if (input < -42)
                state = 9;
            else if (input > 48)
                state = 15;
            else
                state = 5;
            break;
        case 8:
            if (input < -11)
                state = 4;
            else if (input > 48)
                state = 4;
            else
                state = 8;
            break;
        case 9:
            if (input < 18)
                state = 0;
            else if (input > 31)
                state = 18;
            else
                state = 2;
            break;
        case 10:
            if (input < -36)
                state = 5;
            else if (input > -23)
                state = 10;
            else
                state = 8;
            break;
        case 11:
            if (input < -24)
                state = 7;
            else if (input > 42)
                state = 10;
            else
                state = 2;
            break;
        case 12:
            if (input < -11)
                state = 4;
            else if (input > 43)
                state = 8;
            else
                state = 8;
            break;
        case 13:
            if (input < -24)
                state = 3;
            else if (input > 14)
                state = 4;
            else
                state = 9;
            break;
        case 14:
            if (input < -14)
                state = 2;
            else if (input > 5)
                state = 15;
            else
                state = 1;
            break;
        case 15:
            if (input < -38)
                state = 16;
            else if (input > 10)
                state = 1;
            else
                state = 15;
            break;
        case 16:
            if (input < -4)
                state = 15;
            else if (input > 16)
                state = 12;
            else
                state = 16;
            break;
        case 17:
            if (input < -19)
                state = 3;
            else if (input > 45)
                state = 4;
            else
                state = 9;
            break;
        case 18:
            if (input < -27)
                state = 16;
            else if (input > 21)
                state = 17;
            else
                state = 13;
            break;
        default:
            reach_error();
        }
    }
}
