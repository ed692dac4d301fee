/* A machine of 40 states, whose last one is the fault. */
extern int __VERIFIER_nondet_int(void);
extern void abort(void);
void reach_error(void) {}

int main(void)
{
    int state = 0;
    while (1) {
        int input = __VERIFIER_nondet_int();
        switch (state) {
        case 0:
            if (input < -47)
                state = 29;
            else if (input > 46)
                state = 37;
            else
                state = 33;
            break;
        case 1:
            if (input < -12)
                state = 2;
            else if (input > -4)
                state = 15;
            else
                state = 18;
            break;
        case 2:
            if (input < 0)
                state = 13;
            else if (input > 33)
                state = 8;
            else
                state = 22;
            break;
        case 3:
            if (input < 35)
                state = 17;
            else if (input > 48)
                state = 28;
            else
                state = 1;
            break;
        case 4:
            if (input < -9)
                state = 33;
            else if (input > 4)
                state = 8;
            else
                state = 3;
            break;
        case 5:
            if (input < 17)
                state = 12;
            else if (input > 42)
                state = 39;
            else
                state = 29;
            break;
        case 6:
            if (input < -46)
                state = 3;
            else if (input > 18)
                state = 11;
            else
                state = 38;
            break;
        case 7:
            if (input < 16)
                state = 20;
            else if (input > 29)
                state = 7;
            else
                state = 16;
            break;
        case 8:
            if (input < -18)
                state = 20;
            else if (input > 25)
                state = 9;
            else
                state = 32;
            break;
        case 9:
            if (input < -18)
                state = 33;
            else if (input > 10)
                state = 6;
            else
                state = 26;
            break;
        case 10:
            if (input < 31)
                state = 3;
            else if (input > 40)
                state = 20;
            else
                state = 21;
            break;
        case 11:
            if (input < -48)
                state = 14;
            else if (input > 19)
                state = 9;
            else
                state = 19;
            break;
        case 12:
            if (input < -23)
                state = 10;
            else if (input > 17)
                state = 33;
            else
                state = 19;
            break;
        case 13:
            if (input < -45)
                state = 18;
            else if (input > 25)
                state = 29;
            else
                state = 10;
            break;
        case 14:
            if (input < -4)
                state = 37;
            else if (input > 23)
                state = 13;
            else
                state = 31;
            break;
        case 15:
            if (input < -14)
                state = 27;
            else if (input > 42)
                state = 33;
            else
                state = 4;
            break;
        case 16:
            if (input < -36)
                state = 10;
            else if (input > 46)
                state = 37;
            else
                state = 13;
            break;
        case 17:
            if (input < -46)
                state = 38;
            else if (input > 25)
                state = 37;
            else
                state = 0;
            break;
        case 18:
            if (input < 15)
                state = 5;
            else if (input > 21)
                state = 29;
            else
                state = 39;
            break;
        case 19:
            if (input < -47)
                state = 19;
            else if (input > 23)
                state = 7;
            else
                state = 12;
            break;
        case 20:
            if (input < -48)
                state = 15;
            else if (input > -11)
                state = 29;
            else
                state = 29;
            break;
        case 21:
            if (input < -35)
                state = 6;
            else if (input > -17)
                state = 30;
            else
                state = 21;
            break;
        case 22:
            if (input < -29)
                state = 39;
            else if (input > 48)
                state = 29;
            else
                state = 18;
            break;
        case 23:
            if (input < -27)
                state = 34;
            else if (input > 25)
                state = 36;
            else
                state = 15;
            break;
        case 24:
            if (input < -47)
                state = 4;
            else if (input > 22)
                state = 2;
            else
                state = 9;
            break;
        case 25:
            if (input < -48)
                state = 38;
            else if (input > 43)
                state = 24;
            else
                state = 11;
            break;
        case 26:
            if (input < -5)
                state = 28;
            else if (input > 47)
                state = 6;
            else
                state = 26;
            break;
        case 27:
            if (input < -25)
                state = 12;
            else if (input > -7)
                state = 37;
            else
                state = 1;
            break;
        case 28:
            if (input < 2)
                state = 26;
            else if (input > 27)
                state = 30;
            else
                state = 33;
            break;
        case 29:
            if (input < -46)
                state = 15;
            else if (input > 11)
                state = 14;
            else
                state = 28;
            break;
        case 30:
            if (input < 37)
                state = 12;
            else if (input > 45)
                state = 10;
            else
                state = 10;
            break;
        case 31:
            if (input < -28)
                state = 19;
            else if (input > -13)
                state = 16;
            else
                state = 5;
            break;
        case 32:
            if (input < -47)
                state = 11;
            else if (input > 11)
                state = 21;
            else
                state = 10;
            break;
        case 33:
            if (input < -38)
                state = 15;
            else if (input > -19)
                state = 3;
            else
                state = 15;
            break;
        case 34:
            if (input < 7)
                state = 11;
            else if (input > 11)
                state = 3;
            else
                state = 32;
            break;
        case 35:
            if (input < -17)
                state = 15;
            else if (input > 43)
                state = 13;
            else
                state = 26;
            break;
        case 36:
            if (input < -21)
                state = 27;
            else if (input > 11)
                state = 30;
            else
                state = 19;
            break;
        case 37:
            if (input < 7)
                state = 19;
            else if (input > 26)
                state = 32;
            else
                state = 15;
            break;
        case 38:
            if (input < -8)
                state = 2;
            else if (input > -1)
                state = 25;
            else
                state = 2;
            break;
        default:
            reach_error();
        }
    }
}
