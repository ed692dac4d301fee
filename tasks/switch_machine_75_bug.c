/* A machine of 75 states, whose last one is the fault. */
extern int __VERIFIER_nondet_int(void);
extern void abort(void);
void reach_error(void) {}

int main(void)
{
    int state = 0;
    while (1) {
        int input = __VERIFIER_nondet_int();
        switch (state) {
        case 0:
            if (input < -31)
                state = 57;
            else if (input > 10)
                state = 74;
            else
                state = 55;
            break;
        case 1:
            if (input < 2)
                state = 58;
            else if (input > 48)
                state = 5;
            else
                state = 65;
            break;
        case 2:
            if (input < -35)
                state = 60;
            else if (input > -18)
                state = 44;
            else
                state = 12;
            break;
        case 3:
            if (input < -48)
                state = 40;
            else if (input > 28)
                state = 10;
            else
                state = 32;
            break;
        case 4:
            if (input < 4)
                state = 35;
            else if (input > 47)
                state = 63;
            else
                state = 44;
            break;
        case 5:
            if (input < -48)
                state = 62;
            else if (input > 8)
                state = 34;
            else
                state = 52;
            break;
        case 6:
            if (input < -23)
                state = 3;
            else if (input > -7)
                state = 48;
            else
                state = 69;
            break;
        case 7:
            if (input < -22)
                state = 73;
            else if (input > 7)
                state = 59;
            else
                state = 25;
            break;
        case 8:
            if (input < 16)
                state = 16;
            else if (input > 20)
                state = 25;
            else
                state = 18;
            break;
        case 9:
            if (input < -26)
                state = 38;
            else if (input > 9)
                state = 63;
            else
                state = 21;
            break;
        case 10:
            if (input < -38)
                state = 59;
            else if (input > 14)
                state = 2;
            else
                state = 39;
            break;
        case 11:
            if (input < -37)
                state = 7;
            else if (input > -12)
                state = 8;
            else
                state = 7;
            break;
        case 12:
            if (input < -45)
                state = 34;
            else if (input > 47)
                state = 41;
            else
                state = 24;
            break;
        case 13:
            if (input < 21)
                state = 7;
            else if (input > 31)
                state = 11;
            else
                state = 52;
            break;
        case 14:
            if (input < -20)
                state = 15;
            else if (input > 0)
                state = 39;
            else
                state = 46;
            break;
        case 15:
            if (input < -19)
                state = 66;
            else if (input > 46)
                state = 14;
            else
                state = 59;
            break;
        case 16:
            if (input < -40)
                state = 37;
            else if (input > 31)
                state = 37;
            else
                state = 72;
            break;
        case 17:
            if (input < -31)
                state = 27;
            else if (input > 49)
                state = 31;
            else
                state = 48;
            break;
        case 18:
            if (input < 21)
                state = 0;
            else if (input > 34)
                state = 3;
            else
                state = 38;
            break;
        case 19:
            if (input < 16)
                state = 41;
            else if (input > 36)
                state = 56;
            else
                state = 37;
            break;
        case 20:
            if (input < -42)
                state = 2;
            else if (input > 22)
                state = 67;
            else
                state = 20;
            break;
        case 21:
            if (input < -30)
                state = 70;
            else if (input > 27)
                state = 70;
            else
                state = 56;
            break;
        case 22:
            if (input < -45)
                state = 1;
            else if (input > 39)
                state = 34;
            else
                state = 71;
            break;
        case 23:
            if (input < -30)
                state = 40;
            else if (input > -3)
                state = 23;
            else
                state = 45;
            break;
        case 24:
            if (input < -45)
                state = 33;
            else if (input > -37)
                state = 54;
            else
                state = 63;
            break;
        case 25:
            if (input < -47)
                state = 62;
            else if (input > -18)
                state = 15;
            else
                state = 50;
            break;
        case 26:
            if (input < -37)
                state = 33;
            else if (input > -29)
                state = 46;
            else
                state = 65;
            break;
        case 27:
            if (input < -25)
                state = 65;
            else if (input > 39)
                state = 59;
            else
                state = 44;
            break;
        case 28:
            if (input < -4)
                state = 12;
            else if (input > 36)
                state = 36;
            else
                state = 49;
            break;
        case 29:
            if (input < -12)
                state = 50;
            else if (input > 34)
                state = 42;
            else
                state = 2;
            break;
        case 30:
            if (input < -43)
                state = 64;
            else if (input > 23)
                state = 68;
            else
                state = 62;
            break;
        case 31:
            if (input < -18)
                state = 41;
            else if (input > 27)
                state = 47;
            else
                state = 52;
            break;
        case 32:
            if (input < 41)
                state = 9;
            else if (input > 49)
                state = 47;
            else
                state = 72;
            break;
        case 33:
            if (input < 36)
                state = 16;
            else if (input > 48)
                state = 72;
            else
                state = 3;
            break;
        case 34:
            if (input < -37)
                state = 51;
            else if (input > -28)
                state = 64;
            else
                state = 71;
            break;
        case 35:
            if (input < -31)
                state = 36;
            else if (input > -8)
                state = 24;
            else
                state = 45;
            break;
        case 36:
            if (input < -1)
                state = 57;
            else if (input > 34)
                state = 24;
            else
                state = 18;
            break;
        case 37:
            if (input < -39)
                state = 67;
            else if (input > 5)
                state = 31;
            else
                state = 4;
            break;
        case 38:
            if (input < -25)
                state = 54;
            else if (input > -14)
                state = 56;
            else
                state = 42;
            break;
        case 39:
            if (input < -4)
                state = 61;
            else if (input > 17)
                state = 26;
            else
                state = 0;
            break;
        case 40:
            if (input < -45)
                state = 55;
            else if (input > 28)
                state = 45;
            else
                state = 10;
            break;
        case 41:
            if (input < -18)
                state = 46;
            else if (input > 29)
                state = 19;
            else
                state = 19;
            break;
        case 42:
            if (input < -36)
                state = 32;
            else if (input > 37)
                state = 27;
            else
                state = 32;
            break;
        case 43:
            if (input < 12)
                state = 62;
            else if (input > 49)
                state = 54;
            else
                state = 63;
            break;
        case 44:
            if (input < -49)
                state = 70;
            else if (input > 28)
                state = 23;
            else
                state = 49;
            break;
        case 45:
            if (input < -46)
                state = 18;
            else if (input > 31)
                state = 51;
            else
                state = 15;
            break;
        case 46:
            if (input < -30)
                state = 44;
            else if (input > 22)
                state = 31;
            else
                state = 27;
            break;
        case 47:
            if (input < -41)
                state = 1;
            else if (input > 37)
                state = 68;
            else
                state = 46;
            break;
        case 48:
            if (input < -40)
                state = 64;
            else if (input > 2)
                state = 61;
            else
                state = 35;
            break;
        case 49:
            if (input < -4)
                state = 60;
            else if (input > 40)
                state = 27;
            else
                state = 47;
            break;
        case 50:
            if (input < -38)
                state = 17;
            else if (input > 14)
                state = 69;
            else
                state = 43;
            break;
        case 51:
            if (input < -48)
                state = 57;
            else if (input > 43)
                state = 5;
            else
                state = 26;
            break;
        case 52:
            if (input < -23)
                state = 50;
            else if (input > 28)
                state = 34;
            else
                state = 39;
            break;
        case 53:
            if (input < -50)
                state = 4;
            else if (input > -12)
                state = 20;
            else
                state = 9;
            break;
        case 54:
            if (input < -49)
                state = 49;
            else if (input > 13)
                state = 30;
            else
                state = 41;
            break;
        case 55:
            if (input < -9)
                state = 22;
            else if (input > 17)
                state = 72;
            else
                state = 65;
            break;
        case 56:
            if (input < -11)
                state = 2;
            else if (input > 26)
                state = 24;
            else
                state = 60;
            break;
        case 57:
            if (input < 30)
                state = 66;
            else if (input > 46)
                state = 46;
            else
                state = 43;
            break;
        case 58:
            if (input < -27)
                state = 23;
            else if (input > 24)
                state = 42;
            else
                state = 66;
            break;
        case 59:
            if (input < -40)
                state = 19;
            else if (input > 43)
                state = 6;
            else
                state = 7;
            break;
        case 60:
            if (input < -7)
                state = 47;
            else if (input > 13)
                state = 24;
            else
                state = 34;
            break;
        case 61:
            if (input < -9)
                state = 21;
            else if (input > 35)
                state = 20;
            else
                state = 25;
            break;
        case 62:
            if (input < -44)
                state = 23;
            else if (input > -10)
                state = 48;
            else
                state = 15;
            break;
        case 63:
            if (input < -44)
                state = 67;
            else if (input > 28)
                state = 37;
            else
                state = 60;
            break;
        case 64:
            if (input < -28)
                state = 54;
            else if (input > -14)
                state = 26;
            else
                state = 20;
            break;
        case 65:
            if (input < -41)
                state = 9;
            else if (input > 4)
                state = 49;
            else
                state = 16;
            break;
        case 66:
            if (input < -49)
                state = 46;
            else if (input > -30)
                state = 17;
            else
                state = 59;
            break;
        case 67:
            if (input < -6)
                state = 28;
            else if (input > -3)
                state = 35;
            else
                state = 25;
            break;
        case 68:
            if (input < -27)
                state = 3;
            else if (input > -25)
                state = 66;
            else
                state = 56;
            break;
        case 69:
            if (input < -9)
                state = 2;
            else if (input > 11)
                state = 51;
            else
                state = 14;
            break;
        case 70:
            if (input < -10)
                state = 15;
            else if (input > 43)
                state = 19;
            else
                state = 9;
            break;
        case 71:
            if (input < -20)
                state = 68;
            else if (input > -4)
                state = 6;
            else
                state = 44;
            break;
        case 72:
            if (input < 4)
                state = 6;
            else if (input > 16)
                state = 27;
            else
                state = 23;
            break;
        case 73:
            if (input < -27)
                state = 17;
            else if (input > -9)
                state = 8;
            else
                state = 58;
            break;
        default:
            reach_error();
        }
    }
}
