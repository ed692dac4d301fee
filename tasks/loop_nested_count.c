/* Two nested loops whose bounds an input gives count what their product says. */
extern int __VERIFIER_nondet_int(void);
void reach_error(void) {}

int main(void)
{
    int rows = __VERIFIER_nondet_int();
    int columns = __VERIFIER_nondet_int();
    if (rows < 0 || columns < 0)
        return 0;
    if (rows > 6 || columns > 6)
        return 0;
    int cells = 0;
    for (int r = 0; r < rows; r++) {
        for (int c = 0; c < columns; c++) {
            if (r == 5 && c == 4)
                continue;
            cells++;
        }
    }
    int wanted = rows * columns;
    if (rows > 5 && columns > 4)
        wanted--;
    if (!(cells == wanted))
        reach_error();
    return 0;
}
