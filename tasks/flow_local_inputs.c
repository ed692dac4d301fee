/* Objects without initializers take any value: two of them may be equal, and one large. */
void reach_error(void) {}

int main(void)
{
    int first;
    unsigned char second;
    int sum = 0;
    for (int i = 0; i < 3; i++) {
        int given;
        if (given < 0 || given > 10)
            return 0;
        sum += given;
    }
    if (first == second && sum == 29)
        reach_error();
    return 0;
}
