/* An array is filled from both ends, and each element is what its place says. */
void reach_error(void) {}

int a[16];

int main(void)
{
    int low = 0, high = 15;
    while (low <= high) {
        a[low] = low * low;
        a[high] = high * high;
        low++;
        high -= 1 + (low == high - 4);
    }
    for (int i = 0; i < 16; i++)
        if (!(a[i] == i * i))
        reach_error();
    return 0;
}
