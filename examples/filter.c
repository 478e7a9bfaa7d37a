/* A filter of nine taps whose coefficients stand in a table of constants; products are made by shifts and sums. */
static const signed char shifts[9] = { 5, 4, 3, 2, 1, 2, 3, 4, 5 };

int filter(const int *samples)
{
    int sum = 0;
    for (int tap = 0; tap < 9; tap++)
        sum += samples[tap] >> shifts[tap];
    return sum;
}
