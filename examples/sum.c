/* The sum of ten readings: one loop, whose counter bounds it. */
int sum(const int *readings)
{
    int total = 0;
    for (int index = 0; index < 10; index++)
        total += readings[index];
    return total;
}
