/* A proportional and integral controller over eight channels: one loop with a counter. */
static int sums[8];

static int limited(int value, int most)
{
    if (value > most)
        return most;
    if (value < -most)
        return -most;
    return value;
}

void control(const int *wanted, const int *measured, int *command)
{
    for (int channel = 0; channel < 8; channel++) {
        int error = wanted[channel] - measured[channel];
        sums[channel] = limited(sums[channel] + error, 10000);
        command[channel] = limited(4 * error + (sums[channel] >> 3), 2047);
    }
}
