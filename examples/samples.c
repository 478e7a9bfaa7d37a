/* A function that returns a structure: its caller keeps room for it, and a word behind the call says how much. */
struct sample {
    int x, y, z;
    unsigned time;
};

__attribute__((noinline)) static struct sample sampled(const int *raw, unsigned time)
{
    struct sample result = { raw[0] << 2, raw[1] << 2, raw[2] << 2, time };
    return result;
}

int largest(const int *raw, unsigned time)
{
    struct sample it = sampled(raw, time);
    int most = it.x;
    if (it.y > most)
        most = it.y;
    if (it.z > most)
        most = it.z;
    return most + (int)(it.time & 1);
}
