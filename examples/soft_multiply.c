/* A product without a multiply instruction, which this machine doesn't have: a loop over the bits of one factor. */
unsigned product(unsigned a, unsigned b)
{
    unsigned sum = 0;
    for (int bit = 0; bit < 32; bit++) {
        if (b & 1)
            sum += a;
        a <<= 1;
        b >>= 1;
    }
    return sum;
}

unsigned area(unsigned width, unsigned height)
{
    return product(width, height) + 1;
}
