/* The set point of a controller: straight code of additions. */
int set_point(int base, int trim, int bias)
{
    return base + trim + bias + 0x12345;
}
