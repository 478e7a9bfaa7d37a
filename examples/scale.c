/* Readings scaled by a factor that is known at run time: each product is a call of a routine, which is not looked into. */
void scale(int *readings, int factor)
{
    for (int index = 0; index < 8; index++)
        readings[index] *= factor;
}
