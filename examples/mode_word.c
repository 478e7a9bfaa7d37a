/* The command word that puts an actuator into a mode: straight code that makes a constant. */
unsigned mode_word(unsigned mode)
{
    return mode | 0x5a5a8000u;
}
