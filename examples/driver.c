/* A driver of a serial device: nested calls, and a delay that is called with two lengths, and with one that the device gives. */
#define STATUS (*(volatile unsigned *)0x01f800e8)
#define DATA (*(volatile unsigned *)0x01f800e0)

__attribute__((noipa)) static void delay(int turns)
{
    for (int turn = turns; turn != 0; turn--)
        __asm__ volatile("nop");
}

__attribute__((noipa)) static unsigned send(unsigned byte)
{
    while (!(STATUS & 4))
        ;
    DATA = byte;
    delay(3);
    return STATUS;
}

__attribute__((noipa)) static unsigned reset(void)
{
    STATUS = 1;
    delay(40);
    return STATUS;
}

unsigned announce(unsigned code)
{
    unsigned status = reset();
    status |= send(0x7e);
    status |= send(code);
    status |= send(code >> 8);
    return status | send(0x7e);
}

unsigned hold(void)
{
    delay((int)DATA);
    return STATUS;
}
