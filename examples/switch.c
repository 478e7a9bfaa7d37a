/* A command interpreter: a switch over seven commands, which the compiler makes a jump through a table. */
int interpret(unsigned command, int argument)
{
    switch (command) {
    case 0: return argument + 3;
    case 1: return argument - 17;
    case 2: return argument << 4;
    case 3: return argument ^ 0x55;
    case 4: return argument >> 3;
    case 5: return -argument;
    case 6: return argument & 0xff0;
    default: return 0;
    }
}
