/* Code that has no bound as it stands, one function for each common reason. */
#define READY (*(volatile unsigned *)0x01f800e8)

struct node {
    const struct node *left, *right;
    int key;
};

/* a function that calls itself */
__attribute__((noipa)) int count(const struct node *tree)
{
    if (!tree)
        return 0;
    int left = count(tree->left);
    return left + count(tree->right) + 1;
}

/* a loop that waits for a device */
__attribute__((noipa)) void wait_ready(void)
{
    while (!READY)
        ;
}

/* a loop that is entered at two places */
int two_entries(int start, volatile int *place)
{
    if (start)
        goto second;
first:
    *place += 1;
second:
    *place += 2;
    if (*place < 100)
        goto first;
    return *place;
}

/* a call through a pointer */
int dispatch(int (*handler)(int), int argument)
{
    return handler(argument) + 1;
}

/* a caller of one that has no bound */
void start(void)
{
    wait_ready();
    READY = 2;
}
