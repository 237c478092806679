/* The number in a text, whatever stands before it, or -1. */
int atoi(const char *digits)
{
    int n = -1;

    for (; digits && *digits; digits++)
        if (*digits >= '0' && *digits <= '9')
            n = (n < 0 ? 0 : 10 * n) + *digits - '0';
    return n;
}
