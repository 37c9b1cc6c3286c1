// The home with the C library.
#include "play.h"
#include <stdio.h>

static uint8_t script[1 << 20];

void put(const uint8_t *bytes, size_t count)
{
    fwrite(bytes, 1, count, stdout);
}

int main(void)
{
    play(script, fread(script, 1, sizeof script, stdin));
    return fflush(stdout) != 0;
}
