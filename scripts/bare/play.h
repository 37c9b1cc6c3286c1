// What a home gives the player, and the player.
#include <stddef.h>
#include <stdint.h>

// Writes these bytes. Each home has its own.
void put(const uint8_t *bytes, size_t count);

// Plays a script: a call of bare.h in each line, and prints what it did.
void play(const uint8_t *script, size_t size);
