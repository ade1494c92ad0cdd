#include "pauses.h"

#include <sys/random.h>
#include <sys/types.h>

/* Milliseconds of the first pause and of the longest one, without chance. */
enum { PAUSE = 1000, LONGEST_PAUSE = 60000 };

uint64_t pause_after(unsigned count) {
    uint64_t pause = (uint64_t)PAUSE << (count < 6 ? count : 6);
    uint8_t chance = 0;
    pause = pause < LONGEST_PAUSE ? pause : LONGEST_PAUSE;
    /* Without a random number, there is no chance. */
    if (getrandom(&chance, sizeof chance, GRND_NONBLOCK) != (ssize_t)sizeof chance)
        chance = 0;
    return pause + pause * chance / 1024;
}
