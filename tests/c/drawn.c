/* The numbers of a shift register with a fixed beginning. */
#include "drawn.h"

unsigned int any(unsigned int bound)
{
    static unsigned int state = 0x8255A;

    state ^= state << 13;
    state ^= state >> 17;
    state ^= state << 5;
    return state % bound;
}

unsigned char any_byte(void)
{
    return (unsigned char)any(256);
}
