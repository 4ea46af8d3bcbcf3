/* Mode words, read bit by bit. */
#include "mode_words.h"

#include "towanchor.h"

int a_both_ways(unsigned int word)
{
    return (word & 0x40) != 0;
}

int a_is_input(unsigned int word)
{
    return (word & 0x10) != 0;
}

int b_is_input(unsigned int word)
{
    return (word & 0x02) != 0;
}

int strobes(unsigned int word, unsigned char channel)
{
    int a_mode_1 = (word & 0x20) != 0, b_mode_1 = (word & 0x04) != 0;

    switch (channel) {
    case TOWANCHOR_A_IN:
        return a_both_ways(word) || (a_mode_1 && a_is_input(word));
    case TOWANCHOR_A_OUT:
        return a_both_ways(word) || (a_mode_1 && !a_is_input(word));
    case TOWANCHOR_B_IN:
        return b_mode_1 && b_is_input(word);
    default:
        return b_mode_1 && !b_is_input(word);
    }
}
