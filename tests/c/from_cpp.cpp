/* The functions have C's names in C++ too: a C++ program links them, and each accepts; the words of a reason are there as well. */
#include "towanchor.h"

int main()
{
    unsigned char image[TOWANCHOR_IMAGE_SIZE];
    unsigned int words[] = {TOWANCHOR_WORD(TOWANCHOR_RESET, 0, 0)};
    unsigned char text[] = {'0', '0', '\n'}, clean[sizeof text + 1], report[sizeof text];
    unsigned int refused = 0;

    refused |= TOWANCHOR_NUMBER(towanchor_power_up(image, sizeof image));
    refused |= TOWANCHOR_NUMBER(towanchor_power_up_with_levels(image, sizeof image, 0xFF, 0xFF, 0xFF));
    refused |= TOWANCHOR_NUMBER(towanchor_power_up_as(image, sizeof image, TOWANCHOR_82C55A, 0xFF, 0xFF, 0xFF));
    refused |= TOWANCHOR_NUMBER(towanchor_step(image, sizeof image, TOWANCHOR_RESET, 0, 0));
    refused |= TOWANCHOR_NUMBER(towanchor_pins(image, sizeof image, TOWANCHOR_A));
    refused |= TOWANCHOR_NUMBER(towanchor_tally(image, sizeof image, TOWANCHOR_A_IN, TOWANCHOR_OFFERED));
    refused |= TOWANCHOR_NUMBER(towanchor_explain(image, sizeof image, TOWANCHOR_GROUP_A));
    refused |= TOWANCHOR_NUMBER(towanchor_trim(words, sizeof words / sizeof *words, TOWANCHOR_82C55A, 0xFF, 0xFF, 0xFF));
    refused |= TOWANCHOR_NUMBER(towanchor_mend(text, sizeof text, clean, sizeof clean, report, sizeof report));
    return refused == 0 && towanchor_words(TOWANCHOR_HIGH, TOWANCHOR_INPUT_HALF)[0] == 'h' ? 0 : 1;
}
