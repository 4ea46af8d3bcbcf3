/* The second trimmer: frames by a table of their shapes, power-up byte by byte, events by the plain model, states compared as images. */
#include "trimmer.h"

#include "../../bench/functions.h"
#include "layout.h"

#include <string.h>

#define LAST_EDITION 1
#define MOST_WORDS 8192
#define MODE_WORD_AT_POWER_UP 0x9B
#define OUTSIDE_LEVELS 5

/* The numbers of the answers. */
#define ACCEPTED 0
#define NO_FRAME 1
#define TOO_LONG 6
#define NO_EDITION 8

/* The five shapes of a frame: the kind, as it stands in a word, and the bits that may have any value. */
static const struct {
    unsigned int kind, operands;
} shapes[] = {
    {0x00000000u, 0x0000u}, /* reset */
    {0x00010000u, 0xFF00u}, /* begin read: the address */
    {0x00020000u, 0x0000u}, /* end cycle */
    {0x00030000u, 0xFFFFu}, /* begin write: the address and the byte */
    {0x00050000u, 0xFFFFu}, /* outside levels: the port and the levels */
};

int is_frame(unsigned int word)
{
    size_t each;

    for (each = 0; each < sizeof shapes / sizeof *shapes; each++)
        if ((word & ~shapes[each].operands) == shapes[each].kind)
            return 1;
    return 0;
}

static int all_frames(const unsigned int *words, size_t count)
{
    size_t each;

    for (each = 0; each < count; each++)
        if (!is_frame(words[each]))
            return 0;
    return 1;
}

/* Lets the event of a word happen, counts what becomes of it, and answers whether the image is another. */
static int changes(unsigned char *image, unsigned int word, struct sifted *sifted)
{
    unsigned char kind = (unsigned char)(word >> 16), first = (unsigned char)(word >> 8), second = (unsigned char)word;
    unsigned char before[END];
    unsigned int number;

    memcpy(before, image, END);
    number = plain_step(image, END, kind, first, second) & 0xFF;
    if (memcmp(before, image, END) == 0) {
        sifted->dropped[kind]++;
        sifted->answered[number]++;
        return 0;
    }
    sifted->kept[kind]++;
    if (kind == OUTSIDE_LEVELS && before[LEVELS_A + first] == second)
        sifted->kept_for_a_latch++;
    return 1;
}

unsigned int second_trim(unsigned int *words, size_t count, unsigned char edition, unsigned char levels_a, unsigned char levels_b,
                         unsigned char levels_c, struct sifted *sifted)
{
    unsigned char image[END];
    unsigned int kept = 0;
    size_t each;

    if (edition > LAST_EDITION)
        return NO_EDITION;
    if (count > MOST_WORDS)
        return TOO_LONG;
    if (!all_frames(words, count))
        return NO_FRAME;
    memset(image, 0, END);
    image[LEVELS_A] = levels_a;
    image[LEVELS_A + 1] = levels_b;
    image[LEVELS_C] = levels_c;
    image[MODE_WORD] = MODE_WORD_AT_POWER_UP;
    image[BUS] = IDLE;
    image[EDITION] = edition;
    for (each = 0; each < count; each++)
        if (changes(image, words[each], sifted))
            words[kept++] = words[each];
    for (each = kept; each < count; each++)
        words[each] = 0;
    return ACCEPTED + 256 * kept;
}
