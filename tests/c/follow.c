/* Input latches that follow their port's lines while STB is low: to every image of the family come levels from outside, on each port, and
 * the whole image that they leave is judged by the rules. */
#include "family.h"
#include "layout.h"
#include "mode_words.h"
#include "towanchor.h"
#include "ways.h"

#include <stdio.h>
#include <stdlib.h>
#include <string.h>

#define SIZE TOWANCHOR_IMAGE_SIZE
#define MOST_PRINTED 10

/* To each image of the family come two bytes of levels on A and on B, and eight on C. */
#define JUDGED (FAMILY * 12)

/* Of the 62 combinations of group A a strobed input has 54, six under each of eight words of mode 2 and three under each of two words of
 * mode 1; of the 14 of group B it has six. STB is low in half of all images, and two bytes of levels come. */
#define FOLLOWED ((54ul * 14 + 62ul * 6) * 8 * 4 * PHASES * 2)

/* A strobed output has 52 combinations of group A, and four of group B. A line falls where it was high, in four of eight combinations of
 * levels, and is low after that, in four of the eight that come. */
#define FALLEN ((54ul * 14 + 52ul * 14 + 62ul * 6 + 62ul * 4) * 8 * 4 * PHASES * 4)

static unsigned long judged, wrong;

/* How often a latch had to follow, and how often a line in use fell. */
static unsigned long followed, fallen;

/* What the rules make of the image. */
static unsigned char expected[SIZE];

static unsigned char input_of(unsigned char port)
{
    return port == TOWANCHOR_A ? TOWANCHOR_A_IN : TOWANCHOR_B_IN;
}

/* Whether the channel's STB or ACK is low under some levels of port C. */
static int is_low(unsigned char channel, unsigned int levels_of_c)
{
    return (levels_of_c & TOWANCHOR_PIN(ways[channel].pin)) == 0;
}

static void tell_difference(unsigned char port, unsigned char levels, unsigned int answer)
{
    int byte;

    printf("wrong: levels %02X on port %d under mode word %02X, answer %X", levels, port, expected[MODE_WORD], answer);
    for (byte = 0; byte < SIZE; byte++)
        if (image[byte] != expected[byte])
            printf(", byte %d is %02X and not %02X", byte, image[byte], expected[byte]);
    printf("\n");
}

/* Lets levels come, and judges the image that they leave. What comes next finds the image as it was. */
static void judge_levels(unsigned char port, unsigned char levels)
{
    unsigned char before[SIZE];
    unsigned int answer;

    memcpy(before, image, SIZE);
    answer = towanchor_step(image, SIZE, TOWANCHOR_OUTSIDE_LEVELS, port, levels);
    judged++;
    if ((answer != TOWANCHOR_ACCEPTED || memcmp(image, expected, SIZE) != 0) && wrong++ < MOST_PRINTED)
        tell_difference(port, levels, answer);
    memcpy(image, before, SIZE);
}

/* Port A or B. Neither the condition nor the bus is asked, nor whether the levels are other than those that are there. */
static void on_lines(unsigned char port, unsigned char levels)
{
    unsigned char input = input_of(port);

    memcpy(expected, image, SIZE);
    expected[LEVELS_A + port] = levels;
    if (strobes(image[MODE_WORD], input) && is_low(input, image[LEVELS_C])) {
        expected[LATCH_A_IN + input] = levels;
        followed++;
    }
    judge_levels(port, levels);
}

/* One more in a tally of the expected image; after 65,535 comes 0. */
static void count_one(unsigned char channel, unsigned char which)
{
    unsigned char *bytes = expected + TALLY_BYTES * channel + 2 * which;

    if (++bytes[0] == 0)
        ++bytes[1];
}

static void fall(unsigned char channel)
{
    unsigned char *condition = expected + CONDITION_A_IN + channel;
    int waits = *condition == WAITING;

    fallen++;
    if (is_input(channel)) {
        expected[LATCH_A_IN + channel] = image[LEVELS_A + ways[channel].port];
        count_one(channel, TOWANCHOR_OFFERED);
        if (waits)
            count_one(channel, TOWANCHOR_OVERWRITTEN);
        *condition = WAITING;
    } else if (waits) {
        count_one(channel, TOWANCHOR_HANDED_OVER);
        *condition = EMPTY;
    }
}

/* Port C, where a fall acts, and neither a rise nor a line that stays low. */
static void on_handshakes(unsigned char levels)
{
    unsigned char channel;

    memcpy(expected, image, SIZE);
    expected[LEVELS_C] = levels;
    for (channel = TOWANCHOR_A_IN; channel <= TOWANCHOR_B_OUT; channel++)
        if (strobes(image[MODE_WORD], channel) && !is_low(channel, image[LEVELS_C]) && is_low(channel, levels))
            fall(channel);
    judge_levels(TOWANCHOR_C, levels);
}

/* On A and B the levels that are there and others; on C every combination of STB and ACK, with anything on the pins beside them. */
static void on_each_port(void)
{
    unsigned char port;
    unsigned int combination;

    for (port = TOWANCHOR_A; port <= TOWANCHOR_B; port++) {
        unsigned char there = image[LEVELS_A + port];

        on_lines(port, there);
        on_lines(port, (unsigned char)(there + 1 + image[0] % 255));
    }
    for (combination = 0; combination < 8; combination++)
        on_handshakes((unsigned char)((image[1] & ~on_pins(7)) | on_pins(combination)));
}

/* Whether so much was asked of the family as there is to ask: nothing is right because it was never asked for. */
static int all_judged(void)
{
    int complete = judged == JUDGED && followed == FOLLOWED && fallen == FALLEN;

    printf("%lu images that levels from outside left: a latch followed in %lu, and lines fell %lu times%s\n", judged, followed, fallen,
           complete ? "" : ", which is not all");
    return complete;
}

int main(void)
{
    int complete;

    each_image(on_each_port);
    complete = all_judged();
    printf("%lu images judged, %lu wrong\n", judged, wrong);
    return complete && wrong == 0 ? EXIT_SUCCESS : EXIT_FAILURE;
}
