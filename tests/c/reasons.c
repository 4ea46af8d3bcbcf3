/* What each half of INTR is doing in every image of the family, judged by the rules, and its words. Where a group has an INTR, the pin view
 * shows it high exactly where a half is. */
#include "checks.h"
#include "family.h"
#include "layout.h"
#include "mode_words.h"
#include "towanchor.h"
#include "ways.h"

#include <stdio.h>
#include <string.h>

#define CHANNELS 4
#define REASONS 7

static unsigned long images;

/* How often each reason was judged, by channel. */
static unsigned long judged[CHANNELS][REASONS];

/* A half goes by a channel of its own. */
static unsigned char channel_of(unsigned char group, unsigned char half)
{
    static const unsigned char channels[][2] = {{TOWANCHOR_A_IN, TOWANCHOR_A_OUT}, {TOWANCHOR_B_IN, TOWANCHOR_B_OUT}};

    return channels[group][half];
}

static int has_half(unsigned char group, unsigned char half)
{
    return strobes(image[MODE_WORD], channel_of(group, half));
}

static int has_intr(unsigned char group)
{
    return has_half(group, TOWANCHOR_INPUT_HALF) || has_half(group, TOWANCHOR_OUTPUT_HALF);
}

static int is_enabled(unsigned char channel)
{
    static const unsigned char enables[] = {INTE_IN_A, INTE_OUT_A, INTE_B, INTE_B};

    return (image[ENABLES] & enables[channel]) != 0;
}

/* An input with nothing in it, or an output whose byte waits. */
static int flag_is_wrong(unsigned char channel)
{
    unsigned char condition = image[CONDITION_A_IN + channel];

    return is_input(channel) ? condition == EMPTY : condition == WAITING;
}

static int line_is_low(unsigned char channel)
{
    return (image[LEVELS_C] & TOWANCHOR_PIN(ways[channel].pin)) == 0;
}

static int own_cycle_runs(unsigned char channel)
{
    return image[BUS] == (is_input(channel) ? READS : WRITES) + ways[channel].port;
}

static unsigned int reason(unsigned char group, unsigned char half)
{
    unsigned char channel = channel_of(group, half);

    if (!has_intr(group))
        return TOWANCHOR_MODE_ZERO;
    if (!has_half(group, half))
        return TOWANCHOR_NO_HALF;
    if (!is_enabled(channel))
        return TOWANCHOR_ENABLE_OFF;
    if (flag_is_wrong(channel))
        return TOWANCHOR_FLAG_WRONG;
    if (line_is_low(channel))
        return TOWANCHOR_LINE_LOW;
    if (own_cycle_runs(channel))
        return TOWANCHOR_OWN_CYCLE;
    return TOWANCHOR_HIGH;
}

/* A check of the image. The first image of which one does not hold is shown. */
static void holds_of_image(int holds, const char *what)
{
    static int is_shown;
    int byte;

    check(holds, what, image[MODE_WORD]);
    if (holds || is_shown)
        return;
    is_shown = 1;
    printf("bytes %d to %d of this image:", LEVELS_C, BUS_BYTE);
    for (byte = LEVELS_C; byte <= BUS_BYTE; byte++)
        printf(" %02X", image[byte]);
    printf("\n");
}

static void group(unsigned char which, int intr)
{
    unsigned int input = reason(which, TOWANCHOR_INPUT_HALF), output = reason(which, TOWANCHOR_OUTPUT_HALF), answer;
    unsigned char before[TOWANCHOR_IMAGE_SIZE];

    memcpy(before, image, sizeof image);
    answer = towanchor_explain(image, sizeof image, which);
    holds_of_image(memcmp(before, image, sizeof image) == 0, "what is explained is untouched, under mode word");
    judged[channel_of(which, TOWANCHOR_INPUT_HALF)][input]++;
    judged[channel_of(which, TOWANCHOR_OUTPUT_HALF)][output]++;
    holds_of_image(TOWANCHOR_NUMBER(answer) == TOWANCHOR_ACCEPTED, "the number, under mode word");
    holds_of_image(TOWANCHOR_REASON(answer, TOWANCHOR_INPUT_HALF) == input, "the reason of an input, under mode word");
    holds_of_image(TOWANCHOR_REASON(answer, TOWANCHOR_OUTPUT_HALF) == output, "the reason of an output, under mode word");
    holds_of_image(answer >> 24 == 0, "what is above the reasons, under mode word");
    if (has_intr(which))
        holds_of_image(intr == (input == TOWANCHOR_HIGH || output == TOWANCHOR_HIGH), "INTR on its pin, under mode word");
}

static void both_groups(void)
{
    unsigned int levels = TOWANCHOR_LEVELS(towanchor_pins(image, sizeof image, TOWANCHOR_C));

    images++;
    group(TOWANCHOR_GROUP_A, (levels & TOWANCHOR_PIN(TOWANCHOR_INTR_A)) != 0);
    group(TOWANCHOR_GROUP_B, (levels & TOWANCHOR_PIN(TOWANCHOR_INTR_B)) != 0);
}

/* Each reason has been judged of the half of each channel: none is right because it was never asked for. */
static void all_judged(void)
{
    unsigned long least = images;
    unsigned int channel, which;

    for (channel = 0; channel < CHANNELS; channel++) {
        for (which = 0; which < REASONS; which++) {
            check(judged[channel][which] > 0, "a reason was judged of no image, of channel", channel);
            if (judged[channel][which] < least)
                least = judged[channel][which];
        }
    }
    check(images == FAMILY, "the images of the family", (unsigned int)images);
    printf("%lu images, each reason of each half in %lu of them or more\n", images, least);
}

static int same(const char *words, const char *others)
{
    return strcmp(words, others) == 0;
}

/* The words of each reason, by its number: of an input's half, and of an output's. */
static const char *const texts[][2] = {
    {"not in use", "not in use"},
    {"there is no INTR, the group is in mode 0", "there is no INTR, the group is in mode 0"},
    {"low, the interrupt is not enabled", "low, the interrupt is not enabled"},
    {"low, no byte is waiting to be read", "low, the last byte has not been taken"},
    {"low, the strobe line is low", "low, the acknowledge line is low"},
    {"low, a read of the port is running", "low, a write to the port is running"},
    {"high", "high"},
};

/* Each reason has its words; any other number has those of no half. */
static void words(unsigned int half)
{
    unsigned int which;

    for (which = 0; which < REASONS; which++)
        check(same(towanchor_words(which, half), texts[which][half]), "the words of reason", which);
    for (which = REASONS; which <= 0x10000; which++)
        check(same(towanchor_words(which, half), "not in use"), "the words of no reason", which);
    check(same(towanchor_words(~0u, half), "not in use"), "the words of the highest number", half);
}

int main(void)
{
    each_image(both_groups);
    all_judged();
    words(TOWANCHOR_INPUT_HALF);
    words(TOWANCHOR_OUTPUT_HALF);
    return checked();
}
