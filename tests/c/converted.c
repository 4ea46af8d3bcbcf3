/* Older images of pseudo-random states: each becomes the image of the same state, with nothing planted or struck. One in which a byte is
 * changed is judged anew, and one of another length is refused, as is one for which there is no room or too much; a refusal writes
 * nothing. No other function takes an older image. */
#include "checks.h"
#include "drawn.h"
#include "guarded.h"
#include "judgement.h"
#include "layout.h"
#include "mode_words.h"
#include "towanchor.h"

#include <string.h>

#define SIZE TOWANCHOR_IMAGE_SIZE
#define OLDER_SIZE TOWANCHOR_OLDER_IMAGE_SIZE
#define STATES 300
#define CHANNELS 4
#define OLDER_TALLIES 5

/* The older layout; docs/IMAGE.md has it too. */
#define OLDER_TALLY_BYTES 10
#define OLDER_LEVELS_A 40
#define OLDER_CONDITIONS 48
#define OLDER_MODE_WORD 52
#define OLDER_ENABLES 53
#define OLDER_BUS 54
#define OLDER_PLACE 55
#define OLDER_BYTE 56
#define OLDER_UNUSED 57
#define OLDER_IDLE 0
#define OLDER_READ_RUNS 1
#define OLDER_WRITE_RUNS 2

/* A state, field by field, in neither layout. */
struct state {
    unsigned int tallies[CHANNELS][OLDER_TALLIES];
    unsigned char levels[3], latch_c, latches[CHANNELS], conditions[CHANNELS], word, enables;
    unsigned char runs, place, byte;
};

static unsigned long refused, taken;

/* The highest condition that a mode word leaves to a channel. */
static unsigned char last_condition(unsigned char word, unsigned char channel)
{
    int input = channel == TOWANCHOR_A_IN || channel == TOWANCHOR_B_IN;

    if (!strobes(word, channel))
        return EMPTY;
    return input ? FETCHING : WAITING;
}

static void draw(struct state *state)
{
    unsigned char channel, port;
    int each;

    state->word = (unsigned char)(0x80 | any_byte());
    state->enables = any_byte() & (INTE_IN_A | INTE_OUT_A | INTE_B);
    state->latch_c = any_byte();
    for (port = 0; port < 3; port++)
        state->levels[port] = any_byte();
    for (channel = 0; channel < CHANNELS; channel++) {
        for (each = 0; each < OLDER_TALLIES; each++)
            state->tallies[channel][each] = any(65536);
        state->latches[channel] = any_byte();
        state->conditions[channel] = (unsigned char)any(last_condition(state->word, channel) + 1u);
    }
    state->runs = (unsigned char)any(3);
    state->place = (unsigned char)(state->runs == OLDER_IDLE ? 0 : any(state->runs == OLDER_READ_RUNS ? 3 : 4));
    state->byte = state->runs == OLDER_WRITE_RUNS ? any_byte() : 0;
}

/* The tallies of each channel, of so many bytes, and from the levels on what both layouts have in one order. */
static void lay_out(const struct state *state, unsigned char *bytes, int tally_bytes)
{
    unsigned char *rest = bytes + CHANNELS * tally_bytes;
    int channel, each;

    for (channel = 0; channel < CHANNELS; channel++)
        for (each = 0; each < OLDER_TALLIES; each++) {
            bytes[tally_bytes * channel + 2 * each] = (unsigned char)(state->tallies[channel][each] & 0xFF);
            bytes[tally_bytes * channel + 2 * each + 1] = (unsigned char)(state->tallies[channel][each] >> 8);
        }
    memcpy(rest, state->levels, sizeof state->levels);
    rest[3] = state->latch_c;
    memcpy(rest + 4, state->latches, sizeof state->latches);
    memcpy(rest + 8, state->conditions, sizeof state->conditions);
    rest[12] = state->word;
    rest[13] = state->enables;
}

static void lay_out_older(const struct state *state, unsigned char *older)
{
    memset(older, 0, OLDER_SIZE);
    lay_out(state, older, OLDER_TALLY_BYTES);
    older[OLDER_BUS] = state->runs;
    older[OLDER_PLACE] = state->place;
    older[OLDER_BYTE] = state->byte;
}

static void lay_out_image(const struct state *state, unsigned char *image)
{
    memset(image, 0, SIZE);
    lay_out(state, image, TALLY_BYTES);
    image[BUS] = (unsigned char)(state->runs == OLDER_IDLE ? IDLE : (state->runs == OLDER_READ_RUNS ? READS : WRITES) + state->place);
    image[BUS_BYTE] = state->byte;
}

/* The image of a good older one, by its bytes. */
static void move(const unsigned char *older, unsigned char *image)
{
    static const unsigned char cycles[] = {IDLE, READS, WRITES};
    int channel;

    memset(image, 0, SIZE);
    for (channel = 0; channel < CHANNELS; channel++)
        memcpy(image + TALLY_BYTES * channel, older + OLDER_TALLY_BYTES * channel, OLDER_TALLY_BYTES);
    memcpy(image + LEVELS_A, older + OLDER_LEVELS_A, OLDER_BUS - OLDER_LEVELS_A);
    image[BUS] = (unsigned char)(cycles[older[OLDER_BUS]] + older[OLDER_PLACE]);
    image[BUS_BYTE] = older[OLDER_BYTE];
}

/* Which of all older images are good. */
static int is_older(const unsigned char *older)
{
    unsigned char word = older[OLDER_MODE_WORD], channel;
    int each;

    if ((word & 0x80) == 0 || (older[OLDER_ENABLES] & ~(INTE_IN_A | INTE_OUT_A | INTE_B)) != 0)
        return 0;
    for (channel = 0; channel < CHANNELS; channel++)
        if (older[OLDER_CONDITIONS + channel] > last_condition(word, channel))
            return 0;
    for (each = OLDER_UNUSED; each < OLDER_SIZE; each++)
        if (older[each] != 0)
            return 0;
    switch (older[OLDER_BUS]) {
    case OLDER_IDLE:
        return older[OLDER_PLACE] == 0 && older[OLDER_BYTE] == 0;
    case OLDER_READ_RUNS:
        return older[OLDER_PLACE] <= 2 && older[OLDER_BYTE] == 0;
    case OLDER_WRITE_RUNS:
        return older[OLDER_PLACE] <= 3;
    default:
        return 0;
    }
}

/* Converts into bytes that were anything. 'right' is the image that must stand there, or NULL where the call must be refused. */
static void convert(const unsigned char *older, size_t older_length, size_t length, const unsigned char *right, const char *what)
{
    static struct guarded from, to;
    unsigned char anything[SIZE], *put, *image;
    unsigned int answer;

    memset(anything, any_byte(), sizeof anything);
    put = guarded_put(&from, older, OLDER_SIZE);
    image = guarded_put(&to, anything, SIZE);
    answer = towanchor_convert(put, older_length, image, length);
    check(guarded_untouched(&from), "an older image was written to", (unsigned int)older_length);
    if (right == NULL) {
        check(answer == TOWANCHOR_NO_STATE && guarded_untouched(&to), what, (unsigned int)older_length);
    } else {
        check(answer == TOWANCHOR_ACCEPTED && memcmp(image, right, SIZE) == 0 && guarded_kept_beyond(&to, SIZE), what, image[MODE_WORD]);
    }
}

/* What was converted is an image that every function takes, and both new tallies are 0. */
static void is_taken(const unsigned char *right)
{
    unsigned char image[SIZE], channel;

    memcpy(image, right, SIZE);
    check(is_image(image), "a converted image is one, under mode word", image[MODE_WORD]);
    check(image[EDITION] == TOWANCHOR_8255A, "a converted image is an 8255A's, under mode word", image[MODE_WORD]);
    for (channel = 0; channel < CHANNELS; channel++) {
        check(towanchor_tally(image, SIZE, channel, TOWANCHOR_PLANTED) == TOWANCHOR_ACCEPTED, "none planted, of channel", channel);
        check(towanchor_tally(image, SIZE, channel, TOWANCHOR_STRUCK) == TOWANCHOR_ACCEPTED, "none struck, of channel", channel);
    }
    check(TOWANCHOR_NUMBER(towanchor_step(image, SIZE, TOWANCHOR_RESET, 0, 0)) == TOWANCHOR_ACCEPTED, "a reset after it", 0);
}

/* Every byte to every value: what is a good older image then tells another state, whose image is known by the bytes. */
static void damage(const unsigned char *good)
{
    unsigned char older[OLDER_SIZE], right[SIZE];
    unsigned int byte, value;

    for (byte = 0; byte < OLDER_SIZE; byte++)
        for (value = 0; value < 256; value++) {
            memcpy(older, good, OLDER_SIZE);
            older[byte] = (unsigned char)value;
            if (is_older(older)) {
                taken++;
                move(older, right);
                convert(older, OLDER_SIZE, SIZE, right, "a changed older image was not made its image, under mode word");
            } else {
                refused++;
                convert(older, OLDER_SIZE, SIZE, NULL, "a damaged older image was not refused, of length");
            }
        }
}

static void lengths(const unsigned char *older)
{
    size_t length;

    for (length = 0; length <= GUARDED_MOST; length++) {
        if (length != OLDER_SIZE)
            convert(older, length, SIZE, NULL, "an older image of another length was not refused");
        if (length != SIZE)
            convert(older, OLDER_SIZE, length, NULL, "room of another length was not refused");
    }
}

static void by_others(const unsigned char *older)
{
    static struct guarded guarded;
    unsigned char *image = guarded_put(&guarded, older, OLDER_SIZE);

    check(towanchor_power_up(image, OLDER_SIZE) == TOWANCHOR_NO_STATE, "power-up of an older image", 0);
    check(towanchor_power_up_with_levels(image, OLDER_SIZE, 1, 2, 3) == TOWANCHOR_NO_STATE, "power-up of an older image with levels", 0);
    check(towanchor_power_up_as(image, OLDER_SIZE, TOWANCHOR_8255A, 1, 2, 3) == TOWANCHOR_NO_STATE, "power-up of an older one as 8255A", 0);
    check(towanchor_step(image, OLDER_SIZE, TOWANCHOR_RESET, 0, 0) == TOWANCHOR_NO_STATE, "the step of an older image", 0);
    check(towanchor_pins(image, OLDER_SIZE, TOWANCHOR_A) == TOWANCHOR_NO_STATE, "the pins of an older image", 0);
    check(towanchor_tally(image, OLDER_SIZE, 0, 0) == TOWANCHOR_NO_STATE, "a tally of an older image", 0);
    check(towanchor_explain(image, OLDER_SIZE, TOWANCHOR_GROUP_A) == TOWANCHOR_NO_STATE, "INTR of an older image", 0);
    check(guarded_untouched(&guarded), "an older image was written to by another function", 0);
}

int main(void)
{
    static struct state state;
    unsigned char older[OLDER_SIZE], right[SIZE];
    int each;

    for (each = 0; each < STATES; each++) {
        draw(&state);
        lay_out_older(&state, older);
        lay_out_image(&state, right);
        check(is_older(older), "an older image is one, under mode word", state.word);
        convert(older, OLDER_SIZE, SIZE, right, "an older image was not made the image, under mode word");
        is_taken(right);
        damage(older);
        lengths(older);
        by_others(older);
    }
    check(refused > 0 && taken > 0, "older images that were damaged, and others that were not", 0);
    return checked();
}
