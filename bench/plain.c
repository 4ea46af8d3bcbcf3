/* A plain model of the 8255A and the 82C55A in C, which the proved functions are measured against: the rules as they are read, over a
   chip that lies in memory as the image does. */
#include "chip.h"
#include "explain.h"
#include "functions.h"

int memcmp(const void *left, const void *right, size_t length);

/* What a mode word says. */

static int strobed(unsigned char word, int channel)
{
    switch (channel) {
    case A_IN: return (word & MODE_2_A) || (word & (MODE_1_A | INPUT_A)) == (MODE_1_A | INPUT_A);
    case A_OUT: return (word & MODE_2_A) || (word & (MODE_1_A | INPUT_A)) == MODE_1_A;
    case B_IN: return (word & (MODE_1_B | INPUT_B)) == (MODE_1_B | INPUT_B);
    default: return (word & (MODE_1_B | INPUT_B)) == MODE_1_B;
    }
}

/* The pins of port C that are not free. */
static unsigned char handshake_pins(unsigned char word)
{
    unsigned char pins = 0;
    if (word & MODE_2_A)
        pins = INTR_A | STB_A | IBF_A | ACK_A | OBF_A;
    else if (word & MODE_1_A)
        pins = word & INPUT_A ? INTR_A | STB_A | IBF_A : INTR_A | ACK_A | OBF_A;
    if (word & MODE_1_B)
        pins |= INTR_B | IBF_OBF_B | STB_ACK_B;
    return pins;
}

/* The pins of port C that are inputs where they are free. */
static unsigned char input_pins(unsigned char word)
{
    return (word & INPUT_C_UPPER ? 0xf0 : 0) | (word & INPUT_C_LOWER ? 0x0f : 0);
}

/* What an image must be. */

static int writes(const struct chip *chip)
{
    return chip->bus >= WRITING && chip->bus < IDLE;
}

/* The older edition does not read control. */
static int good_bus(const struct chip *chip)
{
    return chip->bus <= IDLE && (chip->bus != READING + CONTROL || chip->edition != OLDER) && (writes(chip) || chip->data == 0);
}

static int good_condition(const struct chip *chip, int channel, unsigned char last)
{
    return chip->conditions[channel] <= (strobed(chip->word, channel) ? last : EMPTY);
}

static int good(const struct chip *chip)
{
    static const unsigned char zeros[sizeof chip->unused];
    return (chip->word & MODE_WORD) && !(chip->enables & ~FROM_OUTSIDE) && good_bus(chip)
        && good_condition(chip, A_IN, FETCHING) && good_condition(chip, A_OUT, WAITING)
        && good_condition(chip, B_IN, FETCHING) && good_condition(chip, B_OUT, WAITING)
        && chip->edition <= NEWER && memcmp(chip->unused, zeros, sizeof zeros) == 0;
}

/* Port C. */

static unsigned char blend(unsigned char mask, unsigned char in_mask, unsigned char elsewhere)
{
    return (in_mask & mask) | (elsewhere & ~mask);
}

static int runs(const struct chip *chip, unsigned char cycle, unsigned char address)
{
    return chip->bus == cycle + address;
}

static int input_full(const struct chip *chip, int channel)
{
    return chip->conditions[channel] != EMPTY;
}

static int output_free(const struct chip *chip, int channel)
{
    return chip->conditions[channel] != WAITING;
}

/* INTR, IBF and OBF as they are, and the enables on the pins of STB and ACK. Only the bits of handshake pins mean something. */
static unsigned char status(const struct chip *chip)
{
    unsigned char word = chip->word, lines = chip->enables, ready = chip->enables & chip->outside[PORT_C];
    if (input_full(chip, A_IN)) {
        lines |= IBF_A;
        if ((ready & STB_A) && !runs(chip, READING, PORT_A))
            lines |= INTR_A;
    }
    if (output_free(chip, A_OUT)) {
        lines |= OBF_A;
        if (strobed(word, A_OUT) && (ready & ACK_A) && !runs(chip, WRITING, PORT_A))
            lines |= INTR_A;
    }
    if (word & INPUT_B ? input_full(chip, B_IN) : output_free(chip, B_OUT)) {
        lines |= IBF_OBF_B;
        if ((ready & STB_ACK_B) && !runs(chip, word & INPUT_B ? READING : WRITING, PORT_B))
            lines |= INTR_B;
    }
    return lines;
}

static unsigned char read_c(const struct chip *chip)
{
    unsigned char free_pins = blend(input_pins(chip->word), chip->outside[PORT_C], chip->latch_c);
    return blend(handshake_pins(chip->word), status(chip), free_pins);
}

/* The pin view. */

static unsigned int shown(unsigned char levels, unsigned char driven)
{
    return ACCEPTED | (unsigned int)levels << 8 | (unsigned int)driven << 16;
}

static unsigned int pins(const struct chip *chip, unsigned char port)
{
    unsigned char word = chip->word;
    int output;
    switch (port) {
    case PORT_A:
        output = word & MODE_2_A ? !(chip->outside[PORT_C] & ACK_A) : !(word & INPUT_A);
        return output ? shown(chip->latches[A_OUT], 0xff) : shown(chip->outside[PORT_A], 0);
    case PORT_B:
        output = !(word & INPUT_B);
        return output ? shown(chip->latches[B_OUT], 0xff) : shown(chip->outside[PORT_B], 0);
    case PORT_C: {
        unsigned char handshake = handshake_pins(word);
        unsigned char driven = blend(handshake, (unsigned char)~FROM_OUTSIDE, ~input_pins(word));
        unsigned char own = blend(handshake, status(chip), chip->latch_c);
        return shown(blend(driven, own, chip->outside[PORT_C]), driven);
    }
    default: return OUT_OF_RANGE;
    }
}

static unsigned int tally_of(const struct chip *chip, unsigned char channel, unsigned char tally)
{
    if (channel >= CHANNELS || tally >= TALLIES)
        return OUT_OF_RANGE;
    return ACCEPTED | (unsigned int)chip->tallies[channel][tally] << 8;
}

/* What can happen to a channel. */

static void offer(struct chip *chip, int channel, unsigned char data)
{
    chip->tallies[channel][OFFERED]++;
    if (chip->conditions[channel] == WAITING)
        chip->tallies[channel][OVERWRITTEN]++;
    chip->conditions[channel] = WAITING;
    chip->latches[channel] = data;
}

/* While its STB is low, a strobed input's latch takes what comes onto the lines; no byte is offered by that. */
static void follow(struct chip *chip, int in, unsigned char line, unsigned char levels)
{
    if (strobed(chip->word, in) && !(chip->outside[PORT_C] & line))
        chip->latches[in] = levels;
}

static void hand_over(struct chip *chip, int channel, unsigned char afterwards)
{
    if (chip->conditions[channel] == WAITING) {
        chip->tallies[channel][HANDED_OVER]++;
        chip->conditions[channel] = afterwards;
    }
}

/* The flag is forced: a byte is planted where there is room for one, with what the latch has, or one that waits is struck. */
static void plant(struct chip *chip, int channel)
{
    chip->tallies[channel][PLANTED]++;
    chip->conditions[channel] = WAITING;
}

static void strike(struct chip *chip, int channel)
{
    if (chip->conditions[channel] == WAITING) {
        chip->tallies[channel][STRUCK]++;
        chip->conditions[channel] = EMPTY;
    }
}

static void end_fetch(struct chip *chip, int channel)
{
    if (chip->conditions[channel] == WAITING)
        chip->tallies[channel][SWALLOWED]++;
    chip->conditions[channel] = EMPTY;
}

/* The events. */

static void go_idle(struct chip *chip)
{
    chip->bus = IDLE;
    chip->data = 0;
}

static void set_mode(struct chip *chip, unsigned char word)
{
    int channel;
    for (channel = 0; channel < CHANNELS; channel++) {
        if (chip->conditions[channel] == WAITING)
            chip->tallies[channel][CLEARED]++;
        chip->conditions[channel] = EMPTY;
        chip->latches[channel] = 0;
    }
    chip->word = word;
    chip->enables = 0;
    chip->latch_c = 0;
}

static unsigned int reset(struct chip *chip)
{
    set_mode(chip, WORD_AFTER_RESET);
    go_idle(chip);
    return ACCEPTED;
}

static unsigned char read_port(struct chip *chip, int in, int out, unsigned char outside, int input)
{
    if (strobed(chip->word, in)) {
        hand_over(chip, in, FETCHING);
        return chip->latches[in];
    }
    return input ? outside : chip->latches[out];
}

static unsigned int begin_read(struct chip *chip, unsigned char address)
{
    unsigned char answer;
    if (address > CONTROL)
        return OUT_OF_RANGE;
    if (address == CONTROL && chip->edition == OLDER)
        return NOT_READABLE;
    if (chip->bus != IDLE)
        return CYCLE_RUNS;
    if (address == PORT_A)
        answer = read_port(chip, A_IN, A_OUT, chip->outside[PORT_A], chip->word & INPUT_A);
    else if (address == PORT_B)
        answer = read_port(chip, B_IN, B_OUT, chip->outside[PORT_B], chip->word & INPUT_B);
    else if (address == PORT_C)
        answer = read_c(chip);
    else
        answer = chip->word | MODE_WORD;
    chip->bus = READING + address;
    return ACCEPTED | (unsigned int)answer << 8;
}

static void end_read(struct chip *chip)
{
    if (chip->bus == READING + PORT_A && strobed(chip->word, A_IN))
        end_fetch(chip, A_IN);
    if (chip->bus == READING + PORT_B && strobed(chip->word, B_IN))
        end_fetch(chip, B_IN);
}

static unsigned int begin_write(struct chip *chip, unsigned char address, unsigned char data)
{
    if (address > CONTROL)
        return OUT_OF_RANGE;
    if (chip->bus != IDLE)
        return CYCLE_RUNS;
    chip->bus = WRITING + address;
    chip->data = data;
    return ACCEPTED;
}

static void write_port(struct chip *chip, int out, unsigned char data, int input)
{
    if (strobed(chip->word, out))
        offer(chip, out, data);
    else if (!input)
        chip->latches[out] = data;
}

static void write_c(struct chip *chip, unsigned char data)
{
    unsigned char stored = ~(handshake_pins(chip->word) | input_pins(chip->word));
    /* Where group A has left mode 0, its free pins are set one at a time, as control words do. */
    if (chip->word & (MODE_2_A | MODE_1_A))
        stored &= 0x0f;
    chip->latch_c = blend(stored, data, chip->latch_c);
}

static void force_input(struct chip *chip, int in, unsigned char level)
{
    if (!level)
        strike(chip, in);
    else if (!input_full(chip, in))
        plant(chip, in);
}

static void force_output(struct chip *chip, int out, unsigned char level)
{
    if (level)
        strike(chip, out);
    else if (output_free(chip, out))
        plant(chip, out);
}

static void force(struct chip *chip, unsigned char pin, unsigned char level)
{
    switch (pin) {
    case IBF_A: force_input(chip, A_IN, level); break;
    case OBF_A: force_output(chip, A_OUT, level); break;
    default:
        if (chip->word & INPUT_B)
            force_input(chip, B_IN, level);
        else
            force_output(chip, B_OUT, level);
    }
}

static void set_bit(struct chip *chip, unsigned char control)
{
    unsigned char pin = 1 << (control >> 1 & 7), level = control & 1 ? pin : 0;
    if (handshake_pins(chip->word) & pin) {
        if (FROM_OUTSIDE & pin)
            chip->enables = blend(pin, level, chip->enables);
        else if (FLAGS & pin)
            force(chip, pin, level);
    } else if (!(input_pins(chip->word) & pin)) {
        chip->latch_c = blend(pin, level, chip->latch_c);
    }
}

static void end_write(struct chip *chip)
{
    unsigned char data = chip->data;
    switch (chip->bus) {
    case WRITING + PORT_A: write_port(chip, A_OUT, data, chip->word & INPUT_A); break;
    case WRITING + PORT_B: write_port(chip, B_OUT, data, chip->word & INPUT_B); break;
    case WRITING + PORT_C: write_c(chip, data); break;
    default:
        if (data & MODE_WORD)
            set_mode(chip, data);
        else
            set_bit(chip, data);
    }
}

static unsigned int end_cycle(struct chip *chip)
{
    if (chip->bus == IDLE)
        return NO_CYCLE_RUNS;
    if (writes(chip))
        end_write(chip);
    else
        end_read(chip);
    go_idle(chip);
    return ACCEPTED;
}

static void falls(struct chip *chip, unsigned char fell)
{
    unsigned char word = chip->word;
    if ((fell & STB_A) && strobed(word, A_IN))
        offer(chip, A_IN, chip->outside[PORT_A]);
    if ((fell & ACK_A) && strobed(word, A_OUT))
        hand_over(chip, A_OUT, EMPTY);
    if ((fell & STB_ACK_B) && strobed(word, B_IN))
        offer(chip, B_IN, chip->outside[PORT_B]);
    if ((fell & STB_ACK_B) && strobed(word, B_OUT))
        hand_over(chip, B_OUT, EMPTY);
}

static unsigned int outside_levels(struct chip *chip, unsigned char port, unsigned char levels)
{
    switch (port) {
    case PORT_A: follow(chip, A_IN, STB_A, levels); break;
    case PORT_B: follow(chip, B_IN, STB_ACK_B, levels); break;
    case PORT_C: falls(chip, chip->outside[PORT_C] & ~levels); break;
    default: return OUT_OF_RANGE;
    }
    chip->outside[port] = levels;
    return ACCEPTED;
}

static unsigned int step(struct chip *chip, unsigned char kind, unsigned char first, unsigned char second)
{
    switch (kind) {
    case RESET: return reset(chip);
    case BEGIN_READ: return begin_read(chip, first);
    case END_CYCLE: return end_cycle(chip);
    case BEGIN_WRITE: return begin_write(chip, first, second);
    case OUTSIDE_LEVELS: return outside_levels(chip, first, second);
    default: return NO_SUCH_KIND;
    }
}

/* The calls. */

unsigned int plain_step(unsigned char *image, size_t length, unsigned char kind, unsigned char first, unsigned char second)
{
    struct chip *chip = (struct chip *)image;
    if (length != IMAGE || !good(chip))
        return BAD_IMAGE;
    return step(chip, kind, first, second);
}

unsigned int plain_pins(const unsigned char *image, size_t length, unsigned char port)
{
    const struct chip *chip = (const struct chip *)image;
    if (length != IMAGE || !good(chip))
        return BAD_IMAGE;
    return pins(chip, port);
}

unsigned int plain_tally(const unsigned char *image, size_t length, unsigned char channel, unsigned char tally)
{
    const struct chip *chip = (const struct chip *)image;
    if (length != IMAGE || !good(chip))
        return BAD_IMAGE;
    return tally_of(chip, channel, tally);
}

unsigned int plain_explain(const unsigned char *image, size_t length, unsigned char group)
{
    const struct chip *chip = (const struct chip *)image;
    if (length != IMAGE || !good(chip))
        return BAD_IMAGE;
    return explain(chip, group);
}
