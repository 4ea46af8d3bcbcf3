/* The quickest C model that was found on the terms of the proved functions, as a measure of how quick those could be. The rules are those of
   plain.c, in the form in which they take the fewest instructions.

   The terms, so that a ratio to this model tells what the proof costs, and not what these cost:
   - All constant tables together have 512 bytes at most.
   - The whole check of an image, its bus too, is done before the kind of the event is looked at, and it is one for all calls.
   - The kind is chosen by a plain switch. Each kind has a function of its own, not inlined, which gives the final number.
   - Neither a hint nor the order of tests knows which events a scale and a printer send, or which are frequent. Only the check knows that an image
     is mostly good and its bus mostly idle.
   - The rules hold of every state, also of one that no image has, and use nothing that the check has told, such as that a channel which is not
     strobed is empty.
   Without them the model took 43.9 instructions by the kit's clang, and 43.1 by gcc, for an event of scale and printer. */
#include "chip.h"
#include "explain.h"
#include "functions.h"

void *memcpy(void *to, const void *from, size_t length);

#define INLINE static inline __attribute__((always_inline))
#define NOT_INLINE static __attribute__((noinline))
#define MOSTLY(condition) __builtin_expect(condition, 1)

/* Bytes taken, or put, together. */

INLINE unsigned long long eight_bytes(const void *at)
{
    unsigned long long bytes;
    memcpy(&bytes, at, sizeof bytes);
    return bytes;
}

INLINE void put_two_bytes(void *at, unsigned int value)
{
    unsigned short bytes = value;
    memcpy(at, &bytes, sizeof bytes);
}

INLINE void put_four_bytes(void *at, unsigned int value)
{
    memcpy(at, &value, sizeof value);
}

/* What a mode word says, with bit 7 or without: for A it is shifted out. In mode 2 bit 6 is set, whatever the bits below have. So the bits from 6
   down, as a number, are at least STROBED_INPUT_A just where A is a strobed input, and with INPUT_A turned just where A is a strobed output. */

enum { STROBED_INPUT_A = MODE_1_A | INPUT_A };

#define STROBED_A_IN(word) ((unsigned char)((word) << 1) >= STROBED_INPUT_A << 1)
#define STROBED_A_OUT(word) STROBED_A_IN((word) ^ INPUT_A)
#define STROBED_B_IN(word) (((word) & (MODE_1_B | INPUT_B)) == (MODE_1_B | INPUT_B))
#define STROBED_B_OUT(word) (((word) & (MODE_1_B | INPUT_B)) == MODE_1_B)

/* The table of the check, the only one, in 512 bytes. By bits 6 to 1 of the mode word it has the bits that must be 0 in the eight bytes from the
   conditions on, taken as one number. TURNED is turned in that number first: bit 7, which each mode word has, and an idle bus. And the condition
   of an input is joined with the next number: of EMPTY only bit 0 is set then, of WAITING and FETCHING bits 0 and 1, and of what is higher a bit
   above them. A row is two numbers: of the four conditions, and of the mode word, the enables, the bus and its byte. */
#define TURNED ((unsigned long long)(MODE_WORD | IDLE << 16) << 32)
#define NEXT_INPUTS 0x00010001

#define INPUT_BITS(strobed) ((strobed) ? 0xfcu : 0xfeu)
#define OUTPUT_BITS(strobed) ((strobed) ? 0xfeu : 0xffu)
#define CONDITION_BITS(word) \
    (INPUT_BITS(STROBED_A_IN(word)) | OUTPUT_BITS(STROBED_A_OUT(word)) << 8 | INPUT_BITS(STROBED_B_IN(word)) << 16 \
     | OUTPUT_BITS(STROBED_B_OUT(word)) << 24)
#define OTHER_BITS (MODE_WORD | (~FROM_OUTSIDE & 0xff) << 8 | 0xffff0000)
#define ROW(word) CONDITION_BITS(word), OTHER_BITS
#define ROWS_4(word) ROW(word), ROW((word) + 2), ROW((word) + 4), ROW((word) + 6)
#define ROWS_16(word) ROWS_4(word), ROWS_4((word) + 8), ROWS_4((word) + 16), ROWS_4((word) + 24)

static const unsigned int must_be_0[128] = { ROWS_16(0x80), ROWS_16(0xa0), ROWS_16(0xc0), ROWS_16(0xe0) };

/* What an image must be. */

/* The edition, and what is not used, which is 0. */
INLINE int good_end(const struct chip *chip)
{
    return MOSTLY(eight_bytes(&chip->edition) <= NEWER) && !(eight_bytes(chip->unused + 7) | eight_bytes(chip->unused + 15));
}

INLINE unsigned long long wrong_bits(const struct chip *chip)
{
    unsigned int word = chip->word;
    unsigned long long turned = eight_bytes(chip->conditions) ^ TURNED;
    return (turned | (turned + NEXT_INPUTS)) & eight_bytes(&must_be_0[word & 0x7e]);
}

/* Where the bus alone is not as an idle one, the number of it and its byte, the bus lowest, is what runs; any other wrong bit is above them. A
   byte to be written goes with a write alone. */
INLINE int good_cycle(const struct chip *chip, unsigned long long wrong)
{
    unsigned long long running = (wrong << 16 | wrong >> 48) ^ IDLE;
    if (running <= READING + CONTROL)
        return running < READING + CONTROL || chip->edition != OLDER;
    return (running & ~(0xff00ull | CONTROL)) == WRITING;
}

/* The whole check. */
INLINE int good(const struct chip *chip, size_t length)
{
    unsigned long long wrong;
    if (!MOSTLY(length == IMAGE))
        return 0;
    wrong = wrong_bits(chip);
    return (MOSTLY(wrong == 0) || MOSTLY(good_cycle(chip, wrong))) && MOSTLY(good_end(chip));
}

INLINE int idle(const struct chip *chip)
{
    return chip->bus == IDLE;
}

/* Port C. */

INLINE unsigned int blend(unsigned int mask, unsigned int in_mask, unsigned int elsewhere)
{
    return ((in_mask ^ elsewhere) & mask) ^ elsewhere;
}

/* The handshake pins of a strobed input on A, of a strobed output, of both in mode 2, and of B. */
enum { PINS_INPUT_A = STB_A | IBF_A | INTR_A, PINS_OUTPUT_A = ACK_A | OBF_A | INTR_A, PINS_MODE_2_A = PINS_INPUT_A | PINS_OUTPUT_A };
enum { PINS_B = STB_ACK_B | IBF_OBF_B | INTR_B };

/* The pins that are not free, and the byte of which they tell their bits when port C is read. */
struct handshakes {
    unsigned int pins, status;
};

/* IBF or OBF of a channel, and INTR where its half is high. The line is STB of an input or ACK of an output, on whose place the half has its
   enable; INTR stands below it. */

INLINE unsigned int with_intr(const struct chip *chip, unsigned int flag, unsigned int line, unsigned int intr, int own_cycle)
{
    return own_cycle ? flag : flag | (chip->enables & line & chip->outside[PORT_C]) / (line / intr);
}

INLINE unsigned int of_input(const struct chip *chip, int in, unsigned int flag, unsigned int line, unsigned int intr, int own_cycle)
{
    return chip->conditions[in] == EMPTY ? 0 : with_intr(chip, flag, line, intr, own_cycle);
}

INLINE unsigned int of_output(const struct chip *chip, int out, unsigned int flag, unsigned int line, unsigned int intr, int own_cycle)
{
    return chip->conditions[out] == WAITING ? 0 : with_intr(chip, flag, line, intr, own_cycle);
}

INLINE unsigned int of_input_a(const struct chip *chip, unsigned int bus)
{
    return of_input(chip, A_IN, IBF_A, STB_A, INTR_A, bus == READING + PORT_A);
}

INLINE unsigned int of_output_a(const struct chip *chip, unsigned int bus)
{
    return of_output(chip, A_OUT, OBF_A, ACK_A, INTR_A, bus == WRITING + PORT_A);
}

/* Where A is a strobed output, a byte in its input asks for INTR nevertheless, as it does in plain.c; no image has one there. */
INLINE struct handshakes handshakes(const struct chip *chip, unsigned int bus)
{
    unsigned int word = chip->word;
    struct handshakes found = { 0, chip->enables };
    if (word & MODE_2_A) {
        found.pins = PINS_MODE_2_A;
        found.status |= of_input_a(chip, bus) | of_output_a(chip, bus);
    } else if (word & MODE_1_A) {
        if (word & INPUT_A) {
            found.pins = PINS_INPUT_A;
            found.status |= of_input_a(chip, bus);
        } else {
            found.pins = PINS_OUTPUT_A;
            found.status |= of_input_a(chip, bus) | of_output_a(chip, bus);
        }
    }
    if (word & MODE_1_B) {
        found.pins |= PINS_B;
        if (word & INPUT_B)
            found.status |= of_input(chip, B_IN, IBF_OBF_B, STB_ACK_B, INTR_B, bus == READING + PORT_B);
        else
            found.status |= of_output(chip, B_OUT, IBF_OBF_B, STB_ACK_B, INTR_B, bus == WRITING + PORT_B);
    }
    return found;
}

INLINE unsigned int handshake_pins(const struct chip *chip)
{
    return handshakes(chip, IDLE).pins;
}

/* The pins that are inputs where they are free: one bit of the mode word for each half of the port. */
INLINE unsigned int input_pins(unsigned int word)
{
    return ((word & INPUT_C_UPPER) << 1 | (word & INPUT_C_LOWER)) * 0x0f;
}

/* The levels of pins that are free. */
INLINE unsigned int free_levels(const struct chip *chip)
{
    unsigned int levels = chip->latch_c;
    if (chip->word & INPUT_C_UPPER)
        levels = blend(0xf0, chip->outside[PORT_C], levels);
    if (chip->word & INPUT_C_LOWER)
        levels = blend(0x0f, chip->outside[PORT_C], levels);
    return levels;
}

INLINE unsigned int read_c(const struct chip *chip)
{
    struct handshakes found = handshakes(chip, IDLE);
    return blend(found.pins, found.status, free_levels(chip));
}

/* What can happen to a channel. */

INLINE void offer(struct chip *chip, int channel, unsigned char data)
{
    if (chip->conditions[channel] == WAITING)
        chip->tallies[channel][OVERWRITTEN]++;
    chip->tallies[channel][OFFERED]++;
    chip->latches[channel] = data;
    chip->conditions[channel] = WAITING;
}

INLINE void hand_over(struct chip *chip, int channel, unsigned char afterwards)
{
    if (chip->conditions[channel] == WAITING) {
        chip->tallies[channel][HANDED_OVER]++;
        chip->conditions[channel] = afterwards;
    }
}

INLINE void end_fetch(struct chip *chip, unsigned int channel)
{
    if (chip->conditions[channel] == WAITING)
        chip->tallies[channel][SWALLOWED]++;
    chip->conditions[channel] = EMPTY;
}

/* The flag is forced: a byte is planted where there is room for one, with what the latch has, or one that waits is struck. */

INLINE void plant(struct chip *chip, int channel)
{
    chip->tallies[channel][PLANTED]++;
    chip->conditions[channel] = WAITING;
}

INLINE void strike(struct chip *chip, int channel)
{
    if (chip->conditions[channel] == WAITING) {
        chip->tallies[channel][STRUCK]++;
        chip->conditions[channel] = EMPTY;
    }
}

INLINE void force_input(struct chip *chip, int in, int level)
{
    if (!level)
        strike(chip, in);
    else if (chip->conditions[in] == EMPTY)
        plant(chip, in);
}

INLINE void force_output(struct chip *chip, int out, int level)
{
    if (level)
        strike(chip, out);
    else if (chip->conditions[out] != WAITING)
        plant(chip, out);
}

/* The events. Functions of kinds take the frame's second byte before its first, which gcc calls in fewer instructions. */

INLINE void clear(struct chip *chip, int channel)
{
    if (chip->conditions[channel] == WAITING)
        chip->tallies[channel][CLEARED]++;
}

/* The bus goes idle too. */
INLINE unsigned int set_mode(struct chip *chip, unsigned char word)
{
    clear(chip, A_IN);
    clear(chip, A_OUT);
    clear(chip, B_IN);
    clear(chip, B_OUT);
    chip->latch_c = 0;
    put_four_bytes(chip->latches, 0);
    put_four_bytes(chip->conditions, 0);
    put_four_bytes(&chip->word, word | IDLE << 16);
    return ACCEPTED;
}

INLINE unsigned int read_a(struct chip *chip)
{
    if (STROBED_A_IN(chip->word)) {
        hand_over(chip, A_IN, FETCHING);
        return chip->latches[A_IN];
    }
    return chip->word & INPUT_A ? chip->outside[PORT_A] : chip->latches[A_OUT];
}

INLINE unsigned int read_b(struct chip *chip)
{
    if (STROBED_B_IN(chip->word)) {
        hand_over(chip, B_IN, FETCHING);
        return chip->latches[B_IN];
    }
    return chip->word & INPUT_B ? chip->outside[PORT_B] : chip->latches[B_OUT];
}

/* A read has begun, with this answer. */
INLINE unsigned int began(struct chip *chip, unsigned int address, unsigned int answer)
{
    chip->bus = READING + address;
    return ACCEPTED | answer << 8;
}

NOT_INLINE unsigned int begin_read(struct chip *chip, unsigned int address)
{
    if (!idle(chip)) {
        if (address == CONTROL && chip->edition == OLDER)
            return NOT_READABLE;
        return address > CONTROL ? OUT_OF_RANGE : CYCLE_RUNS;
    }
    if (address < PORT_C)
        return address == PORT_A ? began(chip, PORT_A, read_a(chip)) : began(chip, PORT_B, read_b(chip));
    if (address == PORT_C)
        return began(chip, PORT_C, read_c(chip));
    if (address > CONTROL)
        return OUT_OF_RANGE;
    if (chip->edition == OLDER)
        return NOT_READABLE;
    return began(chip, CONTROL, chip->word | MODE_WORD);
}

NOT_INLINE unsigned int begin_write(struct chip *chip, unsigned int data, unsigned int address)
{
    if (address > CONTROL)
        return OUT_OF_RANGE;
    if (!idle(chip))
        return CYCLE_RUNS;
    chip->bus = WRITING + address;
    chip->data = data;
    return ACCEPTED;
}

INLINE unsigned int go_idle(struct chip *chip)
{
    put_two_bytes(&chip->bus, IDLE);
    return ACCEPTED;
}

INLINE unsigned int write_c(struct chip *chip)
{
    unsigned int data = chip->data;
    unsigned int kept = handshake_pins(chip) | input_pins(chip->word);
    /* Where group A has left mode 0, its free pins are set one at a time, as control words do. */
    if (chip->word & (MODE_2_A | MODE_1_A))
        kept |= 0xf0;
    chip->latch_c = blend(kept, chip->latch_c, data);
    return go_idle(chip);
}

INLINE unsigned int set_bit(struct chip *chip, unsigned char control)
{
    unsigned int pin = 1 << (control >> 1 & 7), level = -(control & 1);
    if (!(handshake_pins(chip) & pin)) {
        chip->latch_c = blend(pin & ~input_pins(chip->word), level, chip->latch_c);
    } else if (pin & FROM_OUTSIDE) {
        chip->enables = blend(pin, level, chip->enables);
    } else if (pin == IBF_A) {
        force_input(chip, A_IN, level);
    } else if (pin == OBF_A) {
        force_output(chip, A_OUT, level);
    } else if (pin == IBF_OBF_B) {
        if (chip->word & INPUT_B)
            force_input(chip, B_IN, level);
        else
            force_output(chip, B_OUT, level);
    }
    return go_idle(chip);
}

INLINE unsigned int write_control(struct chip *chip)
{
    unsigned char data = chip->data;
    return data & MODE_WORD ? set_mode(chip, data) : set_bit(chip, data);
}

/* The end of a write to C or control, an end where nothing runs, and any other number on the bus: a function of its own, with which gcc makes
   fewer instructions of the other ends. */
NOT_INLINE unsigned int end_otherwise(struct chip *chip, unsigned int cycle)
{
    if (cycle == WRITING + PORT_C)
        return write_c(chip);
    if (cycle == WRITING + CONTROL)
        return write_control(chip);
    return cycle == IDLE ? NO_CYCLE_RUNS : go_idle(chip);
}

/* By ranges of the numbers of cycles. The bus goes idle first, so that each way returns by itself. */
NOT_INLINE unsigned int end_cycle(struct chip *chip)
{
    unsigned int cycle = chip->bus, data;
    if (cycle < READING + PORT_C) {
        go_idle(chip);
        if (cycle == READING + PORT_A) {
            if (STROBED_A_IN(chip->word))
                end_fetch(chip, A_IN);
        } else {
            if (STROBED_B_IN(chip->word))
                end_fetch(chip, B_IN);
        }
        return ACCEPTED;
    }
    if (cycle < WRITING)
        return go_idle(chip);
    if (cycle >= WRITING + PORT_C)
        return end_otherwise(chip, cycle);
    data = chip->data;
    go_idle(chip);
    if (cycle == WRITING + PORT_A) {
        if (STROBED_A_OUT(chip->word))
            offer(chip, A_OUT, data);
        else if (!(chip->word & INPUT_A))
            chip->latches[A_OUT] = data;
    } else {
        if (STROBED_B_OUT(chip->word))
            offer(chip, B_OUT, data);
        else if (!(chip->word & INPUT_B))
            chip->latches[B_OUT] = data;
    }
    return ACCEPTED;
}

/* While its STB is low, a strobed input's latch takes what comes onto the lines; no byte is offered by that. */

INLINE void levels_a(struct chip *chip, unsigned int levels)
{
    if (!(chip->outside[PORT_C] & STB_A) && STROBED_A_IN(chip->word))
        chip->latches[A_IN] = levels;
    chip->outside[PORT_A] = levels;
}

INLINE void levels_b(struct chip *chip, unsigned int levels)
{
    if (!(chip->outside[PORT_C] & STB_ACK_B) && STROBED_B_IN(chip->word))
        chip->latches[B_IN] = levels;
    chip->outside[PORT_B] = levels;
}

/* In any traffic a line that falls has to rise before it falls again, so that nothing falls at half of the changes. */
INLINE void levels_c(struct chip *chip, unsigned int levels)
{
    unsigned char fell = chip->outside[PORT_C] & ~levels & FROM_OUTSIDE;
    chip->outside[PORT_C] = levels;
    if (!fell)
        return;
    if (fell & STB_A && STROBED_A_IN(chip->word))
        offer(chip, A_IN, chip->outside[PORT_A]);
    if (fell & ACK_A && STROBED_A_OUT(chip->word))
        hand_over(chip, A_OUT, EMPTY);
    if (fell & STB_ACK_B && chip->word & MODE_1_B) {
        if (chip->word & INPUT_B)
            offer(chip, B_IN, chip->outside[PORT_B]);
        else
            hand_over(chip, B_OUT, EMPTY);
    }
}

NOT_INLINE unsigned int outside_levels(struct chip *chip, unsigned int levels, unsigned int port)
{
    switch (port) {
    case PORT_A: levels_a(chip, levels); break;
    case PORT_B: levels_b(chip, levels); break;
    case PORT_C: levels_c(chip, levels); break;
    default: return OUT_OF_RANGE;
    }
    return ACCEPTED;
}

NOT_INLINE unsigned int reset(struct chip *chip)
{
    return set_mode(chip, WORD_AFTER_RESET);
}

unsigned int quick_step(unsigned char *image, size_t length, unsigned char kind, unsigned char first, unsigned char second)
{
    struct chip *chip = (struct chip *)image;
    if (!MOSTLY(good(chip, length)))
        return BAD_IMAGE;
    switch (kind) {
    case RESET: return reset(chip);
    case BEGIN_READ: return begin_read(chip, first);
    case END_CYCLE: return end_cycle(chip);
    case BEGIN_WRITE: return begin_write(chip, second, first);
    case OUTSIDE_LEVELS: return outside_levels(chip, second, first);
    default: return NO_SUCH_KIND;
    }
}

/* The pin view. */

INLINE unsigned int shown(unsigned int levels, unsigned int driven)
{
    return ACCEPTED | levels << 8 | driven << 16;
}

INLINE unsigned int pins_c(const struct chip *chip)
{
    struct handshakes found = handshakes(chip, chip->bus);
    unsigned int driven = blend(found.pins, ~FROM_OUTSIDE & 0xff, ~input_pins(chip->word) & 0xff);
    unsigned int own = blend(found.pins, found.status, chip->latch_c);
    return shown(blend(driven, own, chip->outside[PORT_C]), driven);
}

unsigned int quick_pins(const unsigned char *image, size_t length, unsigned char port)
{
    const struct chip *chip = (const struct chip *)image;
    if (!good(chip, length))
        return BAD_IMAGE;
    switch (port) {
    case PORT_A:
        if (chip->word & MODE_2_A ? chip->outside[PORT_C] & ACK_A : chip->word & INPUT_A)
            return shown(chip->outside[PORT_A], 0);
        return shown(chip->latches[A_OUT], 0xff);
    case PORT_B:
        if (chip->word & INPUT_B)
            return shown(chip->outside[PORT_B], 0);
        return shown(chip->latches[B_OUT], 0xff);
    case PORT_C: return pins_c(chip);
    default: return OUT_OF_RANGE;
    }
}

unsigned int quick_tally(const unsigned char *image, size_t length, unsigned char channel, unsigned char tally)
{
    const struct chip *chip = (const struct chip *)image;
    if (!good(chip, length))
        return BAD_IMAGE;
    if (channel >= CHANNELS || tally >= TALLIES)
        return OUT_OF_RANGE;
    return ACCEPTED | (unsigned int)chip->tallies[channel][tally] << 8;
}

unsigned int quick_explain(const unsigned char *image, size_t length, unsigned char group)
{
    const struct chip *chip = (const struct chip *)image;
    if (!good(chip, length))
        return BAD_IMAGE;
    return explain(chip, group);
}
