/*
 * Towanchor: a proved model of Intel's 8255A and of its newer edition, the 82C55A, as C functions over an image of 96 bytes, one over a
 * journal of events, and one over the text of a script.
 *
 * An image is the whole state of one chip. The host owns it: it may lie at any address, be copied, saved, moved and restored
 * byte by byte, and there may be as many as the host likes, one for each chip. The host need not look inside. A new image is
 * made by towanchor_power_up, towanchor_power_up_with_levels or towanchor_power_up_as; one that came from elsewhere, a file perhaps, is
 * judged by every function that is given it, and refused with TOWANCHOR_NO_STATE where it is the image of no state.
 *
 * A machine that was saved by an earlier version may have an older image, of 64 bytes. towanchor_convert makes an image of it; every
 * other function refuses it. Whatever an earlier version saved is of the 8255A.
 *
 * Saved machines: the outside levels are part of an image, so that a restored machine goes on under the levels that it was saved
 * with; restoring is no power-up. A machine that was made for lines which idle high, as they did on the old backplane, names them
 * when it is switched on anew: towanchor_power_up_with_levels(image, length, 0xFF, 0xFF, 0xFF).
 *
 * What a function answers, and what it writes, depends on the image, the journal or the text, and on the operands, and on nothing else. No
 * function allocates, prints, keeps anything from one call to the next, or fails. Each but towanchor_words returns one number, to be
 * taken apart by the macros below, of which TOWANCHOR_NUMBER says whether the call was accepted. A refused call writes nothing, and
 * all bits of its answer above the number are 0. 'image' points to 'length' bytes, and 'length' must be TOWANCHOR_IMAGE_SIZE.
 */
#ifndef TOWANCHOR_H
#define TOWANCHOR_H

#include <stddef.h>

#ifdef __cplusplus
extern "C" {
#endif

/* The bytes of an image, and of an older one. */
#define TOWANCHOR_IMAGE_SIZE 96
#define TOWANCHOR_OLDER_IMAGE_SIZE 64

/* Editions: which part the chip is. It is named at power-up and kept in the image, and no event changes it. The two differ in one thing: in
 * an 82C55A control can be read, see towanchor_power_up_as. Its bus-hold circuits are not modelled. */
#define TOWANCHOR_8255A 0          /* the older part; it is made where no edition is named */
#define TOWANCHOR_82C55A 1         /* the newer part */

/* The number of an answer. Where several would apply, TOWANCHOR_NO_STATE comes first, then TOWANCHOR_TOO_LONG, and then the lowest; so
 * TOWANCHOR_NO_ROOM comes last. */
#define TOWANCHOR_ACCEPTED 0       /* nothing was refused */
#define TOWANCHOR_NO_SUCH_KIND 1   /* the kind of an event is none of those below */
#define TOWANCHOR_NO_FRAME 1       /* the same number, from towanchor_trim: a word of the journal is no frame */
#define TOWANCHOR_OUT_OF_RANGE 2   /* an address above 3, a port above 2, a channel above 3, a tally above 6 or a group above 1 */
#define TOWANCHOR_NOT_READABLE 3   /* a read was begun at the control address of an 8255A; an 82C55A never gives this number */
#define TOWANCHOR_CYCLE_RUNS 4     /* a read or a write was begun while one runs */
#define TOWANCHOR_NO_CYCLE_RUNS 5  /* a cycle was ended while none runs */
#define TOWANCHOR_TOO_LONG 6       /* the journal has more than TOWANCHOR_MOST_WORDS words, or a script TOWANCHOR_LONGEST_SCRIPT bytes */
#define TOWANCHOR_NO_ROOM 7        /* from towanchor_mend: a buffer is too short */
#define TOWANCHOR_NO_STATE 8       /* a length is not that of an image, the image, or older image, is of no state, or the edition is none */

/* Kinds of events, with the operands that each takes; those that a kind lacks are ignored by towanchor_step, and 0 in a journal.
 *
 * Reads and writes end by the same kind, which stands where earlier versions had one for each, 2 for reads and 4 for writes. There is no
 * kind 4 now: it is refused with TOWANCHOR_NO_SUCH_KIND, and the write goes on until TOWANCHOR_END_CYCLE ends it. */
#define TOWANCHOR_RESET 0          /* the reset pin; outside levels and tallies stay, and a running cycle is dropped */
#define TOWANCHOR_BEGIN_READ 1     /* first: the address; the answer has the byte that is read */
#define TOWANCHOR_END_CYCLE 2      /* of the cycle that runs: after a read its port's IBF falls, and the byte of a write acts */
#define TOWANCHOR_BEGIN_WRITE 3    /* first: the address, second: the byte, which acts when the cycle ends */
#define TOWANCHOR_OUTSIDE_LEVELS 5 /* first: the port, second: the levels that the outside now puts on its eight pins */

/* Ports, which are addresses too, and the address that is no port. */
#define TOWANCHOR_A 0              /* port A, of group A */
#define TOWANCHOR_B 1              /* port B, of group B */
#define TOWANCHOR_C 2              /* port C, whose pins serve the handshakes of the others */
#define TOWANCHOR_CONTROL 3        /* mode words, and bit set/reset of one pin of port C, one enable or one flag; read in an 82C55A alone */

/* The pins of port C that handshakes use, as numbers of pins; see TOWANCHOR_PIN. STB and ACK come from outside, and act when they
 * fall; the chip drives the others. While STB is low, levels put on its port go through to the port's input latch, and a byte that waits
 * there has that value from then on; in earlier versions it kept what stood there at the fall. So a device that has sent its byte raises STB
 * before it changes the lines. STB, ACK and OBF are low when they say something, IBF and INTR are high. Which of them are in use depends on
 * the mode word: the input pins of A in mode 1 input, its output pins in mode 1 output, all five in mode 2.
 *
 * Bit set/reset of the pin of IBF or OBF forces the flag. IBF set or OBF reset, on an empty channel, plants a byte there: it has the value
 * of the latch, and waits as one that was offered does. IBF reset or OBF set, on a channel in which a byte waits, strikes that byte, and the
 * channel is empty. Otherwise nothing happens, nor does it on the pins of INTR, which are not forced. */
#define TOWANCHOR_INTR_A 3         /* port A asks the processor: a byte has come in, or the last one was taken */
#define TOWANCHOR_STB_A 4          /* the outside puts a byte on port A */
#define TOWANCHOR_IBF_A 5          /* that byte has not been fetched yet; it is high until the read ends */
#define TOWANCHOR_ACK_A 6          /* the outside takes the byte of port A */
#define TOWANCHOR_OBF_A 7          /* a byte waits in port A to be taken */
#define TOWANCHOR_INTR_B 0         /* as INTR of A, for port B, which goes one way at a time: two pins serve for either way */
#define TOWANCHOR_IBF_B 1          /* as IBF of A, where B is an input */
#define TOWANCHOR_OBF_B 1          /* as OBF of A, where B is an output */
#define TOWANCHOR_STB_B 2          /* as STB of A, where B is an input */
#define TOWANCHOR_ACK_B 2          /* as ACK of A, where B is an output */

/* A pin as a mask: the one bit of a byte of levels that is the pin's. */
#define TOWANCHOR_PIN(pin) (1u << (pin))

/* Channels: the four ways by which strobed bytes go. */
#define TOWANCHOR_A_IN 0           /* into port A by STB: mode 1 input, and mode 2 */
#define TOWANCHOR_A_OUT 1          /* out of port A by ACK: mode 1 output, and mode 2 */
#define TOWANCHOR_B_IN 2           /* into port B by STB: mode 1 input */
#define TOWANCHOR_B_OUT 3          /* out of port B by ACK: mode 1 output */

/* Tallies: what became of the bytes of a channel since power-up. Each byte that was offered or planted is in one of the other five, unless
 * it waits. A tally at 65,535 goes on to 0. */
#define TOWANCHOR_OFFERED 0        /* strobed in from outside, or written by the processor */
#define TOWANCHOR_HANDED_OVER 1    /* read by the processor, or taken by the outside */
#define TOWANCHOR_OVERWRITTEN 2    /* lost to the next byte, which came while this one waited */
#define TOWANCHOR_SWALLOWED 3      /* lost to the end of a read that had begun before the byte came */
#define TOWANCHOR_CLEARED 4        /* lost to a reset or a mode word */
#define TOWANCHOR_PLANTED 5        /* put there by a flag that was forced, and not offered */
#define TOWANCHOR_STRUCK 6         /* lost to a flag that was forced */

/* Groups: a port with its pins of port C. A group's INTR has two halves: one asks for a read of the port, the other for a write. Mode 1
 * has one of them, by the port's direction; mode 2 has both, and either raises the pin; mode 0 has none, and the pin is a plain one. */
#define TOWANCHOR_GROUP_A 0        /* port A, with TOWANCHOR_INTR_A */
#define TOWANCHOR_GROUP_B 1        /* port B, with TOWANCHOR_INTR_B */
#define TOWANCHOR_INPUT_HALF 0     /* the half that asks for a read; so is any other number where a half is named */
#define TOWANCHOR_OUTPUT_HALF 1    /* the half that asks for a write */

/* Reasons: what a half is doing. Where several hold by which it is low, the lowest is given. */
#define TOWANCHOR_NO_HALF 0        /* there is no such half: in mode 1 the port goes the other way */
#define TOWANCHOR_MODE_ZERO 1      /* there is no INTR: the group is in mode 0; it is said of both halves */
#define TOWANCHOR_ENABLE_OFF 2     /* low: the interrupt is not enabled */
#define TOWANCHOR_FLAG_WRONG 3     /* low: IBF is low, and no byte waits in the input; or OBF is low, and one waits in the output */
#define TOWANCHOR_LINE_LOW 4       /* low: STB of an input is low, or ACK of an output */
#define TOWANCHOR_OWN_CYCLE 5      /* low: a read of an input's port runs, or a write to an output's */
#define TOWANCHOR_HIGH 6           /* high */

/* Journals: a host may log the events that it passes to towanchor_step, from power-up on, to let them happen once more. A journal is an array
 * of words of 32 bits, one for each event: the kind in the upper sixteen bits, and a byte for either operand, the first above the second.
 *
 * Each word is a frame: its kind is one of those above, and operands that the kind lacks are 0. It does not matter whether the event was
 * accepted; but one of a kind that there is not, 4 among them, is no frame and must not be logged. A word that is 0 is a reset. */
#define TOWANCHOR_MOST_WORDS 8192  /* the most that a journal has which is trimmed */
#define TOWANCHOR_WORD(kind, first, second) \
    (((kind) & 0xFFu) << 16 | ((first) & 0xFFu) << 8 | ((second) & 0xFFu)) /* an event as a word; each of the three is cut to a byte */
#define TOWANCHOR_WORD_KIND(word) (((word) >> 16) & 0xFFFFu)  /* the kind, which is a byte where the word is a frame */
#define TOWANCHOR_WORD_FIRST(word) (((word) >> 8) & 0xFFu)    /* the first operand */
#define TOWANCHOR_WORD_SECOND(word) ((word) & 0xFFu)          /* the second operand */

/* Scripts: an event can also be a line of text, as in the script files that examples/README.md of Towanchor's repository describes. A line is a
 * frame in hexadecimal: the kind and just the operands that it takes, two digits each, 0 to 9 and A to F, and then a line feed. TOWANCHOR_RESET
 * and TOWANCHOR_END_CYCLE take none, TOWANCHOR_BEGIN_READ takes one, TOWANCHOR_BEGIN_WRITE and TOWANCHOR_OUTSIDE_LEVELS take two: "0303B0"
 * begins the write of B0 at TOWANCHOR_CONTROL. A script that was typed or captured may have lines that are no frames; towanchor_mend makes a
 * clean one of it. */
#define TOWANCHOR_LONGEST_SCRIPT 4096 /* the most bytes that a script has */

/* Signs: what became of a line, in the report of towanchor_mend. */
#define TOWANCHOR_SIGN_KEPT 'K'    /* fit, and every byte of it was there already, the line feed included */
#define TOWANCHOR_SIGN_MENDED 'M'  /* fit after a change */
#define TOWANCHOR_SIGN_BLANK 'B'   /* left out: nothing stands in it */
#define TOWANCHOR_SIGN_UNFIT 'U'   /* left out: it is no frame */

/* Taking an answer apart. */
#define TOWANCHOR_NUMBER(answer) ((answer) & 0xFFu)           /* of every answer: 0, or why the call was refused */
#define TOWANCHOR_BYTE(answer) (((answer) >> 8) & 0xFFu)      /* of towanchor_step: the byte that is read */
#define TOWANCHOR_LEVELS(answer) (((answer) >> 8) & 0xFFu)    /* of towanchor_pins: the levels of the eight pins */
#define TOWANCHOR_DRIVEN(answer) (((answer) >> 16) & 0xFFu)   /* of towanchor_pins: a one for each pin that the chip drives */
#define TOWANCHOR_TALLY(answer) (((answer) >> 8) & 0xFFFFu)   /* of towanchor_tally: the count */
#define TOWANCHOR_KEPT(answer) ((answer) >> 8)                /* of towanchor_trim: how many words were kept */
#define TOWANCHOR_CLEAN(answer) (((answer) >> 8) & 0xFFFFFFu) /* of towanchor_mend: the bytes of the clean text */
#define TOWANCHOR_SIGNS(answer) ((answer) >> 32)              /* of towanchor_mend: the signs of the report, one for each line */
#define TOWANCHOR_REASON(answer, half) \
    (((answer) >> ((half) == TOWANCHOR_OUTPUT_HALF ? 16 : 8)) & 0xFFu) /* of towanchor_explain: what that half is doing */

/* Makes the image that of a chip just powered up: all ports inputs in mode 0, outside levels low, all tallies 0. What stood in it
 * does not matter. Refuses nothing but a wrong length.
 *
 * Outside levels are low since the backplane pulls idle lines down; in earlier versions they were high. STB and ACK then start low,
 * and only a fall counts: the outside has to raise such a line before it can use it. Until then its channel does not raise INTR, and
 * in mode 2 port A is driven, as it is whenever ACK is low. A host that counts on high lines calls towanchor_power_up_with_levels. */
unsigned int towanchor_power_up(unsigned char *image, size_t length);

/* The same under outside levels that the host names for the eight pins of port A, of port B and of port C; each may be any byte. It is
 * as if TOWANCHOR_OUTSIDE_LEVELS had come for each port after towanchor_power_up. */
unsigned int towanchor_power_up_with_levels(unsigned char *image, size_t length, unsigned char levels_a, unsigned char levels_b,
                                            unsigned char levels_c);

/* The same of the edition that the host names, TOWANCHOR_8255A or TOWANCHOR_82C55A; the two functions above make an 8255A. Any other edition
 * is refused with TOWANCHOR_NO_STATE, as a wrong length is.
 *
 * An 82C55A answers a read at TOWANCHOR_CONTROL by the last mode word, with bit 7 set; it is 0x9B where none came since power-up or the last
 * reset. Bit set/reset does not change it. The read is a cycle, and none begins before it has ended, but it is no port's own: INTR does
 * not fall, and its end changes nothing else. */
unsigned int towanchor_power_up_as(unsigned char *image, size_t length, unsigned char edition, unsigned char levels_a,
                                   unsigned char levels_b, unsigned char levels_c);

/* Makes an image of an older one: the image of the same state, an 8255A's, in which nothing was planted or struck. 'older' points to
 * 'older_length' bytes, which must be TOWANCHOR_OLDER_IMAGE_SIZE and are not written to; it shares none with 'image', in which it does not
 * matter what stood. Refuses, with TOWANCHOR_NO_STATE, a wrong length of either, and bytes that are no older image. */
unsigned int towanchor_convert(const unsigned char *older, size_t older_length, unsigned char *image, size_t length);

/* Lets one event happen to the chip. Answers the number, and the byte (TOWANCHOR_BYTE) where the event is the beginning of a read
 * and is accepted; else that byte is 0.
 *
 * Beware of numbers above 0xFF. C cuts an argument for an unsigned char to its lowest eight bits without a word, so that no function sees
 * the rest: kind 0x102 ends a cycle, address 0x100 is TOWANCHOR_A, and neither is refused. A host whose kinds or addresses are wider compares
 * them with 0xFF before the call. So it is with every argument of that type here: an edition, levels, a port, a channel, a tally, a group.
 * -Wconversion has gcc and clang warn of such arguments. */
unsigned int towanchor_step(unsigned char *image, size_t length, unsigned char kind, unsigned char first, unsigned char second);

/* Shows a port's eight pins: their levels (TOWANCHOR_LEVELS) and which of them the chip drives (TOWANCHOR_DRIVEN); a pin that it
 * does not drive has the level that the outside puts on it. */
unsigned int towanchor_pins(const unsigned char *image, size_t length, unsigned char port);

/* Answers one tally of one channel (TOWANCHOR_TALLY). */
unsigned int towanchor_tally(const unsigned char *image, size_t length, unsigned char channel, unsigned char tally);

/* Explains a group's INTR: what each of its halves is doing and, where it is low, the first reason (TOWANCHOR_REASON). TOWANCHOR_NUMBER
 * is asked first: a refused answer has TOWANCHOR_NO_HALF for both halves. */
unsigned int towanchor_explain(const unsigned char *image, size_t length, unsigned char group);

/* Trims a journal: the events after which the state of the chip is another than before are kept, and all others are dropped. 'words' points
 * to 'count' words, just those that the host has logged: a word that it has not used yet would be taken for an event.
 *
 * The log must begin at a power-up, and the edition and the levels must be those of that power-up, as towanchor_power_up_as takes them; after
 * towanchor_power_up they are TOWANCHOR_8255A and 0, 0, 0. Under others the wrong events would be dropped. A log that begins at an image
 * which was saved cannot be trimmed.
 *
 * Dropped are events that are refused, resets which find all as at power-up, levels and tallies aside, and levels that change nothing. Every
 * beginning and every end of a cycle that is accepted is kept. So are levels that are there already, where they go through to an input latch
 * that has something else, as it may have after a mode word which came while STB was low.
 *
 * The kept words are moved to the front, in their order, and the rest of the 'count' words are made 0. The answer has how many were kept
 * (TOWANCHOR_KEPT). The host logs its next event behind them, at words[TOWANCHOR_KEPT(answer)], and may trim again when the array is full.
 * Trimming what was kept keeps all of it; where everything is kept no room is gained.
 *
 * To replay a journal, trimmed or not, the host powers up a chip as at its beginning and passes word after word to towanchor_step, by
 * TOWANCHOR_WORD_KIND, TOWANCHOR_WORD_FIRST and TOWANCHOR_WORD_SECOND. The kept words lead to the same image as all of them, byte for byte,
 * tallies and all; each of them finds the state that it found before, and is answered as it was.
 *
 * Refuses, in this order: an edition that is none, with TOWANCHOR_NO_STATE; more than TOWANCHOR_MOST_WORDS words, with TOWANCHOR_TOO_LONG; a
 * word that is no frame, wherever it stands, with TOWANCHOR_NO_FRAME. A refused call changes no word. An empty journal is accepted, and
 * nothing of it kept. A program that does not call this function links nothing of it. */
unsigned int towanchor_trim(unsigned int *words, size_t count, unsigned char edition, unsigned char levels_a, unsigned char levels_b,
                            unsigned char levels_c);

/* Mends a script that was typed or captured: writes a clean one, and a report of what became of each line. 'text' points to 'text_length'
 * bytes, which are not written to, 'clean' to 'clean_room' bytes and 'report' to 'report_room'. Room for text_length + 1 bytes of clean text
 * and for text_length signs is always enough.
 *
 * The host keeps the three apart: no two share a byte. Nothing checks that, and nothing is promised of a call in which two do. A script that is
 * mended in its own place, with 'clean' at 'text', loses its lines before the report is made of them: they were counted first, the clean text was
 * put over them, and the report is made of what then stands there. It has the signs of other lines, up to twice as many as were counted, and
 * those that are too many are written behind 'report_room', over whatever stands there. A host that wants the clean text where the script was
 * mends into another buffer, and copies it back.
 *
 * Each line feed ends a line, which may be blank. What follows the last one, if anything does, is a line too; an empty text has none. First
 * such a last line gets the line feed that it lacks. Then one carriage return before each line feed is dropped, and no more than one. Then
 * the digits a to f are raised to A to F. Nothing else is changed, and spaces are not trimmed.
 *
 * After that a line is blank where nothing stands before its line feed, fit where it is a frame of a script, and unfit otherwise. A kind that
 * there is not, 4 among them, makes it unfit, and so does an operand too few or too many. What the operands name does not matter, nor whether
 * the event would be accepted. The fit lines, in their order, are the clean text, and the others are left out.
 *
 * The report has one of the signs above for each line, in order. The answer is to be kept in an unsigned long, which has 64 bits: it has the
 * length of the clean text (TOWANCHOR_CLEAN) and that of the report (TOWANCHOR_SIGNS). The bytes of either buffer behind these stay as they
 * were; no zero is put there. A clean text that is mended again stays as it is, and all its lines are kept.
 *
 * Refuses, in this order: a text, or a clean text, of more than TOWANCHOR_LONGEST_SCRIPT bytes, with TOWANCHOR_TOO_LONG; a clean buffer that
 * is shorter than the clean text, or a report buffer that has less bytes than the text has lines, with TOWANCHOR_NO_ROOM. The clean text is
 * longer than the text only by the line feed of the last line, where nothing was dropped. A refused call changes no byte of either buffer. A
 * program that does not call this function links nothing of it. */
unsigned long towanchor_mend(const unsigned char *text, size_t text_length, unsigned char *clean, size_t clean_room,
                             unsigned char *report, size_t report_room);

/* The words of a reason of either half, as in "low, the acknowledge line is low". A number that is no reason has those of
 * TOWANCHOR_NO_HALF. gcc and clang do not warn a host that has no use for it. */
#ifdef __GNUC__
__attribute__((__unused__))
#endif
static const char *towanchor_words(unsigned int reason, unsigned int half)
{
    int output = half == TOWANCHOR_OUTPUT_HALF;

    switch (reason) {
    case TOWANCHOR_MODE_ZERO:
        return "there is no INTR, the group is in mode 0";
    case TOWANCHOR_ENABLE_OFF:
        return "low, the interrupt is not enabled";
    case TOWANCHOR_FLAG_WRONG:
        return output ? "low, the last byte has not been taken" : "low, no byte is waiting to be read";
    case TOWANCHOR_LINE_LOW:
        return output ? "low, the acknowledge line is low" : "low, the strobe line is low";
    case TOWANCHOR_OWN_CYCLE:
        return output ? "low, a write to the port is running" : "low, a read of the port is running";
    case TOWANCHOR_HIGH:
        return "high";
    default:
        return "not in use";
    }
}

#ifdef __cplusplus
}
#endif

#endif
