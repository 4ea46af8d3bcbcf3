/* Histories of devices that put levels on a port while STB is low, with the image that each event must leave written out by hand. */
#include "judgement.h"
#include "layout.h"
#include "towanchor.h"
#include "ways.h"

#include <stdio.h>
#include <stdlib.h>
#include <string.h>

#define SIZE TOWANCHOR_IMAGE_SIZE
#define MOST_PRINTED 10
#define MOST_TEXT 200

static unsigned long judged, wrong;

/* Whether a byte is the first of something that the text of an image sets apart. */
static int begins(int byte)
{
    switch (byte) {
    case LEVELS_A:
    case LATCH_C:
    case LATCH_A_IN:
    case CONDITION_A_IN:
    case MODE_WORD:
    case ENABLES:
    case BUS:
        return 1;
    default:
        return 0;
    }
}

/* The image as a text: seven tallies of each channel, A in, A out, B in and B out; then, two digits to a byte, the levels of A, B and C, the
 * latch of C, the four latches, the four conditions, the mode word, the enables and the bus. */
static void write_out(char *text)
{
    int each;

    for (each = 0; each < 4 * TALLY_BYTES / 2; each++)
        text += sprintf(text, each > 0 && each % (TALLY_BYTES / 2) == 0 ? " %u" : "%u", image[2 * each] + 256u * image[2 * each + 1]);
    for (each = LEVELS_A; each < EDITION; each++)
        text += sprintf(text, begins(each) ? " %02X" : "%02X", image[each]);
}

/* Judges the image by its text, and the answer of the event that left it. */
static void stands(unsigned int answer, unsigned int right_answer, const char *right_text)
{
    char text[MOST_TEXT];

    write_out(text);
    judged++;
    if (answer == right_answer && is_image(image) && image[EDITION] == TOWANCHOR_8255A && strcmp(text, right_text) == 0)
        return;
    if (wrong++ < MOST_PRINTED)
        printf("wrong: answer %X and image %s\nfor    answer %X and image %s\n", answer, text, right_answer, right_text);
}

static void switch_on(unsigned char a, unsigned char b, unsigned char c, unsigned char word, const char *right_text)
{
    unsigned int answer = towanchor_power_up_with_levels(image, SIZE, a, b, c);

    write_byte(TOWANCHOR_CONTROL, word);
    stands(answer, TOWANCHOR_ACCEPTED, right_text);
}

static void put(unsigned char port, unsigned char levels, const char *right_text)
{
    stands(towanchor_step(image, SIZE, TOWANCHOR_OUTSIDE_LEVELS, port, levels), TOWANCHOR_ACCEPTED, right_text);
}

static void begin_read(unsigned char port, unsigned char byte, const char *right_text)
{
    stands(towanchor_step(image, SIZE, TOWANCHOR_BEGIN_READ, port, 0), (unsigned int)byte << 8, right_text);
}

static void end_cycle(const char *right_text)
{
    stands(towanchor_step(image, SIZE, TOWANCHOR_END_CYCLE, 0, 0), TOWANCHOR_ACCEPTED, right_text);
}

static void write_and_end(unsigned char address, unsigned char byte, const char *right_text)
{
    event(TOWANCHOR_BEGIN_WRITE, address, byte);
    end_cycle(right_text);
}

/* Judges an image by what a port's pins show of it. */
static void shows(unsigned char port, unsigned int levels, unsigned int driven)
{
    unsigned int view = towanchor_pins(image, SIZE, port);

    judged++;
    if (view != (driven << 16 | levels << 8) && wrong++ < MOST_PRINTED)
        printf("wrong: the pins of port %d as %X, with %02X and %02X expected\n", port, view, levels, driven);
}

/* What is on the lines when STB rises is what is read. A fall during the read offers another byte, to which the next levels add nothing in
 * any tally; the end of the read swallows it, and what the latch took last is read once more. */
static void until_strobe_rises(void)
{
    switch_on(0xFF, 0xFF, 0xFF, 0xB0, "0000000 0000000 0000000 0000000 FFFFFF 00 00000000 00000000 B0 00 0800");
    put(TOWANCHOR_C, 0xEF, "1000000 0000000 0000000 0000000 FFFFEF 00 FF000000 01000000 B0 00 0800");
    put(TOWANCHOR_A, 0x40, "1000000 0000000 0000000 0000000 40FFEF 00 40000000 01000000 B0 00 0800");
    put(TOWANCHOR_A, 0x41, "1000000 0000000 0000000 0000000 41FFEF 00 41000000 01000000 B0 00 0800");
    put(TOWANCHOR_C, 0xFF, "1000000 0000000 0000000 0000000 41FFFF 00 41000000 01000000 B0 00 0800");
    put(TOWANCHOR_A, 0x42, "1000000 0000000 0000000 0000000 42FFFF 00 41000000 01000000 B0 00 0800");
    begin_read(TOWANCHOR_A, 0x41, "1100000 0000000 0000000 0000000 42FFFF 00 41000000 02000000 B0 00 0000");
    put(TOWANCHOR_A, 0x43, "1100000 0000000 0000000 0000000 43FFFF 00 41000000 02000000 B0 00 0000");
    put(TOWANCHOR_C, 0xEF, "2100000 0000000 0000000 0000000 43FFEF 00 43000000 01000000 B0 00 0000");
    put(TOWANCHOR_A, 0x44, "2100000 0000000 0000000 0000000 44FFEF 00 44000000 01000000 B0 00 0000");
    end_cycle("2101000 0000000 0000000 0000000 44FFEF 00 44000000 00000000 B0 00 0800");
    begin_read(TOWANCHOR_A, 0x44, "2101000 0000000 0000000 0000000 44FFEF 00 44000000 00000000 B0 00 0000");
    end_cycle("2101000 0000000 0000000 0000000 44FFEF 00 44000000 00000000 B0 00 0800");
}

/* With STB low all through a read, levels that come after it began change what the next read answers, and no tally. */
static void while_a_read_runs(void)
{
    switch_on(0xFF, 0xFF, 0xFF, 0xB0, "0000000 0000000 0000000 0000000 FFFFFF 00 00000000 00000000 B0 00 0800");
    put(TOWANCHOR_C, 0xEF, "1000000 0000000 0000000 0000000 FFFFEF 00 FF000000 01000000 B0 00 0800");
    put(TOWANCHOR_A, 0x50, "1000000 0000000 0000000 0000000 50FFEF 00 50000000 01000000 B0 00 0800");
    begin_read(TOWANCHOR_A, 0x50, "1100000 0000000 0000000 0000000 50FFEF 00 50000000 02000000 B0 00 0000");
    put(TOWANCHOR_A, 0x51, "1100000 0000000 0000000 0000000 51FFEF 00 51000000 02000000 B0 00 0000");
    put(TOWANCHOR_B, 0x77, "1100000 0000000 0000000 0000000 5177EF 00 51000000 02000000 B0 00 0000");
    end_cycle("1100000 0000000 0000000 0000000 5177EF 00 51000000 00000000 B0 00 0800");
    begin_read(TOWANCHOR_A, 0x51, "1100000 0000000 0000000 0000000 5177EF 00 51000000 00000000 B0 00 0000");
    put(TOWANCHOR_A, 0xD2, "1100000 0000000 0000000 0000000 D277EF 00 D2000000 00000000 B0 00 0000");
    end_cycle("1100000 0000000 0000000 0000000 D277EF 00 D2000000 00000000 B0 00 0800");
    begin_read(TOWANCHOR_A, 0xD2, "1100000 0000000 0000000 0000000 D277EF 00 D2000000 00000000 B0 00 0000");
    end_cycle("1100000 0000000 0000000 0000000 D277EF 00 D2000000 00000000 B0 00 0800");
}

/* A mode word that finds STB low takes nothing from the lines. The same levels once more are an event, and the latch takes them. */
static void low_at_the_mode_word(void)
{
    switch_on(0x66, 0xFF, 0xEF, 0xB0, "0000000 0000000 0000000 0000000 66FFEF 00 00000000 00000000 B0 00 0800");
    begin_read(TOWANCHOR_A, 0x00, "0000000 0000000 0000000 0000000 66FFEF 00 00000000 00000000 B0 00 0000");
    end_cycle("0000000 0000000 0000000 0000000 66FFEF 00 00000000 00000000 B0 00 0800");
    put(TOWANCHOR_A, 0x66, "0000000 0000000 0000000 0000000 66FFEF 00 66000000 00000000 B0 00 0800");
    begin_read(TOWANCHOR_A, 0x66, "0000000 0000000 0000000 0000000 66FFEF 00 66000000 00000000 B0 00 0000");
    end_cycle("0000000 0000000 0000000 0000000 66FFEF 00 66000000 00000000 B0 00 0800");
}

/* On port C a fall of STB alone lets the latch take the lines: not an STB that stays low, whatever its neighbours do, nor a rise. */
static void levels_of_port_c(void)
{
    switch_on(0x66, 0xFF, 0xEF, 0xB0, "0000000 0000000 0000000 0000000 66FFEF 00 00000000 00000000 B0 00 0800");
    put(TOWANCHOR_C, 0xEF, "0000000 0000000 0000000 0000000 66FFEF 00 00000000 00000000 B0 00 0800");
    put(TOWANCHOR_C, 0x00, "0000000 0000000 0000000 0000000 66FF00 00 00000000 00000000 B0 00 0800");
    put(TOWANCHOR_C, 0x10, "0000000 0000000 0000000 0000000 66FF10 00 00000000 00000000 B0 00 0800");
    put(TOWANCHOR_C, 0xFF, "0000000 0000000 0000000 0000000 66FFFF 00 00000000 00000000 B0 00 0800");
    put(TOWANCHOR_C, 0xAB, "1000000 0000000 0000000 0000000 66FFAB 00 66000000 01000000 B0 00 0800");
    put(TOWANCHOR_C, 0xEF, "1000000 0000000 0000000 0000000 66FFEF 00 66000000 01000000 B0 00 0800");
    put(TOWANCHOR_C, 0x10, "1000000 0000000 0000000 0000000 66FF10 00 66000000 01000000 B0 00 0800");
    put(TOWANCHOR_A, 0x67, "1000000 0000000 0000000 0000000 67FF10 00 66000000 01000000 B0 00 0800");
    put(TOWANCHOR_C, 0x00, "2010000 0000000 0000000 0000000 67FF00 00 67000000 01000000 B0 00 0800");
}

/* Mode 2 with STB and ACK low: the chip drives port A, whose pins show the output latch; the input latch follows what the outside puts
 * there all the same. With ACK high the pins show it too. */
static void both_ways(void)
{
    switch_on(0xFF, 0xFF, 0xFF, 0xC0, "0000000 0000000 0000000 0000000 FFFFFF 00 00000000 00000000 C0 00 0800");
    write_and_end(TOWANCHOR_A, 0x5A, "0000000 1000000 0000000 0000000 FFFFFF 00 005A0000 00010000 C0 00 0800");
    shows(TOWANCHOR_A, 0xFF, 0x00);
    put(TOWANCHOR_C, 0xAF, "1000000 1100000 0000000 0000000 FFFFAF 00 FF5A0000 01000000 C0 00 0800");
    shows(TOWANCHOR_A, 0x5A, 0xFF);
    put(TOWANCHOR_A, 0x33, "1000000 1100000 0000000 0000000 33FFAF 00 335A0000 01000000 C0 00 0800");
    shows(TOWANCHOR_A, 0x5A, 0xFF);
    begin_read(TOWANCHOR_A, 0x33, "1100000 1100000 0000000 0000000 33FFAF 00 335A0000 02000000 C0 00 0000");
    put(TOWANCHOR_A, 0x34, "1100000 1100000 0000000 0000000 34FFAF 00 345A0000 02000000 C0 00 0000");
    end_cycle("1100000 1100000 0000000 0000000 34FFAF 00 345A0000 00000000 C0 00 0800");
    put(TOWANCHOR_C, 0xEF, "1100000 1100000 0000000 0000000 34FFEF 00 345A0000 00000000 C0 00 0800");
    put(TOWANCHOR_A, 0x35, "1100000 1100000 0000000 0000000 35FFEF 00 355A0000 00000000 C0 00 0800");
    shows(TOWANCHOR_A, 0x35, 0x00);
}

/* Port B follows by pin 2, and not by A's; the levels of A do not come into its latch. */
static void group_b(void)
{
    switch_on(0xFF, 0xFF, 0xFF, 0x86, "0000000 0000000 0000000 0000000 FFFFFF 00 00000000 00000000 86 00 0800");
    put(TOWANCHOR_C, 0xEF, "0000000 0000000 0000000 0000000 FFFFEF 00 00000000 00000000 86 00 0800");
    put(TOWANCHOR_B, 0x3F, "0000000 0000000 0000000 0000000 FF3FEF 00 00000000 00000000 86 00 0800");
    put(TOWANCHOR_C, 0xFB, "0000000 0000000 1000000 0000000 FF3FFB 00 00003F00 00000100 86 00 0800");
    put(TOWANCHOR_B, 0x40, "0000000 0000000 1000000 0000000 FF40FB 00 00004000 00000100 86 00 0800");
    put(TOWANCHOR_A, 0x99, "0000000 0000000 1000000 0000000 9940FB 00 00004000 00000100 86 00 0800");
    put(TOWANCHOR_B, 0x41, "0000000 0000000 1000000 0000000 9941FB 00 00004100 00000100 86 00 0800");
    put(TOWANCHOR_C, 0xFF, "0000000 0000000 1000000 0000000 9941FF 00 00004100 00000100 86 00 0800");
    put(TOWANCHOR_B, 0x42, "0000000 0000000 1000000 0000000 9942FF 00 00004100 00000100 86 00 0800");
    begin_read(TOWANCHOR_B, 0x41, "0000000 0000000 1100000 0000000 9942FF 00 00004100 00000200 86 00 0100");
    end_cycle("0000000 0000000 1100000 0000000 9942FF 00 00004100 00000000 86 00 0800");
}

/* Mode 1 output, of B and then of A. Pin 2 is ACK, and pin 4 is free: low, neither opens a latch. */
static void outputs(void)
{
    switch_on(0xFF, 0xFF, 0xFF, 0x84, "0000000 0000000 0000000 0000000 FFFFFF 00 00000000 00000000 84 00 0800");
    write_and_end(TOWANCHOR_B, 0x5B, "0000000 0000000 0000000 1000000 FFFFFF 00 0000005B 00000001 84 00 0800");
    put(TOWANCHOR_C, 0xFB, "0000000 0000000 0000000 1100000 FFFFFB 00 0000005B 00000000 84 00 0800");
    put(TOWANCHOR_B, 0x42, "0000000 0000000 0000000 1100000 FF42FB 00 0000005B 00000000 84 00 0800");
    shows(TOWANCHOR_B, 0x5B, 0xFF);
    switch_on(0xFF, 0xFF, 0xFF, 0xA0, "0000000 0000000 0000000 0000000 FFFFFF 00 00000000 00000000 A0 00 0800");
    write_and_end(TOWANCHOR_A, 0x5C, "0000000 1000000 0000000 0000000 FFFFFF 00 005C0000 00010000 A0 00 0800");
    put(TOWANCHOR_C, 0xEF, "0000000 1000000 0000000 0000000 FFFFEF 00 005C0000 00010000 A0 00 0800");
    put(TOWANCHOR_A, 0x43, "0000000 1000000 0000000 0000000 43FFEF 00 005C0000 00010000 A0 00 0800");
    put(TOWANCHOR_C, 0xAF, "0000000 1100000 0000000 0000000 43FFAF 00 005C0000 00000000 A0 00 0800");
    put(TOWANCHOR_A, 0x44, "0000000 1100000 0000000 0000000 44FFAF 00 005C0000 00000000 A0 00 0800");
    shows(TOWANCHOR_A, 0x5C, 0xFF);
}

/* Mode 0 has no latch for what comes in: a read answers what is on the lines. */
static void mode_zero(void)
{
    switch_on(0x11, 0x22, 0x00, 0x9B, "0000000 0000000 0000000 0000000 112200 00 00000000 00000000 9B 00 0800");
    put(TOWANCHOR_A, 0x40, "0000000 0000000 0000000 0000000 402200 00 00000000 00000000 9B 00 0800");
    put(TOWANCHOR_B, 0x41, "0000000 0000000 0000000 0000000 404100 00 00000000 00000000 9B 00 0800");
    put(TOWANCHOR_C, 0xFF, "0000000 0000000 0000000 0000000 4041FF 00 00000000 00000000 9B 00 0800");
    put(TOWANCHOR_C, 0x00, "0000000 0000000 0000000 0000000 404100 00 00000000 00000000 9B 00 0800");
    put(TOWANCHOR_A, 0x42, "0000000 0000000 0000000 0000000 424100 00 00000000 00000000 9B 00 0800");
    begin_read(TOWANCHOR_A, 0x42, "0000000 0000000 0000000 0000000 424100 00 00000000 00000000 9B 00 0000");
    end_cycle("0000000 0000000 0000000 0000000 424100 00 00000000 00000000 9B 00 0800");
}

int main(void)
{
    until_strobe_rises();
    while_a_read_runs();
    low_at_the_mode_word();
    levels_of_port_c();
    both_ways();
    group_b();
    outputs();
    mode_zero();
    printf("%lu images and views judged, %lu wrong\n", judged, wrong);
    return wrong == 0 ? EXIT_SUCCESS : EXIT_FAILURE;
}
