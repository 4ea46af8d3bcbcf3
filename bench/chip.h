/* What both C models know: the numbers of ports, channels, cycles, events and answers, the bits of a mode word and of port C, and the
   image as x86-64 sees it. */
#ifndef CHIP_H
#define CHIP_H

enum { PORT_A, PORT_B, PORT_C, CONTROL };
enum { GROUP_A, GROUP_B };
enum { A_IN, A_OUT, B_IN, B_OUT, CHANNELS };
enum { EMPTY, WAITING, FETCHING };
enum { OFFERED, HANDED_OVER, OVERWRITTEN, SWALLOWED, CLEARED, PLANTED, STRUCK, TALLIES };

/* What runs on the bus: a read at its address, or a write at WRITING and its address, or nothing. */
enum { READING, WRITING = 4, IDLE = 8 };

enum { OLDER, NEWER };

enum { RESET, BEGIN_READ, END_CYCLE, BEGIN_WRITE, OUTSIDE_LEVELS = 5 };

/* The numbers of the answers, 8 being the one for the image. */
enum { ACCEPTED, NO_SUCH_KIND, OUT_OF_RANGE, NOT_READABLE, CYCLE_RUNS, NO_CYCLE_RUNS, BAD_IMAGE = 8 };

/* What a half of INTR is doing. Of those by which it is low, from ENABLE_OFF to OWN_CYCLE, the first that holds is given. */
enum { NO_HALF, MODE_ZERO, ENABLE_OFF, FLAG_WRONG, LINE_LOW, OWN_CYCLE, HIGH };

/* The bits of a mode word. */
enum { MODE_WORD = 0x80, MODE_2_A = 0x40, MODE_1_A = 0x20, INPUT_A = 0x10, INPUT_C_UPPER = 0x08 };
enum { MODE_1_B = 0x04, INPUT_B = 0x02, INPUT_C_LOWER = 0x01 };
enum { WORD_AFTER_RESET = MODE_WORD | INPUT_A | INPUT_C_UPPER | INPUT_B | INPUT_C_LOWER };

/* Pins of port C; those of port B serve both ways. STB and ACK, which the outside drives, are also the places of the enables. */
enum { OBF_A = 0x80, ACK_A = 0x40, IBF_A = 0x20, STB_A = 0x10, INTR_A = 0x08 };
enum { STB_ACK_B = 0x04, IBF_OBF_B = 0x02, INTR_B = 0x01 };
enum { FROM_OUTSIDE = STB_A | ACK_A | STB_ACK_B };
enum { FLAGS = OBF_A | IBF_A | IBF_OBF_B };

/* The image, which has the low byte of a number first, as x86-64 has. Packed and may_alias because a caller may lend any 96 bytes, and the
   models look at them as a chip. */
struct __attribute__((packed, may_alias)) chip {
    unsigned short tallies[CHANNELS][TALLIES];
    unsigned char outside[3];
    unsigned char latch_c;
    unsigned char latches[CHANNELS];
    unsigned char conditions[CHANNELS];
    unsigned char word;
    unsigned char enables;
    unsigned char bus;
    unsigned char data;
    unsigned char edition;
    unsigned char unused[23];
};

enum { IMAGE = 96 };
_Static_assert(sizeof(struct chip) == IMAGE, "a chip lies in memory as the image does");

#endif
