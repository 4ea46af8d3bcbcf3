/* The texts that were mended by hand. Nothing is computed but the lengths of the short texts: some have zeros in them. */
#include "by_hand.h"

#define BYTES(literal) literal, sizeof literal - 1
#define NOTHING "", 0

const struct by_hand short_texts[] = {
    {BYTES(""), NOTHING, "", 0},

    /* Each kind, whatever its operands name, and every digit. */
    {BYTES("00\n"), "00\n", 3, "K", 1},
    {BYTES("0103\n"), "0103\n", 5, "K", 1},
    {BYTES("0109\n"), "0109\n", 5, "K", 1},
    {BYTES("02\n"), "02\n", 3, "K", 1},
    {BYTES("0303B0\n"), "0303B0\n", 7, "K", 1},
    {BYTES("0503AA\n"), "0503AA\n", 7, "K", 1},
    {BYTES("05FFFF\n"), "05FFFF\n", 7, "K", 1},
    {BYTES("030123\n034567\n0389AB\n03CDEF\n"), "030123\n034567\n0389AB\n03CDEF\n", 28, "KKKK", 4},
    {BYTES("00\n0103\n02\n0303B0\n0500FF\n"), "00\n0103\n02\n0303B0\n0500FF\n", 25, "KKKKK", 5},

    /* Too few operands or too many, and halves of bytes. */
    {BYTES("0000\n"), NOTHING, "U", 1},
    {BYTES("000000\n"), NOTHING, "U", 1},
    {BYTES("01\n"), NOTHING, "U", 1},
    {BYTES("010000\n"), NOTHING, "U", 1},
    {BYTES("0200\n"), NOTHING, "U", 1},
    {BYTES("020000\n"), NOTHING, "U", 1},
    {BYTES("03\n"), NOTHING, "U", 1},
    {BYTES("0303\n"), NOTHING, "U", 1},
    {BYTES("0303B000\n"), NOTHING, "U", 1},
    {BYTES("05\n"), NOTHING, "U", 1},
    {BYTES("0500\n"), NOTHING, "U", 1},
    {BYTES("0500FF00\n"), NOTHING, "U", 1},
    {BYTES("0\n"), NOTHING, "U", 1},
    {BYTES("000\n"), NOTHING, "U", 1},
    {BYTES("010\n"), NOTHING, "U", 1},
    {BYTES("01030\n"), NOTHING, "U", 1},
    {BYTES("0303B\n"), NOTHING, "U", 1},
    {BYTES("0303B01\n"), NOTHING, "U", 1},

    /* Kinds that there are not, under every count of operands. */
    {BYTES("04\n0400\n040000\n04000000\n"), NOTHING, "UUUU", 4},
    {BYTES("06\n0600\n060000\n06000000\n"), NOTHING, "UUUU", 4},
    {BYTES("07\n0700\n070000\n"), NOTHING, "UUU", 3},
    {BYTES("FF\nFF00\nFF0000\n"), NOTHING, "UUU", 3},
    {BYTES("10\n1100\n12\n130000\n150000\n"), NOTHING, "UUUUU", 5},
    {BYTES("20\n30\n50\n80\nA0\n"), NOTHING, "UUUUU", 5},
    {BYTES("0A\n0B00\n0C\n0D0000\n0F0000\n"), NOTHING, "UUUUU", 5},

    /* Lower case is raised, and nothing else is, nor are the neighbours of digits any. */
    {BYTES("0300ab\n0300cd\n0300ef\n"), "0300AB\n0300CD\n0300EF\n", 21, "MMM", 3},
    {BYTES("01aB\n01Ab\n01AB\n"), "01AB\n01AB\n01AB\n", 15, "MMK", 3},
    {BYTES("ff\n0a\n"), NOTHING, "UU", 2},
    {BYTES("010g\n"), NOTHING, "U", 1},
    {BYTES("010G\n"), NOTHING, "U", 1},
    {BYTES("01`0\n"), NOTHING, "U", 1},
    {BYTES("01@0\n"), NOTHING, "U", 1},
    {BYTES("01/0\n010:\n"), NOTHING, "UU", 2},
    {BYTES("010x\n0x00\nO0\nl0\n"), NOTHING, "UUUU", 4},

    /* One CR before the LF is dropped, and no other. */
    {BYTES("00\r\n"), "00\n", 3, "M", 1},
    {BYTES("0303b0\r\n"), "0303B0\n", 7, "M", 1},
    {BYTES("00\r\r\n"), NOTHING, "U", 1},
    {BYTES("\r00\n"), NOTHING, "U", 1},
    {BYTES("01\r03\n"), NOTHING, "U", 1},
    {BYTES("00\r02\n"), NOTHING, "U", 1},
    {BYTES("00\n\r02\n"), "00\n", 3, "KU", 2},

    /* Blank lines, and what only looks blank. */
    {BYTES("\n"), NOTHING, "B", 1},
    {BYTES("\r\n"), NOTHING, "B", 1},
    {BYTES("\n\r\n\n"), NOTHING, "BBB", 3},
    {BYTES("\r\r\n"), NOTHING, "U", 1},
    {BYTES("\n00\n\n\r\n02\n\n"), "00\n02\n", 6, "BKBBKB", 6},
    {BYTES(" \n"), NOTHING, "U", 1},
    {BYTES("   \r\n"), NOTHING, "U", 1},
    {BYTES("\t\n\v\n\f\n"), NOTHING, "UUU", 3},

    /* A rest: fit, unfit and blank. */
    {BYTES("00"), "00\n", 3, "M", 1},
    {BYTES("02\n0303B0"), "02\n0303B0\n", 10, "KM", 2},
    {BYTES("02\n0303b0"), "02\n0303B0\n", 10, "KM", 2},
    {BYTES("02\n00\r"), "02\n00\n", 6, "KM", 2},
    {BYTES("02\n00\r\r"), "02\n", 3, "KU", 2},
    {BYTES("02\n0303"), "02\n", 3, "KU", 2},
    {BYTES("02\n0"), "02\n", 3, "KU", 2},
    {BYTES("02\n "), "02\n", 3, "KU", 2},
    {BYTES("02\n\r"), "02\n", 3, "KB", 2},
    {BYTES("\r"), NOTHING, "B", 1},
    {BYTES("\r\r"), NOTHING, "U", 1},

    /* Spaces are not trimmed. */
    {BYTES(" 00\n"), NOTHING, "U", 1},
    {BYTES("00 \n"), NOTHING, "U", 1},
    {BYTES("01 03\n"), NOTHING, "U", 1},
    {BYTES("00 \r\n"), NOTHING, "U", 1},
    {BYTES("00\r \n"), NOTHING, "U", 1},
    {BYTES("00\t\n"), NOTHING, "U", 1},

    /* Zeros, and bytes that are digits, LF or CR but for their highest bit. */
    {BYTES("\0\n"), NOTHING, "U", 1},
    {BYTES("\0"), NOTHING, "U", 1},
    {BYTES("00\0\n02\n"), "02\n", 3, "UK", 2},
    {BYTES("01\0\0\n"), NOTHING, "U", 1},
    {BYTES("\200\n\377\n"), NOTHING, "UU", 2},
    {BYTES("\260\260\n01\301\301\n01\341\341\n"), NOTHING, "UUU", 3},
    {BYTES("00\21202\n"), NOTHING, "U", 1},
    {BYTES("00\215\n"), NOTHING, "U", 1},

    /* Everything at once, in its order. */
    {BYTES("0500ff\n00\n0400\n\n0103\r\n0104\n \n02"), "0500FF\n00\n0103\n0104\n02\n", 23, "MKUBMKUM", 8},
};
const size_t short_count = sizeof short_texts / sizeof *short_texts;

#define ACCEPTED 0
#define TOO_LONG 6
#define REFUSED "", "", 0, "", "", 0

const struct repeated long_texts[] = {
    /* As long as may be, and one byte longer: what would be left does not matter. */
    {"02\n", 1362, "0100\n0100\n", 4096, ACCEPTED, "02\n", "0100\n0100\n", 4096, "K", "KK", 1364},
    {"02\n", 1364, "0100\n", 4097, TOO_LONG, REFUSED},
    {"02\n", 1365, "\r\n", 4097, TOO_LONG, REFUSED},
    {"\n", 4096, "", 4096, ACCEPTED, "", "", 0, "B", "", 4096},
    {"\n", 4097, "", 4097, TOO_LONG, REFUSED},
    {"\r\n", 2048, "", 4096, ACCEPTED, "", "", 0, "B", "", 2048},
    {"\r\n", 2049, "", 4098, TOO_LONG, REFUSED},
    {"0", 4096, "", 4096, ACCEPTED, "", "", 0, "", "U", 1},
    {"0", 4097, "", 4097, TOO_LONG, REFUSED},
    {"02\r\n", 1024, "", 4096, ACCEPTED, "02\n", "", 3072, "M", "", 1024},

    /* A fit rest whose LF makes the clean text too long, raised or not; then some that do not, since the text is shorter or something is
     * dropped. */
    {"02\n", 1364, "0100", 4096, TOO_LONG, REFUSED},
    {"02\n", 1364, "01af", 4096, TOO_LONG, REFUSED},
    {"02\n", 1362, "0100\n0100", 4095, ACCEPTED, "02\n", "0100\n0100\n", 4096, "K", "KM", 1364},
    {"02\n", 1362, "0100\r\n0100", 4096, ACCEPTED, "02\n", "0100\n0100\n", 4096, "K", "MM", 1364},
    {"02\n", 1362, "0100\n0100\r", 4096, ACCEPTED, "02\n", "0100\n0100\n", 4096, "K", "KM", 1364},
    {"02\n", 1363, "\n0303B0", 4096, ACCEPTED, "02\n", "0303B0\n", 4096, "K", "BM", 1365},
    {"02\n\n", 1023, "0100", 4096, ACCEPTED, "02\n", "0100\n", 3074, "KB", "M", 2047},

    /* Rests that are left out. */
    {"02\n", 1364, "010g", 4096, ACCEPTED, "02\n", "", 4092, "K", "U", 1365},
    {"02\n", 1365, "0", 4096, ACCEPTED, "02\n", "", 4095, "K", "U", 1366},
    {"02\n", 1365, "\r", 4096, ACCEPTED, "02\n", "", 4095, "K", "B", 1366},

    /* Lengths that are small, or 0, where they are cut to sixteen bits. */
    {"02\n", 21845, "00\n\n", 65539, TOO_LONG, REFUSED},
    {"\n", 65536, "", 65536, TOO_LONG, REFUSED},
};
const size_t long_count = sizeof long_texts / sizeof *long_texts;
