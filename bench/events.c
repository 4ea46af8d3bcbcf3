/* Lets one kind of call happen many times in one model, to be counted from outside.
   usage: events                       prints what can be counted, a line each: its place, its calls in a round, its name
          events MODEL PLACE ROUNDS    MODEL: 0 proved, 1 plain, 2 quick, 3 a function that only returns */
#include "calls.h"

int printf(const char *format, ...);
int atoi(const char *text);
int raise(int signal);
void *memcpy(void *to, const void *from, size_t length);

enum { IMAGE = TOWANCHOR_IMAGE_SIZE, MOST_CALLS = 16, SIGCONT = 18 };

enum edition { OLDER = TOWANCHOR_8255A, NEWER = TOWANCHOR_82C55A };

/* Histories are frames as in a script, with spaces between. Scale and printer: port A in mode 1 input, port B in mode 1 output,
   both enables set, STB and ACK high. */
#define SCALE_AND_PRINTER "0502FF 0303B4 02 030309 02 030305 02 "
#define A_BYTE_WAITS SCALE_AND_PRINTER "050041 0502EF 0502FF "

/* Port A in mode 2 and port B in mode 1 input, with a byte waiting in each of their three channels. */
#define BYTES_WAIT_IN_MODE_2 "0502FF 0303C6 02 030055 02 0502EB 0502FF "

/* What is counted: the calls of a round, each answered with the number, from the state that a history from a power-up of the
   edition leaves. */
static const struct {
    const char *name;
    enum edition edition;
    enum function function;
    const char *history;
    const char *round;
    unsigned int number;
} kinds[] = {
    { "refused, no such kind", OLDER, STEP, A_BYTE_WAITS, "09", TOWANCHOR_NO_SUCH_KIND },
    { "refused, a cycle runs", OLDER, STEP, A_BYTE_WAITS "0102", "0101", TOWANCHOR_CYCLE_RUNS },
    { "refused, no cycle runs", OLDER, STEP, A_BYTE_WAITS, "02", TOWANCHOR_NO_CYCLE_RUNS },
    { "reset", OLDER, STEP, A_BYTE_WAITS, "00", 0 },
    { "begin read of A, a byte waits", OLDER, STEP, A_BYTE_WAITS, "0100", 0 },
    { "begin read of B in mode 0", OLDER, STEP, "", "0101", 0 },
    { "begin read of C, mode 1", OLDER, STEP, A_BYTE_WAITS, "0102", 0 },
    { "begin read of C, mode 2", OLDER, STEP, BYTES_WAIT_IN_MODE_2, "0102", 0 },
    { "begin read of control, 82C55A", NEWER, STEP, A_BYTE_WAITS, "0103", 0 },
    { "end read of control, 82C55A", NEWER, STEP, A_BYTE_WAITS "0103", "02", 0 },
    { "end read of A", OLDER, STEP, A_BYTE_WAITS "0100", "02", 0 },
    { "end read of A, a byte swallowed", OLDER, STEP, A_BYTE_WAITS "0100 0502EF", "02", 0 },
    { "end read of C", OLDER, STEP, A_BYTE_WAITS "0102", "02", 0 },
    { "begin write", OLDER, STEP, SCALE_AND_PRINTER, "030154", 0 },
    { "end write to A in mode 0", OLDER, STEP, "030380 02 030054", "02", 0 },
    { "end write to B, strobed", OLDER, STEP, SCALE_AND_PRINTER "030154", "02", 0 },
    { "end write to C", OLDER, STEP, SCALE_AND_PRINTER "0302FF", "02", 0 },
    { "end write of a mode word", OLDER, STEP, A_BYTE_WAITS "0303B4", "02", 0 },
    { "end write of a bit set/reset", OLDER, STEP, SCALE_AND_PRINTER "030308", "02", 0 },
    { "end write that forces IBF", OLDER, STEP, SCALE_AND_PRINTER "03030B", "02", 0 },
    { "levels on A", OLDER, STEP, SCALE_AND_PRINTER, "050041", 0 },
    { "levels on A, STB low", OLDER, STEP, SCALE_AND_PRINTER "0502EF", "050041", 0 },
    { "levels on B, STB low", OLDER, STEP, BYTES_WAIT_IN_MODE_2 "0502FB", "050141", 0 },
    { "levels on C, STB falls", OLDER, STEP, SCALE_AND_PRINTER, "0502EF", 0 },
    { "levels on C, ACK falls", OLDER, STEP, SCALE_AND_PRINTER "030154 02", "0502FB", 0 },
    { "levels on C in a read of A", OLDER, STEP, A_BYTE_WAITS "0100", "0502EF", 0 },
    { "levels on C, three edges", OLDER, STEP, BYTES_WAIT_IN_MODE_2, "0502AB", 0 },
    { "levels on C, nothing falls", OLDER, STEP, SCALE_AND_PRINTER, "0502FF", 0 },
    { "view of A", OLDER, PINS, A_BYTE_WAITS, "00", 0 },
    { "view of B", OLDER, PINS, A_BYTE_WAITS, "01", 0 },
    { "view of C, mode 1", OLDER, PINS, A_BYTE_WAITS, "02", 0 },
    { "view of C in a read of A", OLDER, PINS, A_BYTE_WAITS "0100", "02", 0 },
    { "view of C, mode 2", OLDER, PINS, BYTES_WAIT_IN_MODE_2, "02", 0 },
    { "explain A, mode 1", OLDER, EXPLAIN, A_BYTE_WAITS, "00", 0 },
    { "explain A in a read of A", OLDER, EXPLAIN, A_BYTE_WAITS "0100", "00", 0 },
    { "explain A, mode 2", OLDER, EXPLAIN, BYTES_WAIT_IN_MODE_2, "00", 0 },
    { "explain B, mode 0", OLDER, EXPLAIN, "", "01", 0 },
    { "a tally", OLDER, TALLY, A_BYTE_WAITS, "0000", 0 },
    { "scale and printer, an event", OLDER, STEP, SCALE_AND_PRINTER, "050041 0502EF 0502FF 0100 02 030154 02 0502FB 0502FF 0102 02", 0 },
};
enum { KINDS = sizeof kinds / sizeof kinds[0] };

static int digit(char c)
{
    return c <= '9' ? c - '0' : c - 'A' + 10;
}

/* Answers how many calls the text has, or -1 where they are too many. */
static int parse(const char *text, struct call *calls)
{
    int count = 0, i;
    while (*text) {
        struct call call = { { 0 } };
        for (i = 0; i < 3 && *text && *text != ' '; i++, text += 2)
            call.operands[i] = digit(text[0]) << 4 | digit(text[1]);
        while (*text == ' ')
            text++;
        if (count == MOST_CALLS)
            return -1;
        calls[count++] = call;
    }
    return count;
}

/* The loops that are counted: the same for each model, and each round from the same image. */
static void repeat(const struct model *model, enum function function, const struct call *calls, int count, int rounds,
                   const unsigned char *saved)
{
    unsigned char image[IMAGE];
    int round, i;
    for (round = 0; round < rounds; round++) {
        memcpy(image, saved, IMAGE);
        for (i = 0; i < count; i++)
            answer(model, function, image, calls[i].operands);
    }
}

/* Whether the proved functions answer each call with the number; a refused event would cost less than the one that is meant. */
static int answered(unsigned char *image, enum function function, const char *text, unsigned int number)
{
    struct call calls[MOST_CALLS];
    int count = parse(text, calls), i;
    for (i = 0; i < count; i++)
        if (TOWANCHOR_NUMBER(answer(&models[PROVED], function, image, calls[i].operands)) != number)
            return 0;
    return count >= 0;
}

int main(int argc, char **argv)
{
    unsigned char saved[IMAGE], image[IMAGE];
    struct call calls[MOST_CALLS];
    int model, kind, i;
    if (argc != 4) {
        for (i = 0; i < KINDS; i++)
            printf("%d %d %s\n", i, parse(kinds[i].round, calls), kinds[i].name);
        return 0;
    }
    model = atoi(argv[1]), kind = atoi(argv[2]);
    if (model < 0 || model > MODELS || kind < 0 || kind >= KINDS)
        return 2;
    towanchor_power_up_as(saved, IMAGE, kinds[kind].edition, 0, 0, 0);
    if (!answered(saved, STEP, kinds[kind].history, TOWANCHOR_ACCEPTED))
        return 2;
    memcpy(image, saved, IMAGE);
    if (!answered(image, kinds[kind].function, kinds[kind].round, kinds[kind].number))
        return 2;
    /* A running program does not notice this signal, but the counter does. */
    raise(SIGCONT);
    repeat(model == MODELS ? &empty : &models[model], kinds[kind].function, calls, parse(kinds[kind].round, calls), atoi(argv[3]),
           saved);
    return 0;
}
