/* Mends a script once, to be counted from outside.
   usage: mend                      compares the two menders, and prints what can be counted, a line each: its place, the bytes of a round, its name
          mend MODEL PLACE ROUNDS   MODEL: 0 mends by the proved function, 1 by the plain C */
#include "mends.h"
#include "towanchor.h"

int printf(const char *format, ...);
int atoi(const char *text);
int raise(int signal);
int memcmp(const void *left, const void *right, size_t length);
void *memset(void *to, int byte, size_t length);
size_t strlen(const char *text);

enum { LONGEST = TOWANCHOR_LONGEST_SCRIPT, ROOM = LONGEST + 64, UNWRITTEN = 0x5a, SIGCONT = 18 };

/* What is counted: a round, which is repeated. The first is scale and printer as bench/events.c has them, as a script; the second is the same as
   a terminal sends it; the third has lines of each kind that is left out, and of each that is mended. */
static const struct {
    const char *name, *round;
} scripts[] = {
    { "scale and printer", "050041\n0502EF\n0502FF\n0100\n02\n030154\n02\n0502FB\n0502FF\n0102\n02\n" },
    { "the same, small, with CR", "050041\r\n0502ef\r\n0502ff\r\n0100\r\n02\r\n030154\r\n02\r\n0502fb\r\n0502ff\r\n0102\r\n02\r\n" },
    { "torn", "0303B0\n05004\n1\n\n0502ef\r\n04\n0100\n01 02\n0z\n030309\r\r\n\r\n0502fF\r\n02020202\n010000\n" },
};
enum { SCRIPTS = sizeof scripts / sizeof scripts[0] };

static mend_function *const menders[] = { towanchor_mend, plain_mend };
enum { MENDERS = sizeof menders / sizeof menders[0] };

static unsigned char text[ROOM], clean[MENDERS][ROOM], report[MENDERS][ROOM];

/* Puts down so many rounds of a script; answers how long that is. */
static size_t make(int script, int rounds)
{
    size_t length = 0, i;
    int round;
    for (round = 0; round < rounds; round++)
        for (i = 0; i < strlen(scripts[script].round); i++)
            text[length++] = scripts[script].round[i];
    return length;
}

/* Whether both menders answer the same, and write the same, into outputs with so much room. */
static int agree(size_t length, size_t clean_room, size_t report_room)
{
    unsigned long answers[MENDERS];
    int mender;
    for (mender = 0; mender < MENDERS; mender++) {
        memset(clean[mender], UNWRITTEN, ROOM);
        memset(report[mender], UNWRITTEN, ROOM);
        answers[mender] = menders[mender](text, length, clean[mender], clean_room, report[mender], report_room);
    }
    return answers[0] == answers[1] && memcmp(clean[0], clean[1], ROOM) == 0 && memcmp(report[0], report[1], ROOM) == 0;
}

/* Compares them over each beginning of two rounds, in which each byte in turn is another, with ample room, and with each room that is less. */
static int all_agree(int script)
{
    size_t whole = make(script, 2), length, at, room;
    int byte;
    for (length = 0; length <= whole; length++)
        for (room = 0; room <= length + 1; room++)
            if (!agree(length, room, ROOM) || !agree(length, ROOM, room))
                return 0;
    for (at = 0; at < whole; at++) {
        unsigned char before = text[at];
        for (byte = 0; byte < 256; byte++) {
            text[at] = byte;
            if (!agree(at + 1, ROOM, ROOM) || !agree(whole, ROOM, ROOM))
                return 0;
        }
        text[at] = before;
    }
    memset(text, '\n', ROOM);
    return agree(LONGEST, ROOM, ROOM) && agree(LONGEST + 1, ROOM, ROOM);
}

int main(int argc, char **argv)
{
    int model, script, rounds;
    size_t length;
    if (argc != 4) {
        for (script = 0; script < SCRIPTS; script++) {
            if (!all_agree(script))
                return 1;
            printf("%d %d %s\n", script, (int)strlen(scripts[script].round), scripts[script].name);
        }
        return 0;
    }
    model = atoi(argv[1]), script = atoi(argv[2]), rounds = atoi(argv[3]);
    if (model < 0 || model >= MENDERS || script < 0 || script >= SCRIPTS || rounds < 0 ||
        rounds * strlen(scripts[script].round) > LONGEST)
        return 2;
    length = make(script, rounds);
    /* A running program does not notice this signal, but the counter does. */
    raise(SIGCONT);
    return TOWANCHOR_NUMBER(menders[model](text, length, clean[0], ROOM, report[0], ROOM)) != TOWANCHOR_ACCEPTED;
}
