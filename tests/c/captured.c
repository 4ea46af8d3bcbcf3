/* The captured scripts: line after line a frame is drawn, and damaged while it is put down. */
#include "captured.h"

#include "drawn.h"

#define LIMIT 4096
#define MOST_SHORT_LINES 40

/* A frame has six digits at most. */
#define MOST_DIGITS 6

unsigned long damage_done[DAMAGES];
const char *const damage_names[DAMAGES] = {"lowered", "changed", "blank put in", "torn", "LF lost", "CR put", "CR doubled", "cut"};

/* What was put down so far, and how seldom a line of this script has a kind of damage: one time in so many, or never where it is 0. */
static unsigned char *script;
static size_t length;
static unsigned int seldom;

static void put(unsigned char byte)
{
    script[length++] = byte;
}

/* Whether a kind of damage is to be done. */
static int strikes(void)
{
    return seldom != 0 && any(seldom) == 0;
}

static size_t put_digits(unsigned char *line, size_t at, unsigned char byte)
{
    static const char digits[] = "0123456789ABCDEF";

    line[at] = (unsigned char)digits[byte / 16];
    line[at + 1] = (unsigned char)digits[byte % 16];
    return at + 2;
}

/* A frame without its line feed; answers how many digits it has. */
static size_t a_frame(unsigned char *line)
{
    static const struct {
        unsigned char kind, operands;
    } shapes[] = {{0, 0}, {1, 1}, {2, 0}, {3, 2}, {5, 2}};
    unsigned int shape = any(sizeof shapes / sizeof *shapes), each;
    size_t count = put_digits(line, 0, shapes[shape].kind);

    for (each = 0; each < shapes[shape].operands; each++)
        count = put_digits(line, count, any_byte());
    return count;
}

/* Lowers letters, most but not all of them. */
static void lower(unsigned char *line, size_t count)
{
    size_t each;
    int lowered = 0;

    for (each = 0; each < count; each++)
        if (line[each] >= 'A' && any(4) != 0) {
            line[each] = (unsigned char)(line[each] - 'A' + 'a');
            lowered = 1;
        }
    damage_done[LOWERED] += lowered;
}

/* Makes one byte another: any, or one of those that a mender may mistake. */
static void change(unsigned char *line, size_t count)
{
    static const unsigned char mistaken[] = {'\n', '\r', ' ', '\t', 0, '/', ':', '@', 'G', '`', 'g', '0', 'A', 'a', 'F', 'f'};
    size_t which = any((unsigned int)count);
    unsigned char byte = any(2) == 0 ? any_byte() : mistaken[any(sizeof mistaken)];

    damage_done[CHANGED] += byte != line[which];
    line[which] = byte;
}

static void put_blank(void)
{
    damage_done[BLANK_PUT_IN]++;
    if (any(3) == 0)
        put('\r');
    put('\n');
}

/* Puts the bytes of a line down, torn in two where that is drawn. */
static void put_torn(const unsigned char *line, size_t count)
{
    size_t each, tear = strikes() ? 1 + any((unsigned int)count - 1) : 0;

    damage_done[TORN] += tear != 0;
    for (each = 0; each < count; each++) {
        if (tear != 0 && each == tear)
            put('\n');
        put(line[each]);
    }
}

/* Ends a line, unless that is lost. */
static void put_end(void)
{
    if (strikes()) {
        damage_done[LF_LOST]++;
        return;
    }
    if (strikes()) {
        damage_done[CR_PUT]++;
        put('\r');
        if (strikes()) {
            damage_done[CR_DOUBLED]++;
            put('\r');
        }
    }
    put('\n');
}

static void put_line(void)
{
    unsigned char line[MOST_DIGITS];
    size_t count = a_frame(line);

    if (strikes())
        put_blank();
    if (strikes())
        lower(line, count);
    if (strikes())
        change(line, count);
    put_torn(line, count);
    put_end();
}

static void cut(size_t to)
{
    damage_done[CUT]++;
    length = to;
}

size_t capture(unsigned char *text, int is_long)
{
    static const unsigned int how_seldom[] = {0, 64, 12, 3};

    script = text;
    length = 0;
    seldom = how_seldom[any(sizeof how_seldom / sizeof *how_seldom)];
    if (is_long) {
        size_t to = any(2) == 0 ? LIMIT : LIMIT - 6 + any(13);

        while (length <= to)
            put_line();
        cut(to);
    } else {
        unsigned int lines = any(MOST_SHORT_LINES + 1);

        while (lines-- > 0)
            put_line();
        if (length > 0 && any(3) == 0)
            cut(any((unsigned int)length));
    }
    return length;
}
