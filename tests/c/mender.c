/* The second mender: a line is read as numbers, judged by a table of shapes and written anew; it was kept where that is how it stood. */
#include "mender.h"

#include <string.h>

#define LONGEST 4096
#define LF 10
#define CR 13

/* The numbers of the answers, and what the two lengths are multiplied by. */
#define ACCEPTED 0
#define TOO_LONG 6
#define NO_ROOM 7
#define CLEAN_UNIT 256ul
#define LINES_UNIT 4294967296ul

/* The five shapes of a frame: the kind, and how many bytes it has together with its operands. */
#define MOST_BYTES 3
static const struct {
    unsigned char kind;
    size_t bytes;
} shapes[] = {{0, 1}, {1, 2}, {2, 1}, {3, 3}, {5, 3}};

/* The digits: those that are written, by their values, and then those that are raised. */
static const char digits[] = "0123456789ABCDEFabcdef";
#define WRITTEN 16
#define RAISED 6
#define NO_DIGIT 255

/* What was made so far. The line feed of a rest may make the clean text one byte too long. */
static struct {
    unsigned char clean[LONGEST + 1], report[LONGEST];
    size_t length, lines;
} made;

static unsigned int value_of(unsigned char character)
{
    unsigned int each;

    for (each = 0; each < WRITTEN + RAISED; each++)
        if (digits[each] == (char)character)
            return each < WRITTEN ? each : each - RAISED;
    return NO_DIGIT;
}

/* Reads 'count' characters, two to a byte; answers how many bytes the frame has, or 0 where it is none. */
static size_t read_frame(const unsigned char *characters, size_t count, unsigned char *bytes)
{
    size_t each;

    if (count % 2 != 0 || count > 2 * MOST_BYTES)
        return 0;
    for (each = 0; each < count / 2; each++) {
        unsigned int high = value_of(characters[2 * each]), low = value_of(characters[2 * each + 1]);

        if (high == NO_DIGIT || low == NO_DIGIT)
            return 0;
        bytes[each] = (unsigned char)(16 * high + low);
    }
    for (each = 0; each < sizeof shapes / sizeof *shapes; each++)
        if (shapes[each].kind == bytes[0] && shapes[each].bytes == count / 2)
            return count / 2;
    return 0;
}

/* Writes a frame and its line feed; answers how long that is. */
static size_t write_frame(unsigned char *line, const unsigned char *bytes, size_t count)
{
    size_t each;

    for (each = 0; each < count; each++) {
        line[2 * each] = (unsigned char)digits[bytes[each] / 16];
        line[2 * each + 1] = (unsigned char)digits[bytes[each] % 16];
    }
    line[2 * count] = LF;
    return 2 * count + 1;
}

/* Makes what is to be made of a line, of one byte at least, its line feed included where it has one; answers the sign. */
static unsigned char mend_line(const unsigned char *line, size_t length)
{
    unsigned char bytes[MOST_BYTES], *written = made.clean + made.length;
    size_t inner = length, count, now;

    if (line[inner - 1] == LF)
        inner--;
    if (inner > 0 && line[inner - 1] == CR)
        inner--;
    if (inner == 0)
        return 'B';
    count = read_frame(line, inner, bytes);
    if (count == 0)
        return 'U';
    now = write_frame(written, bytes, count);
    made.length += now;
    return now == length && memcmp(written, line, now) == 0 ? 'K' : 'M';
}

/* Where the line that begins at 'begin' has ended: behind its line feed, or with the text. */
static size_t line_end(const unsigned char *text, size_t text_length, size_t begin)
{
    while (begin < text_length && text[begin] != LF)
        begin++;
    return begin < text_length ? begin + 1 : text_length;
}

unsigned long second_mend(const unsigned char *text, size_t text_length, unsigned char *clean, size_t clean_room, unsigned char *report,
                          size_t report_room)
{
    size_t begin, end;

    if (text_length > LONGEST)
        return TOO_LONG;
    made.length = made.lines = 0;
    for (begin = 0; begin < text_length; begin = end) {
        end = line_end(text, text_length, begin);
        made.report[made.lines++] = mend_line(text + begin, end - begin);
    }
    if (made.length > LONGEST)
        return TOO_LONG;
    if (made.length > clean_room || made.lines > report_room)
        return NO_ROOM;
    memcpy(clean, made.clean, made.length);
    memcpy(report, made.report, made.lines);
    return ACCEPTED + CLEAN_UNIT * made.length + LINES_UNIT * made.lines;
}
