/* A plain mending of a script in C, which the proved function is measured against: the rules as they are read, in two passes. The first judges
   each line, to know how long the clean text becomes; the second judges it again, and writes. */
#include "mends.h"
#include "towanchor.h"

enum { LF = 10, CR = 13 };

/* A line of a text: its bytes without the line feed and without a carriage return before that, and what was there. */
struct line {
    const unsigned char *bytes;
    size_t length;
    int had_cr, had_lf;
};

/* Takes the line that begins at 'at'; answers where the next one begins. */
static size_t take(struct line *line, const unsigned char *text, size_t length, size_t at)
{
    size_t end = at;
    while (end < length && text[end] != LF)
        end++;
    line->bytes = text + at;
    line->had_lf = end < length;
    line->had_cr = end > at && text[end - 1] == CR;
    line->length = end - at - line->had_cr;
    return end + line->had_lf;
}

static int is_small(unsigned char byte)
{
    return byte >= 'a' && byte <= 'f';
}

static unsigned char raised(unsigned char byte)
{
    return is_small(byte) ? byte - 'a' + 'A' : byte;
}

static int is_digit(unsigned char byte)
{
    return (byte >= '0' && byte <= '9') || (byte >= 'A' && byte <= 'F') || is_small(byte);
}

/* How many digits a frame has, by the two of its kind; 0 where there is no such kind. */
static size_t digits_of(const unsigned char *kind)
{
    if (kind[0] != '0')
        return 0;
    switch (kind[1] - '0') {
    case TOWANCHOR_RESET:
    case TOWANCHOR_END_CYCLE: return 2;
    case TOWANCHOR_BEGIN_READ: return 4;
    case TOWANCHOR_BEGIN_WRITE:
    case TOWANCHOR_OUTSIDE_LEVELS: return 6;
    default: return 0;
    }
}

/* The sign of a line. */
static unsigned char judge(const struct line *line)
{
    int small = 0;
    size_t i;
    if (line->length == 0)
        return TOWANCHOR_SIGN_BLANK;
    if (line->length < 2 || line->length != digits_of(line->bytes))
        return TOWANCHOR_SIGN_UNFIT;
    for (i = 2; i < line->length; i++) {
        if (!is_digit(line->bytes[i]))
            return TOWANCHOR_SIGN_UNFIT;
        small |= is_small(line->bytes[i]);
    }
    return small || line->had_cr || !line->had_lf ? TOWANCHOR_SIGN_MENDED : TOWANCHOR_SIGN_KEPT;
}

static int is_fit(unsigned char sign)
{
    return sign == TOWANCHOR_SIGN_KEPT || sign == TOWANCHOR_SIGN_MENDED;
}

unsigned long plain_mend(const unsigned char *text, size_t text_length, unsigned char *clean, size_t clean_room, unsigned char *report,
                         size_t report_room)
{
    struct line line;
    unsigned long lines = 0, length = 0;
    size_t at, i;
    if (text_length > TOWANCHOR_LONGEST_SCRIPT)
        return TOWANCHOR_TOO_LONG;
    for (at = 0; at < text_length; lines++) {
        at = take(&line, text, text_length, at);
        if (is_fit(judge(&line)))
            length += line.length + 1;
    }
    if (length > TOWANCHOR_LONGEST_SCRIPT)
        return TOWANCHOR_TOO_LONG;
    if (length > clean_room || lines > report_room)
        return TOWANCHOR_NO_ROOM;
    for (at = 0; at < text_length; report++) {
        at = take(&line, text, text_length, at);
        *report = judge(&line);
        if (!is_fit(*report))
            continue;
        for (i = 0; i < line.length; i++)
            *clean++ = raised(line.bytes[i]);
        *clean++ = LF;
    }
    return lines << 32 | length << 8;
}
