/* The reader of scripts, written anew from the rules: two upper-case digits for the kind and for each of its operands. */
#include "script.h"

#include <stdio.h>
#include <stdlib.h>

void script_load(struct script *script, const char *file)
{
    FILE *opened = fopen(file, "rb");
    char beyond;

    if (opened == NULL) {
        fprintf(stderr, "%s cannot be read\n", file);
        exit(EXIT_FAILURE);
    }
    script->length = fread(script->text, 1, SCRIPT_MOST, opened);
    script->next = 0;
    if (fread(&beyond, 1, 1, opened) != 0) {
        fprintf(stderr, "%s is longer than %d bytes\n", file, SCRIPT_MOST);
        exit(EXIT_FAILURE);
    }
    fclose(opened);
}

/* The value of an upper-case hexadecimal digit, or -1. */
static int digit(char character)
{
    if (character >= '0' && character <= '9')
        return character - '0';
    if (character >= 'A' && character <= 'F')
        return character - 'A' + 10;
    return -1;
}

static size_t operands(unsigned char kind)
{
    switch (kind) {
    case 1:
        return 1;
    case 3:
    case 5:
        return 2;
    default:
        return 0;
    }
}

/* What the characters of a line say, its line feed left out. */
static struct line said(const char *characters, size_t count, unsigned char lacking)
{
    struct line line;
    unsigned char bytes[3];
    size_t each;

    line.is_frame = 0;
    line.first = line.second = lacking;
    if (count < 2 || count > 6 || count % 2 != 0)
        return line;
    for (each = 0; each < count / 2; each++) {
        int high = digit(characters[2 * each]), low = digit(characters[2 * each + 1]);

        if (high < 0 || low < 0)
            return line;
        bytes[each] = (unsigned char)(16 * high + low);
    }
    if (count / 2 != 1 + operands(bytes[0]))
        return line;
    line.is_frame = 1;
    line.kind = bytes[0];
    if (count / 2 > 1)
        line.first = bytes[1];
    if (count / 2 > 2)
        line.second = bytes[2];
    return line;
}

int script_take(struct script *script, struct line *line)
{
    size_t end = script->next;

    if (script->next == script->length)
        return 0;
    while (end < script->length && script->text[end] != '\n')
        end++;
    if (end < script->length) {
        *line = said(script->text + script->next, end - script->next, (unsigned char)(script->next & 0xFF));
        script->next = end + 1;
    } else {
        line->is_frame = 0;
        script->next = end;
    }
    return 1;
}
