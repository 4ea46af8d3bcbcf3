/* histories FOLDER COUNT: writes COUNT pseudo-random scripts to FOLDER, always the same ones: the traffic of scales and printers
 * under every mode word, and events of every kind, in order and out of it, good and bad, among lines that are no frames. */
#include "drawn.h"

#include <stdio.h>
#include <stdlib.h>
#include <string.h>

#define MOST 4096
#define NAME 4096

struct history {
    char text[MOST];
    size_t length;
    size_t limit;
    int full;              /* whether a line was left out because it did not fit */
    unsigned char outside; /* the levels last put on port C */
};

static int one_in(unsigned int chances)
{
    return any(chances) == 0;
}

static void put(struct history *history, const char *line, size_t length)
{
    if (history->full || history->length + length + 1 > history->limit) {
        history->full = 1;
        return;
    }
    memcpy(history->text + history->length, line, length);
    history->text[history->length + length] = '\n';
    history->length += length + 1;
}

static void put_kind(struct history *history, unsigned int kind)
{
    char line[3];

    sprintf(line, "%02X", kind);
    put(history, line, 2);
}

static void begin_read(struct history *history, unsigned int address)
{
    char line[5];

    sprintf(line, "01%02X", address);
    put(history, line, 4);
}

static void begin_write(struct history *history, unsigned int address, unsigned int byte)
{
    char line[7];

    sprintf(line, "03%02X%02X", address, byte);
    put(history, line, 6);
}

static void outside_levels(struct history *history, unsigned int port, unsigned int levels)
{
    char line[7];

    sprintf(line, "05%02X%02X", port, levels);
    put(history, line, 6);
    if (port == 2)
        history->outside = (unsigned char)levels;
}

static void end_cycle(struct history *history)
{
    put_kind(history, 2);
}

static void control(struct history *history, unsigned int byte)
{
    begin_write(history, 3, byte);
    end_cycle(history);
}

/* A whole read. Where a cycle runs already, the beginning is refused, and the end is that cycle's. */
static void read_port(struct history *history, unsigned int port)
{
    begin_read(history, port);
    end_cycle(history);
}

/* A pin of port C falls, and rises again; now and then a read comes between, or the pin stays low. */
static void pulse(struct history *history, unsigned int pin)
{
    outside_levels(history, 2, history->outside & ~(1u << pin));
    if (one_in(6))
        read_port(history, any(3));
    if (!one_in(12))
        outside_levels(history, 2, history->outside | 1u << pin);
}

/* The scale's side of port A or B: a byte, and STB. */
static void strobe(struct history *history, unsigned int port)
{
    outside_levels(history, port, any_byte());
    pulse(history, port == 0 ? 4 : 2);
}

/* The printer's side: ACK. */
static void acknowledge(struct history *history, unsigned int port)
{
    pulse(history, port == 0 ? 6 : 2);
}

/* A byte comes in and is read; some come twice, some while the read runs, and some are not read. */
static void digit(struct history *history, unsigned int port)
{
    strobe(history, port);
    if (one_in(6))
        strobe(history, port);
    if (one_in(8))
        return;
    begin_read(history, port);
    if (one_in(5))
        strobe(history, port);
    end_cycle(history);
}

/* A byte is written and taken; some are taken while the next write runs, and some are overwritten. */
static void character(struct history *history, unsigned int port)
{
    begin_write(history, port, any_byte());
    if (one_in(5))
        acknowledge(history, port);
    end_cycle(history);
    if (one_in(6))
        return;
    acknowledge(history, port);
}

/* A stretch of traffic on both ports, each way. In a mode that does not strobe a way, its events are plain reads and writes. */
static void traffic(struct history *history)
{
    unsigned int rest = 4 + any(24);

    while (rest-- > 0) {
        if (one_in(2))
            digit(history, any(2));
        else
            character(history, any(2));
        if (one_in(6))
            read_port(history, 2);
        if (one_in(10)) {
            begin_write(history, 2, any_byte());
            end_cycle(history);
        }
    }
}

/* Events without a plan. Operands are small more often than not, so that many are accepted. */
static void noise(struct history *history)
{
    unsigned int rest = 1 + any(32);

    while (rest-- > 0) {
        unsigned int place = one_in(8) ? any_byte() : any(5);

        switch (any(8)) {
        case 0:
            put_kind(history, one_in(6) ? 0 : 2);
            break;
        case 1:
            put_kind(history, one_in(2) ? any_byte() : 4 + any(6));
            break;
        case 2:
        case 3:
            begin_read(history, place);
            break;
        case 4:
            begin_write(history, place, any_byte());
            break;
        case 5:
        case 6:
            end_cycle(history);
            break;
        default:
            outside_levels(history, place, any_byte());
        }
    }
}

/* A line that is no frame, or seldom one: those that are easily misread, and a good one with a character changed or cut short. */
static void odd_line(struct history *history)
{
    static const char *const misread[] = {"",    " ",    "0",    "03",   "04",      "05",     "0303b0", "01 00",    "0100 ",
                                          " 00", "0x00", "00\r", "020",  "0200",    "010000", "03030",  "0303B000", "0G",
                                          "@0",  "0:",   "0/",   "\t02", "0303B0;", "-1",     "+1"};
    const char *chosen = misread[any(sizeof misread / sizeof misread[0])];
    char changed[] = "0303B0";

    changed[any(6)] = (char)any_byte();
    if (one_in(2))
        put(history, chosen, strlen(chosen));
    else
        put(history, changed, one_in(4) ? 1 + any(5) : 6);
}

/* The rest of the room, without a line feed at the end; a whole frame may stand there, and is none. */
static void fill(struct history *history)
{
    static const char frame[] = "0303B0";
    size_t each;

    for (each = 0; history->length < history->limit; each++)
        history->text[history->length++] = frame[each % strlen(frame)];
}

static void make(struct history *history, unsigned int number)
{
    history->length = 0;
    history->full = 0;
    history->outside = 0xFF;
    history->limit = number == 0 ? 0 : number % 10 == 9 ? any(MOST) : MOST;
    control(history, 128 + number % 128);
    control(history, 0x09);
    control(history, 0x0D);
    control(history, 0x05);
    while (!history->full) {
        switch (any(16)) {
        case 0:
            control(history, 128 + any(128));
            break;
        case 1:
        case 2:
            control(history, any(128));
            break;
        case 3:
            if (one_in(4))
                put_kind(history, 0);
            break;
        case 4:
        case 5:
        case 6:
            odd_line(history);
            break;
        case 7:
        case 8:
        case 9:
            noise(history);
            break;
        default:
            traffic(history);
        }
    }
    if (number % 3 == 0)
        fill(history);
}

static void save(const struct history *history, const char *folder, unsigned int number)
{
    char name[NAME];
    FILE *file = NULL;

    if (strlen(folder) + 16 < NAME) {
        sprintf(name, "%s/%03u.txt", folder, number);
        file = fopen(name, "wb");
    }
    if (file == NULL || fwrite(history->text, 1, history->length, file) != history->length || fclose(file) != 0) {
        fprintf(stderr, "history %u could not be written to %s\n", number, folder);
        exit(EXIT_FAILURE);
    }
}

int main(int count, char **words)
{
    static struct history history;
    unsigned int number, most;

    if (count != 3)
        return EXIT_FAILURE;
    most = (unsigned int)atoi(words[2]);
    for (number = 0; number < most; number++) {
        make(&history, number);
        save(&history, words[1], number);
    }
    return EXIT_SUCCESS;
}
