/* Seasons of a scale and a printer, logged as a host logs them: every event, accepted or refused, goes into an array, which is trimmed when
 * it is full and filled again. Most events change nothing: lines that are put where they are, cycles begun while one runs or ended while none
 * does, resets of a chip that is as at power-up. What is kept must be what changed the image, and lead to the same image when it is replayed. */
#include "checks.h"
#include "lent.h"
#include "shown.h"
#include "towanchor.h"

#include <stdio.h>
#include <string.h>

#define SIZE TOWANCHOR_IMAGE_SIZE

/* Of a season: its bales, and more events than it has. */
#define BALES 170
#define MOST_EVENTS 60000

/* A in mode 1 input, B in mode 1 output. Bit set/reset of a pin of port C. */
#define MODE_WORD 0xB4
#define PIN_SET(pin) ((unsigned char)(2 * (pin) + 1))
#define PIN_RESET(pin) ((unsigned char)(2 * (pin)))

/* How the season began, the machine, and what the outside puts on its lines. */
static unsigned char edition, levels[PORTS];
static unsigned char image[SIZE], outside[PORTS];

/* The journal, every event of the season, and those after which the image was another. */
static struct lent journal;
static unsigned int whole[MOST_EVENTS], changing[TOWANCHOR_MOST_WORDS];
static size_t logged, events, changes;

/* Events since the last trimming that change nothing by the rules. Of all seasons: events, words dropped, trimmings. */
static size_t idle_events;
static unsigned long all_events, all_dropped, trimmings;

static void power_up(unsigned char *powered)
{
    check(towanchor_power_up_as(powered, SIZE, edition, levels[TOWANCHOR_A], levels[TOWANCHOR_B], levels[TOWANCHOR_C]) == TOWANCHOR_ACCEPTED,
          "power-up of edition", edition);
}

/* Words that are replayed lead to the machine's image, and show all that it shows. */
static void lead_here(const unsigned int *words, size_t count, const char *which)
{
    unsigned char replayed[SIZE];
    struct shown by_replay, by_machine;
    size_t each;

    power_up(replayed);
    for (each = 0; each < count; each++)
        towanchor_step(replayed, SIZE, (unsigned char)TOWANCHOR_WORD_KIND(words[each]), (unsigned char)TOWANCHOR_WORD_FIRST(words[each]),
                       (unsigned char)TOWANCHOR_WORD_SECOND(words[each]));
    show(replayed, &by_replay);
    show(image, &by_machine);
    check(memcmp(replayed, image, SIZE) == 0, which, (unsigned int)count);
    check(show_the_same(&by_replay, &by_machine), "what is shown after a replay of words", (unsigned int)count);
}

static int all_zero(const unsigned int *words, size_t count)
{
    while (count > 0)
        if (words[--count] != 0)
            return 0;
    return 1;
}

static unsigned int trimmed(void)
{
    lent_guard(&journal, logged);
    return towanchor_trim(lent_words(&journal), logged, edition, levels[TOWANCHOR_A], levels[TOWANCHOR_B], levels[TOWANCHOR_C]);
}

/* Trims the journal: what changed the image is kept, and what changes nothing by the rules is dropped. What was kept is kept again. */
static void trim(void)
{
    unsigned int *words = lent_words(&journal), answer = trimmed(), which = (unsigned int)++trimmings;

    check(TOWANCHOR_NUMBER(answer) == TOWANCHOR_ACCEPTED, "a journal was refused, in trimming", which);
    check(TOWANCHOR_KEPT(answer) == changes, "how many words were kept, in trimming", which);
    check(logged - changes == idle_events, "how many words were dropped, in trimming", which);
    check(memcmp(words, changing, changes * sizeof *words) == 0, "which words were kept, in trimming", which);
    check(all_zero(words + changes, logged - changes), "a word behind those kept is not 0, in trimming", which);
    check(lent_kept_beyond(&journal), "something was written beyond the journal, in trimming", which);
    all_dropped += logged - changes;
    logged = changes;
    idle_events = 0;
    lead_here(words, logged, "the image after a replay of kept words");
    check(trimmed() == answer && lent_untouched(&journal), "kept words are all kept again, after trimming", which);
}

/* An event. Whether it changes something is told by the rules, and by the image. */
static void happen(int changes_something, unsigned char kind, unsigned char first, unsigned char second)
{
    unsigned int word = TOWANCHOR_WORD(kind, first, second);
    unsigned char before[SIZE];

    if (logged == TOWANCHOR_MOST_WORDS)
        trim();
    if (logged == TOWANCHOR_MOST_WORDS || events == MOST_EVENTS) {
        check(0, "there is no room for an event of kind", kind);
        return;
    }
    lent_words(&journal)[logged++] = whole[events++] = word;
    memcpy(before, image, SIZE);
    towanchor_step(image, SIZE, kind, first, second);
    if (memcmp(before, image, SIZE) != 0)
        changing[changes++] = word;
    if (!changes_something)
        idle_events++;
    check((memcmp(before, image, SIZE) != 0) == changes_something, "whether something changed, by kind", kind);
}

static void change(unsigned char kind, unsigned char first, unsigned char second)
{
    happen(1, kind, first, second);
}

static void idle(unsigned char kind, unsigned char first, unsigned char second)
{
    happen(0, kind, first, second);
}

/* The outside puts levels on a port. */
static void put(unsigned char port, unsigned int its_levels)
{
    happen(outside[port] != its_levels, TOWANCHOR_OUTSIDE_LEVELS, port, (unsigned char)its_levels);
    outside[port] = (unsigned char)its_levels;
}

static void pulse(unsigned char pin)
{
    put(TOWANCHOR_C, outside[TOWANCHOR_C] & ~TOWANCHOR_PIN(pin));
    put(TOWANCHOR_C, outside[TOWANCHOR_C] | TOWANCHOR_PIN(pin));
}

/* An interface that puts its lines again and again. */
static void lines_stay(void)
{
    unsigned char port;
    int time;

    for (time = 0; time < 5; time++)
        for (port = TOWANCHOR_A; port <= TOWANCHOR_C; port++)
            put(port, outside[port]);
}

/* What is refused at any time, and what is while a cycle runs. */
static void refused(void)
{
    idle(TOWANCHOR_BEGIN_READ, 9, 0);
    idle(TOWANCHOR_BEGIN_WRITE, 4, 0x55);
    idle(TOWANCHOR_OUTSIDE_LEVELS, TOWANCHOR_CONTROL, 0x55);
    if (edition == TOWANCHOR_8255A)
        idle(TOWANCHOR_BEGIN_READ, TOWANCHOR_CONTROL, 0);
}

static void refused_meanwhile(void)
{
    unsigned char address;

    for (address = TOWANCHOR_A; address <= TOWANCHOR_CONTROL; address++) {
        idle(TOWANCHOR_BEGIN_READ, address, 0);
        idle(TOWANCHOR_BEGIN_WRITE, address, 0x55);
    }
}

static void begin_read(unsigned char address)
{
    change(TOWANCHOR_BEGIN_READ, address, 0);
    refused_meanwhile();
}

static void begin_write(unsigned char address, unsigned char byte)
{
    change(TOWANCHOR_BEGIN_WRITE, address, byte);
    refused_meanwhile();
}

static void end(void)
{
    change(TOWANCHOR_END_CYCLE, 0, 0);
    idle(TOWANCHOR_END_CYCLE, 0, 0);
}

static void control(unsigned char word)
{
    begin_write(TOWANCHOR_CONTROL, word);
    end();
}

/* The reset button, pressed three times: after the first press all is as at power-up. */
static void reset(int finds_something)
{
    happen(finds_something, TOWANCHOR_RESET, 0, 0);
    idle(TOWANCHOR_RESET, 0, 0);
    idle(TOWANCHOR_RESET, 0, 0);
}

/* The program sets up the card while the scale holds STB low. The mode word clears the latch, so that levels which are there already go
 * through to it, once. */
static void set_up(void)
{
    put(TOWANCHOR_A, 0x31);
    put(TOWANCHOR_C, outside[TOWANCHOR_C] & ~TOWANCHOR_PIN(TOWANCHOR_STB_A));
    control(MODE_WORD);
    change(TOWANCHOR_OUTSIDE_LEVELS, TOWANCHOR_A, outside[TOWANCHOR_A]);
    lines_stay();
    put(TOWANCHOR_C, 0xFF);
    control(PIN_SET(TOWANCHOR_STB_A));
    control(PIN_SET(TOWANCHOR_ACK_B));
}

/* A digit comes in and is read. Every seventh comes twice, and every eleventh once more while it is read, where it is lost. */
static void digit(unsigned int number)
{
    put(TOWANCHOR_A, '0' + number % 10);
    pulse(TOWANCHOR_STB_A);
    if (number % 7 == 0)
        pulse(TOWANCHOR_STB_A);
    lines_stay();
    begin_read(TOWANCHOR_A);
    if (number % 11 == 0)
        pulse(TOWANCHOR_STB_A);
    lines_stay();
    end();
}

static void character(unsigned int number)
{
    begin_write(TOWANCHOR_B, (unsigned char)('A' + number % 26));
    end();
    lines_stay();
    pulse(TOWANCHOR_ACK_B);
}

/* The program looks whether there is something to do; an 82C55A's looks at the control word too. */
static void poll(void)
{
    begin_read(TOWANCHOR_C);
    lines_stay();
    end();
    refused();
    if (edition == TOWANCHOR_82C55A) {
        begin_read(TOWANCHOR_CONTROL);
        end();
    }
}

/* Four digits and a ticket of four characters. Now and then the program forces IBF, or the machine is reset while a byte waits, and set up
 * anew. */
static void bale(unsigned int number)
{
    unsigned int each;

    for (each = 0; each < 4; each++) {
        digit(number * 4 + each);
        character(number + each);
    }
    poll();
    if (number % 13 == 12) {
        control(PIN_SET(TOWANCHOR_IBF_A));
        control(PIN_RESET(TOWANCHOR_IBF_A));
    }
    if (number % 40 == 39) {
        pulse(TOWANCHOR_STB_A);
        reset(1);
        refused();
        set_up();
    }
}

static void season(unsigned char its_edition, const unsigned char *its_levels)
{
    unsigned long before = trimmings;
    unsigned int number;

    edition = its_edition;
    memcpy(levels, its_levels, PORTS);
    memcpy(outside, its_levels, PORTS);
    logged = events = changes = idle_events = 0;
    power_up(image);
    trim();
    reset(0);
    lines_stay();
    trim();
    set_up();
    for (number = 0; number < BALES; number++) {
        bale(number);
        if (number % 50 == 0)
            trim();
    }
    check(trimmings > before + 10, "the season is short, of edition", edition);
    begin_read(TOWANCHOR_A);
    trim();
    lead_here(whole, events, "the image after a replay of the whole season");
    all_events += events;
}

int main(void)
{
    static const unsigned char power_ups[][PORTS] = {{0, 0, 0}, {0xFF, 0xFF, 0xFF}, {0x5A, 0xA5, 0xC3}, {0x31, 0x00, 0xEB}};
    unsigned int each;

    for (each = 0; each < sizeof power_ups / sizeof *power_ups; each++) {
        season(TOWANCHOR_8255A, power_ups[each]);
        season(TOWANCHOR_82C55A, power_ups[each]);
    }
    printf("%lu events of 8 seasons, of which %lu were dropped in %lu trimmings\n", all_events, all_dropped, trimmings);
    return checked();
}
