/* Trims a journal once, or passes its words to the step one after the other, to be counted from outside.
   usage: trim                     prints what can be counted, a line each: its place, the words of a round, its name
          trim WAY PLACE ROUNDS    WAY: 0 trims the journal, 1 passes its words to the step */
#include "towanchor.h"

int printf(const char *format, ...);
int atoi(const char *text);
int raise(int signal);

enum { IMAGE = TOWANCHOR_IMAGE_SIZE, BEGINNING = 8, ROUND = 11, SIGCONT = 18 };

/* Every journal begins with scale and printer set up as in bench/events.c, and the levels on A of the first round. */
static const unsigned int beginning[BEGINNING] = {
    0x050041, 0x0502ff, 0x0303b4, 0x020000, 0x030309, 0x020000, 0x030305, 0x020000,
};

/* What is counted: a round, which is repeated, and how many of its words are kept. The second is a program that looks at port C while another
   begins cycles in vain, ends one that does not run and reads control, and the lines stay as they are. */
static const struct {
    const char *name;
    unsigned int round[ROUND];
    unsigned int kept;
} journals[] = {
    { "scale and printer",
      { 0x050041, 0x0502ef, 0x0502ff, 0x010000, 0x020000, 0x030154, 0x020000, 0x0502fb, 0x0502ff, 0x010200, 0x020000 },
      10 },
    { "idle polling",
      { 0x010200, 0x010000, 0x010200, 0x030154, 0x020000, 0x020000, 0x050041, 0x0502ff, 0x010300, 0x050041, 0x0502ff },
      2 },
};
enum { JOURNALS = sizeof journals / sizeof journals[0] };

static unsigned int words[TOWANCHOR_MOST_WORDS];

static size_t make(int journal, int rounds)
{
    size_t count = 0;
    int round, i;
    for (i = 0; i < BEGINNING; i++)
        words[count++] = beginning[i];
    for (round = 0; round < rounds; round++)
        for (i = 0; i < ROUND; i++)
            words[count++] = journals[journal].round[i];
    return count;
}

static unsigned int trim(size_t count)
{
    return towanchor_trim(words, count, TOWANCHOR_8255A, 0, 0, 0);
}

/* The loop that is counted beside the trim. */
static void step(unsigned char *image, size_t count)
{
    size_t i;
    for (i = 0; i < count; i++)
        towanchor_step(image, IMAGE, TOWANCHOR_WORD_KIND(words[i]), TOWANCHOR_WORD_FIRST(words[i]), TOWANCHOR_WORD_SECOND(words[i]));
}

int main(int argc, char **argv)
{
    unsigned char image[IMAGE];
    int way, journal, rounds, i;
    size_t count;
    if (argc != 4) {
        for (i = 0; i < JOURNALS; i++)
            printf("%d %d %s\n", i, ROUND, journals[i].name);
        return 0;
    }
    way = atoi(argv[1]), journal = atoi(argv[2]), rounds = atoi(argv[3]);
    if (journal < 0 || journal >= JOURNALS || rounds < 0 || rounds > (TOWANCHOR_MOST_WORDS - BEGINNING) / ROUND)
        return 2;
    /* A journal of which other words are kept would cost something else than the one that is meant. */
    if (TOWANCHOR_KEPT(trim(make(journal, rounds))) != BEGINNING + journals[journal].kept * rounds)
        return 2;
    count = make(journal, rounds);
    towanchor_power_up(image, IMAGE);
    /* A running program does not notice this signal, but the counter does. */
    raise(SIGCONT);
    if (way == 0)
        trim(count);
    else
        step(image, count);
    return 0;
}
