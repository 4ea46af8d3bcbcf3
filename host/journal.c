/* The journal is an array of words that is trimmed when it is full, so that idle lines and refused cycles do not fill it. */
#include "journal.h"

void journal_begin(struct journal *journal, unsigned char edition, unsigned char levels_a, unsigned char levels_b, unsigned char levels_c)
{
    journal->edition = edition;
    journal->levels_a = levels_a;
    journal->levels_b = levels_b;
    journal->levels_c = levels_c;
    journal->count = 0;
    journal->logged = 0;
    journal->missed = 0;
}

void journal_log(struct journal *journal, unsigned char kind, unsigned char first, unsigned char second)
{
    /* Where an event found no room, each word in it is one that is kept: there is nothing more to gain. */
    if (journal->count == TOWANCHOR_MOST_WORDS && journal->missed == 0)
        journal_trim(journal);
    if (journal->count < TOWANCHOR_MOST_WORDS) {
        journal->words[journal->count++] = TOWANCHOR_WORD(kind, first, second);
        journal->logged++;
    } else {
        journal->missed++;
    }
}

void journal_trim(struct journal *journal)
{
    /* Only the words that are in use are lent: the rest would be taken for events. */
    unsigned int answer = towanchor_trim(journal->words, journal->count, journal->edition, journal->levels_a, journal->levels_b,
                                         journal->levels_c);

    /* It is not refused, unless this emulator logged what is no frame; then the journal stays as it is, and the machine is right still. */
    if (TOWANCHOR_NUMBER(answer) == TOWANCHOR_ACCEPTED)
        journal->count = TOWANCHOR_KEPT(answer);
}

void journal_replay(const struct journal *journal, unsigned char *image)
{
    size_t each;

    towanchor_power_up_as(image, TOWANCHOR_IMAGE_SIZE, journal->edition, journal->levels_a, journal->levels_b, journal->levels_c);
    for (each = 0; each < journal->count; each++) {
        unsigned int word = journal->words[each];

        towanchor_step(image, TOWANCHOR_IMAGE_SIZE, (unsigned char)TOWANCHOR_WORD_KIND(word), (unsigned char)TOWANCHOR_WORD_FIRST(word),
                       (unsigned char)TOWANCHOR_WORD_SECOND(word));
    }
}
