/* The journal: the events that were passed to the card since its power-up, kept so that they can happen once more on another card. */
#ifndef HOST_JOURNAL_H
#define HOST_JOURNAL_H

#include "towanchor.h"

struct journal {
    unsigned char edition, levels_a, levels_b, levels_c; /* of the power-up at which it begins */
    unsigned int words[TOWANCHOR_MOST_WORDS];
    size_t count;         /* how many words there are in it */
    unsigned long logged; /* how many events came into it, those that were dropped since among them */
    unsigned long missed; /* how many found no room; where there are some, the journal does not lead to the card any more */
};

/* Begins at a power-up. */
void journal_begin(struct journal *journal, unsigned char edition, unsigned char levels_a, unsigned char levels_b, unsigned char levels_c);

/* Logs an event, accepted or refused; operands that its kind lacks are 0. A full journal is trimmed first. */
void journal_log(struct journal *journal, unsigned char kind, unsigned char first, unsigned char second);

/* Drops the events that changed nothing. */
void journal_trim(struct journal *journal);

/* Powers a card up as at the beginning, and lets the events happen to it. 'image' has TOWANCHOR_IMAGE_SIZE bytes. */
void journal_replay(const struct journal *journal, unsigned char *image);

#endif
