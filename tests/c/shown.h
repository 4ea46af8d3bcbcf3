/* All that the functions show of an image, for the tests that compare it. */
#ifndef TESTS_SHOWN_H
#define TESTS_SHOWN_H

#define PORTS 3
#define CHANNELS 4
#define TALLIES 7
#define GROUPS 2

/* The answers, by the numbers of ports, of channels and their tallies, and of groups. */
struct shown {
    unsigned int pins[PORTS], tallies[CHANNELS][TALLIES], explained[GROUPS];
};

/* What an image shows, and whether two show the same. */
void show(const unsigned char *image, struct shown *shown);
int show_the_same(const struct shown *one, const struct shown *other);

#endif
