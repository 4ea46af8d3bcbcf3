/* A family of images, put together byte by byte, for the tests that judge by the rules: every mode word, every combination of conditions
 * that it allows, of the three enables, of the levels of STB and ACK and of what the bus does. In the rest of an image stands anything; a
 * read of control is an 82C55A's, and else the edition is either. */
#ifndef TESTS_FAMILY_H
#define TESTS_FAMILY_H

/* What the bus does: nothing, or a read or a write at one of the four addresses. */
#define PHASES 9

/* The mode words allow 868 combinations of conditions: group A 62 under bits 6 to 3, and group B 14 under bits 2 to 0. With each go
 * eight combinations of enables, eight of levels, and the phases of the bus. */
#define FAMILY (868ul * 8 * 8 * PHASES)

/* Makes the image of ways.h each image of the family in turn, and calls the judge, which leaves it as it found it. */
void each_image(void (*judge)(void));

/* One of eight combinations of pins 2, 4 and 6: those of STB and ACK, on which the enables are told too. */
unsigned int on_pins(unsigned int combination);

#endif
