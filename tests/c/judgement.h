/* The test's own judgement of images. */
#ifndef TESTS_JUDGEMENT_H
#define TESTS_JUDGEMENT_H

/* Whether 96 bytes are the image of a state. */
int is_image(const unsigned char *image);

/* What an image of a state shows: whether a cycle runs, and whether some channel has a condition. */
int cycle_runs(const unsigned char *image);
int has_condition(const unsigned char *image, unsigned char condition);

#endif
