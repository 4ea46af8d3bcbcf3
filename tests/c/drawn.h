/* Pseudo-random numbers, the same in every run. */
#ifndef TESTS_DRAWN_H
#define TESTS_DRAWN_H

/* A number below 'bound', and any byte. */
unsigned int any(unsigned int bound);
unsigned char any_byte(void);

#endif
