/* What a mode word says, for the tests that judge by the rules. */
#ifndef TESTS_MODE_WORDS_H
#define TESTS_MODE_WORDS_H

/* Whether port A is in mode 2; else whether it is an input. Whether port B is an input. */
int a_both_ways(unsigned int word);
int a_is_input(unsigned int word);
int b_is_input(unsigned int word);

/* Whether the word strobes a channel. */
int strobes(unsigned int word, unsigned char channel);

#endif
