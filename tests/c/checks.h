/* Checks that say what was wrong, and are counted. */
#ifndef TESTS_CHECKS_H
#define TESTS_CHECKS_H

/* Counts a check, and prints what it is about where it does not hold; after ten of those it counts alone. */
void check(int holds, const char *what, unsigned int which);

/* Prints the counts; the status of the program. */
int checked(void);

#endif
