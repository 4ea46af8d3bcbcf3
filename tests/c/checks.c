/* The counts of checks. */
#include "checks.h"

#include <stdio.h>
#include <stdlib.h>

#define MOST_PRINTED 10

static unsigned int made, wrong;

void check(int holds, const char *what, unsigned int which)
{
    made++;
    if (!holds && wrong++ < MOST_PRINTED)
        printf("wrong: %s (%u)\n", what, which);
}

int checked(void)
{
    printf("%u checks, %u wrong\n", made, wrong);
    return made > 0 && wrong == 0 ? EXIT_SUCCESS : EXIT_FAILURE;
}
