/* explained SCRIPT..: what the program says of each script when it is asked why INTR is quiet, said by the C functions: of group A and
 * then of B what each half that it has is doing when the script has ended, or that the group is in mode 0; and how many lines were
 * refused, if any were. */
#include "script.h"
#include "towanchor.h"

#include <stdio.h>
#include <stdlib.h>

/* From a power-up with every line high, as the program does. Answers how many lines were refused. */
static unsigned int replay(unsigned char *image, const char *file)
{
    static struct script script;
    struct line line;
    unsigned int refused = 0;

    script_load(&script, file);
    towanchor_power_up_with_levels(image, TOWANCHOR_IMAGE_SIZE, 0xFF, 0xFF, 0xFF);
    while (script_take(&script, &line))
        if (!line.is_frame ||
            TOWANCHOR_NUMBER(towanchor_step(image, TOWANCHOR_IMAGE_SIZE, line.kind, line.first, line.second)) != TOWANCHOR_ACCEPTED)
            refused++;
    return refused;
}

static void explain_half(char name, const char *side, unsigned int reason, unsigned int half)
{
    if (reason != TOWANCHOR_NO_HALF)
        printf("group %c, %s: %s\n", name, side, towanchor_words(reason, half));
}

static void explain(const unsigned char *image, unsigned char group, char name)
{
    unsigned int answer = towanchor_explain(image, TOWANCHOR_IMAGE_SIZE, group);
    unsigned int input = TOWANCHOR_REASON(answer, TOWANCHOR_INPUT_HALF), output = TOWANCHOR_REASON(answer, TOWANCHOR_OUTPUT_HALF);

    if (input == TOWANCHOR_MODE_ZERO) {
        printf("group %c: %s\n", name, towanchor_words(input, TOWANCHOR_INPUT_HALF));
        return;
    }
    explain_half(name, "input", input, TOWANCHOR_INPUT_HALF);
    explain_half(name, "output", output, TOWANCHOR_OUTPUT_HALF);
}

int main(int count, char **words)
{
    unsigned char image[TOWANCHOR_IMAGE_SIZE];
    unsigned int refused;
    int each;

    if (count < 2)
        return EXIT_FAILURE;
    for (each = 1; each < count; each++) {
        refused = replay(image, words[each]);
        explain(image, TOWANCHOR_GROUP_A, 'A');
        explain(image, TOWANCHOR_GROUP_B, 'B');
        if (refused > 0)
            printf("lines that were refused, and changed nothing: %u\n", refused);
    }
    return EXIT_SUCCESS;
}
