/* Times a season's traffic: events of a scale and a printer in slices, each model in turn, so that all of them meet the same moments of the
   machine. Prints how many nanoseconds of processor time an event takes in each model, by the order of models.h: the slice is taken that a
   tenth of a model's slices do not exceed, which tells more than a mean where others use the processor. */
#include "models.h"

int printf(const char *format, ...);
void qsort(void *first, size_t count, size_t size, int (*order)(const void *, const void *));

/* As the system's headers have them on x86-64. */
enum { CLOCK_PROCESS_CPUTIME_ID = 2 };
struct timespec {
    long tv_sec, tv_nsec;
};
int clock_gettime(int clock, struct timespec *now);

enum { IMAGE = TOWANCHOR_IMAGE_SIZE, SLICES = 400, ROUNDS = 5000 };

struct frame {
    unsigned char kind, first, second;
};

/* Scale and printer set up, and a round of them, as in bench/events.c. */
static const struct frame beginning[] = {
    { 5, 2, 0xff }, { 3, 3, 0xb4 }, { 2, 0, 0 }, { 3, 3, 0x09 }, { 2, 0, 0 }, { 3, 3, 0x05 }, { 2, 0, 0 },
};
static const struct frame a_round[] = {
    { 5, 0, 0x41 }, { 5, 2, 0xef }, { 5, 2, 0xff }, { 1, 0, 0 }, { 2, 0, 0 }, { 3, 1, 0x54 }, { 2, 0, 0 }, { 5, 2, 0xfb }, { 5, 2, 0xff },
    { 1, 2, 0 }, { 2, 0, 0 },
};
enum { BEGINNING = sizeof beginning / sizeof beginning[0], ROUND = sizeof a_round / sizeof a_round[0] };

/* The answers of a slice in one number, which keeps them in use; 0 in its lowest byte where all were accepted. */
static unsigned int pass(const struct model *model, unsigned char *image, const struct frame *frames, int count, int rounds)
{
    unsigned int answers = 0;
    int round, i;
    for (round = 0; round < rounds; round++)
        for (i = 0; i < count; i++)
            answers |= model->step(image, IMAGE, frames[i].kind, frames[i].first, frames[i].second);
    return answers;
}

static double now(void)
{
    struct timespec time;
    clock_gettime(CLOCK_PROCESS_CPUTIME_ID, &time);
    return time.tv_sec * 1e9 + time.tv_nsec;
}

static int order(const void *left, const void *right)
{
    double a = *(const double *)left, b = *(const double *)right;
    return (a > b) - (a < b);
}

int main(void)
{
    static double times[MODELS][SLICES];
    unsigned char image[MODELS][IMAGE];
    int model, slice;
    for (model = 0; model < MODELS; model++) {
        towanchor_power_up(image[model], IMAGE);
        if (TOWANCHOR_NUMBER(pass(&models[model], image[model], beginning, BEGINNING, 1)) != TOWANCHOR_ACCEPTED)
            return 2;
    }
    for (slice = 0; slice < SLICES; slice++)
        for (model = 0; model < MODELS; model++) {
            double begun = now();
            if (TOWANCHOR_NUMBER(pass(&models[model], image[model], a_round, ROUND, ROUNDS)) != TOWANCHOR_ACCEPTED)
                return 2;
            times[model][slice] = (now() - begun) / (ROUNDS * ROUND);
        }
    for (model = 0; model < MODELS; model++) {
        qsort(times[model], SLICES, sizeof times[model][0], order);
        printf("%.2f%s", times[model][SLICES / 10], model + 1 < MODELS ? " " : "\n");
    }
    return 0;
}
