/* Counts calls on pseudo-random images, in the proved functions and in the plain model. While the trap flag is set, the processor
   signals after each instruction, and the signals are counted.
   Prints how many calls there were, the most instructions of the proved functions, and the most of their ratios to the plain model;
   then, a line each, of which calls these were. Its status is 2 where the signals do not tell instructions. */
#include "calls.h"
#include "images.h"

int printf(const char *format, ...);
void *memcpy(void *to, const void *from, size_t length);
void (*signal(int number, void (*handler)(int)))(int);

enum { SIGTRAP = 5, STATES = 500 };

static volatile int signals;

static void count(int number)
{
    (void)number;
    signals++;
}

/* The signals from where the flag is set to where it is cleared: those of the call, and as many each time of what is around it. That
   is so in a function of its own; drawn into its callers it could differ. */
__attribute__((noinline))
static int signals_of(const struct model *model, enum function function, unsigned char *image, const struct call *call)
{
    signals = 0;
    __asm__ volatile("pushfq; orq $0x100, (%%rsp); popfq" ::: "cc", "memory");
    answer(model, function, image, call->operands);
    __asm__ volatile("pushfq; andq $~0x100, (%%rsp); popfq" ::: "cc", "memory");
    return signals;
}

/* From the first instruction to the return, which is the one that a function has that only returns. */
static int instructions(const struct model *model, enum function function, const unsigned char *image, const struct call *call)
{
    unsigned char own[IMAGE];
    memcpy(own, image, IMAGE);
    return signals_of(model, function, own, call) - signals_of(&empty, function, own, call) + 1;
}

/* A step of three instructions, by which the count is tried. */
__attribute__((naked))
static unsigned int step_of_three(unsigned char *image, size_t length, unsigned char kind, unsigned char first, unsigned char second)
{
    __asm__("nop; nop; ret");
}

static const struct model three = { .name = "three", .step = step_of_three };

/* What is called on each image. */
static const struct {
    enum function function;
    struct call call;
} calls[] = {
    { STEP, { { 9 } } },
    { STEP, { { TOWANCHOR_RESET } } },
    { STEP, { { TOWANCHOR_BEGIN_READ, TOWANCHOR_A } } },
    { STEP, { { TOWANCHOR_BEGIN_READ, TOWANCHOR_B } } },
    { STEP, { { TOWANCHOR_BEGIN_READ, TOWANCHOR_C } } },
    { STEP, { { TOWANCHOR_BEGIN_READ, TOWANCHOR_CONTROL } } },
    { STEP, { { TOWANCHOR_END_CYCLE } } },
    { STEP, { { TOWANCHOR_BEGIN_WRITE, TOWANCHOR_A, 0x41 } } },
    { STEP, { { TOWANCHOR_OUTSIDE_LEVELS, TOWANCHOR_A, 0x41 } } },
    { STEP, { { TOWANCHOR_OUTSIDE_LEVELS, TOWANCHOR_B, 0x41 } } },
    { STEP, { { TOWANCHOR_OUTSIDE_LEVELS, TOWANCHOR_C, 0x00 } } },
    { STEP, { { TOWANCHOR_OUTSIDE_LEVELS, TOWANCHOR_C, 0xff } } },
    { STEP, { { TOWANCHOR_OUTSIDE_LEVELS, TOWANCHOR_C, 0xef } } },
    { STEP, { { TOWANCHOR_OUTSIDE_LEVELS, TOWANCHOR_C, 0xbb } } },
    { PINS, { { TOWANCHOR_A } } },
    { PINS, { { TOWANCHOR_B } } },
    { PINS, { { TOWANCHOR_C } } },
    { PINS, { { 9 } } },
    { TALLY, { { TOWANCHOR_B_OUT, TOWANCHOR_STRUCK } } },
    { EXPLAIN, { { TOWANCHOR_GROUP_A } } },
    { EXPLAIN, { { TOWANCHOR_GROUP_B } } },
};
enum { CALLS = sizeof calls / sizeof calls[0] };

/* The most of what is compared, and the call and the image that had it. */
struct most {
    double value;
    int place;
    unsigned char image[IMAGE];
};

static void note(struct most *most, double value, int place, const unsigned char *image)
{
    if (value <= most->value)
        return;
    most->value = value;
    most->place = place;
    memcpy(most->image, image, IMAGE);
}

static void show(const char *what, const struct most *most)
{
    static const char *const names[] = { [STEP] = "step", [PINS] = "pins", [TALLY] = "tally", [EXPLAIN] = "explain" };
    const unsigned char *operands = calls[most->place].call.operands, *image = most->image;
    printf("%s: %s %02x %02x %02x, mode word %02x, conditions %d%d%d%d, enables %02x, lines %02x, bus %02x %02x\n", what,
           names[calls[most->place].function], operands[0], operands[1], operands[2], image[WORD], image[CONDITIONS],
           image[CONDITIONS + 1], image[CONDITIONS + 2], image[CONDITIONS + 3], image[ENABLES], image[LEVELS_C], image[BUS], image[DATA]);
}

int main(void)
{
    static struct most dearest, beside_plain;
    unsigned char image[IMAGE] = { 0 };
    int state, i;
    signal(SIGTRAP, count);
    if (instructions(&three, STEP, image, &calls[0].call) != 3)
        return 2;
    for (state = 0; state < STATES; state++) {
        make_good(image);
        for (i = 0; i < CALLS; i++) {
            int proved = instructions(&models[PROVED], calls[i].function, image, &calls[i].call);
            int plain = instructions(&models[PLAIN], calls[i].function, image, &calls[i].call);
            note(&dearest, proved, i, image);
            note(&beside_plain, (double)proved / plain, i, image);
        }
    }
    printf("%d %d %.2f\n", STATES * CALLS, (int)dearest.value, beside_plain.value);
    show("the dearest", &dearest);
    show("the dearest beside the plain model", &beside_plain);
    return 0;
}
