/* Compares both C models with the proved functions: answers and images, over pseudo-random events and views, from power-up and from
   arbitrary good images, and over damaged images. Its status is 0 where they never differ. */
#include "images.h"
#include "models.h"

int printf(const char *format, ...);
void *memcpy(void *to, const void *from, size_t length);
int memcmp(const void *left, const void *right, size_t length);

/* A slice of any length up to 255 is lent now and then, so each image lies in a room of that size. */
enum { ROOM = 255, EVENTS = 200000, DAMAGED = 200000, HISTORY = 50 };

/* Below 'end', or now and then any byte at all. */
static unsigned char mostly_below(unsigned char end)
{
    return random_byte() < 8 ? random_byte() : random_byte() % end;
}

/* Above 'last', and every other time the very next, where a wrong bound would show. */
static unsigned char above(unsigned char last)
{
    return last + 1 + (random_byte() & 1 ? random_byte() % (255 - last) : 0);
}

/* Makes a good image a bad one, by one byte. */
static void damage(unsigned char *image)
{
    static const unsigned char no_enable[] = { 0x01, 0x02, 0x08, 0x20, 0x80 };
    int channel = random_byte() % 4;
    switch (random_byte() % 7) {
    case 0: image[CONDITIONS + channel] = above(last_condition(image, channel)); break;
    case 1: image[WORD] &= 0x7f; break;
    case 2: image[ENABLES] |= no_enable[random_byte() % sizeof no_enable]; break;
    case 3:
        if (image[EDITION] == OLDER && random_byte() & 1)
            image[BUS] = READING_CONTROL;
        else
            image[BUS] = above(IDLE);
        break;
    case 4:
        if (image[BUS] >= WRITING && image[BUS] < IDLE)
            image[BUS] = random_byte() & 1 ? 0 : IDLE, image[DATA] |= 1;
        else
            image[DATA] = above(0);
        break;
    case 5: image[EDITION] = above(NEWER); break;
    default: image[UNUSED + random_byte() % (IMAGE - UNUSED)] = above(0);
    }
}

static void show(const char *what, const unsigned char *image, unsigned int answer)
{
    int i;
    printf("  %-14s  answer %06x  image", what, answer);
    for (i = 0; i < IMAGE; i++)
        printf("%s%02x", i % 8 ? "" : " ", image[i]);
    printf("\n");
}

/* One event, which each model lets happen to an image of its own; the image given becomes the one that the proved step leaves. */
static int same_step(unsigned char *image, size_t length, unsigned char kind, unsigned char first, unsigned char second)
{
    unsigned char before[ROOM], after[ROOM];
    unsigned int proved, other;
    int i;
    memcpy(before, image, ROOM);
    proved = models[PROVED].step(image, length, kind, first, second);
    for (i = PROVED + 1; i < MODELS; i++) {
        memcpy(after, before, ROOM);
        other = models[i].step(after, length, kind, first, second);
        if (other != proved || memcmp(after, image, ROOM) != 0) {
            printf("agree: step %02x %02x %02x, length %d\n", kind, first, second, (int)length);
            show("before", before, 0);
            show(models[PROVED].name, image, proved);
            show(models[i].name, after, other);
            return 0;
        }
    }
    return 1;
}

static int same_pins(const unsigned char *image, size_t length, unsigned char port)
{
    unsigned int proved = models[PROVED].pins(image, length, port), other;
    int i;
    for (i = PROVED + 1; i < MODELS; i++) {
        other = models[i].pins(image, length, port);
        if (other != proved) {
            printf("agree: pins of port %02x, length %d\n", port, (int)length);
            show(models[PROVED].name, image, proved);
            show(models[i].name, image, other);
            return 0;
        }
    }
    return 1;
}

static int same_tally(const unsigned char *image, size_t length, unsigned char channel, unsigned char tally)
{
    unsigned int proved = models[PROVED].tally(image, length, channel, tally), other;
    int i;
    for (i = PROVED + 1; i < MODELS; i++) {
        other = models[i].tally(image, length, channel, tally);
        if (other != proved) {
            printf("agree: tally %02x of channel %02x, length %d\n", tally, channel, (int)length);
            show(models[PROVED].name, image, proved);
            show(models[i].name, image, other);
            return 0;
        }
    }
    return 1;
}

static int same_explain(const unsigned char *image, size_t length, unsigned char group)
{
    unsigned int proved = models[PROVED].explain(image, length, group), other;
    int i;
    for (i = PROVED + 1; i < MODELS; i++) {
        other = models[i].explain(image, length, group);
        if (other != proved) {
            printf("agree: INTR of group %02x explained, length %d\n", group, (int)length);
            show(models[PROVED].name, image, proved);
            show(models[i].name, image, other);
            return 0;
        }
    }
    return 1;
}

/* Both groups are explained, and one that is none. */
static int same_views(const unsigned char *image, size_t length)
{
    return same_pins(image, length, mostly_below(4)) && same_tally(image, length, mostly_below(4), mostly_below(7))
        && same_explain(image, length, TOWANCHOR_GROUP_A) && same_explain(image, length, TOWANCHOR_GROUP_B)
        && same_explain(image, length, above(TOWANCHOR_GROUP_B));
}

/* That the proved functions take an image, or refuse it, as this program expects. */
static int refused_as(const unsigned char *image, int refused)
{
    unsigned int answer = models[PROVED].pins(image, IMAGE, TOWANCHOR_A);
    if ((TOWANCHOR_NUMBER(answer) == TOWANCHOR_NO_STATE) == refused)
        return 1;
    printf("agree: this image should %sbe refused\n", refused ? "" : "not ");
    show(models[PROVED].name, image, answer);
    return 0;
}

/* Any kind but a reset, with as many ends as beginnings, or now and then any byte at all. */
static unsigned char mostly_a_kind(void)
{
    static const unsigned char kinds[] = { TOWANCHOR_BEGIN_READ, TOWANCHOR_END_CYCLE, TOWANCHOR_BEGIN_WRITE, TOWANCHOR_END_CYCLE,
                                           TOWANCHOR_OUTSIDE_LEVELS };
    unsigned char drawn = mostly_below(sizeof kinds);
    return drawn < sizeof kinds ? kinds[drawn] : drawn;
}

/* Every other history begins at power-up. Now and then the slice is no image by its length. Resets are rare, since each ends
   what the events before it began. */
static int same_histories(void)
{
    unsigned char image[ROOM] = { 0 };
    int i;
    for (i = 0; i < EVENTS; i++) {
        size_t length = random_byte() < 4 ? random_byte() : IMAGE;
        unsigned char kind = random_byte() < 4 ? TOWANCHOR_RESET : mostly_a_kind();
        if (i % (2 * HISTORY) == 0)
            towanchor_power_up(image, IMAGE);
        else if (i % HISTORY == 0)
            make_good(image);
        if (!refused_as(image, 0) || !same_step(image, length, kind, mostly_below(4), random_byte())
            || !same_views(image, length))
            return 0;
    }
    return 1;
}

static int same_refusals(void)
{
    unsigned char image[ROOM] = { 0 };
    int i;
    for (i = 0; i < DAMAGED; i++) {
        make_good(image);
        damage(image);
        if (!refused_as(image, 1) || !same_step(image, IMAGE, mostly_below(6), mostly_below(4), random_byte())
            || !same_views(image, IMAGE))
            return 0;
    }
    return 1;
}

int main(void)
{
    if (!same_histories() || !same_refusals())
        return 1;
    printf("agree: the three models answer alike, %d events with views and %d damaged images\n", EVENTS, DAMAGED);
    return 0;
}
