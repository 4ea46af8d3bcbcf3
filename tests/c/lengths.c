/* Every length from 0 to 128 but 96, that of older images among them, is refused by number 8 by each function, and nothing is written; with
 * 96, power-up makes the one image of a chip just powered up of whatever stood there, with levels and without, as either edition. */
#include "checks.h"
#include "guarded.h"
#include "layout.h"
#include "towanchor.h"

#include <string.h>

static void refused(const unsigned char *image, unsigned int length)
{
    static struct guarded guarded;
    unsigned char *put = guarded_put(&guarded, image, TOWANCHOR_IMAGE_SIZE);

    check(towanchor_power_up(put, length) == TOWANCHOR_NO_STATE, "power-up of a length", length);
    check(towanchor_power_up_with_levels(put, length, 1, 2, 3) == TOWANCHOR_NO_STATE, "power-up with levels of a length", length);
    check(towanchor_power_up_as(put, length, TOWANCHOR_8255A, 1, 2, 3) == TOWANCHOR_NO_STATE, "power-up as an 8255A of a length", length);
    check(towanchor_power_up_as(put, length, TOWANCHOR_82C55A, 1, 2, 3) == TOWANCHOR_NO_STATE, "power-up as an 82C55A of a length", length);
    check(towanchor_power_up_as(put, length, 9, 1, 2, 3) == TOWANCHOR_NO_STATE, "power-up as a bad edition of a length", length);
    check(towanchor_step(put, length, TOWANCHOR_RESET, 0, 0) == TOWANCHOR_NO_STATE, "a reset of a length", length);
    check(towanchor_step(put, length, 9, 9, 9) == TOWANCHOR_NO_STATE, "a bad event of a length", length);
    check(towanchor_pins(put, length, TOWANCHOR_A) == TOWANCHOR_NO_STATE, "the pins of a length", length);
    check(towanchor_pins(put, length, 9) == TOWANCHOR_NO_STATE, "a bad port of a length", length);
    check(towanchor_tally(put, length, TOWANCHOR_A_IN, TOWANCHOR_OFFERED) == TOWANCHOR_NO_STATE, "a tally of a length", length);
    check(towanchor_tally(put, length, 9, 9) == TOWANCHOR_NO_STATE, "a bad tally of a length", length);
    check(towanchor_explain(put, length, TOWANCHOR_GROUP_A) == TOWANCHOR_NO_STATE, "a group's INTR of a length", length);
    check(towanchor_explain(put, length, 9) == TOWANCHOR_NO_STATE, "a bad group of a length", length);
    check(guarded_untouched(&guarded), "something was written with length", length);
}

/* Power-up of bytes that are all 'value', by each function: it makes the image of the edition, and leaves alone what is beside it. */
static void power_up_over(const unsigned char *image, unsigned int value)
{
    static struct guarded guarded;
    unsigned char scribbled[TOWANCHOR_IMAGE_SIZE], expected[TOWANCHOR_IMAGE_SIZE], edition, *put;

    memset(scribbled, (int)value, sizeof scribbled);
    put = guarded_put(&guarded, scribbled, sizeof scribbled);
    check(towanchor_power_up(put, sizeof scribbled) == TOWANCHOR_ACCEPTED, "power-up over bytes", value);
    check(memcmp(put, image, sizeof scribbled) == 0, "another image after power-up over bytes", value);
    check(guarded_kept_beyond(&guarded, sizeof scribbled), "power-up wrote beyond the image over bytes", value);
    memcpy(put, scribbled, sizeof scribbled);
    check(towanchor_power_up_with_levels(put, sizeof scribbled, 0, 0, 0) == TOWANCHOR_ACCEPTED, "power-up with levels over bytes", value);
    check(memcmp(put, image, sizeof scribbled) == 0, "another image after power-up with levels over bytes", value);
    check(guarded_kept_beyond(&guarded, sizeof scribbled), "power-up with levels wrote beyond the image over bytes", value);
    memcpy(expected, image, sizeof expected);
    for (edition = TOWANCHOR_8255A; edition <= TOWANCHOR_82C55A; edition++) {
        memcpy(put, scribbled, sizeof scribbled);
        expected[EDITION] = edition;
        check(towanchor_power_up_as(put, sizeof scribbled, edition, 0, 0, 0) == TOWANCHOR_ACCEPTED, "power-up by edition over bytes", value);
        check(memcmp(put, expected, sizeof scribbled) == 0, "another image after power-up by edition over bytes", value);
        check(guarded_kept_beyond(&guarded, sizeof scribbled), "power-up by edition wrote beyond the image over bytes", value);
    }
}

int main(void)
{
    unsigned char image[TOWANCHOR_IMAGE_SIZE];
    unsigned int length, value;

    memset(image, 0, sizeof image);
    check(towanchor_power_up(image, sizeof image) == TOWANCHOR_ACCEPTED, "power-up", 0);
    for (length = 0; length <= GUARDED_MOST; length++)
        if (length != TOWANCHOR_IMAGE_SIZE)
            refused(image, length);
    for (value = 0; value < 256; value++)
        power_up_over(image, value);
    return checked();
}
