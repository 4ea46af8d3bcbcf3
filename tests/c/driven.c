/* Which pins the chip drives under each of the 128 mode words and all outside levels, by the rules of the pin view; a pin that it
 * does not drive shows its outside level. The program's answers have the levels alone. */
#include "checks.h"
#include "mode_words.h"
#include "towanchor.h"

#define SIZE TOWANCHOR_IMAGE_SIZE

static unsigned char image[SIZE];

static unsigned int mask(unsigned char pin)
{
    return TOWANCHOR_PIN(pin);
}

static unsigned int driven_of_a(unsigned int word, unsigned int outside_of_c)
{
    int driven = a_both_ways(word) ? (outside_of_c & mask(TOWANCHOR_ACK_A)) == 0 : !a_is_input(word);

    return driven ? 0xFF : 0;
}

static unsigned int driven_of_b(unsigned int word)
{
    return b_is_input(word) ? 0 : 0xFF;
}

/* Free pins have their half's direction; then each handshake takes its pins: it drives INTR, IBF and OBF, not STB and ACK. */
static unsigned int driven_of_c(unsigned int word)
{
    unsigned int driven = ((word & 0x08) != 0 ? 0 : 0xF0u) | ((word & 0x01) != 0 ? 0 : 0x0Fu);

    if (strobes(word, TOWANCHOR_A_IN))
        driven = (driven | mask(TOWANCHOR_INTR_A) | mask(TOWANCHOR_IBF_A)) & ~mask(TOWANCHOR_STB_A);
    if (strobes(word, TOWANCHOR_A_OUT))
        driven = (driven | mask(TOWANCHOR_INTR_A) | mask(TOWANCHOR_OBF_A)) & ~mask(TOWANCHOR_ACK_A);
    if (strobes(word, TOWANCHOR_B_IN))
        driven = (driven | mask(TOWANCHOR_INTR_B) | mask(TOWANCHOR_IBF_B)) & ~mask(TOWANCHOR_STB_B);
    if (strobes(word, TOWANCHOR_B_OUT))
        driven = (driven | mask(TOWANCHOR_INTR_B) | mask(TOWANCHOR_OBF_B)) & ~mask(TOWANCHOR_ACK_B);
    return driven;
}

static void port(unsigned char which, unsigned int driven, unsigned int outside, unsigned int word)
{
    unsigned int view = towanchor_pins(image, SIZE, which);

    check(TOWANCHOR_DRIVEN(view) == driven, "the driven pins under mode word", word);
    check((TOWANCHOR_LEVELS(view) & ~driven) == (outside & ~driven & 0xFF), "the levels of other pins under mode word", word);
}

static void under(unsigned int word, unsigned int outside)
{
    unsigned char each;

    towanchor_power_up(image, SIZE);
    towanchor_step(image, SIZE, TOWANCHOR_BEGIN_WRITE, TOWANCHOR_CONTROL, (unsigned char)word);
    towanchor_step(image, SIZE, TOWANCHOR_END_CYCLE, 0, 0);
    for (each = TOWANCHOR_A; each <= TOWANCHOR_C; each++)
        towanchor_step(image, SIZE, TOWANCHOR_OUTSIDE_LEVELS, each, (unsigned char)outside);
    port(TOWANCHOR_A, driven_of_a(word, outside), outside, word);
    port(TOWANCHOR_B, driven_of_b(word), outside, word);
    port(TOWANCHOR_C, driven_of_c(word), outside, word);
}

int main(void)
{
    unsigned int word, outside;

    for (word = 0x80; word <= 0xFF; word++)
        for (outside = 0; outside <= 0xFF; outside++)
            under(word, outside);
    return checked();
}
