/* Bytes of each channel are handed over, overwritten, swallowed, cleared, planted and struck, a different count of each, and the tallies have
 * these counts; and a tally at 65,535 goes on to 0. */
#include "checks.h"
#include "towanchor.h"
#include "ways.h"

static void pulse(unsigned char pin)
{
    event(TOWANCHOR_OUTSIDE_LEVELS, TOWANCHOR_C, (unsigned char)~TOWANCHOR_PIN(pin));
    event(TOWANCHOR_OUTSIDE_LEVELS, TOWANCHOR_C, 0xFF);
}

static void offer(unsigned char channel)
{
    if (is_input(channel))
        pulse(ways[channel].pin);
    else
        write_byte(ways[channel].port, 0x55);
}

static void hand_over(unsigned char channel)
{
    if (is_input(channel)) {
        event(TOWANCHOR_BEGIN_READ, ways[channel].port, 0);
        event(TOWANCHOR_END_CYCLE, 0, 0);
    } else {
        pulse(ways[channel].pin);
    }
}

static void swallow(unsigned char channel)
{
    event(TOWANCHOR_BEGIN_READ, ways[channel].port, 0);
    offer(channel);
    event(TOWANCHOR_END_CYCLE, 0, 0);
}

/* Forces the flag of a channel by bit set/reset, so that it tells of a byte or of none: IBF is high while there is one, and OBF low. */
static void force(unsigned char channel, int a_byte)
{
    static const unsigned char flags[] = {TOWANCHOR_IBF_A, TOWANCHOR_OBF_A, TOWANCHOR_IBF_B, TOWANCHOR_OBF_B};
    int level = is_input(channel) ? a_byte : !a_byte;

    write_byte(TOWANCHOR_CONTROL, (unsigned char)(2 * flags[channel] + level));
}

/* So many bytes of a channel as no other tally has: handed over, overwritten, swallowed, cleared, planted, and struck of those offered. */
static unsigned int share(unsigned char channel, unsigned char which)
{
    return which == TOWANCHOR_SWALLOWED && !is_input(channel) ? 0 : 5u * channel + which + 300u * which;
}

static void use(unsigned char channel)
{
    unsigned int each;

    write_byte(TOWANCHOR_CONTROL, ways[channel].word);
    for (each = 0; each < share(channel, TOWANCHOR_HANDED_OVER); each++) {
        offer(channel);
        hand_over(channel);
    }
    for (each = 0; each < share(channel, TOWANCHOR_SWALLOWED); each++)
        swallow(channel);
    for (each = 0; each < share(channel, TOWANCHOR_CLEARED); each++) {
        offer(channel);
        if (each % 2 == 0)
            event(TOWANCHOR_RESET, 0, 0);
        write_byte(TOWANCHOR_CONTROL, ways[channel].word);
    }
    for (each = 0; each < share(channel, TOWANCHOR_STRUCK); each++) {
        offer(channel);
        force(channel, 0);
        force(channel, 0); /* there is nothing more to strike */
    }
    for (each = 0; each < share(channel, TOWANCHOR_PLANTED); each++) {
        force(channel, 1);
        force(channel, 1); /* there is no room for another */
        force(channel, 0);
    }
    /* The last of these is not overwritten: it waits, and the reset clears it. */
    for (each = 0; each <= share(channel, TOWANCHOR_OVERWRITTEN); each++)
        offer(channel);
    event(TOWANCHOR_RESET, 0, 0);
}

static void compare(unsigned char channel)
{
    unsigned int handed_over = share(channel, TOWANCHOR_HANDED_OVER), overwritten = share(channel, TOWANCHOR_OVERWRITTEN);
    unsigned int swallowed = share(channel, TOWANCHOR_SWALLOWED), cleared = share(channel, TOWANCHOR_CLEARED) + 1;
    unsigned int planted = share(channel, TOWANCHOR_PLANTED), struck = share(channel, TOWANCHOR_STRUCK);

    check(tally(channel, TOWANCHOR_OFFERED) == handed_over + overwritten + swallowed + cleared + struck, "offered, of channel", channel);
    check(tally(channel, TOWANCHOR_HANDED_OVER) == handed_over, "handed over, of channel", channel);
    check(tally(channel, TOWANCHOR_OVERWRITTEN) == overwritten, "overwritten, of channel", channel);
    check(tally(channel, TOWANCHOR_SWALLOWED) == swallowed, "swallowed, of channel", channel);
    check(tally(channel, TOWANCHOR_CLEARED) == cleared, "cleared, of channel", channel);
    check(tally(channel, TOWANCHOR_PLANTED) == planted, "planted, of channel", channel);
    check(tally(channel, TOWANCHOR_STRUCK) == struck + planted, "struck, of channel", channel);
}

static void go_round(void)
{
    unsigned long each;

    towanchor_power_up_with_levels(image, TOWANCHOR_IMAGE_SIZE, 0xFF, 0xFF, 0xFF);
    write_byte(TOWANCHOR_CONTROL, ways[TOWANCHOR_A_IN].word);
    for (each = 0; each < 65535; each++)
        offer(TOWANCHOR_A_IN);
    check(tally(TOWANCHOR_A_IN, TOWANCHOR_OFFERED) == 65535, "65,535 offered", 0);
    check(tally(TOWANCHOR_A_IN, TOWANCHOR_OVERWRITTEN) == 65534, "65,534 overwritten", 0);
    offer(TOWANCHOR_A_IN);
    check(tally(TOWANCHOR_A_IN, TOWANCHOR_OFFERED) == 0, "one more offered: 0", 0);
    check(tally(TOWANCHOR_A_IN, TOWANCHOR_OVERWRITTEN) == 65535, "one more overwritten: 65,535", 0);
}

int main(void)
{
    unsigned char channel;

    towanchor_power_up_with_levels(image, TOWANCHOR_IMAGE_SIZE, 0xFF, 0xFF, 0xFF);
    for (channel = TOWANCHOR_A_IN; channel <= TOWANCHOR_B_OUT; channel++)
        use(channel);
    for (channel = TOWANCHOR_A_IN; channel <= TOWANCHOR_B_OUT; channel++)
        compare(channel);
    go_round();
    return checked();
}
