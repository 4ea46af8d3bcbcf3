/* What INTR is doing, as both models in C work it out: the first reason of each half that holds, one asked after the other. */
#ifndef EXPLAIN_H
#define EXPLAIN_H

#include "chip.h"

/* The line is STB of an input or ACK of an output, on whose place the half has its enable. */
static unsigned int half(const struct chip *chip, unsigned int line, int flag, unsigned int own_cycle)
{
    if (!(chip->enables & line))
        return ENABLE_OFF;
    if (!flag)
        return FLAG_WRONG;
    if (!(chip->outside[PORT_C] & line))
        return LINE_LOW;
    return chip->bus == own_cycle ? OWN_CYCLE : HIGH;
}

static unsigned int input_half(const struct chip *chip, int in, unsigned int line, unsigned int port)
{
    return half(chip, line, chip->conditions[in] != EMPTY, READING + port);
}

static unsigned int output_half(const struct chip *chip, int out, unsigned int line, unsigned int port)
{
    return half(chip, line, chip->conditions[out] != WAITING, WRITING + port);
}

static unsigned int explained(unsigned int input, unsigned int output)
{
    return ACCEPTED | input << 8 | output << 16;
}

static unsigned int explain_a(const struct chip *chip)
{
    if (chip->word & MODE_2_A)
        return explained(input_half(chip, A_IN, STB_A, PORT_A), output_half(chip, A_OUT, ACK_A, PORT_A));
    if (!(chip->word & MODE_1_A))
        return explained(MODE_ZERO, MODE_ZERO);
    if (chip->word & INPUT_A)
        return explained(input_half(chip, A_IN, STB_A, PORT_A), NO_HALF);
    return explained(NO_HALF, output_half(chip, A_OUT, ACK_A, PORT_A));
}

static unsigned int explain_b(const struct chip *chip)
{
    if (!(chip->word & MODE_1_B))
        return explained(MODE_ZERO, MODE_ZERO);
    if (chip->word & INPUT_B)
        return explained(input_half(chip, B_IN, STB_ACK_B, PORT_B), NO_HALF);
    return explained(NO_HALF, output_half(chip, B_OUT, STB_ACK_B, PORT_B));
}

static unsigned int explain(const struct chip *chip, unsigned char group)
{
    switch (group) {
    case GROUP_A: return explain_a(chip);
    case GROUP_B: return explain_b(chip);
    default: return OUT_OF_RANGE;
    }
}

#endif
