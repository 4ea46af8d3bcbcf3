/* A call of one of the four functions, with its operands, in any of the models or in functions that only return. */
#ifndef CALLS_H
#define CALLS_H

#include "models.h"

enum function { STEP, PINS, TALLY, EXPLAIN };

/* The operands of a call: a frame for a step, a port for the pins, a channel and a tally for a tally, a group for an explanation.
   Those it lacks are 0. */
struct call {
    unsigned char operands[3];
};

/* One instruction, whatever the compiler: what a round costs with these is the driver's own, but for that one. */
__attribute__((naked))
static unsigned int empty_step(unsigned char *image, size_t length, unsigned char kind, unsigned char first, unsigned char second)
{
    __asm__("ret");
}

__attribute__((naked))
static unsigned int empty_pins(const unsigned char *image, size_t length, unsigned char port)
{
    __asm__("ret");
}

__attribute__((naked))
static unsigned int empty_tally(const unsigned char *image, size_t length, unsigned char channel, unsigned char tally)
{
    __asm__("ret");
}

__attribute__((naked))
static unsigned int empty_explain(const unsigned char *image, size_t length, unsigned char group)
{
    __asm__("ret");
}

static const struct model empty = { "empty", empty_step, empty_pins, empty_tally, empty_explain };

static unsigned int answer(const struct model *model, enum function function, unsigned char *image, const unsigned char *operands)
{
    switch (function) {
    case STEP: return model->step(image, TOWANCHOR_IMAGE_SIZE, operands[0], operands[1], operands[2]);
    case PINS: return model->pins(image, TOWANCHOR_IMAGE_SIZE, operands[0]);
    case TALLY: return model->tally(image, TOWANCHOR_IMAGE_SIZE, operands[0], operands[1]);
    default: return model->explain(image, TOWANCHOR_IMAGE_SIZE, operands[0]);
    }
}

#endif
