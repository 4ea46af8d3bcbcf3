/* The three models, by one type: the proved functions, the plain C model and the quick one. */
#ifndef MODELS_H
#define MODELS_H

#include "functions.h"
#include "towanchor.h"

struct model {
    const char *name;
    step_function *step;
    pins_function *pins;
    tally_function *tally;
    explain_function *explain;
};

enum { PROVED, PLAIN, QUICK, MODELS };

static const struct model models[MODELS] = {
    [PROVED] = { "proved", towanchor_step, towanchor_pins, towanchor_tally, towanchor_explain },
    [PLAIN] = { "plain", plain_step, plain_pins, plain_tally, plain_explain },
    [QUICK] = { "quick", quick_step, quick_pins, quick_tally, quick_explain },
};

#endif
