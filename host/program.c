/* The store's program: port A is the scale's and port B the printer's, and each asks for the processor by its INTR. */
#include "program.h"

#include <stdio.h>

/* A in mode 1 input, B in mode 1 output, the free pins of C inputs. */
#define MODE_WORD 0xBC

/* The control byte that sets one pin of port C; at STB or ACK, it sets the enable of that handshake's interrupt. */
#define SET_PIN(pin) ((unsigned char)((pin) << 1 | 1))

void program_start(struct program *program, struct machine *machine)
{
    program->weight[0] = '\0';
    program->collected = 0;
    program->unwritten = NULL;
    machine_write(machine, TOWANCHOR_CONTROL, MODE_WORD);
    machine_write(machine, TOWANCHOR_CONTROL, SET_PIN(TOWANCHOR_STB_A));
    machine_write(machine, TOWANCHOR_CONTROL, SET_PIN(TOWANCHOR_ACK_B));
}

static void collect(struct program *program, unsigned char digit)
{
    if (program->collected < PROGRAM_DIGITS) {
        program->weight[program->collected++] = (char)digit;
        program->weight[program->collected] = '\0';
    }
}

static int scale_sends(struct machine *machine)
{
    return (machine_read(machine, TOWANCHOR_C) & TOWANCHOR_PIN(SCALE_SENDS)) != 0;
}

void program_turn(struct program *program, struct machine *machine)
{
    if (bus_pin(&machine->bus, TOWANCHOR_INTR_A)) {
        collect(program, machine_read(machine, TOWANCHOR_A));
    } else if (program->unwritten == NULL) {
        if (!scale_sends(machine)) {
            sprintf(program->ticket, "BALE %s KG", program->weight);
            program->unwritten = program->ticket;
        }
    } else if (*program->unwritten != '\0' && bus_pin(&machine->bus, TOWANCHOR_INTR_B)) {
        machine_write(machine, TOWANCHOR_B, (unsigned char)*program->unwritten++);
    }
}

int program_done(const struct program *program, const struct machine *machine)
{
    return program->unwritten != NULL && *program->unwritten == '\0' && bus_pin(&machine->bus, TOWANCHOR_INTR_B);
}
