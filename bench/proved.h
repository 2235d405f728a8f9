/* The proved controller, as crate c_board offers it to C. A slice is passed as a pointer and a length. */
#ifndef PROVED_H
#define PROVED_H

#include "controller.h"

enum call_kind { CALL_READ, CALL_WRITE, CALL_TURN, CALL_RESET };

struct call {
    uint8_t kind, number, byte;
};

/* what a call answers, and what the controller shows after it */
struct answer {
    uint8_t refusal, byte;
    bool drq, intrq, busy;
    uint8_t layer, error, head, number, attempts;
    uint16_t cylinder;
};

enum round_kind { READS, WRITES, REFUSALS };

/* timed rounds: each reads a sector of 512 bytes with so many turns, writes one, or makes five accesses that are refused */
struct rounds {
    uint8_t kind, turns;
    uint32_t count;
};

/* Makes a controller over images with these bytes, makes the calls and then the rounds, tells of each call and sums up the
 * answers of the rounds, and leaves in the bytes what the images hold then. False where memory is wanting. */
bool disk_answers(const struct measures *winchester, uint8_t *winchester_memory, size_t winchester_length,
                  const struct measures *floppy, uint8_t *floppy_memory, size_t floppy_length, const struct fault *faults,
                  size_t fault_count, const struct call *calls, size_t call_count, struct answer *answers,
                  size_t answer_count, const struct rounds *rounds, uint32_t *sum);

#endif
