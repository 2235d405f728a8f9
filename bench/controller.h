/* The controller in plain C, written for speed: its values, and the calls on it. */
#ifndef CONTROLLER_H
#define CONTROLLER_H

#include <stdbool.h>
#include <stddef.h>
#include <stdint.h>

enum refusal { NO_REGISTER = 1, IS_BUSY = 2, NO_DATA_REQUEST = 3, DATA_REQUEST = 4, NO_COMMAND = 5 };
enum fault_kind { NO_ID = 1, NO_DATA_MARK = 2, WRONG_BITS = 3 };
enum phase { AT_REST, BUSY, OFFERING, TAKING };

#define FAULTS 32
#define HEADER 386 /* the bytes of a track record before the sectors' own */

/* an image's measures */
struct measures {
    uint16_t cylinders;
    uint8_t heads;
    bool is_protected;
    uint32_t capacity;
};

/* a fault at a place, for so many attempts */
struct fault {
    uint16_t cylinder;
    uint8_t head, number;
    uint8_t kind;
    uint8_t pattern;
    uint16_t first;
    uint16_t attempts;
};

/* an image with its faults, or an empty bay: one cylinder, one head, no room, never ready */
struct drive {
    bool ready, is_protected, floppy;
    uint8_t heads;
    uint16_t cylinders, cylinder;
    uint32_t capacity, record; /* the room on a track, and the length of its record */
    uint8_t *memory;
    unsigned faults;
    struct fault fault[FAULTS];
};

struct last_fault {
    uint8_t layer, error;
    uint16_t cylinder;
    uint8_t head, number, attempts;
};

struct controller {
    uint8_t registers[8]; /* by number; 0 and 7 are not kept here */
    uint8_t phase;
    uint8_t command;
    bool multiple, is_long, dma;
    bool corrected, note, intrq;
    uint8_t attempts;
    uint16_t at, end; /* while bytes move: how many have, and how many do in all */
    uint16_t steps;
    uint32_t previous; /* the difference of the attempt just before, or 0 */
    struct drive *drive; /* what SDH selects, and the head on it */
    uint8_t head;
    struct last_fault fault;
    struct drive winchester, floppy;
    uint8_t buffer[1024 + 4]; /* the sector's bytes, and its check bytes right behind them */
};

/* a check code, its register at the top of 32 bits; tables[k] has what a byte and k zeros after it make of a register of 0 */
struct code {
    uint32_t polynomial, start;
    uint32_t tables[8][256];
};

extern struct code codes[2]; /* CRC and ECC, by whether it is ECC */

void make_tables(void); /* once, before all else */

/* makes a drive at cylinder 0; with wrong measures it is an empty bay */
void fit_winchester(struct drive *drive, const struct measures *measures, uint8_t *memory, size_t length);
void fit_floppy(struct drive *drive, const struct measures *measures, uint8_t *memory, size_t length);
/* lays a fault over a drive: 0, or the number of the refusal */
int add_fault(struct drive *drive, const struct fault *fault);

void master_reset(struct controller *c); /* how a controller begins, too, once its drives are fitted */
int read_register(struct controller *c, unsigned number); /* the byte, or minus the number of the refusal */
int write_register(struct controller *c, unsigned number, uint8_t byte); /* 0, or the number of the refusal */
void turn(struct controller *c);

/* the check bytes of a sector, as one number; under CRC its low half is 0 */
uint32_t check_of(bool ecc, const uint8_t *bytes, size_t n);

#endif
