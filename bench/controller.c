/* The controller in plain C, written for speed, by the rules of docs/BEHAVIOUR.md: eight registers, six commands, a
 * Winchester and a floppy over track records in memory, and faults over either. Checks go through eight tables, and the
 * search for a burst takes the difference back a byte at a time. */
#include "controller.h"

#include <string.h>

#define TRIES 9
#define MOST_SECTORS 64
#define BAD_MARK 0x80
#define PAIRS 2    /* where a record has its pairs of number and mark */
#define CHECKS 130 /* and its check bytes */

enum error { BAD_BLOCK = 0x80, DATA = 0x40, ID_NOT_FOUND = 0x10, ABORTED = 0x04, TRACK_ZERO = 0x02, DATA_MARK = 0x01 };
enum layer { CONTROLLER = 1, DRIVE = 2, CHECK_CODE = 3 };
enum register_number { DATA_REGISTER, ERROR, COUNT, NUMBER, LOW, HIGH, SDH, STATUS };
enum command { TEST, RESTORE, SEEK, READ, WRITE, FORMAT };
enum answer { DONE, ANSWERS_NO_ID, ANSWERS_BAD_BLOCK, ANSWERS_NO_DATA_MARK };

static const uint16_t bytes_of[4] = { 256, 512, 1024, 128 };

/* ---- check codes */

struct code codes[2] = { { .polynomial = 0x10210000u, .start = 0xffff0000u }, { .polynomial = 0x140a0445u, .start = 0xffffffffu } };

static uint32_t undone[256]; /* what taking eight shifts back makes of the low byte of the ECC's register */

static void fill(struct code *code)
{
    for (uint32_t b = 0; b < 256; b++) {
        uint32_t r = b << 24;
        for (int i = 0; i < 8; i++)
            r = (r << 1) ^ (code->polynomial & -(r >> 31));
        code->tables[0][b] = r;
    }
    for (int k = 1; k < 8; k++)
        for (int b = 0; b < 256; b++) {
            uint32_t r = code->tables[k - 1][b];
            code->tables[k][b] = (r << 8) ^ code->tables[0][r >> 24];
        }
}

void make_tables(void)
{
    fill(&codes[false]);
    fill(&codes[true]);
    for (uint32_t b = 0; b < 256; b++) {
        uint32_t r = b;
        for (int i = 0; i < 8; i++)
            r = r & 1 ? (r ^ codes[true].polynomial) >> 1 | 0x80000000u : r >> 1;
        undone[b] = r;
    }
}

static uint32_t load(const uint8_t *p)
{
    return (uint32_t)p[0] << 24 | (uint32_t)p[1] << 16 | (uint32_t)p[2] << 8 | p[3];
}

static void store(uint8_t *p, uint32_t x)
{
    p[0] = (uint8_t)(x >> 24);
    p[1] = (uint8_t)(x >> 16);
    p[2] = (uint8_t)(x >> 8);
    p[3] = (uint8_t)x;
}

/* the register after n bytes, a multiple of eight; the second word comes first, since it does not wait for the register */
static uint32_t register_after(const uint32_t table[8][256], uint32_t r, const uint8_t *p, size_t n)
{
    for (const uint8_t *end = p + n; p != end; p += 8) {
        uint32_t b = load(p + 4), a = r ^ load(p);
        r = (table[3][b >> 24] ^ table[2][b >> 16 & 255] ^ table[1][b >> 8 & 255] ^ table[0][b & 255])
            ^ (table[7][a >> 24] ^ table[6][a >> 16 & 255] ^ table[5][a >> 8 & 255] ^ table[4][a & 255]);
    }
    return r;
}

uint32_t check_of(bool ecc, const uint8_t *bytes, size_t n)
{
    return register_after(codes[ecc].tables, codes[ecc].start, bytes, n);
}

/* the difference of a delivered sector, whose check bytes stand behind it */
static uint32_t difference_of(bool ecc, const uint8_t *bytes, size_t n)
{
    uint32_t difference = check_of(ecc, bytes, n) ^ load(bytes + n);
    return ecc ? difference : difference & 0xffff0000u;
}

/* Inverts the burst with this difference, not 0, among n bytes and four check bytes behind them; false where none has it.
 * The difference is taken back a byte at a time from the sector's end. Where the burst ends in that byte, the register
 * shows its bits themselves; no other burst has its difference, so the one found is the first. */
static bool mend(uint8_t *bytes, size_t n, uint32_t difference)
{
    uint32_t r = difference;
    for (size_t at = n + 4; at-- > 0; r = (r >> 8) ^ undone[r & 255]) {
        if (r >= 1u << 12)
            continue;
        if (r >> __builtin_ctz(r) >= 32)
            continue;
        if (at == 0 && r > 255)
            return false;
        bytes[at] ^= (uint8_t)r;
        if (r > 255)
            bytes[at - 1] ^= (uint8_t)(r >> 8);
        return true;
    }
    return false;
}

/* ---- drives */

static void fit(struct drive *d, bool floppy, const struct measures *m, uint8_t *memory, size_t length)
{
    unsigned most_cylinders = floppy ? 256 : 1024, most_heads = floppy ? 2 : 8;
    bool fits = m->cylinders >= 1 && m->cylinders <= most_cylinders && m->heads >= 1 && m->heads <= most_heads
                && m->capacity >= 128 && m->capacity <= 65536 && m->capacity % 128 == 0
                && length == (size_t)m->cylinders * m->heads * (HEADER + m->capacity);
    d->floppy = floppy;
    d->ready = fits;
    d->is_protected = fits && m->is_protected;
    d->cylinders = fits ? m->cylinders : 1;
    d->heads = fits ? m->heads : 1;
    d->capacity = fits ? m->capacity : 0;
    d->record = HEADER + d->capacity;
    d->cylinder = 0;
    d->memory = memory;
    d->faults = 0;
}

void fit_winchester(struct drive *d, const struct measures *m, uint8_t *memory, size_t length)
{
    fit(d, false, m, memory, length);
}

void fit_floppy(struct drive *d, const struct measures *m, uint8_t *memory, size_t length)
{
    fit(d, true, m, memory, length);
}

int add_fault(struct drive *d, const struct fault *fault)
{
    if (d->faults == FAULTS)
        return 10;
    if (fault->cylinder >= 1024 || fault->head >= 8 || fault->first >= 8224 || fault->pattern % 2 == 0
        || fault->pattern >= 32 || fault->attempts == 0)
        return 11;
    d->fault[d->faults++] = *fault;
    return 0;
}

/* the fault that an attempt at a place meets, if it meets one; it then has one attempt less */
static const struct fault *met(struct drive *d, uint8_t head, uint8_t number)
{
    for (struct fault *f = d->fault, *end = f + d->faults; f != end; f++)
        if (f->number == number && f->cylinder == d->cylinder && f->head == head && f->attempts > 0) {
            f->attempts--;
            return f;
        }
    return NULL;
}

static uint8_t *track_under(const struct drive *d, uint8_t head)
{
    return d->memory + ((size_t)d->cylinder * d->heads + head) * d->record;
}

/* the slot of the first sector with this number and size on a track, or -1: a record with a wrong mark holds no track */
static int find(const struct drive *d, const uint8_t *track, uint8_t number, uint8_t size)
{
    unsigned count = track[0], others = 0;
    int slot = -1;
    if (count < 1 || count > MOST_SECTORS || track[1] != size || count * bytes_of[size] > d->capacity)
        return -1;
    for (int i = (int)count - 1; i >= 0; i--) {
        others |= track[PAIRS + 2 * i + 1];
        if (track[PAIRS + 2 * i] == number)
            slot = i;
    }
    /* mostly no mark is set */
    if (others != 0)
        for (unsigned i = 0; i < count; i++)
            if (track[PAIRS + 2 * i + 1] & ~BAD_MARK)
                return -1;
    return slot;
}

/* inverts a burst's bits in n bytes */
static void damage(uint8_t *bytes, size_t n, const struct fault *fault)
{
    for (unsigned k = 0; k < 5; k++)
        if (fault->pattern >> k & 1 && (fault->first + k) / 8 < n)
            bytes[(fault->first + k) / 8] ^= 0x80 >> (fault->first + k) % 8;
}

static enum answer read_attempt(struct drive *d, uint8_t head, uint8_t number, uint8_t size, uint8_t *buffer)
{
    const struct fault *fault = met(d, head, number);
    if ((fault && fault->kind == NO_ID) || head >= d->heads)
        return ANSWERS_NO_ID;
    const uint8_t *track = track_under(d, head);
    int slot = find(d, track, number, size);
    if (slot < 0)
        return ANSWERS_NO_ID;
    if (track[PAIRS + 2 * slot + 1] == BAD_MARK)
        return ANSWERS_BAD_BLOCK;
    if (fault && fault->kind == NO_DATA_MARK)
        return ANSWERS_NO_DATA_MARK;
    size_t n = bytes_of[size];
    memcpy(buffer, track + HEADER + (size_t)slot * n, n);
    memcpy(buffer + n, track + CHECKS + 4 * slot, 4);
    if (fault)
        damage(buffer, n + 4, fault);
    return DONE;
}

static enum answer write_attempt(struct drive *d, uint8_t head, uint8_t number, uint8_t size, const uint8_t *buffer)
{
    const struct fault *fault = met(d, head, number);
    if ((fault && fault->kind == NO_ID) || head >= d->heads)
        return ANSWERS_NO_ID;
    uint8_t *track = track_under(d, head);
    int slot = find(d, track, number, size);
    if (slot < 0)
        return ANSWERS_NO_ID;
    if (track[PAIRS + 2 * slot + 1] == BAD_MARK)
        return ANSWERS_BAD_BLOCK;
    size_t n = bytes_of[size];
    memcpy(track + HEADER + (size_t)slot * n, buffer, n);
    memcpy(track + CHECKS + 4 * slot, buffer + n, 4);
    return DONE;
}

/* formats the track under a head by pairs of mark and number; what could stand against it was asked with the command */
static void format_track(struct drive *d, uint8_t head, unsigned count, uint8_t size, const uint8_t *pairs, uint32_t check)
{
    uint8_t *track = track_under(d, head);
    track[0] = (uint8_t)count;
    track[1] = size;
    for (unsigned i = 0; i < count; i++) {
        track[PAIRS + 2 * i] = pairs[2 * i + 1];
        track[PAIRS + 2 * i + 1] = pairs[2 * i] & BAD_MARK;
        store(track + CHECKS + 4 * i, check);
    }
    memset(track + HEADER, 0, (size_t)count * bytes_of[size]);
}

/* ---- what the registers say */

static uint16_t cylinder_of(const struct controller *c)
{
    return (uint16_t)((c->registers[HIGH] & 3) << 8 | c->registers[LOW]);
}

static uint8_t size_of(const struct controller *c)
{
    return c->registers[SDH] >> 5 & 3;
}

static bool is_ecc(const struct controller *c)
{
    return c->registers[SDH] & 0x80;
}

static unsigned sectors_of(const struct controller *c)
{
    return c->registers[COUNT] ? c->registers[COUNT] : 256;
}

/* SDH was written: what it selects is kept until it is written again */
static void select_drive(struct controller *c, uint8_t sdh)
{
    c->registers[SDH] = sdh;
    if ((sdh & 0x18) == 0) {
        c->drive = &c->winchester;
        c->head = sdh & 7;
    } else if ((sdh & 0x1e) == 0x18) {
        c->drive = &c->floppy;
        c->head = sdh & 1;
    } else {
        c->drive = NULL;
    }
}

static void advance(struct controller *c)
{
    c->registers[COUNT]--;
    c->registers[NUMBER]++;
}

/* ---- how a command begins and ends */

static void end(struct controller *c)
{
    c->phase = AT_REST;
    c->intrq = true;
}

static void set_fault(struct controller *c, enum error error)
{
    c->registers[ERROR] = error;
    c->fault = (struct last_fault){ .layer = CONTROLLER, .error = error };
}

static void set_sector_fault(struct controller *c, enum error error)
{
    c->registers[ERROR] = error;
    c->fault = (struct last_fault){ .layer = error == DATA ? CHECK_CODE : DRIVE, .error = error,
                                    .cylinder = cylinder_of(c), .head = c->head, .number = c->registers[NUMBER],
                                    .attempts = c->attempts };
}

static void clear(struct controller *c)
{
    c->registers[ERROR] = 0;
    c->fault = (struct last_fault){ 0 };
    c->corrected = c->note = c->intrq = false;
}

static void begin_job(struct controller *c)
{
    c->phase = BUSY;
    c->attempts = 0;
    c->previous = 0;
}

static void move(struct controller *c, enum phase phase)
{
    c->phase = phase;
    c->at = 0;
    c->end = (uint16_t)(bytes_of[size_of(c)] + (c->is_long ? 4 : 0));
}

/* the command that a byte gives, or -1 */
static int command_of(uint8_t byte)
{
    switch (byte >> 4) {
    case 1: return RESTORE;
    case 2: return byte & 1 ? -1 : READ;
    case 3: return byte & 9 ? -1 : WRITE;
    case 5: return byte == 0x50 ? FORMAT : -1;
    case 7: return SEEK;
    case 9: return byte == 0x90 ? TEST : -1;
    default: return -1;
    }
}

static bool is_aborted(const struct controller *c, int command)
{
    const struct drive *d = c->drive;
    bool writes = command == WRITE || command == FORMAT;
    if (command == TEST)
        return false;
    if (!d || !d->ready || cylinder_of(c) >= d->cylinders)
        return true;
    if (d->floppy ? is_ecc(c) || c->is_long || (d->is_protected && writes) : d->is_protected)
        return true;
    return command == FORMAT
           && (c->head >= d->heads || sectors_of(c) > MOST_SECTORS
               || sectors_of(c) * bytes_of[size_of(c)] > d->capacity);
}

static void begin(struct controller *c, int command, uint8_t byte)
{
    bool moves = command == READ || command == WRITE;
    clear(c);
    c->command = (uint8_t)command;
    c->dma = moves && byte & 8;
    c->multiple = moves && byte & 4;
    c->is_long = moves && byte & 2;
    c->steps = 0;
    if (command == RESTORE)
        c->registers[LOW] = c->registers[HIGH] = 0;
    if (is_aborted(c, command)) {
        c->note = c->drive && c->drive->floppy && c->drive->is_protected && (command == WRITE || command == FORMAT);
        set_fault(c, ABORTED);
        end(c);
    } else if (command == WRITE || command == FORMAT) {
        move(c, TAKING);
    } else {
        begin_job(c);
    }
}

void master_reset(struct controller *c)
{
    memset(c->registers, 0, sizeof c->registers);
    select_drive(c, 0);
    clear(c);
    c->command = TEST;
    begin_job(c);
}

/* ---- what comes of an attempt */

static void offer(struct controller *c, bool last)
{
    if (last && !c->dma)
        c->intrq = true;
    move(c, OFFERING);
}

static void take_sector(struct controller *c)
{
    if (c->multiple)
        advance(c);
    offer(c, !c->multiple || c->registers[COUNT] == 0);
}

static void fail_read(struct controller *c, enum error error)
{
    set_sector_fault(c, error);
    if (c->multiple) {
        end(c);
    } else {
        memset(c->buffer, 0, sizeof c->buffer);
        offer(c, true);
    }
}

/* another attempt, or after the ninth the failure */
static void retry_read(struct controller *c, uint32_t difference, enum error error)
{
    c->previous = difference;
    if (c->attempts == TRIES)
        fail_read(c, error);
}

static void judge_delivered(struct controller *c)
{
    size_t n = bytes_of[size_of(c)];
    uint32_t difference = c->is_long ? 0 : difference_of(is_ecc(c), c->buffer, n);
    if (difference == 0) {
        take_sector(c);
    } else if (!is_ecc(c) || difference != c->previous) {
        retry_read(c, difference, DATA);
    } else if (mend(c->buffer, n, difference)) {
        c->corrected = true;
        take_sector(c);
    } else {
        fail_read(c, DATA);
    }
}

static void read_sector(struct controller *c)
{
    enum answer answer = read_attempt(c->drive, c->head, c->registers[NUMBER], size_of(c), c->buffer);
    c->attempts++;
    switch (answer) {
    case DONE: judge_delivered(c); break;
    case ANSWERS_NO_ID: retry_read(c, 0, ID_NOT_FOUND); break;
    case ANSWERS_NO_DATA_MARK: retry_read(c, 0, DATA_MARK); break;
    case ANSWERS_BAD_BLOCK: fail_read(c, BAD_BLOCK); break;
    }
}

static void finish_sector(struct controller *c)
{
    if (c->multiple) {
        advance(c);
        if (c->registers[COUNT] != 0) {
            move(c, TAKING);
            return;
        }
    }
    end(c);
}

static void write_sector(struct controller *c)
{
    enum answer answer = write_attempt(c->drive, c->head, c->registers[NUMBER], size_of(c), c->buffer);
    c->attempts++;
    if (answer == DONE) {
        finish_sector(c);
    } else if (answer == ANSWERS_BAD_BLOCK || c->attempts == TRIES) {
        set_sector_fault(c, answer == ANSWERS_BAD_BLOCK ? BAD_BLOCK : ID_NOT_FOUND);
        end(c);
    }
}

static void format(struct controller *c)
{
    static const uint8_t zeros[1024];
    uint8_t size = size_of(c);
    format_track(c->drive, c->head, sectors_of(c), size, c->buffer, check_of(is_ecc(c), zeros, bytes_of[size]));
    c->registers[COUNT] = 0;
    end(c);
}

/* ---- turns */

static void step_out(struct drive *d)
{
    if (d->cylinder > 0)
        d->cylinder--;
}

static void restore(struct controller *c)
{
    if (c->drive->cylinder == 0) {
        end(c);
    } else if (c->steps < 1024) {
        c->steps++;
        step_out(c->drive);
    } else {
        set_fault(c, TRACK_ZERO);
        end(c);
    }
}

/* one turn of a job other than Test, which goes on only where its drive is there */
static void work(struct controller *c)
{
    struct drive *d = c->drive;
    uint16_t cylinder = cylinder_of(c);
    if (c->command == RESTORE)
        restore(c);
    else if (d->cylinder < cylinder)
        d->cylinder++;
    else if (d->cylinder > cylinder)
        d->cylinder--;
    else if (c->command == READ)
        read_sector(c);
    else if (c->command == WRITE)
        write_sector(c);
    else if (c->command == FORMAT)
        format(c);
    else
        end(c);
}

void turn(struct controller *c)
{
    if (c->phase != BUSY)
        return;
    if (c->command == TEST)
        end(c);
    else
        work(c);
}

/* ---- register reads and writes */

static uint8_t status(const struct controller *c)
{
    const struct drive *d = c->drive;
    uint8_t byte = d && d->ready ? 0x50 : 0;
    if (c->note || (d && d->is_protected && !d->floppy))
        byte |= 0x20;
    if (c->phase != AT_REST)
        byte |= 0x08;
    if (c->corrected)
        byte |= 0x04;
    if (c->registers[ERROR])
        byte |= 0x01;
    return byte;
}

static void finish_drawing(struct controller *c)
{
    if (c->multiple && c->registers[COUNT] != 0) {
        begin_job(c);
    } else {
        c->phase = AT_REST;
        if (c->dma)
            c->intrq = true;
    }
}

static void finish_taking(struct controller *c)
{
    if (c->command == WRITE && !c->is_long)
        store(c->buffer + c->end, check_of(is_ecc(c), c->buffer, c->end));
    begin_job(c);
}

int read_register(struct controller *c, unsigned number)
{
    if (number > STATUS)
        return -NO_REGISTER;
    if (c->phase == BUSY) {
        if (number != STATUS)
            return -IS_BUSY;
        c->intrq = false;
        return 0x80;
    }
    if (number == STATUS) {
        c->intrq = false;
        return status(c);
    }
    if (number != DATA_REGISTER)
        return c->registers[number];
    if (c->phase != OFFERING)
        return -NO_DATA_REQUEST;
    int byte = c->buffer[c->at];
    if (++c->at == c->end)
        finish_drawing(c);
    return byte;
}

/* a write to a register other than the data register, while BUSY is off */
static int write_other(struct controller *c, unsigned number, uint8_t byte)
{
    if (number == STATUS) {
        int command = command_of(byte);
        if (command < 0)
            return NO_COMMAND;
        begin(c, command, byte);
        return 0;
    }
    if (c->phase != AT_REST)
        return DATA_REQUEST;
    if (number == SDH)
        select_drive(c, byte);
    else if (number != ERROR)
        c->registers[number] = byte;
    return 0;
}

int write_register(struct controller *c, unsigned number, uint8_t byte)
{
    if (number > STATUS)
        return NO_REGISTER;
    if (c->phase == BUSY)
        return IS_BUSY;
    if (number != DATA_REGISTER)
        return write_other(c, number, byte);
    if (c->phase != TAKING)
        return NO_DATA_REQUEST;
    c->buffer[c->at] = byte;
    if (++c->at == c->end)
        finish_taking(c);
    return 0;
}
