/* plain.h: what the C tests share: a count of checks, the commands by name, and plain bit-by-bit answers to hold the
 * entries against, written from the paper and not from the crates. */
#ifndef PLAIN_H
#define PLAIN_H

#include "rig.h"

/* ---- checks ---- */

extern unsigned long checks, failures;

/* Counts one check; where it fails, says what, and for which case. */
void expect(int holds, const char *what, unsigned long a, unsigned long b, const char *file, int line);

#define EXPECT(holds, what, a, b) expect((holds), (what), (unsigned long)(a), (unsigned long)(b), __FILE__, __LINE__)

/* ---- the commands, each with its kind and group ---- */

enum kind { WRITES, READS, CLEARS, CONVERTS };

struct command {
    uint32_t code;
    enum kind kind;
    unsigned group; /* of a clear, the first that it sets */
    unsigned last;  /* of a clear, the last */
};

extern const struct command commands[26];

/* The command of a code, one of the 26 or a conversion, or NULL. */
const struct command *command_of(uint32_t code);

/* ---- plain answers ---- */

uint16_t plain_word(const uint8_t *bytes, size_t length);

/* Lays `length` bytes and their check word at `group`. */
void plain_group(const uint8_t *bytes, size_t length, uint8_t *group);

size_t plain_data_length(uint32_t n, const struct command *command);
size_t plain_frame_length(uint32_t n, const struct command *command);

/* The frame of a command on n devices; its length. */
size_t plain_frame(uint32_t n, const struct command *command, const uint8_t *data, uint8_t *frame);

/* The mark of eight bytes. */
uint8_t plain_mark(const uint8_t *group);

/* What a good frame leaves in the state, and in a reply of silence; the chain's word. */
uint16_t plain_obey(uint32_t n, const struct command *command, const uint8_t *frame, uint8_t *state, uint8_t *reply);

/* The cells of one device. */
struct rig_readings plain_readings(const uint8_t *groups, size_t groups_len, const uint8_t *marks, size_t marks_len);

/* A conversion code from its fields, and back. */
struct rig_code plain_code(uint32_t command, uint32_t mode, uint32_t discharge, uint32_t pull_up, uint32_t choice);
struct rig_conversion plain_conversion(uint32_t code);

int same_conversion(struct rig_conversion a, struct rig_conversion b);

/* The numbers, by the order of refusals that the paper has. NULL is an unknown command. */
uint8_t plain_writer_number(uint32_t n, const struct command *command, size_t data, size_t out);
uint8_t plain_chain_number(uint32_t n, const uint8_t *frame, size_t length, const uint8_t *state, size_t state_len, size_t reply);
uint8_t plain_reader_number(uint32_t n, const struct command *command, size_t reply, size_t data, size_t marks);

/* ---- the log, by the words of its request ---- */

/* A record, lawful or not, laid at `out`; its length. */
size_t plain_put(uint32_t kind, const uint8_t *body, size_t body_len, uint8_t *out);
uint8_t plain_put_number(uint32_t kind, const uint8_t *body, size_t body_len, size_t out);

struct rig_record plain_record(const uint8_t *log, size_t log_len, size_t place);
struct rig_walk plain_walk(const uint8_t *log, size_t log_len);

int same_record(struct rig_record a, struct rig_record b);
int same_walk(struct rig_walk a, struct rig_walk b);

#endif
