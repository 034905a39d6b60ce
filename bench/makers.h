/* The rig's entries by other makers, each with the arguments, numbers and bytes of the entry of rig.h whose name it bears: plain C
   (plain.c), rig.c under the names that renamed.h gives it, and the second implementation (second/). */
#ifndef MAKERS_H
#define MAKERS_H

#include "rig.h"

#define MAKER(name)                                                                                                               \
    uint16_t name##_pec(const uint8_t *bytes, size_t bytes_len);                                                                  \
    struct rig_written name##_write(uint32_t n, uint32_t code, const uint8_t *data, size_t data_len, uint8_t *out, size_t out_len); \
    struct rig_heard name##_chain(uint32_t n, const uint8_t *frame, size_t frame_len, uint8_t *state, size_t state_len,           \
                                  uint8_t *reply, size_t reply_len);                                                              \
    uint8_t name##_read(uint32_t n, uint32_t code, const uint8_t *reply, size_t reply_len, uint8_t *data, size_t data_len,        \
                        uint8_t *marks, size_t marks_len);                                                                        \
    struct rig_readings name##_cells(const uint8_t *groups, size_t groups_len, const uint8_t *marks, size_t marks_len);           \
    uint8_t name##_tally_add(struct rig_tally *tally, const uint8_t *marks, size_t marks_len);                                    \
    struct rig_code name##_conversion_code(uint32_t command, uint32_t mode, uint32_t discharge, uint32_t pull_up,                 \
                                           uint32_t choice);                                                                      \
    struct rig_conversion name##_conversion_of(uint32_t code);                                                                    \
    struct rig_written name##_log_put(uint32_t kind, const uint8_t *body, size_t body_len, uint8_t *out, size_t out_len);         \
    struct rig_record name##_log_at(const uint8_t *log, size_t log_len, size_t place);                                            \
    struct rig_walk name##_log_walk(const uint8_t *log, size_t log_len)

MAKER(plain);
MAKER(printed);
MAKER(second);

#endif
