/* The controller's log: what passed over the wire, in records of rig.h, for a builder to keep or to send in. */
#ifndef LOG_H
#define LOG_H

#include "rig.h"

#include <stdio.h>

struct wire_log {
    const char *name; /* NULL where no log is wanted: then none of what follows does anything */
    FILE *file;
};

/* Each ends the controller with a message and status 1 where the file cannot be written. */
void log_open(struct wire_log *log, const char *name);
void log_size(struct wire_log *log, uint32_t devices);
void log_frame(struct wire_log *log, const uint8_t *frame, size_t length);
void log_reply(struct wire_log *log, const uint8_t *reply, size_t length);
void log_note(struct wire_log *log, const char *text);
void log_close(struct wire_log *log);

#endif
