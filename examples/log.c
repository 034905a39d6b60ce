/* The controller's log: what passed over the wire, in records of rig.h, for a builder to keep or to send in. */
#include "controller.h"

#include <errno.h>
#include <stdlib.h>
#include <string.h>

enum { LONGEST_BODY = 200 };

static void fail(const struct wire_log *log, const char *what, const char *to_do)
{
    fprintf(stderr, "controller: --log '%s': %s (%s): %s\n", log->name, what, strerror(errno), to_do);
    exit(1);
}

static void fail_to_write(const struct wire_log *log)
{
    fail(log, "the log could not be written to its end", "make room, or name a file elsewhere, or ask for fewer --polls");
}

void log_open(struct wire_log *log, const char *name)
{
    log->name = name;
    if (name == NULL)
        return;
    log->file = fopen(name, "wb");
    if (log->file == NULL)
        fail(log, "the log could not be opened", "name a file in a directory that is there and that you may write to");
}

static void put(struct wire_log *log, uint32_t kind, const uint8_t *body, size_t length)
{
    uint8_t record[RIG_LOG_BYTES(LONGEST_BODY)];
    struct rig_written written;

    if (log->name == NULL)
        return;
    written = rig_log_put(kind, body, length, record, sizeof record);
    want_done(log, "rig_log_put", written.number);
    if (fwrite(record, 1, written.length, log->file) != written.length)
        fail_to_write(log);
}

void log_size(struct wire_log *log, uint32_t devices)
{
    uint8_t size = (uint8_t)devices;

    put(log, RIG_LOG_SIZE, &size, 1);
}

void log_frame(struct wire_log *log, const uint8_t *frame, size_t length)
{
    put(log, RIG_LOG_FRAME, frame, length);
}

void log_reply(struct wire_log *log, const uint8_t *reply, size_t length)
{
    put(log, RIG_LOG_REPLY, reply, length);
}

void log_note(struct wire_log *log, const char *text)
{
    put(log, RIG_LOG_NOTE, (const uint8_t *)text, strlen(text));
}

/* What C still holds back is written here, and a full disk shows at the latest now. */
void log_close(struct wire_log *log)
{
    if (log->name != NULL && fclose(log->file) != 0)
        fail_to_write(log);
}
