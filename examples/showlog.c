/* showlog FILE: prints a wire log as rig.h has it, a line a record: place, kind, size, and what the record says. Of a frame that is its
   command, of a reply the mark of each device, by the chain size and the frame before it. A broken log is shown up to the break. */
#include "names.h"

#include <errno.h>
#include <stdio.h>
#include <stdlib.h>
#include <string.h>

enum { WHOLE = 0, BROKEN = 1, BAD_CALL = 2, FIRST_ROOM = 65536 };

struct bytes {
    uint8_t *at;
    size_t length;
};

/* What the records so far say of those to come. */
struct before {
    uint32_t devices; /* 0 before the first chain size */
    enum { NO_FRAME, NO_COMMAND, COMMAND } frame;
    uint32_t code; /* of the frame's command */
};

static int usage(FILE *to, int status)
{
    fputs("usage: showlog FILE\n"
          "\n"
          "Prints a wire log, a line a record: its place, its kind, the size of its body in bytes, and of\n"
          "  size    the devices of the chain\n"
          "  frame   the command\n"
          "  reply   what became of each device's group: read, wrong (its check word) or silent\n"
          "  note    the text, with other than printing ASCII as \\xHH\n"
          "A record of another kind has its kind's number. The controller writes a log with --log FILE.\n"
          "\n"
          "Status: 0 the log is whole; 1 it is broken, and was shown up to the break; 2 bad arguments, or the file could not be read or\n"
          "the listing not be written.\n",
          to);
    return status;
}

/* The first word that is taken for an option, or NULL. */
static const char *option_in(int count, char **words)
{
    for (int i = 1; i < count; i++)
        if (words[i][0] == '-')
            return words[i];
    return NULL;
}

static int bad_call(const char *option)
{
    if (option != NULL)
        fprintf(stderr, "showlog: no option '%s'; for a file of that name write './%s'\n\n", option, option);
    else
        fputs("showlog: name one log\n\n", stderr);
    return usage(stderr, BAD_CALL);
}

/* ---- frames ---- */

static void show_conversion(const struct rig_conversion *c)
{
    printf("%s, mode %u", conversion_name(c->command), (unsigned)c->mode);
    if (c->discharge)
        fputs(", discharge permitted", stdout);
    if (c->pull_up)
        fputs(", pull-up", stdout);
    if (c->choice)
        printf(", choice %u", (unsigned)c->choice);
}

static void show_command(uint32_t code)
{
    struct rig_conversion conversion = rig_conversion_of(code);
    const char *name = command_name(code);

    if (name != NULL)
        fputs(name, stdout);
    else if (conversion.number == RIG_DONE)
        show_conversion(&conversion);
    else
        printf("unknown command 0x%03X", (unsigned)code);
}

/* The length of the command's frame; 0 where it is not known. */
static size_t wanted_length(uint32_t code, uint32_t devices)
{
    if (code == RIG_CLRCELL || code == RIG_CLRAUX || rig_conversion_of(code).number == RIG_DONE)
        return RIG_COMMAND_BYTES;
    return command_name(code) == NULL || devices == 0 ? 0 : RIG_FRAME_BYTES(devices);
}

static void show_frame(struct before *before, const uint8_t *frame, size_t length)
{
    size_t wanted;

    if (length < RIG_COMMAND_BYTES) {
        before->frame = NO_COMMAND;
        fputs("no command: under 4 bytes", stdout);
        return;
    }
    before->frame = COMMAND;
    before->code = (uint32_t)frame[0] << 8 | frame[1];
    show_command(before->code);
    if (((uint32_t)frame[2] << 8 | frame[3]) != rig_pec(frame, 2))
        fputs("; its check word is wrong", stdout);
    wanted = wanted_length(before->code, before->devices);
    if (wanted != 0 && wanted != length)
        printf("; should have %u bytes", (unsigned)wanted);
}

/* ---- replies ---- */

/* As "1-13 read, 14 wrong, 15-16 read". */
static void show_marks(const uint8_t *marks, uint32_t devices)
{
    static const char *const words[] = {"read", "wrong", "silent"};

    for (uint32_t first = 0, next; first < devices; first = next) {
        for (next = first + 1; next < devices && marks[next] == marks[first];)
            next++;
        printf(first == 0 ? "%u" : ", %u", (unsigned)first + 1);
        if (next > first + 1)
            printf("-%u", (unsigned)next);
        printf(" %s", words[marks[first]]);
    }
}

static int is_silence(const uint8_t *reply, size_t length)
{
    for (size_t i = 0; i < length; i++)
        if (reply[i] != 0xFF)
            return 0;
    return 1;
}

static void show_answer(uint32_t devices, uint32_t code, const uint8_t *reply, size_t length)
{
    uint8_t data[RIG_DATA_BYTES(RIG_DEVICES)], marks[RIG_DEVICES];
    uint8_t number = rig_read(devices, code, reply, length, data, sizeof data, marks, sizeof marks);

    if (number == RIG_DONE)
        show_marks(marks, devices);
    else if (number == RIG_WRONG_LENGTH)
        printf("not the %u bytes of a read of %u", (unsigned)RIG_FRAME_BYTES(devices), (unsigned)devices);
    else
        printf("%s: %s", number == RIG_NO_READ ? "no read" : "to an unknown command", is_silence(reply, length) ? "silence" : "not silent");
}

static void show_reply(const struct before *before, const uint8_t *reply, size_t length)
{
    if (before->frame == NO_FRAME)
        fputs("to no frame", stdout);
    else if (before->frame == NO_COMMAND)
        fputs("to a frame with no command", stdout);
    else if (before->devices == 0)
        fputs("of a chain of unknown size", stdout);
    else
        show_answer(before->devices, before->code, reply, length);
}

/* ---- records ---- */

static void show_note(const uint8_t *text, size_t length)
{
    putchar('"');
    for (size_t i = 0; i < length; i++)
        if (text[i] == '"' || text[i] == '\\')
            printf("\\%c", text[i]);
        else if (text[i] >= 0x20 && text[i] <= 0x7E)
            putchar(text[i]);
        else
            printf("\\x%02X", text[i]);
    putchar('"');
}

static void show_record(struct before *before, const uint8_t *log, size_t place, const struct rig_record *r)
{
    static const char *const kinds[] = {"size", "frame", "reply", "note"};
    const uint8_t *body = log + r->body;
    size_t size = r->next - place - RIG_LOG_BYTES(0); /* body_len is 0 of an unknown kind */

    if (r->kind >= RIG_LOG_SIZE && r->kind <= RIG_LOG_NOTE)
        printf("%10zu  %-5s %5zu  ", place, kinds[r->kind - RIG_LOG_SIZE], size);
    else
        printf("%10zu  %-5u %5zu  unknown kind", place, (unsigned)r->kind, size);
    if (r->kind == RIG_LOG_SIZE) {
        before->devices = body[0];
        printf("chain of %u", (unsigned)before->devices);
    } else if (r->kind == RIG_LOG_FRAME) {
        show_frame(before, body, size);
    } else if (r->kind == RIG_LOG_REPLY) {
        show_reply(before, body, size);
    } else if (r->kind == RIG_LOG_NOTE) {
        show_note(body, size);
    }
    putchar('\n');
}

/* The last lines: where the listing stopped and why, and what was counted up to there. */
static void show_stop(const struct rig_walk *walk)
{
    if (walk->number == RIG_DONE)
        printf("%10zu  end\n", walk->at);
    else
        printf("%10zu  BREAK        refusal %u: %s\n", walk->at, walk->number,
               walk->number == RIG_LOG_BROKEN ? "the record is cut short, or its length is below 2" : "the body is outside its kind's limits");
    printf("\nsizes %zu, frames %zu, replies %zu, notes %zu, unknown kinds %zu\n", walk->sizes, walk->frames, walk->replies, walk->notes,
           walk->unknown);
}

static int show_log(const uint8_t *log, size_t length)
{
    struct before before = {0, NO_FRAME, 0};
    struct rig_walk walk = rig_log_walk(log, length);
    struct rig_record r;

    puts("     place  kind   size");
    for (size_t place = 0; place < walk.at; place = r.next) {
        r = rig_log_at(log, length, place);
        show_record(&before, log, place, &r);
    }
    show_stop(&walk);
    return walk.number == RIG_DONE ? WHOLE : BROKEN;
}

/* ---- the file ---- */

static int grow(struct bytes *bytes, size_t *room)
{
    size_t wanted = *room == 0 ? FIRST_ROOM : 2 * *room;
    uint8_t *more = wanted > *room ? realloc(bytes->at, wanted) : NULL;

    if (more == NULL) {
        errno = ENOMEM;
        return 0;
    }
    bytes->at = more;
    *room = wanted;
    return 1;
}

static int fill(FILE *file, struct bytes *bytes)
{
    size_t room = 0;

    while (!feof(file)) {
        if (bytes->length == room && !grow(bytes, &room))
            return 0;
        bytes->length += fread(bytes->at + bytes->length, 1, room - bytes->length, file);
        if (ferror(file))
            return 0;
    }
    return 1;
}

/* The whole file, in memory that is the caller's. */
static int read_file(const char *name, struct bytes *bytes)
{
    FILE *file = fopen(name, "rb");
    int good = file != NULL && fill(file, bytes);

    if (!good)
        fprintf(stderr, "showlog: '%s' could not be read (%s): name a log, as controller --log FILE writes it\n", name, strerror(errno));
    if (file != NULL)
        fclose(file);
    return good;
}

/* The whole listing is out; says so where it is not. */
static int flushed(void)
{
    if (fflush(stdout) == 0 && !ferror(stdout))
        return 1;
    fprintf(stderr, "showlog: the listing could not be written (%s): make room where it goes, or send it elsewhere\n", strerror(errno));
    return 0;
}

int main(int count, char **words)
{
    const char *option = option_in(count, words);
    struct bytes bytes = {NULL, 0};
    int status = BAD_CALL;

    if (option != NULL && strcmp(option, "--help") == 0)
        return usage(stdout, 0);
    if (option != NULL || count != 2)
        return bad_call(option);
    if (read_file(words[1], &bytes))
        status = show_log(bytes.at, bytes.length);
    if (!flushed())
        status = BAD_CALL;
    free(bytes.at);
    return status;
}
