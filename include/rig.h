/* rig.h: the chain rig in C. A model of 1 to 16 LTC6813-1 cell monitors on one pair of wires, and the host side of a
 * controller that polls them: check word, conversion codes, frame writer, reply reader, cell readings, link tally, wake rule
 * and wire log.
 *
 * Every entry is proved, for all inputs, to give the number, the values and the lent bytes that its page below states. It
 * never allocates, keeps nothing between calls, and needs under 2 KB of stack; two threads may call it at once, each on
 * its own buffers. Link with librig.a (pkg-config rig), which calls nothing but memset and memmove; or, for a processor
 * other than x86-64, compile rig.c beside this header: the proved code as C99, whose first comment says what is claimed of
 * it.
 *
 * WORDS OF THE TRADE
 *   n        the devices of the chain, 1 to 16; device 1 is next to the controller
 *   frame    what goes out while chip select is low: a command group, then for a write n data groups, for a read 8n clock
 *            bytes 0xFF
 *   group    six bytes and their check word, two bytes; a command group is two bytes and their check word
 *   reply    what comes in meanwhile, byte for byte as long as the frame
 *   number   what a call came to: 0 is done, any other is a refusal (RIG_DONE and on)
 *   mark     what became of one device's group in a reply: read, wrong or silent (RIG_MARK_READ and on)
 *   state    the registers and pins of all devices, 109 bytes a device: 18 groups of six bytes, group g of device k at
 *            109 * (k - 1) + 6 * g, and after them the device's pin (RIG_GROUP_PLACE, RIG_PIN_PLACE)
 *   pin      the level of a device's DTEN pin, one byte: 0 low, 1 high. It shows in a read of CFGA (RIG_DTEN)
 *   log      what passed, as a row of records: kind and body, by their length, one after the other (rig_log_put)
 *   lent     memory of the caller's that an entry reads or fills; host data is always in device order, device k at 6 * (k - 1)
 *
 * WHAT C MUST KEEP, for every entry. Nothing checks it, and nothing is promised where it is broken.
 *   - Each length is the true length of its buffer, or less: nothing outside it is read or written.
 *   - A buffer that an entry fills stands apart from every other buffer of the call. Two that are only read may overlap.
 *   - A pointer may be NULL where its length is 0, and only there. The tally's pointer is never NULL.
 *   - A struct rig_tally stands where the compiler would put one (aligned to 4 bytes).
 *   - No other thread changes a lent buffer during the call.
 *
 * A refusal changes nothing lent, but for one case that rig_chain states. Where several refusals apply, the first of the
 * entry's list is given. Numbers wider than they need be are wide on purpose: n 65537 is refused, and not cut down to 1.
 *
 * Compiles as C99 and later and as C++98 and later, with no warning at -Wall -Wextra -Wpedantic.
 */
#ifndef RIG_H
#define RIG_H

#include <stddef.h>
#include <stdint.h>

#ifdef __cplusplus
extern "C" {
#endif

/* ---- Numbers that a call can come back with ---------------------------------------------------------------------- */

#define RIG_DONE 0            /* done */
#define RIG_BAD_SIZE 1        /* n is not 1 to 16; of a tally, the marks are not 1 to 16 */
#define RIG_UNKNOWN_COMMAND 2 /* the command is not one of the 26, nor a conversion code */
#define RIG_WRONG_LENGTH 3    /* lent data, state or reply of the wrong length; a mark above 2; or a pin above 1 */
#define RIG_COMMAND_PEC 4     /* the frame's command group has a wrong check word */
#define RIG_OUTPUT_SHORT 5    /* a lent output is too short */
#define RIG_FRAME_LENGTH 6    /* the frame has under 4 bytes, or not the length of its command */
#define RIG_NO_READ 7         /* the command is no read */
#define RIG_TALLY_FULL 8      /* a count of the tally would pass 4,294,967,295 */
#define RIG_OUT_OF_RANGE 9    /* a conversion command or one of its fields is out of its range */
#define RIG_LOG_BROKEN 10     /* a place past the log's end, a record cut short, or a length below 2 */
#define RIG_LOG_LIMITS 11     /* a record's body is outside its kind's limits; of rig_log_put, also an unknown kind */

/* ---- Marks: what became of one device's group in a reply ---------------------------------------------------------- */

#define RIG_MARK_READ 0   /* its check word is right. Under noise within 15 neighbouring bits of the group, and on one way
                           * of the frame, the six bytes are then the device's */
#define RIG_MARK_WRONG 1  /* its check word is wrong */
#define RIG_MARK_SILENT 2 /* eight bytes 0xFF, as on a line that no device drives */

/* ---- Kinds of a log's records --------------------------------------------------------------------------------------- */

#define RIG_LOG_SIZE 1  /* the chain size: one byte, 1 to 16 */
#define RIG_LOG_FRAME 2 /* a frame out: 0 to 132 bytes */
#define RIG_LOG_REPLY 3 /* a reply: 0 to 132 bytes */
#define RIG_LOG_NOTE 4  /* a free note: 0 to 200 bytes */

/* ---- Sizes ------------------------------------------------------------------------------------------------------- */

#define RIG_DEVICES 16     /* the longest chain */
#define RIG_GROUPS 18      /* register groups of a device */
#define RIG_CELLS 18       /* cells of a device */
#define RIG_GROUP_BYTES 6  /* bytes of a group, without its check word */
#define RIG_COMMAND_BYTES 4 /* the frame of a clear or a conversion: a command group */
#define RIG_DATA_BYTES(n) ((size_t)6 * (n))      /* host data of a write or read, for n devices */
#define RIG_FRAME_BYTES(n) ((size_t)4 + (size_t)8 * (n)) /* the frame of a write or read, and its reply */
#define RIG_STATE_BYTES(n) ((size_t)109 * (n))   /* the state of n devices */
#define RIG_LOG_BYTES(body) ((size_t)4 + (body)) /* the record of a body of so many bytes */

/* ---- Register groups --------------------------------------------------------------------------------------------- */

#define RIG_GROUP_CFGA 0
#define RIG_GROUP_CFGB 1
#define RIG_GROUP_CVA 2
#define RIG_GROUP_CVB 3
#define RIG_GROUP_CVC 4
#define RIG_GROUP_CVD 5
#define RIG_GROUP_CVE 6
#define RIG_GROUP_CVF 7
#define RIG_GROUP_AUXA 8
#define RIG_GROUP_AUXB 9
#define RIG_GROUP_AUXC 10
#define RIG_GROUP_AUXD 11
#define RIG_GROUP_STATA 12
#define RIG_GROUP_STATB 13
#define RIG_GROUP_COMM 14
#define RIG_GROUP_SCTRL 15
#define RIG_GROUP_PWM 16
#define RIG_GROUP_PSB 17

#define RIG_DTEN 0x02 /* in the first byte of CFGA: the bit that shows the device's pin, and that no write changes */

/* ---- Places in the state, of device k, 1 to 16 ------------------------------------------------------------------------ */

#define RIG_GROUP_PLACE(k, g) (RIG_STATE_BYTES((size_t)(k) - 1) + (size_t)6 * (g)) /* the six bytes of its group g */
#define RIG_PIN_PLACE(k) RIG_GROUP_PLACE(k, RIG_GROUPS)                            /* its pin */

/* ---- The 26 commands: WR writes a group, RD reads it, CLR sets groups to 0xFF. CVD and CVE, AUXB and AUXC are out of
 * order in the data sheet, and so they are here. -------------------------------------------------------------------- */

#define RIG_WRCFGA 0x001
#define RIG_RDCFGA 0x002
#define RIG_WRCFGB 0x024
#define RIG_RDCFGB 0x026
#define RIG_RDCVA 0x004
#define RIG_RDCVB 0x006
#define RIG_RDCVC 0x008
#define RIG_RDCVD 0x00A
#define RIG_RDCVE 0x009
#define RIG_RDCVF 0x00B
#define RIG_RDAUXA 0x00C
#define RIG_RDAUXB 0x00E
#define RIG_RDAUXC 0x00D
#define RIG_RDAUXD 0x00F
#define RIG_RDSTATA 0x010
#define RIG_RDSTATB 0x012
#define RIG_WRCOMM 0x721
#define RIG_RDCOMM 0x722
#define RIG_WRSCTRL 0x014
#define RIG_RDSCTRL 0x016
#define RIG_WRPWM 0x020
#define RIG_RDPWM 0x022
#define RIG_WRPSB 0x01C
#define RIG_RDPSB 0x01E
#define RIG_CLRCELL 0x711 /* groups CVA to CVF */
#define RIG_CLRAUX 0x712  /* groups AUXA to AUXD */

/* ---- The 13 conversion commands, which start a measurement: numbers for rig_conversion_code, which makes a code of a command
 * and its fields. They are no codes, and rig_write would take them for other commands. ---------------------------------- */

#define RIG_CONVERT_ADCV 0     /* cells */
#define RIG_CONVERT_ADOW 1     /* open wire of the cells */
#define RIG_CONVERT_CVST 2     /* self test of the cells */
#define RIG_CONVERT_ADOL 3     /* overlap of cells 7 and 13 */
#define RIG_CONVERT_ADAX 4     /* GPIO */
#define RIG_CONVERT_ADAXD 5    /* GPIO, with digital redundancy */
#define RIG_CONVERT_AXOW 6     /* open wire of the GPIO */
#define RIG_CONVERT_AXST 7     /* self test of the GPIO */
#define RIG_CONVERT_ADSTAT 8   /* status group */
#define RIG_CONVERT_ADSTATD 9  /* status group, with digital redundancy */
#define RIG_CONVERT_STATST 10  /* self test of the status group */
#define RIG_CONVERT_ADCVAX 11  /* cells, GPIO 1 and GPIO 2 */
#define RIG_CONVERT_ADCVSC 12  /* cells and the sum of cells */

/* ---- Records ----------------------------------------------------------------------------------------------------- */

struct rig_written {
    uint8_t number;
    size_t length; /* bytes of the frame or of the record; 0 on refusal */
};

struct rig_heard {
    uint8_t number;
    uint16_t word; /* bit k - 1: device k stored its group, was cleared or started a conversion; 0 on a read or refusal */
};

struct rig_wait {
    uint8_t number;
    uint32_t wait; /* microseconds; 0 on refusal */
};

struct rig_readings {
    uint8_t number;
    uint16_t counts[18]; /* cell c at c - 1, in steps of 100 microvolts; 0 where it is not valid */
    uint32_t valid;      /* bit c - 1: cell c is valid */
    uint32_t unmeasured; /* bit c - 1: cell c was read, and held no measurement */
};

struct rig_tally {
    uint32_t replies;
    uint32_t read;
    uint32_t wrong;
    uint32_t silent;
};

struct rig_code {
    uint8_t number;
    uint16_t code; /* 0 on refusal */
};

struct rig_conversion {
    uint8_t number;
    uint32_t command; /* RIG_CONVERT_ADCV and on; this and every field 0 on refusal */
    uint32_t mode;
    uint32_t discharge;
    uint32_t pull_up;
    uint32_t choice;
};

struct rig_record {
    uint8_t number;
    uint8_t end;     /* 1 at the log's end, and every other field 0; otherwise 0 */
    uint32_t kind;   /* RIG_LOG_SIZE to RIG_LOG_NOTE, or a kind that is not known; this and the rest 0 on refusal */
    size_t body;     /* where the body lies, counted from the log's start; this and body_len 0 of a kind that is not known */
    size_t body_len;
    size_t next;     /* the place of what follows */
};

struct rig_walk {
    uint8_t number;
    size_t at;      /* where the walk stopped: the log's end, or the place of the record at fault */
    size_t sizes;   /* how many records of each kind stand before it */
    size_t frames;
    size_t replies;
    size_t notes;
    size_t unknown;
};

/* Examples follow one another: a later one uses what an earlier one has. */

/* ---- rig_pec: the check word of bytes ------------------------------------------------------------------------------
 * The PEC15 of `bytes` as it is sent, high byte first: the 15-bit remainder times 2, so its lowest bit is 0.
 *   bytes, bytes_len   any bytes; none at all have the word 0x0020
 * Refuses nothing, and changes nothing.
 *
 *     uint8_t command[2] = {0x00, 0x01};
 *     uint16_t word = rig_pec(command, 2);  // 0x3D6E
 */
uint16_t rig_pec(const uint8_t *bytes, size_t bytes_len);

/* ---- rig_write: the frame of a command -----------------------------------------------------------------------------
 * Lays the frame that sends `code` to a chain of n over the start of `out`. Device n's group goes first on the wire.
 *   n                the devices of the chain
 *   code             one of the 26 commands, or a conversion code (rig_conversion_code)
 *   data, data_len   of a write, six bytes a device in device order: RIG_DATA_BYTES(n); of all else, none: NULL, 0
 *   out, out_len     at least RIG_FRAME_BYTES(n), or RIG_COMMAND_BYTES for a clear or a conversion
 * Number, the first that applies:
 *   RIG_BAD_SIZE          n is not 1 to 16
 *   RIG_UNKNOWN_COMMAND   code is not one of the 26, nor a conversion code
 *   RIG_WRONG_LENGTH      a write whose data are not 6n bytes, or another command with any data
 *   RIG_OUTPUT_SHORT      out is shorter than the frame
 *   RIG_DONE              length bytes of out are the frame (a read's last 8n are 0xFF clock bytes); the rest is untouched
 * On refusal length is 0 and out is untouched. data is only read.
 *
 *     uint8_t frame[RIG_FRAME_BYTES(16)];
 *     struct rig_written out = rig_write(16, RIG_RDCVA, NULL, 0, frame, sizeof frame);
 */
struct rig_written rig_write(uint32_t n, uint32_t code, const uint8_t *data, size_t data_len, uint8_t *out, size_t out_len);

/* ---- rig_chain: what n devices hear of a frame, and what they answer -------------------------------------------------
 * Stands in for the chain: serves one frame on the registers in `state` and lays the answer over the start of `reply`.
 * In a write each device checks its own group: right, it stores the six bytes; wrong, it keeps what it had. Clock bytes
 * are not looked at.
 * In CFGA the bit RIG_DTEN of the first byte is read-only, as on the part: a read shows the device's pin there, with the check
 * word of the six bytes as shown, and a write stores the other 47 bits. What is stored in that bit stays, and no read shows it.
 * All other groups are read as they are stored. The pins are the caller's, to set between calls: no frame changes one.
 *   n                  the devices of the chain
 *   frame, frame_len   the frame as it came over the wire
 *   state, state_len   registers and pins: RIG_STATE_BYTES(n), no more and no less, and every pin 0 or 1
 *   reply, reply_len   at least frame_len
 * Number, the first that applies:
 *   RIG_BAD_SIZE          n is not 1 to 16                                                     state, reply untouched
 *   RIG_WRONG_LENGTH      state is not 109n bytes, or a pin of any device is above 1           state, reply untouched
 *   RIG_OUTPUT_SHORT      reply is shorter than the frame                                      state, reply untouched
 *   RIG_FRAME_LENGTH      the frame has under 4 bytes                                          state untouched, silence
 *   RIG_COMMAND_PEC       the command group's check word is wrong, in any of its 16 bits       state untouched, silence
 *   RIG_UNKNOWN_COMMAND   the command is not one of the 26, nor a conversion code              state untouched, silence
 *   RIG_FRAME_LENGTH      the frame has not the length of its command on n devices             state untouched, silence
 *   RIG_DONE              a write stores, a clear sets its groups to 0xFF, a conversion changes nothing, for nothing is measured
 *                         here: the answer to each is silence;
 *                         a read leaves state untouched: 4 bytes 0xFF, then the group of device 1 and its check word, and on
 * Silence: frame_len bytes 0xFF, what a wire shows that nobody drives. Bytes of reply past frame_len are always untouched.
 * The word: on a write bit k - 1 for each device k that stored, on a clear or a conversion the low n bits, otherwise 0.
 *
 *     uint8_t state[RIG_STATE_BYTES(16)] = {0}, reply[RIG_FRAME_BYTES(16)];
 *     state[RIG_PIN_PLACE(16)] = 1;  // DTEN of device 16 is high
 *     struct rig_heard heard = rig_chain(16, frame, out.length, state, sizeof state, reply, sizeof reply);
 */
struct rig_heard rig_chain(uint32_t n, const uint8_t *frame, size_t frame_len, uint8_t *state, size_t state_len, uint8_t *reply, size_t reply_len);

/* ---- rig_read: what a reply holds ------------------------------------------------------------------------------------
 * Gives six bytes and a mark for each device of the reply to a read. Each device stands alone: one wrong group says nothing
 * of another. The reply's first four bytes, where the command went out, are ignored.
 *   n                  the devices of the chain
 *   code               the read command that the reply answers
 *   reply, reply_len   RIG_FRAME_BYTES(n), no more and no less
 *   data, data_len     at least RIG_DATA_BYTES(n)
 *   marks, marks_len   at least n
 * Number, the first that applies:
 *   RIG_BAD_SIZE          n is not 1 to 16
 *   RIG_UNKNOWN_COMMAND   code is not one of the 26, nor a conversion code
 *   RIG_NO_READ           code is a write, a clear or a conversion
 *   RIG_WRONG_LENGTH      reply is not 4 + 8n bytes
 *   RIG_OUTPUT_SHORT      data has under 6n bytes, or marks under n
 *   RIG_DONE              data has device k's six bytes at 6(k - 1), and marks its mark at k - 1; where the mark is not
 *                         RIG_MARK_READ the six bytes are 0x00. Past 6n bytes and n marks nothing is touched
 * On refusal data and marks are untouched. reply is only read.
 *
 *     uint8_t data[RIG_DATA_BYTES(16)], marks[16];
 *     uint8_t number = rig_read(16, RIG_RDCVA, reply, RIG_FRAME_BYTES(16), data, sizeof data, marks, sizeof marks);
 */
uint8_t rig_read(uint32_t n, uint32_t code, const uint8_t *reply, size_t reply_len, uint8_t *data, size_t data_len, uint8_t *marks, size_t marks_len);

/* ---- rig_cells: the cells of one device -------------------------------------------------------------------------------
 * Eighteen counts of 100 microvolts from the six groups CVA to CVF of one device, three cells a group, low byte first.
 *   groups, groups_len   36 bytes: CVA, CVB, CVC, CVD, CVE, CVF
 *   marks, marks_len     6 marks, one for each of them
 * Number:
 *   RIG_WRONG_LENGTH   groups are not 36 bytes, marks not 6, or a mark is above 2: all counts 0, no bit of valid or unmeasured
 *   RIG_DONE           counts[c - 1], and bit c - 1 of valid and of unmeasured, for cell c, which is one of three:
 *                      valid: its group's mark is RIG_MARK_READ and it holds its count, 0 to 65,534;
 *                      unmeasured: the mark is the same and it holds 65,535; count 0;
 *                      neither: its group was not read; count 0
 * groups and marks are only read.
 * A clear, and on a part power-up, leaves 65,535 until a measurement is stored. rig_chain measures nothing: with it that is
 * until the caller writes the state.
 * 65,280 to 65,295 (0xFF0X) are given as valid. A part stores them to indicate a fault, which the controller has to look for.
 *
 *     uint8_t groups[36] = {0xFF, 0xFF}, group_marks[6] = {0};  // of one device: CVA to CVF, each from a rig_read of its own
 *     struct rig_readings cells = rig_cells(groups, 36, group_marks, 6);
 *     if ((cells.valid >> 17) & 1) volts = cells.counts[17] * 0.0001;  // cell 18
 *     if (cells.unmeasured & 1) measure_again();  // cell 1 holds no measurement
 */
struct rig_readings rig_cells(const uint8_t *groups, size_t groups_len, const uint8_t *marks, size_t marks_len);

/* ---- rig_tally_add: count a reply's marks -------------------------------------------------------------------------------
 * Raises tally->replies by 1 and read, wrong and silent by the marks of their sort. From a tally of zeros read + wrong +
 * silent is the number of marks of all replies that were taken.
 *   tally              the controller's record, aligned, never NULL
 *   marks, marks_len   the marks of one reply, 1 to 16 of them
 * Number, the first that applies:
 *   RIG_BAD_SIZE       there are no marks, or more than 16
 *   RIG_WRONG_LENGTH   a mark is above 2
 *   RIG_TALLY_FULL     one of the four counts would pass 4,294,967,295, which it may reach
 *   RIG_DONE           all four counts are raised
 * On refusal the tally is untouched. marks are only read.
 *
 *     struct rig_tally tally = {0, 0, 0, 0};
 *     uint8_t added = rig_tally_add(&tally, marks, 16);
 */
uint8_t rig_tally_add(struct rig_tally *tally, const uint8_t *marks, size_t marks_len);

/* ---- rig_wake: how long to wait before a frame ----------------------------------------------------------------------------
 * The port may be idle 4,300 microseconds after the last frame (the shortest tIDLE): then the chain wants 10 microseconds a
 * device (tREADY) after it is woken. The wait is a time and wakes nobody: the controller sends the wake pulses. Sleep is not
 * built: from 1.8 s without a valid command a device may sleep, and then wants up to 400 microseconds, which is not covered.
 *   n      the devices of the chain
 *   last   when the last frame ended, on a microsecond clock of 32 bits that runs past its end to 0; before the first frame
 *          now - 4300
 *   now    what that clock shows now; the gap is now - last modulo 2^32, so a gap of 2^32 or more is not seen
 * Number:
 *   RIG_BAD_SIZE   n is not 1 to 16: wait is 0
 *   RIG_DONE       wait is 10n where the gap is 4,300 or more, and 0 below
 *
 *     struct rig_wait wake = rig_wake(16, 4294967000u, 4004u);  // the clock ran over: the gap is 4,300, wait is 160
 *     if (wake.wait > 0) { send_wake_pulse(); sleep_us(wake.wait); }
 */
struct rig_wait rig_wake(uint32_t n, uint32_t last, uint32_t now);

/* ---- rig_conversion_code: the code that starts a conversion ---------------------------------------------------------------
 * Makes the code of a conversion command and its fields, for rig_write. A field that the command does not have is 0.
 *   command     RIG_CONVERT_ADCV to RIG_CONVERT_ADCVSC
 *   mode        of every command, 0 to 3: 422 Hz, 27 kHz (fast), 7 kHz (normal), 26 Hz (filtered); with ADCOPT set in CFGA
 *               1 kHz, 14 kHz, 3 kHz, 2 kHz
 *   discharge   of ADCV, ADOW, ADOL, ADCVAX and ADCVSC: 0 not permitted, 1 permitted meanwhile
 *   pull_up     of ADOW and AXOW: 0 a pull-down current, 1 a pull-up current
 *   choice      of ADCV and ADOW (CH), 0 to 6: all cells, or cells c, c + 6 and c + 12;
 *               of ADAX, ADAXD and AXOW (CHG), 0 to 6: all, GPIO 1 and 6, 2 and 7, 3 and 8, 4 and 9, 5, second reference;
 *               of ADSTAT and ADSTATD (CHST), 0 to 4: all, sum of cells, die temperature, analog supply, digital supply;
 *               of CVST, AXST and STATST (ST), 1 or 2: the self test
 * Number:
 *   RIG_OUT_OF_RANGE   command is above 12, or a field is out of its range (0, where the command does not have it): code is 0
 *   RIG_DONE           code is that of the command and fields, one of 368; no others have it
 *
 *     struct rig_code start = rig_conversion_code(RIG_CONVERT_ADCV, 2, 0, 0, 0);  // all cells at 7 kHz, no discharge: 0x360
 *     struct rig_written started = rig_write(16, start.code, NULL, 0, frame, sizeof frame);
 */
struct rig_code rig_conversion_code(uint32_t command, uint32_t mode, uint32_t discharge, uint32_t pull_up, uint32_t choice);

/* ---- rig_conversion_of: the command and fields of a conversion code -------------------------------------------------------
 * Takes a code apart. It undoes rig_conversion_code, and rig_conversion_code undoes it.
 *   code   any number
 * Number:
 *   RIG_UNKNOWN_COMMAND   code is not one of the 368 conversion codes: command and every field are 0
 *   RIG_DONE              command is RIG_CONVERT_ADCV to RIG_CONVERT_ADCVSC; a field that it does not have is 0
 *
 *     struct rig_conversion taken = rig_conversion_of(0x360);  // RIG_CONVERT_ADCV, mode 2
 */
struct rig_conversion rig_conversion_of(uint32_t code);

/* ---- rig_log_put: the record of what passed --------------------------------------------------------------------------------
 * Lays a record over the start of `out`: two bytes length, counting kind and body, two bytes kind, both low byte first, and the
 * body. A log is its records one after the other, with nothing before, between or after them.
 *   kind             RIG_LOG_SIZE to RIG_LOG_NOTE
 *   body, body_len   within the limits of its kind
 *   out, out_len     at least RIG_LOG_BYTES(body_len)
 * Number, the first that applies:
 *   RIG_LOG_LIMITS     kind is not 1 to 4, or the body is outside its kind's limits
 *   RIG_OUTPUT_SHORT   out is shorter than the record
 *   RIG_DONE           length bytes of out, which is RIG_LOG_BYTES(body_len), are the record; the rest is untouched
 * On refusal length is 0 and out is untouched. body is only read.
 *
 *     uint8_t log[RIG_LOG_BYTES(1) + RIG_LOG_BYTES(132)], devices = 16;
 *     struct rig_written size = rig_log_put(RIG_LOG_SIZE, &devices, 1, log, sizeof log);
 *     struct rig_written sent = rig_log_put(RIG_LOG_FRAME, frame, 132, log + size.length, sizeof log - size.length);
 */
struct rig_written rig_log_put(uint32_t kind, const uint8_t *body, size_t body_len, uint8_t *out, size_t out_len);

/* ---- rig_log_at: the record at a place of a log ------------------------------------------------------------------------------
 * Reads one record. It undoes rig_log_put, in the middle of any log. The next record is at `next`, which is always past
 * `place`, so a loop over a log ends.
 *   log, log_len   any bytes
 *   place          where the record starts: 0, then the `next` of the record before
 * Number, the first that applies:
 *   RIG_LOG_BROKEN   place is past log_len, or a record starts there that ends past log_len, or its length is below 2
 *   RIG_LOG_LIMITS   kind is 1 to 4 and the body is outside its limits
 *   RIG_DONE         at log_len: end is 1, and every other field is 0. Before it: kind, body, body_len and next. Of a kind that is
 *                    not 1 to 4 only kind and next: what its body means is not known here, and body and body_len are 0
 * On refusal every field but the number is 0. log is only read.
 *
 *     struct rig_record seen = rig_log_at(log, sizeof log, size.length);
 *     if (seen.number == RIG_DONE && seen.kind == RIG_LOG_FRAME) show_frame(log + seen.body, seen.body_len);
 */
struct rig_record rig_log_at(const uint8_t *log, size_t log_len, size_t place);

/* ---- rig_log_walk: a whole log ---------------------------------------------------------------------------------------------
 * Reads record after record from place 0 until the end or a refusal, and counts them by kind.
 *   log, log_len   any bytes
 * Number:
 *   RIG_LOG_BROKEN   the record at `at` is cut short, or its length is below 2
 *   RIG_LOG_LIMITS   the record at `at` has a body outside its kind's limits
 *   RIG_DONE         `at` is log_len: the log is whole
 * The counts are of the records before `at`, also on refusal. log is only read.
 *
 *     struct rig_walk whole = rig_log_walk(log, sizeof log);  // one size, one frame
 */
struct rig_walk rig_log_walk(const uint8_t *log, size_t log_len);

#ifdef __cplusplus
}
#endif

/* ---- The records lie as the library has them ----------------------------------------------------------------------- */

#if defined(__cplusplus) && __cplusplus >= 201103L
#define RIG_ASSERT(holds, says) static_assert(holds, says)
#elif !defined(__cplusplus) && defined(__STDC_VERSION__) && __STDC_VERSION__ >= 201112L
#define RIG_ASSERT(holds, says) _Static_assert(holds, says)
#endif

#ifdef RIG_ASSERT
RIG_ASSERT(sizeof(struct rig_written) == 2 * sizeof(size_t), "rig.h: struct rig_written has another size");
RIG_ASSERT(offsetof(struct rig_written, number) == 0, "rig.h: rig_written.number lies elsewhere");
RIG_ASSERT(offsetof(struct rig_written, length) == sizeof(size_t), "rig.h: rig_written.length lies elsewhere");
RIG_ASSERT(sizeof(struct rig_heard) == 4, "rig.h: struct rig_heard has another size");
RIG_ASSERT(offsetof(struct rig_heard, number) == 0, "rig.h: rig_heard.number lies elsewhere");
RIG_ASSERT(offsetof(struct rig_heard, word) == 2, "rig.h: rig_heard.word lies elsewhere");
RIG_ASSERT(sizeof(struct rig_wait) == 8, "rig.h: struct rig_wait has another size");
RIG_ASSERT(offsetof(struct rig_wait, number) == 0, "rig.h: rig_wait.number lies elsewhere");
RIG_ASSERT(offsetof(struct rig_wait, wait) == 4, "rig.h: rig_wait.wait lies elsewhere");
RIG_ASSERT(sizeof(struct rig_readings) == 48, "rig.h: struct rig_readings has another size");
RIG_ASSERT(offsetof(struct rig_readings, number) == 0, "rig.h: rig_readings.number lies elsewhere");
RIG_ASSERT(offsetof(struct rig_readings, counts) == 2, "rig.h: rig_readings.counts lies elsewhere");
RIG_ASSERT(offsetof(struct rig_readings, valid) == 40, "rig.h: rig_readings.valid lies elsewhere");
RIG_ASSERT(offsetof(struct rig_readings, unmeasured) == 44, "rig.h: rig_readings.unmeasured lies elsewhere");
RIG_ASSERT(sizeof(struct rig_tally) == 16, "rig.h: struct rig_tally has another size");
RIG_ASSERT(offsetof(struct rig_tally, replies) == 0, "rig.h: rig_tally.replies lies elsewhere");
RIG_ASSERT(offsetof(struct rig_tally, read) == 4, "rig.h: rig_tally.read lies elsewhere");
RIG_ASSERT(offsetof(struct rig_tally, wrong) == 8, "rig.h: rig_tally.wrong lies elsewhere");
RIG_ASSERT(offsetof(struct rig_tally, silent) == 12, "rig.h: rig_tally.silent lies elsewhere");
RIG_ASSERT(sizeof(struct rig_code) == 4, "rig.h: struct rig_code has another size");
RIG_ASSERT(offsetof(struct rig_code, number) == 0, "rig.h: rig_code.number lies elsewhere");
RIG_ASSERT(offsetof(struct rig_code, code) == 2, "rig.h: rig_code.code lies elsewhere");
RIG_ASSERT(sizeof(struct rig_conversion) == 24, "rig.h: struct rig_conversion has another size");
RIG_ASSERT(offsetof(struct rig_conversion, number) == 0, "rig.h: rig_conversion.number lies elsewhere");
RIG_ASSERT(offsetof(struct rig_conversion, command) == 4, "rig.h: rig_conversion.command lies elsewhere");
RIG_ASSERT(offsetof(struct rig_conversion, mode) == 8, "rig.h: rig_conversion.mode lies elsewhere");
RIG_ASSERT(offsetof(struct rig_conversion, discharge) == 12, "rig.h: rig_conversion.discharge lies elsewhere");
RIG_ASSERT(offsetof(struct rig_conversion, pull_up) == 16, "rig.h: rig_conversion.pull_up lies elsewhere");
RIG_ASSERT(offsetof(struct rig_conversion, choice) == 20, "rig.h: rig_conversion.choice lies elsewhere");
RIG_ASSERT(sizeof(struct rig_record) == 8 + 3 * sizeof(size_t), "rig.h: struct rig_record has another size");
RIG_ASSERT(offsetof(struct rig_record, number) == 0, "rig.h: rig_record.number lies elsewhere");
RIG_ASSERT(offsetof(struct rig_record, end) == 1, "rig.h: rig_record.end lies elsewhere");
RIG_ASSERT(offsetof(struct rig_record, kind) == 4, "rig.h: rig_record.kind lies elsewhere");
RIG_ASSERT(offsetof(struct rig_record, body) == 8, "rig.h: rig_record.body lies elsewhere");
RIG_ASSERT(offsetof(struct rig_record, body_len) == 8 + sizeof(size_t), "rig.h: rig_record.body_len lies elsewhere");
RIG_ASSERT(offsetof(struct rig_record, next) == 8 + 2 * sizeof(size_t), "rig.h: rig_record.next lies elsewhere");
RIG_ASSERT(sizeof(struct rig_walk) == 7 * sizeof(size_t), "rig.h: struct rig_walk has another size");
RIG_ASSERT(offsetof(struct rig_walk, number) == 0, "rig.h: rig_walk.number lies elsewhere");
RIG_ASSERT(offsetof(struct rig_walk, at) == sizeof(size_t), "rig.h: rig_walk.at lies elsewhere");
RIG_ASSERT(offsetof(struct rig_walk, sizes) == 2 * sizeof(size_t), "rig.h: rig_walk.sizes lies elsewhere");
RIG_ASSERT(offsetof(struct rig_walk, frames) == 3 * sizeof(size_t), "rig.h: rig_walk.frames lies elsewhere");
RIG_ASSERT(offsetof(struct rig_walk, replies) == 4 * sizeof(size_t), "rig.h: rig_walk.replies lies elsewhere");
RIG_ASSERT(offsetof(struct rig_walk, notes) == 5 * sizeof(size_t), "rig.h: rig_walk.notes lies elsewhere");
RIG_ASSERT(offsetof(struct rig_walk, unknown) == 6 * sizeof(size_t), "rig.h: rig_walk.unknown lies elsewhere");
#undef RIG_ASSERT
#endif

#endif
