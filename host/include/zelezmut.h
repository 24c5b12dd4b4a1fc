/* The exports of libzelezmut.a, the proved front of an emulated graphics adapter, for hosts in C and C++.
 *
 * The library is code for 64-bit Linux on x86-64. It needs no other library, has no state of its own, keeps no pointer and never
 * allocates. Every call returns, whatever numbers and bytes stand in what it is lent, and reads and writes nothing else: that is proved.
 * In return it takes for granted that the caller keeps these rules:
 *
 * - Sizes. Every pointer leads to what its type says, all of it: an array of so many words, or `len` bytes. `len` may be 0, and the
 *   pointer is not NULL then either.
 * - Alignment. Words stand at multiples of 8 bytes, as C's own rules for uint64_t have it. Bytes may stand anywhere.
 * - No overlap. What a call is lent for writing overlaps nothing else that it is lent. All parts of a struct zelezmut_state are apart;
 *   guest memory must not contain the state.
 * - One thread. During a call nobody else touches what it is lent, no virtual processor of the guest either. Between calls a device may
 *   go from thread to thread, and calls on different devices over different memories may go on at once.
 * - One memory. Guest memory is lent as one range of bytes, guest address 0 first. Regions with holes between are mapped into one
 *   reserved range.
 *
 * - One version. Before any other call, and once is enough, a host asks zelezmut_layout() and goes on only if that is ZELEZMUT_LAYOUT.
 *   Any other number is that of a library with other arrays, or other meanings of their words: build library and header from one tree.
 *
 * A refused call, one whose answer is not 0, has changed nothing. The meaning of registers, records and errors is in docs/01-scope.md, and
 * of what came later in docs/LANDINGS.md; examples/submission.c plays a submission, and saves and loads the device.
 */
#ifndef ZELEZMUT_H
#define ZELEZMUT_H

#if !defined(__x86_64__) || !defined(__linux__) || defined(__ILP32__)
#error "libzelezmut.a is code for 64-bit Linux on x86-64"
#endif

#include <stddef.h>
#include <stdint.h>

#ifdef __cplusplus
extern "C" {
#endif

/* Sizes in words of 64 bits: a device's numbers, 64 rows each of entries, names of resources (twice) and records, and 256 rows of
 * tokens (twice). */
#define ZELEZMUT_MOST 64
#define ZELEZMUT_MOST_TOKENS 256
#define ZELEZMUT_WORDS 36
#define ZELEZMUT_ENTRIES (ZELEZMUT_MOST * 4)
#define ZELEZMUT_RESOURCES (ZELEZMUT_MOST * 12)
#define ZELEZMUT_TOKENS (ZELEZMUT_MOST_TOKENS * 2)
#define ZELEZMUT_RECORDS (ZELEZMUT_MOST * 5)

/* The words of a month's totals. */
#define ZELEZMUT_TOTALS 26

/* The layout number of the library that this header is for: the sizes of a device's arrays, and a version that goes up with every landing
 * that grows the state or changes what its words mean, or those of a month's totals. */
#define ZELEZMUT_LAYOUT_VERSION 3
#define ZELEZMUT_LAYOUT \
    (((uint64_t)ZELEZMUT_LAYOUT_VERSION << 60) | ((uint64_t)ZELEZMUT_WORDS << 48) | ((uint64_t)ZELEZMUT_ENTRIES << 36) | \
     ((uint64_t)ZELEZMUT_RESOURCES << 24) | ((uint64_t)ZELEZMUT_TOKENS << 12) | (uint64_t)ZELEZMUT_RECORDS)

/* A device. Its words are the library's own business: zelezmut_make or zelezmut_load sets them, and the host keeps them. It may be
 * copied; to be kept for another version of the library it is saved. */
struct zelezmut_state {
    uint64_t words[ZELEZMUT_WORDS];
    uint64_t entries[ZELEZMUT_ENTRIES];
    uint64_t first[ZELEZMUT_RESOURCES];
    uint64_t second[ZELEZMUT_RESOURCES];
    uint64_t first_tokens[ZELEZMUT_TOKENS];
    uint64_t second_tokens[ZELEZMUT_TOKENS];
    uint64_t records[ZELEZMUT_RECORDS];
};

/* A call's answer. */
enum {
    ZELEZMUT_DONE = 0,
    ZELEZMUT_OTHER_MEMORY = 1,  /* the memory lent has another length than the device was made for */
    ZELEZMUT_NO_REGISTER = 2,   /* no such register, or not readable, or not writable */
    ZELEZMUT_NOTHING_WAITS = 3, /* no submission waits for the host's answer */
    ZELEZMUT_NO_RECORD = 4,     /* no submission waits, or it has no record of this index */
    ZELEZMUT_IN_WORK = 5,       /* a submission is in work: only a device at rest is saved */
    ZELEZMUT_TOO_SHORT = 6,     /* the buffer is too short for the saved device, or for the listing */
    ZELEZMUT_BAD_FILE = 7,      /* a field is missing or breaks a rule, or a byte follows the last */
    ZELEZMUT_NOT_IN_FORM = 8,   /* form 1 has no field for a token that was used, a second name, or an error detail that is not 0 */
    ZELEZMUT_TOO_MUCH = 9,      /* a total of the month would reach 2^64 */
    ZELEZMUT_BAD_FEED = 10      /* an unlisted error or record kind, more than 64 records, or records beside an error */
};

/* How a run ended. */
enum { ZELEZMUT_IDLE = 0, ZELEZMUT_WAITING = 1, ZELEZMUT_PAUSED = 2 };

/* The library's layout number, to be held against ZELEZMUT_LAYOUT before any other call. */
uint64_t zelezmut_layout(void);

/* Makes a new device of these words, for a memory of so many bytes. Its arrays may hold anything. */
void zelezmut_make(uint64_t words[ZELEZMUT_WORDS], uint64_t memory);

/* The guest writes a register: the answer. */
uint32_t zelezmut_write(uint64_t words[ZELEZMUT_WORDS], uint32_t offset, uint32_t value);

/* The guest reads a register: the value in the low 32 bits, the answer in the high ones. */
uint64_t zelezmut_read(const uint64_t words[ZELEZMUT_WORDS], uint32_t offset);

/* Works until so many units are spent, nothing is left to do, or a submission waits for the host. zelezmut_ran_.. take apart what it says. */
uint64_t zelezmut_run(uint64_t words[ZELEZMUT_WORDS], uint64_t entries[ZELEZMUT_ENTRIES], uint64_t first[ZELEZMUT_RESOURCES],
                      uint64_t second[ZELEZMUT_RESOURCES], uint64_t first_tokens[ZELEZMUT_TOKENS],
                      uint64_t second_tokens[ZELEZMUT_TOKENS], uint64_t records[ZELEZMUT_RECORDS], uint8_t *memory, size_t len,
                      uint16_t allowance);

/* What a record asks of the host. */
enum {
    ZELEZMUT_BACKS = 1,  /* the range is where a new resource lives in guest memory */
    ZELEZMUT_READS = 2,  /* the guest changed the range: the host reads it */
    ZELEZMUT_WRITES = 3, /* the host writes the range */
    ZELEZMUT_CLIPS = 4   /* the host draws within this part of the target alone */
};

/* Record i of the submission that waits: the answer. Sets kind, handle, id, address and length, or for ZELEZMUT_CLIPS kind, left, top,
 * width and height, all 0 if nothing is left of the target; zeros if the call is refused. A resource may have several names: the handle
 * is the one that the packet says. Which names are one resource stands in the stream alone, in its imports and destroys. */
uint32_t zelezmut_record(const uint64_t words[ZELEZMUT_WORDS], const uint64_t records[ZELEZMUT_RECORDS], uint32_t i,
                         uint64_t said[5]);

/* The host answers the submission that waits, 0 for failed, and the device runs on as zelezmut_run does; said in the same way.
 *
 * It is for whatever waits when the call begins. A guest may reset the device while the host works for a submission, and have another
 * one waiting when the host is done: a host that answers later than it was told keeps count of the resets, which the guest writes to
 * register 10C (hex) as bit 1, and drops what it was doing for a submission from before. */
uint64_t zelezmut_answer(uint64_t words[ZELEZMUT_WORDS], uint64_t entries[ZELEZMUT_ENTRIES], uint64_t first[ZELEZMUT_RESOURCES],
                         uint64_t second[ZELEZMUT_RESOURCES], uint64_t first_tokens[ZELEZMUT_TOKENS],
                         uint64_t second_tokens[ZELEZMUT_TOKENS], uint64_t records[ZELEZMUT_RECORDS], uint8_t *memory, size_t len,
                         uint32_t good, uint16_t allowance);

/* The most bytes of a saved device: in form 1 one with so many resources, in form 2, which is longer, with all tokens too.
 * docs/SAVED-DESK.md has both forms, field by field. */
#define ZELEZMUT_LONGEST_FORM_1 (96 + 48 * ZELEZMUT_MOST)
#define ZELEZMUT_LONGEST_SAVED (108 + 48 * ZELEZMUT_MOST + 12 * ZELEZMUT_MOST_TOKENS)

/* Saves a device at rest, in form 1: registers, the memory's length, the doorbell flag and the resources; or in form 2: the error detail, the
 * other names and the tokens, too. A file begins with the number of its form. The length in the low 32 bits, the answer in the high
 * ones: ZELEZMUT_IN_WORK, else ZELEZMUT_NOT_IN_FORM (never in form 2), else ZELEZMUT_TOO_SHORT, each beside length 0 and with the buffer
 * untouched. Bytes of the buffer behind the length are kept. Guest memory is not saved: the host moves it beside the file. */
uint64_t zelezmut_save(const uint64_t words[ZELEZMUT_WORDS], const uint64_t first[ZELEZMUT_RESOURCES],
                       const uint64_t second[ZELEZMUT_RESOURCES], const uint64_t first_tokens[ZELEZMUT_TOKENS],
                       const uint64_t second_tokens[ZELEZMUT_TOKENS], uint8_t *buffer, size_t len);
uint64_t zelezmut_save_form_2(const uint64_t words[ZELEZMUT_WORDS], const uint64_t first[ZELEZMUT_RESOURCES],
                              const uint64_t second[ZELEZMUT_RESOURCES], const uint64_t first_tokens[ZELEZMUT_TOKENS],
                              const uint64_t second_tokens[ZELEZMUT_TOKENS], uint8_t *buffer, size_t len);

/* Loads a saved device of either form, or an old file of form 1, which has no number. Words and arrays may hold anything: what was in work is
 * gone, nothing of it settles, and no guest byte changes. The device is for the memory length that the file says. The answer in the
 * high 32 bits: ZELEZMUT_DONE, or ZELEZMUT_BAD_FILE with the offset of the first field that is missing or breaks a rule, or of the first byte
 * too many, in the low ones; offsets count from the file's first byte, its number included. An answer that the host still owes to a
 * submission from before is to be dropped, as after a reset. */
uint64_t zelezmut_load(uint64_t words[ZELEZMUT_WORDS], uint64_t first[ZELEZMUT_RESOURCES], uint64_t first_tokens[ZELEZMUT_TOKENS],
                       const uint8_t *file, size_t len);

/* Moves a saved device to the other form: one of form 1, an old file among them, to form 2, and one of form 2 to form 1. It is about files alone,
 * and loading either gives the same device. Said as a save does, with answers ZELEZMUT_BAD_FILE (zelezmut_load tells where), else
 * ZELEZMUT_NOT_IN_FORM for a file of form 2 with other names, tokens or a detail that is not 0, else ZELEZMUT_TOO_SHORT. */
uint64_t zelezmut_move(const uint8_t *file, size_t file_len, uint8_t *buffer, size_t len);

/* The most bytes of the listing of a stream of this many bytes. */
#define ZELEZMUT_LONGEST_LISTING(len) (10 * (len) + 90)

/* Lists a raw stream as ASCII text, a line for each packet; docs/DUMP.md has the lines. The stream is any bytes, of any length: a bad header
 * or packet ends the listing with its error, and so does an unknown opcode if `strict` is not 0. The length of the text in the low 56 bits,
 * the answer in the high ones: ZELEZMUT_DONE, or ZELEZMUT_TOO_SHORT beside length 0 and with the buffer untouched. Bytes of the buffer
 * behind the length are kept, and no NUL is written behind the text. A listing may be empty. examples/listing.c prints one. */
uint64_t zelezmut_dump(const uint8_t *stream, size_t stream_len, uint32_t strict, uint8_t *buffer, size_t len);

/* The bytes of a backed texture, 0 for a bad shape. */
uint64_t zelezmut_packed_size(uint32_t format, uint32_t width, uint32_t height, uint32_t mips, uint32_t layers, uint32_t pitch);

/* The first error of an allocation table for a guest memory of so many bytes, 0 for none; and for errors 14 and 15 its entry's index. */
uint32_t zelezmut_table_error(const uint8_t *table, size_t len, uint64_t memory);
uint32_t zelezmut_table_place(const uint8_t *table, size_t len, uint64_t memory);

/* What differs between two command streams. Each stream is lent whole, and its length stands for the command size; the calls only read them, so
 * both may be the same bytes. Packets are paired by their index, from 0.
 *
 * A call with an answer says its value in *said: with ZELEZMUT_FOUND what was asked for, with ZELEZMUT_NONE 0. If a stream breaks a rule, the
 * answer is that error, 16 for its header or 17 for a packet, and the value is the stream's number, 1 or 2: the first if both break one. */
enum {
    ZELEZMUT_FOUND = 0,
    ZELEZMUT_NONE = 1,
    ZELEZMUT_REFUSED_STREAM = 16,
    ZELEZMUT_REFUSED_PACKET = 17
};

/* How the packets at one index compare. Headers of streams and bytes behind a stream's own size never count; all bytes of packets do. */
enum {
    ZELEZMUT_EQUAL = 0,
    ZELEZMUT_SAME_OPCODE = 1,  /* the opcodes are equal, and some other bytes are not */
    ZELEZMUT_OTHER_OPCODE = 2,
    ZELEZMUT_ONLY_FIRST = 3,   /* only the first stream has a packet there */
    ZELEZMUT_ONLY_SECOND = 4,
    ZELEZMUT_NEITHER = 5       /* the index is behind the end of both streams */
};

/* Whether both streams are good: ZELEZMUT_FOUND with value 0, or the refusal that every other question would have. */
uint32_t zelezmut_difference_check(const uint8_t *first, size_t first_len, const uint8_t *second, size_t second_len, uint64_t *said);

/* The first index whose packets are not equal. */
uint32_t zelezmut_difference_parts(const uint8_t *first, size_t first_len, const uint8_t *second, size_t second_len, uint64_t *said);

/* How the packets at an index compare. It may be any number; the answer is never ZELEZMUT_NONE. */
uint32_t zelezmut_difference_class(const uint8_t *first, size_t first_len, const uint8_t *second, size_t second_len, uint64_t index,
                                   uint64_t *said);

/* The least offset in the packets at an index, not below `from`, at which they differ. The 8 bytes of a packet's header count, and every
 * offset behind the end of the shorter packet differs. ZELEZMUT_NONE unless the class is ZELEZMUT_SAME_OPCODE. */
uint32_t zelezmut_difference_next(const uint8_t *first, size_t first_len, const uint8_t *second, size_t second_len, uint64_t index,
                                  uint64_t from, uint64_t *said);

/* The same questions for a walk over all packets, in time linear in the streams' bytes: start, then pair, pair_next and onward until the
 * class is ZELEZMUT_NEITHER. A cursor is the place of a packet in the first stream and of one in the second. The host owns it, and it may
 * hold any numbers. zelezmut_difference_start checks both streams, and sets the cursor to index 0 unless one is refused; the other three do
 * not check them again. */
uint32_t zelezmut_difference_start(const uint8_t *first, size_t first_len, const uint8_t *second, size_t second_len, uint64_t cursor[2],
                                   uint64_t *said);

/* The packets at the cursor: class, place and size in the first stream, place and size in the second. A size is 0 where there is no packet. */
void zelezmut_difference_pair(const uint8_t *first, size_t first_len, const uint8_t *second, size_t second_len, const uint64_t cursor[2],
                              uint64_t said[5]);

/* The next differing offset of the packets at the cursor, as zelezmut_difference_next says it: ZELEZMUT_FOUND or ZELEZMUT_NONE. */
uint32_t zelezmut_difference_pair_next(const uint8_t *first, size_t first_len, const uint8_t *second, size_t second_len,
                                       const uint64_t cursor[2], uint64_t from, uint64_t *said);

/* Moves each place behind its packet; a place without a packet stays. */
void zelezmut_difference_onward(const uint8_t *first, size_t first_len, const uint8_t *second, size_t second_len, uint64_t cursor[2]);
/* The month in numbers: exact totals over finished submissions, in words that the host owns. docs/MONTH.md has their order. Any words are
 * some totals, and they may be copied and kept.
 *
 * The places of the totals; submissions refused with error e (10 to 30) are counted at e - 9. */
enum {
    ZELEZMUT_TOTAL_ACCEPTED = 0,
    ZELEZMUT_TOTAL_UNITS = 22,
    ZELEZMUT_TOTAL_BYTES_READ = 23,
    ZELEZMUT_TOTAL_BYTES_WRITTEN = 24,
    ZELEZMUT_TOTAL_LARGEST_WRITE = 25
};

/* Makes the totals of no submissions. */
void zelezmut_month_make(uint64_t totals[ZELEZMUT_TOTALS]);

/* Counts a finished submission: its error, 0 for an accepted one, the units that it took, and its records, which are the first `count` rows
 * of a table. A row has five words, as zelezmut_record sets them; only kind and length are read. The table may be a device's own, while the
 * submission waits, or one that the host has filled. The answer: ZELEZMUT_BAD_FEED, else ZELEZMUT_TOO_MUCH, each with nothing counted. A
 * submission that the host failed has error 27 and, as every one with an error, no records. */
uint32_t zelezmut_month_feed(uint64_t totals[ZELEZMUT_TOTALS], uint32_t error, uint32_t units, uint32_t count,
                             const uint64_t records[ZELEZMUT_RECORDS]);

/* Adds the totals of another part of the month; the largest write is the larger of both. The answer: ZELEZMUT_TOO_MUCH with nothing added. */
uint32_t zelezmut_month_merge(uint64_t totals[ZELEZMUT_TOTALS], const uint64_t other[ZELEZMUT_TOTALS]);

/* The total at a place, 0 past the last. */
uint64_t zelezmut_month_total(const uint64_t totals[ZELEZMUT_TOTALS], uint32_t i);

/* The parts of what zelezmut_save, zelezmut_save_form_2 and zelezmut_move say, and zelezmut_load. */
static inline uint32_t zelezmut_saved_answer(uint64_t said) { return (uint32_t)(said >> 32); }
static inline uint32_t zelezmut_saved_length(uint64_t said) { return (uint32_t)said; }
static inline uint32_t zelezmut_loaded_answer(uint64_t said) { return (uint32_t)(said >> 32); }
static inline uint32_t zelezmut_loaded_place(uint64_t said) { return (uint32_t)said; }

/* The parts of what zelezmut_dump says. */
static inline uint32_t zelezmut_dumped_answer(uint64_t said) { return (uint32_t)(said >> 56); }
static inline uint64_t zelezmut_dumped_length(uint64_t said) { return said & ((UINT64_C(1) << 56) - 1); }

/* The parts of what zelezmut_run and zelezmut_answer say. */
static inline uint32_t zelezmut_ran_answer(uint64_t said) { return (uint8_t)said; }
static inline uint32_t zelezmut_ran_ended(uint64_t said) { return (uint8_t)(said >> 8); }
static inline uint16_t zelezmut_ran_units(uint64_t said) { return (uint16_t)(said >> 16); }

#ifdef __cplusplus
}
#endif

#endif
