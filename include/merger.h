/* The merger: EDXML events that describe one logical event are kept in a dossier, and the
 * dossier is opened as one merged event or as a named conflict.
 *
 * Every call is proved to stay in the buffers that it is lent, to end, and to answer what the
 * profile says, for good and bad input alike. It keeps no state and takes nothing from a heap. The
 * report takes about 160 KB of stack, and no other call more than about 21 KB.
 *
 * Buffers. A buffer is a pointer and a length. The pointer is not null, even where the length is
 * 0; inputs are only read; an output or scratch buffer overlaps no other buffer of the call.
 *
 * Limits. An installation chooses how much a dossier may have, and gives it to combine, open and
 * batch: event versions, parents and, of an unversioned type, objects. A dossier that has more is
 * refused, with 3 for event versions and parents and with 5 for objects; events that together have
 * more are refused with 8. The largest choice is the profile's, which the report has.
 *
 * Replies. A reply is a number whose top byte is its kind; the macros below take it apart.
 *
 *   kind               bits 0 and up
 *   MERGER_DONE        0..31 the length of what was written (value: see there)
 *   MERGER_MERGED      0..31 the length of the merged event
 *   MERGER_CONFLICT    0..31 the place of the property
 *   MERGER_OVERFULL    0..31 the place of the property
 *   MERGER_REFUSED     0..7 the number of the question, 8..31 the event's position in a batch
 *
 * Refusals. The number is that of the first question whose answer is no:
 *
 *   1  a buffer is too small          6  a value is outside its space
 *   2  the table breaks a rule        7  the inputs differ in type, source or match values
 *   3  an input breaks its layout     8  the events pass a limit
 *   4  the table has no such type     9  the batch or standard input is not framed right
 *   5  presence, counts or marks do not fit the type
 *  18  a limit is outside its range
 *
 * They are asked in this order, but for 18, which is asked before everything else, and 9, which is
 * asked after 2; a standard input without a table is refused with 9 before.
 *
 * What stays. A refused call leaves its output unchanged, and so do conflict and overfull. A call
 * that is done leaves the bytes past the returned length unchanged. */
#ifndef MERGER_H
#define MERGER_H

#include <stddef.h>
#include <stdint.h>

#ifdef __cplusplus
extern "C" {
#endif

#define MERGER_DONE 0
#define MERGER_MERGED 1
#define MERGER_CONFLICT 2
#define MERGER_OVERFULL 3
#define MERGER_REFUSED 4

/* The least sizes of output buffers; scratch buffers are as large as a dossier's. */
#define MERGER_DOSSIER_ROOM 32768
#define MERGER_HASH_TEXT_ROOM 8192
#define MERGER_HASH_ROOM 20
#define MERGER_REPORT_ROOM 65536

/* The profile's limits, which are the largest that can be chosen. */
#define MERGER_VERSIONS 8
#define MERGER_PARENTS 32
#define MERGER_OBJECTS 256

#define MERGER_KIND(reply) ((unsigned)((uint64_t)(reply) >> 56))
#define MERGER_LENGTH(reply) ((size_t)((uint64_t)(reply) & 0xFFFFFFFF))
#define MERGER_PLACE(reply) ((size_t)((uint64_t)(reply) & 0xFFFFFFFF))
#define MERGER_NUMBER(reply) ((unsigned)((uint64_t)(reply) & 0xFF))
#define MERGER_POSITION(reply) ((size_t)((uint64_t)(reply) >> 8 & 0xFFFFFF))
#define MERGER_VALUE_LENGTH(reply) ((size_t)((uint64_t)(reply) & 0xFFFFFFF))
#define MERGER_VALUE_START(reply) ((size_t)((uint64_t)(reply) >> 28 & 0xFFFFFFF))

/* Does the table meet every rule of the ontology table?
 * Answers done with length 0, or refused with 2. Writes nothing. */
uint64_t merger_check_table(const uint8_t *table, size_t table_len);

/* Is the event accepted under the table?
 * Answers done and writes the dossier of this one event, or refused with 1 to 6.
 * out: at least 32,768 bytes. Unchanged when refused, and past the length when done. */
uint64_t merger_check_event(const uint8_t *table, size_t table_len,
                            const uint8_t *event, size_t event_len,
                            uint8_t *out, size_t out_len);

/* What is the dossier of the events of both dossiers together?
 * Answers done and writes it, or refused with 18 or 1 to 8. The left dossier is asked questions 3
 * to 6 before the right one.
 * versions, parents, objects: the limits, 1 to 8, 8 to 32 and 32 to 256.
 * out: at least 32,768 bytes. Unchanged when refused, and past the length when done. */
uint64_t merger_combine(size_t versions, size_t parents, size_t objects,
                        const uint8_t *table, size_t table_len,
                        const uint8_t *left, size_t left_len,
                        const uint8_t *right, size_t right_len,
                        uint8_t *out, size_t out_len);

/* What do the events of the dossier merge to?
 * Answers merged and writes the merged event; or conflict, with the lowest event version whose
 * events differ, written to *version, and the first place in which they do; or overfull, with the
 * lowest single-valued place that would get more than one object; or refused with 18 or 1 to 6.
 * versions, parents, objects: the limits, 1 to 8, 8 to 32 and 32 to 256.
 * out: at least 32,768 bytes. Unchanged but for merged, and then past the length.
 * version: not null. Unchanged but for conflict. */
uint64_t merger_open(size_t versions, size_t parents, size_t objects,
                     const uint8_t *table, size_t table_len,
                     const uint8_t *dossier, size_t dossier_len,
                     uint8_t *out, size_t out_len,
                     uint64_t *version);

/* Where in the event does the value at this place and index (both from 0) stand?
 * Takes merged events too. Always answers done: bits 0..27 hold the value's length and bits 28..55
 * its start in the event. The value's bytes stand there, and start + length is at most event_len.
 * The length is 0 where there is no such value and where the table or the event is refused (hash
 * text gives the number). Writes nothing. */
uint64_t merger_value(const uint8_t *table, size_t table_len,
                      const uint8_t *event, size_t event_len,
                      size_t place, size_t index);

/* What is the text that the event's sticky hash is taken of?
 * Takes merged events too. Answers done and writes it, or refused with 1 to 6. Under one table two
 * events have equal texts exactly when their type, source URI and match values are equal.
 * out: at least 8,192 bytes. Unchanged when refused, and past the length when done. */
uint64_t merger_hash_text(const uint8_t *table, size_t table_len,
                          const uint8_t *event, size_t event_len,
                          uint8_t *out, size_t out_len);

/* What is the event's sticky hash, SHA-1 of its hash text?
 * Takes merged events too. Answers done with length 20 and writes it, or refused with 1 to 6.
 * out: at least 20 bytes. Unchanged when refused, and past the first 20 when done. */
uint64_t merger_hash(const uint8_t *table, size_t table_len,
                     const uint8_t *event, size_t event_len,
                     uint8_t *out, size_t out_len);

/* What is the dossier of all events of the batch together?
 * Answers done and writes it, or refused with 18 or 1 to 9 and the position of the refused event (0
 * for 18, 1, 2, 8 and 9).
 * versions, parents, objects: the limits, 1 to 8, 8 to 32 and 32 to 256.
 * out: at least 32,768 bytes. Unchanged when refused, and past the length when done.
 * a, b, c: scratch, at least 32,768 bytes each; they may hold anything before and after. */
uint64_t merger_batch(size_t versions, size_t parents, size_t objects,
                      const uint8_t *table, size_t table_len,
                      const uint8_t *batch, size_t batch_len,
                      uint8_t *out, size_t out_len,
                      uint8_t *a, size_t a_len,
                      uint8_t *b, size_t b_len,
                      uint8_t *c, size_t c_len);

/* What does the merge program print for this standard input, a table as a text and a batch?
 * Answers done and writes the lines, whatever the input is (a refused one gives the line
 * "refused N POSITION"), or refused with 1.
 * out: at least 65,536 bytes. Unchanged when refused, and past the length when done. */
uint64_t merger_report(const uint8_t *input, size_t input_len,
                       uint8_t *out, size_t out_len);

#ifdef __cplusplus
}
#endif

#endif
