/* The header from C: E1 and E4 of the profile's host example, which are in conflict, and E1 alone,
 * which opens as itself. Prints what failed; the exit status is the number of failures. */
#include "merger.h"

#include <stdio.h>
#include <string.h>

#define BYTES(text) (const uint8_t *)(text), sizeof(text) - 1
#define PROFILE MERGER_VERSIONS, MERGER_PARENTS, MERGER_OBJECTS
#define UNWRITTEN 77

static const char TABLE[] =
    "\1\10net.host\1\2\5"
    "\4addr\10\50\0\1\5"
    "\3rev\5\0\0\2"
    "\4seen\6\0\0\2"
    "\5state\10\24\1\0\4"
    "\4tags\10\24\1\1\3";

#define HEAD "\10net.host\5/lab/\0\37" "\1\2h1" "\1\1" "1" "\1\24" "2024-03-01T10:00:00Z"
static const char E1[] = HEAD "\1\2up" "\1\1a";
static const char E4[] = HEAD "\1\4down" "\1\1a";

/* A type without versions, whose one property is single-valued: two values are overfull. */
static const char PART_TABLE[] = "\1\4part\1\0\1" "\6serial\10\24\0\0\7";
/* A part in a batch: its serial, of one byte, follows. */
#define PART "\20" "\4part\5/lab/\0\1" "\1\1"
static const char PARTS[] = "\2" PART "1" PART "2";

static const uint8_t E1_HASH[MERGER_HASH_ROOM] = {
    0xb5, 0x77, 0xea, 0x6d, 0xf2, 0x28, 0xb2, 0xae, 0xdf, 0xe3,
    0x87, 0x52, 0xfc, 0xbe, 0x01, 0xb4, 0x72, 0xab, 0xcf, 0x14,
};

static uint8_t left[MERGER_DOSSIER_ROOM], right[MERGER_DOSSIER_ROOM];
static uint8_t both[MERGER_DOSSIER_ROOM], event[MERGER_DOSSIER_ROOM];
static uint8_t lines[MERGER_REPORT_ROOM];

static int failures;

static void expect(int holds, const char *what) {
    if (!holds) {
        printf("header.c: not so: %s\n", what);
        failures++;
    }
}

static void expect_conflict(size_t left_len, size_t right_len) {
    uint64_t version = UNWRITTEN;
    uint64_t reply = merger_combine(PROFILE, BYTES(TABLE), left, left_len, right, right_len,
                                    both, sizeof both);
    expect(MERGER_KIND(reply) == MERGER_DONE, "E1 and E4 combine");
    reply = merger_open(PROFILE, BYTES(TABLE), both, MERGER_LENGTH(reply), event, sizeof event,
                        &version);
    expect(MERGER_KIND(reply) == MERGER_CONFLICT, "E1 and E4 are in conflict");
    expect(version == 1 && MERGER_PLACE(reply) == 3, "the conflict is 1 state");
}

static void expect_itself(size_t left_len) {
    uint64_t version = UNWRITTEN;
    uint64_t reply = merger_open(PROFILE, BYTES(TABLE), left, left_len, event, sizeof event,
                                 &version);
    expect(MERGER_KIND(reply) == MERGER_MERGED, "E1 opens as a merged event");
    expect(MERGER_LENGTH(reply) == sizeof E1 - 1 && memcmp(event, E1, sizeof E1 - 1) == 0,
           "E1 opens as itself");
    expect(version == UNWRITTEN, "merged leaves the version");
}

static void expect_unwritten_version(void) {
    uint64_t version = UNWRITTEN;
    uint64_t reply = merger_batch(PROFILE, BYTES(PART_TABLE), BYTES(PARTS), both, sizeof both,
                                  left, sizeof left, right, sizeof right, event, sizeof event);
    expect(MERGER_KIND(reply) == MERGER_DONE, "two parts are a batch");
    reply = merger_open(PROFILE, BYTES(PART_TABLE), both, MERGER_LENGTH(reply),
                        event, sizeof event, &version);
    expect(MERGER_KIND(reply) == MERGER_OVERFULL && MERGER_PLACE(reply) == 0,
           "two serials are overfull");
    expect(version == UNWRITTEN, "overfull leaves the version");
    reply = merger_open(PROFILE, BYTES(PART_TABLE), BYTES("x"), event, sizeof event, &version);
    expect(MERGER_KIND(reply) == MERGER_REFUSED && MERGER_NUMBER(reply) == 3, "3: no dossier");
    expect(version == UNWRITTEN, "refused leaves the version");
}

static void expect_value(void) {
    uint64_t reply = merger_value(BYTES(TABLE), BYTES(E1), 3, 0);
    expect(MERGER_VALUE_LENGTH(reply) == 2
               && memcmp(E1 + MERGER_VALUE_START(reply), "up", 2) == 0, "the state is up");
    expect(merger_value(BYTES(TABLE), BYTES(E1), 3, 1) == 0, "there is one state");
}

static void expect_refusals(void) {
    uint64_t reply = merger_check_table(BYTES("\0"));
    expect(MERGER_KIND(reply) == MERGER_REFUSED && MERGER_NUMBER(reply) == 2, "2: no table");
    reply = merger_batch(PROFILE, BYTES(PART_TABLE), BYTES("\2" PART "1" "\1x"),
                         both, sizeof both, left, sizeof left, right, sizeof right,
                         event, sizeof event);
    expect(MERGER_KIND(reply) == MERGER_REFUSED && MERGER_NUMBER(reply) == 3
               && MERGER_POSITION(reply) == 1, "3 1: the second is no event");
    reply = merger_report(BYTES("\1"), lines, sizeof lines);
    expect(MERGER_LENGTH(reply) == 12 && memcmp(lines, "refused 9 0\n", 12) == 0, "9: no table");
}

static void expect_18(uint64_t reply, const char *what) {
    expect(MERGER_KIND(reply) == MERGER_REFUSED && MERGER_NUMBER(reply) == 18
               && MERGER_POSITION(reply) == 0, what);
}

/* Each call has a limit outside its range and an output that is too small: 18 comes before 1. */
static void expect_limits_in_range(void) {
    uint64_t version = UNWRITTEN;
    uint8_t small[1] = {UNWRITTEN};
    expect_18(merger_combine(0, MERGER_PARENTS, MERGER_OBJECTS, BYTES(TABLE), BYTES("x"),
                             BYTES("x"), small, sizeof small), "18 of combine: no event version");
    expect_18(merger_open(MERGER_VERSIONS, MERGER_PARENTS + 1, MERGER_OBJECTS, BYTES(TABLE),
                          BYTES("x"), small, sizeof small, &version), "18 of open: 33 parents");
    expect_18(merger_batch(MERGER_VERSIONS, MERGER_PARENTS, 31, BYTES(TABLE), BYTES("x"),
                           small, sizeof small, left, sizeof left, right, sizeof right,
                           event, sizeof event), "18 of batch: 31 objects");
    expect(small[0] == UNWRITTEN && version == UNWRITTEN, "18 leaves the output and the version");
}

/* E1 alone keeps to the least limits; with an output that is too small it is refused with 1. */
static void expect_least_limits(size_t left_len) {
    uint64_t version = UNWRITTEN;
    uint64_t reply = merger_open(1, 8, 32, BYTES(TABLE), left, left_len, event, sizeof event,
                                 &version);
    expect(MERGER_KIND(reply) == MERGER_MERGED, "the least limits are in their ranges");
    reply = merger_open(1, 8, 32, BYTES(TABLE), left, left_len, event, sizeof event - 1, &version);
    expect(MERGER_KIND(reply) == MERGER_REFUSED && MERGER_NUMBER(reply) == 1, "1: a small output");
}

static void expect_hash(void) {
    uint64_t reply = merger_hash_text(BYTES(TABLE), BYTES(E1), lines, sizeof lines);
    expect(MERGER_LENGTH(reply) == 22 && memcmp(lines, "/lab/\nnet.host\naddr:h1", 22) == 0,
           "the hash text of E1");
    reply = merger_hash(BYTES(TABLE), BYTES(E1), lines, MERGER_HASH_ROOM);
    expect(MERGER_KIND(reply) == MERGER_DONE && MERGER_LENGTH(reply) == sizeof E1_HASH
               && memcmp(lines, E1_HASH, sizeof E1_HASH) == 0, "the hash of E1");
}

int main(void) {
    uint64_t first = merger_check_event(BYTES(TABLE), BYTES(E1), left, sizeof left);
    uint64_t fourth = merger_check_event(BYTES(TABLE), BYTES(E4), right, sizeof right);
    expect(MERGER_KIND(first) == MERGER_DONE && MERGER_KIND(fourth) == MERGER_DONE,
           "E1 and E4 are accepted");
    expect_conflict(MERGER_LENGTH(first), MERGER_LENGTH(fourth));
    expect_itself(MERGER_LENGTH(first));
    expect_least_limits(MERGER_LENGTH(first));
    expect_limits_in_range();
    expect_unwritten_version();
    expect_value();
    expect_hash();
    expect_refusals();
    return failures;
}
