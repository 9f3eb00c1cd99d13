/* Sarwymp, the pack desk: the calls of the proved library (libexports.a, for x86-64 Linux).
 *
 * Each call answers the number of the refusal, SARWYMP_DONE (0) where there is none, and writes the whole of `answer`, refused
 * or not: first the refusal's detail, then zeros, or what is said at the call. So look at the number before the answer: after
 * a refusal the answer's zeros count nothing. A length counts what its pointer points to: bytes of a pack or a text, numbers
 * of the rest. What the pointers point to must lie apart, and none may be NULL, not even one of length 0.
 *
 * A call ends for any bytes, keeps nothing for the next one (each reads the pack anew) and takes no memory but its stack:
 * SARWYMP_STACK_CHECK, SARWYMP_STACK_OTHER. There are no globals: calls may run on several threads at once if each has
 * `work`, `answer` and what else it writes for itself; pack and readings are only read, and may be shared.
 *
 * After refusals 1 to 9 and 21 no buffer has changed. Otherwise `work` holds the offset of each record (field type, lookup,
 * lookup entry, PGN, field) as they stand in the pack, its rest unchanged. After 22 and higher numbers no other buffer has
 * changed; success writes only the entries it reports.
 */
#ifndef SARWYMP_H
#define SARWYMP_H

#include <stddef.h>
#include <stdint.h>

/* Not refused. */
#define SARWYMP_DONE 0

/* Refused for the input; the detail is the byte offset of the offending item, for 9 it is 0. */
#define SARWYMP_REFUSED_CUT 1          /* bytes end inside an item or before the next one */
#define SARWYMP_REFUSED_NUMBER 2       /* a number not in shortest form, or too large for its width */
#define SARWYMP_REFUSED_VERSION 3      /* pack version other than 1 */
#define SARWYMP_REFUSED_CODE 4         /* a code, mark or flag outside its values */
#define SARWYMP_REFUSED_LOOKUP_ORDER 5 /* a lookup's name not above the previous one (byte order) */
#define SARWYMP_REFUSED_FIELD_TYPE 6   /* a field's field type index not below the number of field types */
#define SARWYMP_REFUSED_SUM 7          /* a sum above 4,294,967,295 */
#define SARWYMP_REFUSED_TAIL 8         /* bytes after the last tree */
#define SARWYMP_REFUSED_LONG 9         /* pack longer than SARWYMP_PACK_MOST bytes */

/* Refused for the state; the detail is the length needed, for 23 it is 0. */
#define SARWYMP_REFUSED_WORK 21     /* work buffer shorter than the records */
#define SARWYMP_REFUSED_FINDINGS 22 /* findings buffer below 8 numbers a finding */
#define SARWYMP_REFUSED_NAMED 23    /* tree, PGN, field or finding named is not in the pack */
#define SARWYMP_REFUSED_TEXT 24     /* text buffer shorter than the place text */
#define SARWYMP_REFUSED_VISITS 25   /* visit buffer shorter than the readings */

/* The longest pack that is read, in bytes. */
#define SARWYMP_PACK_MOST 1048576

/* The trees. */
#define SARWYMP_TREE_NMEA2000 0
#define SARWYMP_TREE_J1939 1
#define SARWYMP_TREE_QUICK 2

/* A finding is eight numbers; where each stands. */
#define SARWYMP_FINDING_RULE 0     /* 2 for R02, and so on */
#define SARWYMP_FINDING_SEVERITY 1 /* SARWYMP_SEVERITY_.. */
#define SARWYMP_FINDING_CAUSE 2    /* which of the rule's messages, from 1 */
#define SARWYMP_FINDING_PLACE 3    /* SARWYMP_PLACE_.. */
#define SARWYMP_FINDING_TREE 4     /* SARWYMP_TREE_..; 0 for field types and lookups */
#define SARWYMP_FINDING_ITEM 5     /* the index in its list; for a PGN group the PGN number */
#define SARWYMP_FINDING_PART 6     /* the field's index, or as the rule says */
#define SARWYMP_FINDING_OTHER 7    /* as the rule says, else 0 */
#define SARWYMP_FINDING_NUMBERS 8

#define SARWYMP_SEVERITY_WARNING 0
#define SARWYMP_SEVERITY_ERROR 1

#define SARWYMP_PLACE_FIELD_TYPES 0
#define SARWYMP_PLACE_PGN 1
#define SARWYMP_PLACE_LOOKUP 2
#define SARWYMP_PLACE_PGN_GROUP 3

/* The ends of a walk. All but the first and the last are stops: the field that stops it takes no reading. */
#define SARWYMP_END_WHOLE 0         /* the last order was passed */
#define SARWYMP_END_SETS 1          /* before any visit: a nonempty set has start 0, runs past the fields, or is marked nested
                                       but is not set 2 starting after set 1's start and ending within it; or set 2 is not
                                       nested and shares an order with set 1 */
#define SARWYMP_END_COUNT_FIELD 2   /* a set's countField is not current on arriving at the set */
#define SARWYMP_END_LOOKUP 3        /* lookup missing */
#define SARWYMP_END_MATCH 4         /* match unresolved or, below 64 bits, above 2^bits - 1; a match is a
                                       decimal number, a hexadecimal one (0x1F) or the name of an entry */
#define SARWYMP_END_ENTRY 5         /* an entry for the reading names a missing field type or nested lookup */
#define SARWYMP_END_BIT_LENGTH 6    /* bitLengthField target not current */
#define SARWYMP_END_CONTINUES 7     /* continued field not current */
#define SARWYMP_END_DYNAMIC 8       /* root DYNAMIC_FIELD_VALUE and no lower-order dynamicFieldLength or DYNAMIC_FIELD_KEY
                                       field current */
#define SARWYMP_END_TRAILING_ZERO 9 /* trailing-zero target not current */
#define SARWYMP_END_USED_UP 10      /* a field is due and no reading is left */

/* No more bytes of stack than these does a call take, whatever the pack; a thread with a stack of the third size, of which
 * some is the thread's own, has room for any of them. Measured, not proved (harness/tests/stack.rs). */
#define SARWYMP_STACK_CHECK 53248
#define SARWYMP_STACK_OTHER 59392
#define SARWYMP_STACK_THREAD 81920

#ifdef __cplusplus
extern "C" {
#endif

/* The number of records, then for field types, lookups and the three trees in turn the count and the work position of the
 * first. Refused by 1 to 9 and 21. */
uint32_t sarwymp_load(const uint8_t *pack, size_t pack_len, uint32_t *work, size_t work_len, uint64_t answer[11]);

/* The number of findings and of errors among them; `findings` begins with the findings. Refused by 1 to 9, 21 and 22.
 *
 * A pack is without error where the call answers SARWYMP_DONE and answer[1] is 0. Both: a call that is refused has found
 * nothing out, and leaves 0 where the number of errors stands.
 *
 * Where it answers SARWYMP_DONE and none of the answer[0] findings has rule 42 and cause 3, every two different J1939 fields
 * that carry one SPN of at most 524,287 have equal width, resolution, offset and unit (floats as floats: a NaN equals nothing,
 * 0 equals -0); where one has, some two have not. */
uint32_t sarwymp_check(const uint8_t *pack, size_t pack_len, uint32_t *work, size_t work_len, uint32_t *findings,
                       size_t findings_len, uint64_t answer[2]);

/* The length of the place text of a finding, which is named by its place, tree and item; `text` begins with it. Refused by
 * 1 to 9, 21, 23 and 24. */
uint32_t sarwymp_place_text(const uint8_t *pack, size_t pack_len, uint32_t *work, size_t work_len, uint32_t place,
                            uint32_t tree, uint32_t item, uint8_t *text, size_t text_len, uint64_t answer[1]);

/* The end of the walk and the number of visits, one for each reading taken; `visits` begins with the indexes of the fields
 * visited. `pgn` is the index of the PGN in its tree. Refused by 1 to 9, 21, 23 and 25; then no walk was made, and the
 * answer's numbers are no end and no visits.
 *
 * The latest reading of a set's countField is the number of the set's passes, with one exception: where the res_bits of the
 * countField are 2 to 64, a reading of 2^res_bits - 1, all ones, is a count that is not available, and means no passes. Every
 * other reading is taken as it is, also one that so many bits cannot hold.
 *
 * On a held PGN of a pack without error (sarwymp_check was not refused and counts no error), the end is SARWYMP_END_WHOLE or
 * SARWYMP_END_USED_UP whatever the readings. */
uint32_t sarwymp_walk(const uint8_t *pack, size_t pack_len, uint32_t *work, size_t work_len, uint32_t tree, uint32_t pgn,
                      const uint64_t *readings, size_t readings_len, uint32_t *visits, size_t visits_len,
                      uint64_t answer[2]);

/* 1 where the PGN is held, else 0: nonempty sets share no order unless set 2 is nested; a countField, of an empty set too,
 * lies in no nonempty set, or in set 1 only for a nested set 2; a bitLengthField target's nonempty sets hold its user; and
 * each DYNAMIC_FIELD_VALUE has a lower-order dynamicFieldLength or DYNAMIC_FIELD_KEY field whose nonempty sets hold it.
 * Refused by 1 to 9, 21 and 23; after a refusal the answer is the detail, not 1 for held. */
uint32_t sarwymp_held(const uint8_t *pack, size_t pack_len, uint32_t *work, size_t work_len, uint32_t tree, uint32_t pgn,
                      uint64_t answer[1]);

#ifdef __cplusplus
}
#endif

#endif
