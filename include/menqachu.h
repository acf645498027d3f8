/* The calls of the release check. A slice is a pointer and a length: the pointer is good for that many bytes, and a length of 0 may come with any
   pointer that is not null. The buffer shares no byte with a record. No call changes a byte of a record; text is written at the front of the lent
   buffer and nothing after it. A draft is a record in a buffer, in two parts: the length of its stream (four bytes, little-endian) and the stream,
   the length of its pool and the pool. A shelf holds up to eight drafts under names, one after another in a buffer of their own. */
#ifndef MENQACHU_H
#define MENQACHU_H

#include <stdbool.h>
#include <stddef.h>
#include <stdint.h>

#ifdef __cplusplus
extern "C" {
#endif

/* Number 0: accepted, or the list is written. 1 to 9: a record is refused, with its side (0 current, 1 released) and the place.
   10: no room, with the length needed. 11 to 46: a verdict, with its message of that length. 59, 60: a pointer that names neither a structure
   nor a family, or only the other of the two, with the place of its field. 61: an outcome or a seed that no pair has. */
typedef struct {
    uint32_t number;
    uint32_t side;
    size_t place;
    size_t len;
} menqachu_answer;

/* owned is 1 where there is an owner: its name is len bytes of the pool from start. A refused record gives number and place. */
typedef struct {
    uint32_t number;
    size_t place;
    uint32_t owned;
    uint32_t start;
    uint32_t len;
} menqachu_owner_answer;

/* What the calls of a draft answer, with the number of layouts in which the draft and the released record differ. Number 0: done. 1 to 9: a record
   is refused, with its side (0 the draft or what would become of it, 1 the released record, 2 the addition) and the place. 10: no room, with the
   length needed. 55: the draft has a structure or a family of the name. 56: it has none. */
typedef struct {
    menqachu_answer answer;
    size_t changed;
} menqachu_draft_answer;

/* The names and places of up to eight held drafts: row i has its name in the first name_lens[i] of the sixteen bytes names[16 * i] on, and its draft in
   lens[i] bytes of the held buffer from starts[i]. A row whose name_len is 0 is free. */
typedef struct {
    uint8_t names[128];
    size_t name_lens[8];
    size_t starts[8];
    size_t lens[8];
} menqachu_shelf;

/* What the calls of a shelf answer. Number 0: done, with the names and places afterwards and, coming back, the number of layouts in which the draft and
   the released record differ (else changed is 0). 1 to 9: a record is refused, with its side (0 the draft, 1 the released record) and the place.
   10: no room, with the length needed. 57: eight other names are held, or the name has not 1 to 16 bytes. 58: the name is not held, or a held place lies
   outside the buffer or over another. A refusal gives the shelf back as it came. */
typedef struct {
    menqachu_answer answer;
    size_t changed;
    menqachu_shelf shelf;
} menqachu_shelf_answer;

/* A current record against a released one. */
menqachu_answer menqachu_check(const uint8_t *stream, size_t stream_len, const uint8_t *pool, size_t pool_len,
                               const uint8_t *past, size_t past_len, const uint8_t *old, size_t old_len,
                               uint8_t *out, size_t out_len);

/* The layouts of a record, one line a field. */
menqachu_answer menqachu_list(bool released, const uint8_t *stream, size_t stream_len, const uint8_t *pool, size_t pool_len,
                              uint8_t *out, size_t out_len);

/* The owner of a name in a current record. */
menqachu_owner_answer menqachu_owner(const uint8_t *stream, size_t stream_len, const uint8_t *pool, size_t pool_len,
                                     const uint8_t *name, size_t name_len);

/* Whether the pointers of a current record name what they must: 0, 1 to 9, 59 or 60. */
menqachu_answer menqachu_pointers(const uint8_t *stream, size_t stream_len, const uint8_t *pool, size_t pool_len);

/* A pair of records for a burn-in: current stream, current pool, released stream, released pool, each a length of four bytes (little-endian) and its
   bytes. Its check gives the wanted outcome: 0, 20, 34, 35, 36 or 43. The seed is at most 2147483647; the same two numbers give the same pair. */
menqachu_answer menqachu_load(uint32_t outcome, uint32_t seed, uint8_t *out, size_t out_len);

/* The number of layouts in which a draft and a released record differ, found afresh. */
menqachu_draft_answer menqachu_draft_count(const uint8_t *draft, size_t draft_len, const uint8_t *past, size_t past_len,
                                           const uint8_t *old, size_t old_len);

/* Adds the one structure or family of a record (more, texts) to a draft. changed is the number that the last call gave. A refused edit changes no
   byte of the draft's buffer and gives changed back. */
menqachu_draft_answer menqachu_draft_add(size_t changed, uint8_t *draft, size_t draft_len, const uint8_t *more, size_t more_len,
                                         const uint8_t *texts, size_t texts_len, const uint8_t *past, size_t past_len,
                                         const uint8_t *old, size_t old_len);

/* Takes the first structure or family of a name out of a draft, with all its parts. */
menqachu_draft_answer menqachu_draft_remove(size_t changed, uint8_t *draft, size_t draft_len, const uint8_t *name, size_t name_len,
                                            const uint8_t *past, size_t past_len, const uint8_t *old, size_t old_len);

/* For tests: how many pairs of bytes are compared of two names. 0 if their lengths differ; else the pairs from the last byte on, up to and with the
   first unequal one, or all. */
size_t menqachu_pairs_compared(const uint8_t *a, size_t a_len, const uint8_t *b, size_t b_len);

/* A shelf on which no name is held: all zero. */
menqachu_shelf menqachu_shelf_new(void);

/* Holds a draft under a name, in place of the one held under it before. The shelf is what the last call gave, or a new one, and only these calls write
   the held buffer, in which the drafts may move. A refused call changes no byte of it. */
menqachu_shelf_answer menqachu_shelf_set(menqachu_shelf shelf, const uint8_t *name, size_t name_len, const uint8_t *draft, size_t draft_len,
                                         uint8_t *held, size_t held_len);

/* Puts the draft held under a name at the front of the draft's buffer, and counts against the released record. Neither the shelf nor the held buffer
   changes; a refused call changes no byte of the draft's buffer. */
menqachu_shelf_answer menqachu_shelf_back(menqachu_shelf shelf, const uint8_t *name, size_t name_len, uint8_t *draft, size_t draft_len,
                                          const uint8_t *held, size_t held_len, const uint8_t *past, size_t past_len,
                                          const uint8_t *old, size_t old_len);

#ifdef __cplusplus
}
#endif

#endif
