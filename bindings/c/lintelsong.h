/* The proved message buffer for C: a buffer of messages, a group of slots that is filled from it, and the set of accounts that fills skip.
 * Written by tools/walks.py; what is said of each call stands above it in crates/export_NAME/src/lib.rt, where its contract is.
 *
 * Link target/staticlib/libexport_NAME.a for buffer, skipped, group and fill; nothing else is needed but memcpy, memmove and memset.
 *
 * What a caller owes, and no call can see for itself:
 * - A struct is memory that its set_up has made, and nobody else has written to. set_up itself takes any memory.
 * - No pointer is NULL, also where the count behind it is 0. An array of n has room for n; a count is that of the elements.
 * - What one call is handed does not overlap, but for two things that are only read. A join has two different groups.
 * - One thread at a time is in a struct. There is no memory behind it, so it may be moved, copied and freed like any other bytes.
 *
 * A code is one of LINTELSONG_*; a refused call (not 0) leaves everything as it was, a refused set_up leaves room for one of each.
 * A test, and a walk that may be past the end, answers 1 or 0. */
#ifndef LINTELSONG_H
#define LINTELSONG_H
#include <assert.h>
#include <stdalign.h>
#include <stddef.h>
#include <stdint.h>

#ifdef __cplusplus
extern "C" {
#endif

/* What a call answers. */
enum lintelsong_code {
    LINTELSONG_DONE = 0, /* done */
    LINTELSONG_SET_UP = 1, /* set-up numbers outside their ranges */
    LINTELSONG_SPECIAL = 2, /* add: special mark set */
    LINTELSONG_WRONG_KIND = 3, /* add: kind is neither 0 nor 1 */
    LINTELSONG_FULL = 4, /* add: M messages held */
    LINTELSONG_CROWDED = 5, /* add: the account has no queue and A accounts are held */
    LINTELSONG_NO_TRANSACTION = 6, /* commit or rollback without a transaction */
    LINTELSONG_IN_TRANSACTION = 7, /* begin with one open */
    LINTELSONG_HOLDS_EXTERNAL = 8, /* remove: a named account's queue holds an external */
    LINTELSONG_TOO_LARGE = 9, /* fill: slots asked for above S, or height above 16 */
    LINTELSONG_FEW_KEYS = 10, /* fill: key list has fewer rows than the buffer's internal count */
    LINTELSONG_MANY_SKIPS = 11, /* fill: more than 256 skip rows, or skipped set size plus rows saying skip (repeats included) above 512 */
    LINTELSONG_NUMBERS_USED_UP = 12, /* slot numbers used up */
    LINTELSONG_OVERFULL = 13, /* fill: a bucket numbered below the height lists a slot that holds more than the height */
    LINTELSONG_MANY_SLOTS = 14, /* join: slots together above the left group's S */
    LINTELSONG_SHARED_ACCOUNT = 15, /* join: an account is in both groups */
};

/* Closed: to be read and changed through the calls alone. bindings/layout.txt has the fields. */
typedef struct { uint64_t closed[22032]; } lintelsong_buffer;
typedef struct { uint64_t closed[14544]; } lintelsong_group;
typedef struct { uint64_t closed[2049]; } lintelsong_skipped;
static_assert(sizeof(lintelsong_buffer) == 176256 && alignof(lintelsong_buffer) == 8, "lintelsong_buffer");
static_assert(sizeof(lintelsong_group) == 116352 && alignof(lintelsong_group) == 8, "lintelsong_group");
static_assert(sizeof(lintelsong_skipped) == 16392 && alignof(lintelsong_skipped) == 8, "lintelsong_skipped");

/* Sets a buffer up in any memory for M messages, 1 to 1,024, and A accounts, 1 to 256. A refused one has room for one of each. */
uint8_t lintelsong_buffer_set_up(lintelsong_buffer *b, uint64_t messages, uint64_t accounts);

/* Adds a message to the end of its account's queue: codes 2 to 5. A `special` other than 0 is a set mark; a `form` other than 0 is not the
 * standard one. */
uint8_t lintelsong_buffer_add(lintelsong_buffer *b, const uint8_t address[32], const uint8_t hash[32], uint64_t time, uint8_t kind, uint8_t special, uint8_t form);

/* Removes the queues of the named accounts, 32 bytes a name: code 8 if one of them holds an external. Names without a queue, names given
 * twice and bytes behind the last whole name do nothing. */
uint8_t lintelsong_buffer_remove(lintelsong_buffer *b, const uint8_t *names, size_t names_len);

/* Opens a transaction: code 7 if one is open. */
uint8_t lintelsong_buffer_begin(lintelsong_buffer *b);

/* Ends a transaction and gives back every queue, the order, the counts and the minimum as at begin: code 6 if none is open. */
uint8_t lintelsong_buffer_rollback(lintelsong_buffer *b);

/* Ends a transaction and leaves the buffer as it is: code 6 if none is open. */
uint8_t lintelsong_buffer_commit(lintelsong_buffer *b);

/* Writes the room of the buffer, M and A, and what it holds: messages, accounts, internals, externals. Answers 0. */
uint8_t lintelsong_buffer_counts(lintelsong_buffer *b, uint64_t out[6]);

/* Whether there is a minimum chain time. */
uint8_t lintelsong_buffer_has_min_ext_chain_time(lintelsong_buffer *b);

/* The minimum chain time; absent reads as 2^64 - 1. */
uint64_t lintelsong_buffer_min_ext_chain_time(lintelsong_buffer *b);

/* Whether a transaction is open. */
uint8_t lintelsong_buffer_in_tx(lintelsong_buffer *b);

/* How many messages the queue of an account holds; 0 if it has none. */
uint64_t lintelsong_buffer_account_messages_count(lintelsong_buffer *b, const uint8_t name[32]);

/* Whether the buffer holds at least `limit` messages. */
uint8_t lintelsong_buffer_is_filled_by_count(lintelsong_buffer *b, uint64_t limit);

/* Whether the buffer is filled by slots: never. */
uint8_t lintelsong_buffer_is_filled_by_slots(lintelsong_buffer *b);

/* Writes the account at a place of the order, and answers 1; past the end it writes zeros and answers 0. */
uint8_t lintelsong_buffer_account_at(lintelsong_buffer *b, uint8_t out[32], uint16_t place);

/* Writes the message at a position of the queue at a place of the order, and answers 1; past either end it writes a fresh message and answers
 * 0. `facts` are its kind, its mark (never set), its form and its time. */
uint8_t lintelsong_buffer_message_at(lintelsong_buffer *b, uint64_t facts[4], uint8_t address[32], uint8_t hash[32], uint16_t place, uint64_t position);

/* Makes a set of no accounts in any memory. Answers 0. */
uint8_t lintelsong_skipped_set_up(lintelsong_skipped *s);

/* How many accounts it holds. */
uint64_t lintelsong_skipped_len(lintelsong_skipped *s);

/* Whether it holds an account. */
uint8_t lintelsong_skipped_contains(lintelsong_skipped *s, const uint8_t name[32]);

/* Writes the account at a position, in the order in which they joined, and answers 1; past the end it writes zeros and answers 0. */
uint8_t lintelsong_skipped_account_at(lintelsong_skipped *s, uint8_t out[32], uint64_t position);

/* Sets a group up in any memory for S slots, 1 to 64. A refused one has room for one slot. */
uint8_t lintelsong_group_set_up(lintelsong_group *g, uint64_t slots);

/* Writes the room of the group, S, and what it holds: slots, accounts, messages, internals, externals. Answers 0. */
uint8_t lintelsong_group_counts(lintelsong_group *g, uint64_t out[6]);

/* Whether it has no slot. */
uint8_t lintelsong_group_is_empty(lintelsong_group *g);

/* Whether an account has a list in the group. */
uint8_t lintelsong_group_contains_account(lintelsong_group *g, const uint8_t name[32]);

/* Whether it is filled: at least as many slots as asked for, and every bucket below the height empty. */
uint8_t lintelsong_group_check_is_filled(lintelsong_group *g, uint64_t asked, uint64_t height);

/* Writes the last slot number that was given, and answers 1; 0 and 0 if none was. It is not the number of slots. */
uint8_t lintelsong_group_last_slot(lintelsong_group *g, uint16_t out[1]);

/* Writes the Display line to the start of what is lent and says how long it is; what is lent stays as it is where the line does not fit. */
uint64_t lintelsong_group_display(lintelsong_group *g, uint8_t *out, size_t out_len);

/* Writes the number of the slot at a position, by rising number, its internals and its externals, and answers 1; zeros and 0 past the end. */
uint8_t lintelsong_group_slot_at(lintelsong_group *g, uint64_t out[3], uint64_t position);

/* Writes the account with the k-th list, and answers 1; zeros and 0 past the end. */
uint8_t lintelsong_group_account_at(lintelsong_group *g, uint8_t out[32], uint64_t k);

/* Writes the k-th account of the slot at a position, and answers 1; zeros and 0 past either end. */
uint8_t lintelsong_group_slot_account_at(lintelsong_group *g, uint8_t out[32], uint64_t position, uint64_t k);

/* Writes the k-th message of an account's list, and answers 1; a fresh message and 0 past the end or without a list. */
uint8_t lintelsong_group_message_at(lintelsong_group *g, const uint8_t name[32], uint64_t facts[4], uint8_t address[32], uint8_t hash[32], uint64_t k);

/* Writes the k-th slot number that the bucket of a count lists, and answers 1; 0 and 0 past either end. */
uint8_t lintelsong_group_bucket_at(lintelsong_group *g, uint16_t out[1], uint64_t count, uint64_t k);

/* Joins the right group to the left: codes 14, 15, 12, in this order. The right is fresh afterwards; refused, both are as they were. */
uint8_t lintelsong_group_join(lintelsong_group *left, lintelsong_group *right);

/* Fills a group from a buffer: codes 9 to 13. A skip row is a name of 32 bytes, a verdict (0 does not skip) and a cost; there are as many as the
 * shortest of the three lists has, and `cost` is that of an account without one. A key row is a created_lt and a hash of 32 bytes. A `filtered`
 * of 0 is no filter; with any other, externals of a chain time below `below` are dropped. `out` gets how many messages were collected, the
 * operations, and how many were dropped. */
uint8_t lintelsong_fill(lintelsong_buffer *b, lintelsong_group *g, lintelsong_skipped *s, const uint8_t *names, size_t names_len, const uint8_t *verdicts, size_t verdicts_len, const uint64_t *costs, size_t costs_len, uint64_t *lts, size_t lts_len, uint8_t *hashes, size_t hashes_len, uint64_t out[3], uint64_t slots, uint64_t height, uint64_t cost, uint8_t filtered, uint64_t below);

#ifdef __cplusplus
}
#endif
#endif
