/* The C functions of Groatlantern: see docs/C-API.md.
 *
 * A run is lent as a pointer and a number of elements. A caller owes only this: each pointer is valid for that many elements (any
 * aligned pointer that is not null where there are none), for the length of the call, and a run that is lent to be written overlaps
 * no other lent run. */
#ifndef GROATLANTERN_H
#define GROATLANTERN_H

#include <stddef.h>
#include <stdint.h>

#ifdef __cplusplus
extern "C" {
#endif

/* The status of an answer: 0, a refusal's number, or this where there is nothing to answer. */
#define GROAT_NONE UINT32_C(0xffffffff)

/* An answer that is one number; value is 0 unless status is 0. */
typedef struct GroatAnswer {
    uint32_t status;
    uint32_t value;
} GroatAnswer;

/* A place in a lent run; next is 0 unless status is 0. */
typedef struct GroatPlace {
    uint32_t status;
    uint64_t next;
} GroatPlace;

/* The common prefix of two keys: its length, and 0, 1 or 2 as the first key is less, equal or greater. */
typedef struct GroatCommon {
    uint64_t lcp;
    uint32_t ord;
} GroatCommon;

/* The parts of an element; the last three are 0 or 1. */
typedef struct GroatNode {
    uint32_t base;
    uint32_t check;
    uint32_t leaf;
    uint32_t marked;
    uint32_t vacant;
} GroatNode;

/* The smallest number of bytes that holds n. */
uint8_t groat_pack_size(uint32_t n);

/* Packs the lowest nbytes bytes of n into out from the place at on: the place behind them, or GROAT_NONE. */
GroatPlace groat_pack_u32(uint8_t *out, size_t out_len, size_t at, uint32_t n, uint8_t nbytes);

/* The number in the first nbytes bytes of slice, or GROAT_NONE. */
GroatAnswer groat_unpack_u32(const uint8_t *slice, size_t slice_len, uint8_t nbytes);

/* The length of the longest common prefix of two keys, and their order. */
GroatCommon groat_longest_common_prefix(const uint32_t *a, size_t a_len, const uint32_t *b, size_t b_len);

/* The parts of the element with these two numbers. */
GroatNode groat_node(uint32_t base, uint32_t check);

/* 1 if c is a character, else 0. */
uint32_t groat_is_character(uint32_t c);

/* The code of a character in a table; all ones where it has none. */
uint32_t groat_code_of(const uint32_t *table, size_t table_len, uint32_t c);

/* The value of a key in a dictionary of the plain form; GROAT_NONE, or refusal 12, 11, 2 or 22. */
GroatAnswer groat_trie_exact_match(const uint32_t *table, size_t table_len, const uint32_t *base, size_t base_len, const uint32_t *check, size_t check_len, const uint32_t *query, size_t query_len);

/* The value of a key in a dictionary of the minimal-prefix form; GROAT_NONE, or refusal 12, 11, 2 or 22. */
GroatAnswer groat_mptrie_exact_match(const uint32_t *table, size_t table_len, const uint32_t *base, size_t base_len, const uint32_t *check, size_t check_len, const uint8_t *tails, size_t tails_len, uint8_t code_width, uint8_t value_width, const uint32_t *query, size_t query_len);

/* The keys that begin a query, in a dictionary of the plain form, shortest first: their values and lengths, and in next how many; or refusal 12, 11, 2, 22 or 23. */
GroatPlace groat_trie_common_prefix_search(const uint32_t *table, size_t table_len, const uint32_t *base, size_t base_len, const uint32_t *check, size_t check_len, const uint32_t *query, size_t query_len, uint32_t *values, size_t values_len, uint32_t *lengths, size_t lengths_len);

/* How many elements a dictionary of the plain form has, in next; or refusal 12. */
GroatPlace groat_trie_num_elems(const uint32_t *table, size_t table_len, const uint32_t *base, size_t base_len, const uint32_t *check, size_t check_len);

/* How many of them are vacant, in next; or refusal 12. */
GroatPlace groat_trie_num_vacants(const uint32_t *table, size_t table_len, const uint32_t *base, size_t base_len, const uint32_t *check, size_t check_len);

/* How many bytes it takes when it is written, in next; or refusal 12. */
GroatPlace groat_trie_io_bytes(const uint32_t *table, size_t table_len, const uint32_t *base, size_t base_len, const uint32_t *check, size_t check_len);

/* The keys that begin a query, in a dictionary of the minimal-prefix form, shortest first: their values and lengths, and in next how many; or refusal 12, 11, 2, 22 or 23. */
GroatPlace groat_mptrie_common_prefix_search(const uint32_t *table, size_t table_len, const uint32_t *base, size_t base_len, const uint32_t *check, size_t check_len, const uint8_t *tails, size_t tails_len, uint8_t code_width, uint8_t value_width, const uint32_t *query, size_t query_len, uint32_t *values, size_t values_len, uint32_t *lengths, size_t lengths_len);

#ifdef __cplusplus
}
#endif

#endif
