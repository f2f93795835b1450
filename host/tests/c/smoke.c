/* The header, compiled and called from C. */
#include <stdio.h>

#include "groatlantern.h"

static int failures = 0;

static void expect(int held, const char *what) {
    if (!held) {
        printf("not so: %s\n", what);
        failures++;
    }
}

int main(void) {
    uint8_t out[6] = {9, 9, 9, 9, 9, 9};
    GroatPlace place = groat_pack_u32(out, 6, 1, 0x030201, 3);
    expect(place.status == 0 && place.next == 4, "three bytes are packed");
    expect(out[0] == 9 && out[1] == 1 && out[2] == 2 && out[3] == 3 && out[4] == 9, "and nothing else is written");
    place = groat_pack_u32(out, 6, 4, 1, 3);
    expect(place.status == GROAT_NONE && place.next == 0, "three bytes do not fit in two");
    GroatAnswer number = groat_unpack_u32(out + 1, 5, 3);
    expect(number.status == 0 && number.value == 0x030201, "and unpacked");
    number = groat_unpack_u32(out, 6, 5);
    expect(number.status == GROAT_NONE && number.value == 0, "a width of five has no answer");
    expect(groat_pack_size(65536) == 3, "65536 takes three bytes");
    const uint32_t a[2] = {1, 2}, b[3] = {1, 2, 3};
    GroatCommon common = groat_longest_common_prefix(a, 2, b, 3);
    expect(common.lcp == 2 && common.ord == 0, "a proper prefix is less");
    GroatNode node = groat_node(0x80000005u, 7);
    expect(node.base == 5 && node.check == 7 && node.leaf == 1 && node.marked == 0 && node.vacant == 0, "a leaf's parts");
    expect(groat_is_character(0xd800) == 0 && groat_is_character(0xd7ff) == 1, "surrogates are no characters");
    const uint32_t table[2] = {UINT32_C(0xffffffff), 4};
    expect(groat_code_of(table, 2, 1) == 4 && groat_code_of(table, 2, 2) == UINT32_C(0xffffffff), "codes");
    const uint32_t base[2] = {0, 0x80000007u}, check[2] = {0x7fffffff, 0};
    const uint32_t codes[3] = {UINT32_C(0xffffffff), 1, UINT32_C(0xffffffff)};
    const uint32_t key[1] = {1}, other[1] = {2}, marker[1] = {0xffff};
    GroatAnswer found = groat_trie_exact_match(codes, 3, base, 2, check, 2, key, 1);
    expect(found.status == 0 && found.value == 7, "a key has its value");
    found = groat_trie_exact_match(codes, 3, base, 2, check, 2, other, 1);
    expect(found.status == GROAT_NONE && found.value == 0, "another has none");
    found = groat_trie_exact_match(codes, 3, base, 2, check, 2, marker, 1);
    expect(found.status == 2, "the end marker is refused");
    found = groat_trie_exact_match(codes, 3, base, 0, check, 2, key, 1);
    expect(found.status == 22, "no elements are outside");
    const uint32_t mp_base[2] = {0, 0x80000000u}, mp_check[2] = {0x7fffffff, 0};
    const uint8_t tails[2] = {0, 7};
    found = groat_mptrie_exact_match(codes, 3, mp_base, 2, mp_check, 2, tails, 2, 1, 1, key, 1);
    expect(found.status == 0 && found.value == 7, "a key has its value in its tail");
    found = groat_mptrie_exact_match(codes, 3, mp_base, 2, mp_check, 2, tails, 1, 1, 1, key, 1);
    expect(found.status == 22, "a value behind the tails is outside");
    uint32_t values[2] = {9, 9}, lengths[2] = {9, 9};
    place = groat_trie_common_prefix_search(codes, 3, base, 2, check, 2, key, 1, values, 2, lengths, 2);
    expect(place.status == 0 && place.next == 1 && values[0] == 7 && lengths[0] == 1, "the key begins itself");
    expect(values[1] == 9 && lengths[1] == 9, "and nothing else is written");
    place = groat_trie_common_prefix_search(codes, 3, base, 2, check, 2, key, 1, values, 0, lengths, 2);
    expect(place.status == 23 && place.next == 0, "there is no room for it");
    place = groat_trie_num_elems(codes, 3, base, 2, check, 1);
    expect(place.status == 0 && place.next == 1, "the shorter run counts");
    place = groat_trie_num_vacants(codes, 3, base, 2, check, 2);
    expect(place.status == 0 && place.next == 0, "none is vacant");
    place = groat_trie_io_bytes(codes, 3, base, 2, check, 2);
    expect(place.status == 0 && place.next == 40, "the size of the bytes");
    values[0] = lengths[0] = 9;
    place = groat_mptrie_common_prefix_search(codes, 3, mp_base, 2, mp_check, 2, tails, 2, 1, 1, key, 1, values, 2, lengths, 2);
    expect(place.status == 0 && place.next == 1 && values[0] == 7 && lengths[0] == 1, "the key begins itself there too");
    return failures != 0;
}
