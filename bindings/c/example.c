/* A small collator: it sets a buffer, a group and a skipped set up, adds messages, fills the group, and prints what came of it.
 * bindings/build compiles it, runs it, and compares what it prints with example.out. */
#include "lintelsong.h"
#include <inttypes.h>
#include <stdio.h>
#include <stdlib.h>
#include <string.h>

enum { KEYS = 8, SLOTS = 2, HEIGHT = 2, BELOW = 100, LINE = 64 };

/* An account or a hash: a number, high byte first, in the last of 32 bytes. */
static void name_of(uint8_t out[32], uint8_t number) {
    memset(out, 0, 32);
    out[31] = number;
}

static uint8_t add(lintelsong_buffer *b, uint8_t kind, uint64_t time, uint8_t account, uint8_t number) {
    uint8_t address[32], hash[32];
    name_of(address, account);
    name_of(hash, number);
    return lintelsong_buffer_add(b, address, hash, time, kind, 0, 0);
}

static void print_buffer(lintelsong_buffer *b) {
    uint64_t n[6];
    lintelsong_buffer_counts(b, n);
    printf("buffer: room for %" PRIu64 " messages of %" PRIu64 " accounts; holds %" PRIu64 " messages of %" PRIu64 " accounts: %" PRIu64
           " internal, %" PRIu64 " external\n", n[0], n[1], n[2], n[3], n[4], n[5]);
    uint8_t account[32], address[32], hash[32];
    uint64_t facts[4];
    for (uint16_t place = 0; lintelsong_buffer_account_at(b, account, place); place++) {
        printf("  account %d:", account[31]);
        for (uint64_t k = 0; lintelsong_buffer_message_at(b, facts, address, hash, place, k); k++)
            printf(" %s of time %" PRIu64, facts[0] == 0 ? "internal" : "external", facts[3]);
        printf("\n");
    }
}

static void print_group(lintelsong_group *g) {
    uint8_t line[LINE], account[32];
    uint64_t long_ = lintelsong_group_display(g, line, sizeof line);
    /* a line that does not fit is not written */
    if (long_ <= sizeof line)
        printf("group: %.*s\n", (int)long_, (const char *)line);
    uint64_t slot[3];
    for (uint64_t at = 0; lintelsong_group_slot_at(g, slot, at); at++) {
        printf("  slot %" PRIu64 ": %" PRIu64 " internal, %" PRIu64 " external; accounts", slot[0], slot[1], slot[2]);
        for (uint64_t k = 0; lintelsong_group_slot_account_at(g, account, at, k); k++)
            printf(" %d", account[31]);
        printf("\n");
    }
}

/* Fills the group with account 8 skipped at cost 5, and prints what the fill says. */
static uint8_t fill(lintelsong_buffer *b, lintelsong_group *g, lintelsong_skipped *s) {
    uint8_t names[32], verdicts[1] = {1}, hashes[32 * KEYS] = {0};
    uint64_t costs[1] = {5}, lts[KEYS] = {0}, out[3];
    name_of(names, 8);
    uint8_t code = lintelsong_fill(b, g, s, names, sizeof names, verdicts, 1, costs, 1, lts, KEYS, hashes, sizeof hashes, out, SLOTS, HEIGHT, 0, 1, BELOW);
    printf("fill: code %d, collected %" PRIu64 ", operations %" PRIu64 ", dropped %" PRIu64 "\n", code, out[0], out[1], out[2]);
    printf("  skipped accounts: %" PRIu64 "; first key: %" PRIu64 " %d\n", lintelsong_skipped_len(s), lts[0], hashes[31]);
    return code;
}

int main(void) {
    lintelsong_buffer *b = malloc(sizeof *b);
    lintelsong_group *g = malloc(sizeof *g);
    lintelsong_skipped *s = malloc(sizeof *s);
    if (!b || !g || !s)
        return 1;
    /* set_up comes first, whatever the memory held */
    uint8_t codes = lintelsong_buffer_set_up(b, 8, 4) | lintelsong_group_set_up(g, SLOTS) | lintelsong_skipped_set_up(s);
    codes |= add(b, 1, 90, 7, 1) | add(b, 0, 5, 7, 2) | add(b, 0, 6, 8, 3) | add(b, 0, 7, 9, 4) | add(b, 1, 120, 9, 5);
    printf("a kind that is none: code %d\n", add(b, 2, 1, 7, 6));
    print_buffer(b);
    codes |= fill(b, g, s);
    print_group(g);
    print_buffer(b);
    free(s);
    free(g);
    free(b);
    return codes == LINTELSONG_DONE ? 0 : 1;
}
