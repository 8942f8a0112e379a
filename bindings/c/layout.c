/* The states of the exports field by field, and checks at compile time that this compiler lays them out as the archives do: there is nothing
 * in it to link. Written by tools/walks.py from the structs that the crates export_* declare; the offsets are those that C gives them. */
#include "lintelsong.h"

static_assert(sizeof(size_t) == 8, "size_t");

struct buffer {
    uint16_t owner[2048];
    uint8_t kind[2048];
    uint8_t form[2048];
    uint64_t time[2048];
    uint8_t address[65536];
    uint8_t hash[65536];
    uint8_t accounts[16384];
    uint64_t numbers[528];
};
static_assert(offsetof(struct buffer, owner) == 0, "buffer.owner");
static_assert(offsetof(struct buffer, kind) == 4096, "buffer.kind");
static_assert(offsetof(struct buffer, form) == 6144, "buffer.form");
static_assert(offsetof(struct buffer, time) == 8192, "buffer.time");
static_assert(offsetof(struct buffer, address) == 24576, "buffer.address");
static_assert(offsetof(struct buffer, hash) == 90112, "buffer.hash");
static_assert(offsetof(struct buffer, accounts) == 155648, "buffer.accounts");
static_assert(offsetof(struct buffer, numbers) == 172032, "buffer.numbers");
static_assert(sizeof(struct buffer) == sizeof(lintelsong_buffer), "size of buffer");
static_assert(alignof(struct buffer) == alignof(lintelsong_buffer), "alignment of buffer");

struct group {
    uint16_t number[64];
    uint8_t ints[64];
    uint8_t exts[64];
    uint8_t accounts[32768];
    uint8_t home[1024];
    uint16_t owner[1024];
    uint8_t kind[1024];
    uint8_t form[1024];
    uint64_t time[1024];
    uint8_t address[32768];
    uint8_t hash[32768];
    uint32_t buckets[1088];
    uint64_t numbers[16];
};
static_assert(offsetof(struct group, number) == 0, "group.number");
static_assert(offsetof(struct group, ints) == 128, "group.ints");
static_assert(offsetof(struct group, exts) == 192, "group.exts");
static_assert(offsetof(struct group, accounts) == 256, "group.accounts");
static_assert(offsetof(struct group, home) == 33024, "group.home");
static_assert(offsetof(struct group, owner) == 34048, "group.owner");
static_assert(offsetof(struct group, kind) == 36096, "group.kind");
static_assert(offsetof(struct group, form) == 37120, "group.form");
static_assert(offsetof(struct group, time) == 38144, "group.time");
static_assert(offsetof(struct group, address) == 46336, "group.address");
static_assert(offsetof(struct group, hash) == 79104, "group.hash");
static_assert(offsetof(struct group, buckets) == 111872, "group.buckets");
static_assert(offsetof(struct group, numbers) == 116224, "group.numbers");
static_assert(sizeof(struct group) == sizeof(lintelsong_group), "size of group");
static_assert(alignof(struct group) == alignof(lintelsong_group), "alignment of group");

struct skipped {
    uint8_t accounts[16384];
    uint64_t held;
};
static_assert(offsetof(struct skipped, accounts) == 0, "skipped.accounts");
static_assert(offsetof(struct skipped, held) == 16384, "skipped.held");
static_assert(sizeof(struct skipped) == sizeof(lintelsong_skipped), "size of skipped");
static_assert(alignof(struct skipped) == alignof(lintelsong_skipped), "alignment of skipped");
