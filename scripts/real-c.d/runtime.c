/* The fixed functions, over byte strings whose answers are known: those for the bytewise order of keys, or for the length-first one where LENGTH_FIRST is defined. Each string stands in memory of its own length, so that a sanitizer sees a read or a write outside. */
#include <stdint.h>
#include <stdio.h>
#include <stdlib.h>
#include <string.h>

/* An answer that the order of keys decides. */
#ifdef LENGTH_FIRST
#define IN_ORDER(bytewise, length_first) (length_first)
#else
#define IN_ORDER(bytewise, length_first) (bytewise)
#endif

uint64_t head_end(const uint8_t *buf, uint64_t len, uint64_t at);
uint64_t head_argument(const uint8_t *buf, uint64_t at);
uint64_t head_within(const uint8_t *buf, uint64_t len, uint64_t at, uint64_t major, uint64_t lo, uint64_t hi);
uint64_t compare_bytes(const uint8_t *left, uint64_t left_len, const uint8_t *right, uint64_t right_len);
uint64_t utf8_valid(const uint8_t *text, uint64_t len);
uint64_t head_length(uint64_t argument);
uint64_t put_head(uint8_t *out, uint64_t at, uint64_t major, uint64_t argument);
uint64_t copy_bytes(uint8_t *out, uint64_t at, const uint8_t *from, uint64_t count);
uint64_t item_end(const uint8_t *buf, uint64_t len, uint64_t at);
uint64_t any_0(const uint8_t *buf, uint64_t len, uint64_t at);
uint64_t any_1(const uint8_t *buf, uint64_t len, uint64_t at);
uint64_t any_2(const uint8_t *buf, uint64_t len, uint64_t at);
uint64_t any_32(const uint8_t *buf, uint64_t len, uint64_t at);

static int failures = 0;

static void expect(const char *what, size_t row, uint64_t answer, uint64_t wanted) {
  if (answer != wanted) {
    printf("%s, row %zu: %llu, not %llu\n", what, row, (unsigned long long)answer, (unsigned long long)wanted);
    failures++;
  }
}

/* Memory of exactly these bytes. Where there is none it begins where an allocated byte ends, so that no byte of it can be read. */
static uint8_t *exactly(const char *bytes, size_t len) {
  uint8_t *memory = malloc(len == 0 ? 1 : len);
  if (memory == NULL) {
    exit(2);
  }
  memcpy(memory, bytes, len);
  return len == 0 ? memory + 1 : memory;
}

/* Gives memory back that is of exactly so many bytes. */
static void release(uint8_t *memory, size_t len) {
  free(len == 0 ? memory - 1 : memory);
}

/* Bytes, and the place behind the head at their front, or 0, its major type and its argument. */
struct head_row {
  const char *bytes;
  size_t len;
  uint64_t end, major, argument;
};

static const struct head_row heads[] = {
  {"", 0, 0, 0, 0},
  {"\x00", 1, 1, 0, 0},
  {"\x17", 1, 1, 0, 23},
  {"\x18", 1, 0, 0, 0},
  {"\x18\x17", 2, 0, 0, 0},
  {"\x18\x18", 2, 2, 0, 24},
  {"\x18\xff", 2, 2, 0, 255},
  {"\x19\x01", 2, 0, 0, 0},
  {"\x19\x00\xff", 3, 0, 0, 0},
  {"\x19\x01\x00", 3, 3, 0, 256},
  {"\x39\x03\xe7", 3, 3, 1, 999},
  {"\x1a\x00\x00\xff\xff", 5, 0, 0, 0},
  {"\x1a\x00\x01\x00\x00", 5, 5, 0, 65536},
  {"\x1a\x00\x0f\x42\x40", 5, 5, 0, 1000000},
  {"\x1a\x00\x0f\x42", 4, 0, 0, 0},
  {"\x1b\x00\x00\x00\x00\xff\xff\xff\xff", 9, 0, 0, 0},
  {"\x1b\x00\x00\x00\x01\x00\x00\x00\x00", 9, 9, 0, 4294967296u},
  {"\x1b\x00\x00\x00\xe8\xd4\xa5\x10\x00", 9, 9, 0, 1000000000000u},
  {"\x3b\xff\xff\xff\xff\xff\xff\xff\xff", 9, 9, 1, UINT64_MAX},
  {"\x3b\xff\xff\xff\xff\xff\xff\xff", 8, 0, 0, 0},
  {"\x1c", 1, 0, 0, 0},
  {"\x1f", 1, 0, 0, 0},
  {"\x44\x01\x02\x03\x04", 5, 1, 2, 4},
  {"\x5f\xff", 2, 0, 0, 0},
  {"\x64IETF", 5, 1, 3, 4},
  {"\x98\x19", 2, 2, 4, 25},
  {"\xb8\x17", 2, 0, 0, 0},
  {"\xd9\xd9\xf7", 3, 3, 6, 55799},
  {"\xf4", 1, 1, 7, 20},
  {"\xf8\x1f", 2, 0, 0, 0},
  {"\xf8\x20", 2, 2, 7, 32},
  {"\xf9\x00\x00", 3, 0, 0, 0},
  {"\xfb\x3f\xf1\x99\x99\x99\x99\x99\x9a", 9, 0, 0, 0},
  {"\xff", 1, 0, 0, 0},
};

static void try_heads(void) {
  size_t row;
  for (row = 0; row < sizeof heads / sizeof heads[0]; row++) {
    const struct head_row *r = &heads[row];
    uint8_t *buf = exactly(r->bytes, r->len);
    expect("head_end", row, head_end(buf, r->len, 0), r->end);
    expect("head_within", row, head_within(buf, r->len, 0, r->major, r->argument, r->argument), r->end);
    expect("head_within another major type", row, head_within(buf, r->len, 0, r->major ^ 1u, 0, UINT64_MAX), 0);
    if (r->end != 0) {
      expect("head_argument", row, head_argument(buf, 0), r->argument);
      expect("head_within all", row, head_within(buf, r->len, 0, r->major, 0, UINT64_MAX), r->end);
      expect("head_end at the end", row, head_end(buf, r->len, r->len), 0);
    }
    release(buf, r->len);
  }
}

/* The head of each row that has one is written again, between two bytes that stay. */
static void try_put_head(void) {
  size_t row;
  for (row = 0; row < sizeof heads / sizeof heads[0]; row++) {
    const struct head_row *r = &heads[row];
    uint8_t *out;
    if (r->end == 0) {
      continue;
    }
    out = malloc(r->end + 2);
    if (out == NULL) {
      exit(2);
    }
    memset(out, 0xa5, r->end + 2);
    expect("head_length", row, head_length(r->argument), r->end);
    expect("put_head", row, put_head(out, 1, r->major, r->argument), r->end + 1);
    expect("put_head bytes", row, memcmp(out + 1, r->bytes, r->end) != 0, 0);
    expect("put_head before", row, out[0], 0xa5);
    expect("put_head behind", row, out[r->end + 1], 0xa5);
    free(out);
  }
}

struct order_row {
  const char *left;
  size_t left_len;
  const char *right;
  size_t right_len;
  uint64_t order;
};

static const struct order_row orders[] = {
  {"", 0, "", 0, 1},
  {"", 0, "\x07", 1, 0},
  {"\x07", 1, "", 0, 2},
  {"\x07", 1, "\x07", 1, 1},
  {"\x06", 1, "\x07", 1, 0},
  {"\x80", 1, "\x7f", 1, 2},
  {"\x01\x02", 2, "\x01", 1, 2},
  {"\x01", 1, "\x01\x02", 2, 0},
  {"\x01\x02\x03", 3, "\x01\x02\x04", 3, 0},
  {"\x02", 1, "\x01\xff\xff", 3, IN_ORDER(2, 0)},
  {"\x20", 1, "\x18\x64", 2, IN_ORDER(2, 0)},
  {"\xff\x00", 2, "\xff\x00", 2, 1},
};

static void try_orders(void) {
  size_t row;
  for (row = 0; row < sizeof orders / sizeof orders[0]; row++) {
    const struct order_row *r = &orders[row];
    uint8_t *left = exactly(r->left, r->left_len);
    uint8_t *right = exactly(r->right, r->right_len);
    expect("compare_bytes", row, compare_bytes(left, r->left_len, right, r->right_len), r->order);
    expect("compare_bytes turned round", row, compare_bytes(right, r->right_len, left, r->left_len), 2 - r->order);
    release(left, r->left_len);
    release(right, r->right_len);
  }
}

struct text_row {
  const char *bytes;
  size_t len;
  uint64_t valid;
};

static const struct text_row texts[] = {
  {"", 0, 1},
  {"IETF", 4, 1},
  {"\x00", 1, 1},
  {"\x7f", 1, 1},
  {"\x80", 1, 0},
  {"\xc1\xbf", 2, 0},
  {"\xc2\x80", 2, 1},
  {"\xc3", 1, 0},
  {"\xc3\x28", 2, 0},
  {"\xe0\x9f\xbf", 3, 0},
  {"\xe0\xa0\x80", 3, 1},
  {"\xe6\xb0\xb4", 3, 1},
  {"\xe6\xb0", 2, 0},
  {"\xed\x9f\xbf", 3, 1},
  {"\xed\xa0\x80", 3, 0},
  {"\xef\xbf\xbf" "A", 4, 1},
  {"\xf0\x8f\xbf\xbf", 4, 0},
  {"\xf0\x90\x85\x91", 4, 1},
  {"\xf0\x90\x85", 3, 0},
  {"\xf4\x8f\xbf\xbf", 4, 1},
  {"\xf4\x90\x80\x80", 4, 0},
  {"\xf5\x80\x80\x80", 4, 0},
  {"A\xff", 2, 0},
};

static void try_texts(void) {
  size_t row;
  for (row = 0; row < sizeof texts / sizeof texts[0]; row++) {
    const struct text_row *r = &texts[row];
    uint8_t *text = exactly(r->bytes, r->len);
    expect("utf8_valid", row, utf8_valid(text, r->len), r->valid);
    release(text, r->len);
  }
}

static void try_copies(void) {
  static const char source[] = "\x01\x02\x03\x04\x05";
  size_t count;
  for (count = 0; count <= 5; count++) {
    uint8_t *from = exactly(source, count);
    uint8_t out[7];
    memset(out, 0xa5, sizeof out);
    expect("copy_bytes", count, copy_bytes(out, 1, from, count), count + 1);
    expect("copy_bytes bytes", count, memcmp(out + 1, source, count) != 0, 0);
    expect("copy_bytes before", count, out[0], 0xa5);
    expect("copy_bytes behind", count, out[count + 1], 0xa5);
    release(from, count);
  }
}

/* Bytes, and the place behind the item at their front, or 0: whatever its depth, its texts and the order of its keys, and where it is valid and at most 0, 1, 2 and 32 deep. */
struct item_row {
  const char *bytes;
  size_t len;
  uint64_t end;
  uint64_t ends[4];
};

#define ITEM(bytes, end, at_0, at_1, at_2, at_32) {bytes, sizeof bytes - 1, end, {at_0, at_1, at_2, at_32}}

/* The rows of depths of `ecd_emitted_rows`, in the same order: one line each. */
static const struct item_row items[] = {
  ITEM("", 0, 0, 0, 0, 0),
  ITEM("\x00", 1, 1, 1, 1, 1),
  ITEM("\x17\x00", 1, 1, 1, 1, 1),
  ITEM("\x18", 0, 0, 0, 0, 0),
  ITEM("\x18\x17", 0, 0, 0, 0, 0),
  ITEM("\x18\x18", 2, 2, 2, 2, 2),
  ITEM("\x18\xff\x00", 2, 2, 2, 2, 2),
  ITEM("\x19\x03\xe8", 3, 3, 3, 3, 3),
  ITEM("\x19\x00\xff", 0, 0, 0, 0, 0),
  ITEM("\x1a\x00\x00\xff\xff", 0, 0, 0, 0, 0),
  ITEM("\x1b\x00\x00\x00\x01\x00\x00\x00\x00", 9, 9, 9, 9, 9),
  ITEM("\x1b\xff\xff\xff\xff\xff\xff\xff\xff", 9, 9, 9, 9, 9),
  ITEM("\x1c", 0, 0, 0, 0, 0),
  ITEM("\x1f", 0, 0, 0, 0, 0),
  ITEM("\x20", 1, 1, 1, 1, 1),
  ITEM("\x38\x17", 0, 0, 0, 0, 0),
  ITEM("\x3b\xff\xff\xff\xff\xff\xff\xff\xff", 9, 9, 9, 9, 9),
  ITEM("\x40", 1, 1, 1, 1, 1),
  ITEM("\x41", 0, 0, 0, 0, 0),
  ITEM("\x44\x01\x02\x03", 0, 0, 0, 0, 0),
  ITEM("\x44\x01\x02\x03\x04\x05", 5, 5, 5, 5, 5),
  ITEM("\x5b\xff\xff\xff\xff\xff\xff\xff\xff\x00", 0, 0, 0, 0, 0),
  ITEM("\x5f\x40\xff", 0, 0, 0, 0, 0),
  ITEM("\x60", 1, 1, 1, 1, 1),
  ITEM("\x61\x80", 2, 0, 0, 0, 0),
  ITEM("\x62\xc3\xa9", 3, 3, 3, 3, 3),
  ITEM("\x62\xc3\x28", 3, 0, 0, 0, 0),
  ITEM("\x62\xc0\x80", 3, 0, 0, 0, 0),
  ITEM("\x63\xe2\x82\xac", 4, 4, 4, 4, 4),
  ITEM("\x63\xed\xa0\x80", 4, 0, 0, 0, 0),
  ITEM("\x64\xf0\x9f\x8d\x84", 5, 5, 5, 5, 5),
  ITEM("\x64\xf4\x90\x80\x80", 5, 0, 0, 0, 0),
  ITEM("\x64\x49\x45\x54", 0, 0, 0, 0, 0),
  ITEM("\x64\x49\x45\x54\x46\x00", 5, 5, 5, 5, 5),
  ITEM("\x7b\xff\xff\xff\xff\xff\xff\xff\xff\x00", 0, 0, 0, 0, 0),
  ITEM("\x80", 1, 0, 1, 1, 1),
  ITEM("\x80\x80", 1, 0, 1, 1, 1),
  ITEM("\x81", 0, 0, 0, 0, 0),
  ITEM("\x81\x00", 2, 0, 2, 2, 2),
  ITEM("\x81\xff", 0, 0, 0, 0, 0),
  ITEM("\x81\x61\xff", 3, 0, 0, 0, 0),
  ITEM("\x81\x81\x80", 3, 0, 0, 0, 3),
  ITEM("\x82\x00", 0, 0, 0, 0, 0),
  ITEM("\x82\x00\x01\x02", 3, 0, 3, 3, 3),
  ITEM("\x82\x80\x80", 3, 0, 0, 3, 3),
  ITEM("\x82\x80\xa0", 3, 0, 0, 3, 3),
  ITEM("\x82\x61\x61\x61\xfe", 5, 0, 0, 0, 0),
  ITEM("\x83\x01\x82\x02\x03\x82\x04\x05", 8, 0, 0, 8, 8),
  ITEM("\x83\x01\x82\x02\x03\x82\x04", 0, 0, 0, 0, 0),
  ITEM("\x98\x18", 0, 0, 0, 0, 0),
  ITEM("\x98\x17\x00", 0, 0, 0, 0, 0),
  ITEM("\x9b\xff\xff\xff\xff\xff\xff\xff\xff", 0, 0, 0, 0, 0),
  ITEM("\x9f\xff", 0, 0, 0, 0, 0),
  ITEM("\xa0", 1, 0, 1, 1, 1),
  ITEM("\xa1\x01", 0, 0, 0, 0, 0),
  ITEM("\xa1\x01\x02", 3, 0, 3, 3, 3),
  ITEM("\xa1\x80\x80", 3, 0, 0, 3, 3),
  ITEM("\xa1\x80\xa0", 3, 0, 0, 3, 3),
  ITEM("\xa1\x81\x80\xa1\x00\x01", 6, 0, 0, 0, 6),
  ITEM("\xa1\x61\xff\x00", 4, 0, 0, 0, 0),
  ITEM("\xa1\x00\x61\xff", 4, 0, 0, 0, 0),
  ITEM("\xa2\x01\x02", 0, 0, 0, 0, 0),
  ITEM("\xa2\x01\x02\x03\x04\x05", 5, 0, 5, 5, 5),
  ITEM("\xa2\x02\x00\x01\x00", 5, 0, 0, 0, 0),
  ITEM("\xa2\x01\x00\x01\x00", 5, 0, 0, 0, 0),
  ITEM("\xa2\x01\x00\x18\x64\x00", 6, 0, 6, 6, 6),
  ITEM("\xa2\x18\x64\x00\x01\x00", 6, 0, 0, 0, 0),
  ITEM("\xa2\x20\x00\x18\x64\x00", 6, 0, IN_ORDER(0, 6), IN_ORDER(0, 6), IN_ORDER(0, 6)),
  ITEM("\xa2\x61\x61\x01\x61\x62\x82\x02\x03", 9, 0, 0, 9, 9),
  ITEM("\xa2\x61\x62\x01\x61\x61\x02", 7, 0, 0, 0, 0),
  ITEM("\xa2\x61\x61\x00\x62\x61\x61\x00", 8, 0, 8, 8, 8),
  ITEM("\xa2\x62\x61\x61\x00\x61\x62\x00", 8, 0, 0, 0, 0),
  ITEM("\xa2\x80\x00\x81\x00\x00", 6, 0, 0, 6, 6),
  ITEM("\xa2\xa0\x00\xa0\x01", 5, 0, 0, 0, 0),
  ITEM("\xa3\x00\x01\x20\x02\x40\x03", 7, 0, 7, 7, 7),
  ITEM("\xa3\x00\x01\x40\x02\x20\x03", 7, 0, 0, 0, 0),
  ITEM("\xa1\xa2\x01\x00\x01\x00\x00", 7, 0, 0, 0, 0),
  ITEM("\x81\xa2\x02\x00\x01\x00", 6, 0, 0, 0, 0),
  ITEM("\xbb\x7f\xff\xff\xff\xff\xff\xff\xff", 0, 0, 0, 0, 0),
  ITEM("\xbb\x80\x00\x00\x00\x00\x00\x00\x00", 0, 0, 0, 0, 0),
  ITEM("\xbb\xff\xff\xff\xff\xff\xff\xff\xff\x00", 0, 0, 0, 0, 0),
  ITEM("\xbf\xff", 0, 0, 0, 0, 0),
  ITEM("\xc0", 0, 0, 0, 0, 0),
  ITEM("\xc1\x00", 2, 0, 2, 2, 2),
  ITEM("\xc1\x1a\x51\x4b\x67\xb0", 6, 0, 6, 6, 6),
  ITEM("\xc1\xc1\x00", 3, 0, 0, 3, 3),
  ITEM("\xc1\xc1\x81\xc1\x00", 5, 0, 0, 0, 5),
  ITEM("\xd8\x17\x00", 0, 0, 0, 0, 0),
  ITEM("\xd8\x18\x45\x64\x49\x45\x54\x46", 8, 0, 8, 8, 8),
  ITEM("\xd9\xd9\xf7\x82\x00\x00", 6, 0, 0, 6, 6),
  ITEM("\xdb\xff\xff\xff\xff\xff\xff\xff\xff\xf6", 10, 0, 10, 10, 10),
  ITEM("\xe0", 1, 1, 1, 1, 1),
  ITEM("\xf3", 1, 1, 1, 1, 1),
  ITEM("\xf4", 1, 1, 1, 1, 1),
  ITEM("\xf8\x18", 0, 0, 0, 0, 0),
  ITEM("\xf8\x20", 2, 2, 2, 2, 2),
  ITEM("\xf8\xff\x00", 2, 2, 2, 2, 2),
  ITEM("\xf9\x00\x00", 0, 0, 0, 0, 0),
  ITEM("\x82\xf9\x00\x00", 0, 0, 0, 0, 0),
  ITEM("\xff", 0, 0, 0, 0, 0),
};

static uint64_t (*const any[])(const uint8_t *, uint64_t, uint64_t) = {any_0, any_1, any_2, any_32};
static const char *const any_names[] = {"any_0", "any_1", "any_2", "any_32"};

static void try_items(void) {
  size_t row, k;
  for (row = 0; row < sizeof items / sizeof items[0]; row++) {
    const struct item_row *r = &items[row];
    uint8_t *buf = exactly(r->bytes, r->len);
    expect("item_end", row, item_end(buf, r->len, 0), r->end);
    for (k = 0; k < sizeof any / sizeof any[0]; k++) {
      expect(any_names[k], row, any[k](buf, r->len, 0), r->ends[k]);
    }
    release(buf, r->len);
  }
}

/* Where fewer bytes are there than those of the item, none is found. */
static void try_items_cut_off(void) {
  size_t row, len, k;
  for (row = 0; row < sizeof items / sizeof items[0]; row++) {
    const struct item_row *r = &items[row];
    for (len = 0; len < (r->end == 0 ? r->len : r->end); len++) {
      uint8_t *buf = exactly(r->bytes, len);
      expect("item_end of an item cut off", row, item_end(buf, len, 0), 0);
      for (k = 0; k < sizeof any / sizeof any[0]; k++) {
        expect("any of an item cut off", row, any[k](buf, len, 0), 0);
      }
      release(buf, len);
    }
  }
}

int main(void) {
  try_items();
  try_items_cut_off();
  try_heads();
  try_put_head();
  try_orders();
  try_texts();
  try_copies();
  return failures != 0;
}
