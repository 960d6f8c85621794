/* The reader of a schema that is one number from 0 to 23, and what it must do with the first bytes of a buffer. */
#include <stdint.h>
#include <stdio.h>

struct s0 {
  uint64_t unit;
};

uint64_t read_0(const uint8_t *buf, uint64_t len, struct s0 *out);

/* A value that the reader never writes. */
#define UNTOUCHED 77u

/* Calls the reader, and answers 1 where its answer or the struct is not as wanted. */
static int differs(const char *name, const uint8_t *buf, uint64_t len, uint64_t consumed) {
  struct s0 out = {UNTOUCHED};
  uint64_t answer = read_0(buf, len, &out);
  uint64_t unit = consumed == 0 ? UNTOUCHED : 0;
  if (answer == consumed && out.unit == unit) {
    return 0;
  }
  printf("%s: answer %llu, unit %llu\n", name, (unsigned long long)answer, (unsigned long long)out.unit);
  return 1;
}

/* Tries every first byte, alone and before a further one, and the empty buffer. */
static int differs_somewhere(uint8_t number) {
  int failures = 0;
  unsigned first;
  for (first = 0; first < 256; first++) {
    uint8_t bytes[2];
    bytes[0] = (uint8_t)first;
    bytes[1] = number;
    failures += differs("one byte", bytes, 1, first == number ? 1 : 0);
    failures += differs("two bytes", bytes, 2, first == number ? 1 : 0);
    failures += differs("no byte of some", bytes, 0, 0);
  }
  failures += differs("no byte", &number, 0, 0);
  return failures != 0;
}
