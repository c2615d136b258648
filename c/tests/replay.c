/* The fuzz target without a fuzzer: each file named is an input, and so is each prefix of it, and
 * it with each byte omitted or replaced. Prints the number of inputs. */
#include <stddef.h>
#include <stdint.h>
#include <stdio.h>
#include <string.h>

int LLVMFuzzerTestOneInput(const uint8_t *data, size_t size);

enum { LONGEST = 4096 };

static long inputs;

static void one(const uint8_t *data, size_t size) {
  LLVMFuzzerTestOneInput(data, size);
  ++inputs;
}

static void changed(const uint8_t *data, size_t size) {
  static const uint8_t others[] = {0, ' ', '"', '%', '(', ',', '1', ';', '=', 'a', 0xff};
  uint8_t other[LONGEST];
  for (size_t i = 0; i < size; ++i) {
    memcpy(other, data, size);
    memmove(other + i, other + i + 1, size - i - 1);
    one(other, size - 1);
    for (size_t b = 0; b < sizeof others; ++b) {
      memcpy(other, data, size);
      other[i] = others[b];
      one(other, size);
    }
  }
}

int main(int argc, char **argv) {
  for (int i = 1; i < argc; ++i) {
    uint8_t data[LONGEST];
    FILE *file = fopen(argv[i], "rb");
    if (file == NULL) {
      fprintf(stderr, "replay: no %s\n", argv[i]);
      return 2;
    }
    size_t size = fread(data, 1, sizeof data, file);
    int whole = feof(file);
    fclose(file);
    if (size == 0 || !whole) {
      fprintf(stderr, "replay: %s is empty, too long or can't be read\n", argv[i]);
      return 2;
    }
    for (size_t front = 0; front <= size; ++front)
      one(data, front);
    changed(data, size);
  }
  printf("%ld inputs\n", inputs);
  return inputs == 0;
}
