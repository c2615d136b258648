/* A fuzz target for the archive, for libFuzzer. The first byte of an input selects the kind, the
 * dialect and the pointer that goes with a length of 0; the rest is a text, on which
 * tests/comparisons.h compares what the calls say of it. */
#define _DEFAULT_SOURCE
#include "tests/comparisons.h"

int LLVMFuzzerTestOneInput(const uint8_t *data, size_t size);

int LLVMFuzzerTestOneInput(const uint8_t *data, size_t size) {
  if (size == 0)
    return 0;
  uint32_t kind = SF_ITEM + data[0] % 3;
  uint32_t dialect = data[0] / 3 % 2 == 0 ? SF_RFC9651 : SF_RFC8941;
  none_is_a_place = data[0] / 6 % 2;
  uint8_t *text = take_buffer(data + 1, size - 1);
  compare(dialect, kind, text, size - 1, NULL);
  give_buffer(text);
  return 0;
}
