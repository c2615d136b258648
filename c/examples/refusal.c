/* Shows where and why a field is malformed, or its canonical text.
 *
 *   refusal dict 'u=1; i, a b'
 *
 * prints
 *
 *   byte 0x62 'b' at place 10, expected `,`, a tab, a space or the end
 *   line 1, place 10:
 *   u=1; i, a b
 *             ^
 *
 * Ends with status 0, or 1 if the text is malformed, 2 for other words, and 3 if memory or the output
 * fails.
 */
#include <sf.h>
#include <stdio.h>
#include <stdlib.h>

/* The error message with the text, in a buffer that is to be freed; NULL without memory. */
static char *message_of(const sf_refusal *refusal, sf_text text) {
  size_t size = SF_REFUSAL_IN_TEXT_SIZE(text.length);
  sf_buffer out = sf_buffer_of(malloc(size + 1), size);
  if (out.at == NULL || sf_show_refusal(refusal, text, &out) != SF_OK) {
    free(out.at);
    return NULL;
  }
  out.at[out.length] = '\0';
  return out.at;
}

int main(int argc, char **argv) {
  uint32_t kind = argc == 3 ? sf_kind_of(argv[1]) : 0;
  if (kind == 0) {
    fprintf(stderr, "usage: refusal item|list|dict TEXT\n");
    return 2;
  }
  sf_seed seed;
  if (!sf_random_seed(&seed))
    return 3;

  sf_context context = sf_context_of(seed, SF_RFC9651);
  sf_text text = sf_cstr(argv[2]);
  size_t size = SF_CANONICAL_SIZE(text.length);
  sf_buffer out = sf_buffer_of(malloc(size + 1), size);
  if (out.at == NULL)
    return 3;
  char *said = out.at;
  sf_status status = sf_write_canonical(&context, (sf_kind)kind, text, &out);
  if (status == SF_OK)
    said[out.length] = '\0';
  else {
    free(said);
    said = status == SF_REFUSED ? message_of(&context.refusal, text) : NULL;
  }
  if (said == NULL)
    return 3;
  puts(said);
  free(said);
  if (fflush(stdout) != 0 || ferror(stdout))
    return 3;
  return status == SF_OK ? 0 : 1;
}
