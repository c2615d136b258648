/* The canonical text of the field on standard input, a line of the field a line.
 *
 *   printf 'u=1,  i=?1\n' | normalise dict        u=1, i
 *
 * Ends with status 0, or 1 where the field is refused, 2 for other words, and 3 where memory, the
 * input or the output fails.
 */
#define _POSIX_C_SOURCE 200809L
#include <sf.h>
#include <stdio.h>
#include <stdlib.h>

/* Joins a line to those before, in a buffer that grows as it must. */
static int add(sf_lines *lines, sf_text line) {
  sf_status status = sf_add_line(lines, line);
  if (status != SF_SHORT)
    return status == SF_OK;
  char *longer = realloc(lines->buffer.at, lines->buffer.required);
  if (longer == NULL)
    return 0;
  lines->buffer.at = longer;
  lines->buffer.capacity = lines->buffer.required;
  return sf_add_line(lines, line) == SF_OK;
}

int main(int argc, char **argv) {
  uint32_t kind = argc == 2 ? sf_kind_of(argv[1]) : 0;
  if (kind == 0) {
    fprintf(stderr, "usage: normalise item|list|dict\n");
    return 2;
  }
  sf_seed seed;
  if (!sf_random_seed(&seed)) {
    fprintf(stderr, "normalise: no random bytes\n");
    return 3;
  }

  sf_context context = sf_context_of(seed, SF_RFC9651);
  sf_lines lines = sf_lines_in(sf_buffer_of(NULL, 0));
  char *line = NULL;
  size_t line_capacity = 0;
  ssize_t length;
  while ((length = getline(&line, &line_capacity, stdin)) >= 0) {
    if (length > 0 && line[length - 1] == '\n')
      --length;
    if (!add(&lines, sf_trim(line, (size_t)length))) {
      fprintf(stderr, "normalise: out of memory\n");
      return 3;
    }
  }
  free(line);
  if (!feof(stdin)) {
    fprintf(stderr, "normalise: the input can't be read, or out of memory\n");
    return 3;
  }

  sf_text text = sf_joined_text(&lines);
  size_t size = SF_CANONICAL_SIZE(text.length); /* never too small */
  sf_buffer out = sf_buffer_of(malloc(size + 1), size);
  if (out.at == NULL) {
    fprintf(stderr, "normalise: out of memory\n");
    return 3;
  }
  const sf_refusal *refusal = &context.refusal;
  int answer = 0;
  switch (sf_write_canonical(&context, (sf_kind)kind, text, &out)) {
  case SF_OK:
    fwrite(out.at, 1, out.length, stdout);
    printf("\n");
    break;
  case SF_REFUSED:
    if (refusal->found == SF_ENDED)
      printf("refused at %llu: the text ended\n", (unsigned long long)refusal->offset);
    else
      printf("refused at %llu: byte 0x%02x\n", (unsigned long long)refusal->offset,
             (unsigned)refusal->found);
    answer = 1;
    break;
  default:
    fprintf(stderr, "normalise: out of memory\n");
    answer = 3;
  }
  free(out.at);
  free(lines.buffer.at);
  if (fflush(stdout) != 0 || ferror(stdout)) {
    fprintf(stderr, "normalise: the answer can't be written\n");
    return 3;
  }
  return answer;
}
