/* The costs of single calls of the library for C: reads records from standard input, makes for each
 * one call as often as the record says, and prints a digest of all results. A record is a line
 * 'OPERATION KIND PARAMETER TIMES LENGTH', a text of this length, and a line feed, as for the
 * program crates/sf_calls. Ends with status 1 if a call is out of memory, and with 2 if a record is
 * none.
 */
#include "../../include/sf.h"
#include <stdio.h>
#include <stdlib.h>

struct record {
  char operation[32];
  uint32_t kind;
  size_t times;
  size_t length;
  char *text;
};

static const sf_seed seed = {{1, 1, 1, 1, 1, 1, 1, 1, 1, 1, 1, 1, 1, 1, 1, 1}};
static uint64_t digest;

static void add(uint64_t number) {
  digest = (digest ^ number) * UINT64_C(0x9e3779b97f4a7c15);
  digest ^= digest >> 29;
}

/* What counts instructions looks for the names of these two. */
__attribute__((noinline)) void calls_begin(void) { add(1); }
__attribute__((noinline)) void calls_end(void) { add(2); }

static void *allocated(size_t size) {
  void *block = malloc(size + 1);
  if (block == NULL) {
    fputs("calls: out of memory\n", stderr);
    exit(1);
  }
  return block;
}

/* Adds the status of a call. */
static void add_status(uint32_t status) {
  if (status == SF_NO_MEMORY) {
    fputs("calls: a call is out of memory\n", stderr);
    exit(1);
  }
  add(status);
}

static int is(const struct record *record, const char *operation) {
  return strcmp(record->operation, operation) == 0;
}

/* Calls that answer without a buffer. Returns 0 if the operation is none of them. */
static int answered_plainly(const struct record *record) {
  sf_refusal refusal;
  sf_priority_flags priority;
  sf_response_priority_flags response;
  sf_policy policy;
  sf_rules rules;
  sf_response aged = {0};
  sf_span field = {0, record->length};
  size_t index;
  uint32_t equal = 0;
  const char *text = record->text;
  size_t length = record->length, times = record->times;
  if (is(record, "c_check")) {
    calls_begin();
    for (size_t i = 0; i < times; ++i)
      add_status(sf_check(&seed, SF_RFC9651, record->kind, text, length, &refusal));
  } else if (is(record, "c_equal")) {
    calls_begin();
    for (size_t i = 0; i < times; ++i) {
      add_status(sf_equal(&seed, SF_RFC9651, record->kind, text, length, text, length, &equal,
                          &refusal));
      add(equal);
    }
  } else if (is(record, "c_priority")) {
    calls_begin();
    for (size_t i = 0; i < times; ++i)
      add_status(sf_priority(&seed, text, length, &priority, &refusal));
  } else if (is(record, "c_response_priority")) {
    calls_begin();
    for (size_t i = 0; i < times; ++i)
      add_status(sf_response_priority(&seed, SF_RFC9651, text, length, &response, &refusal));
  } else if (is(record, "c_cache_control")) {
    calls_begin();
    for (size_t i = 0; i < times; ++i)
      add_status(sf_cache_control(&seed, text, length, &policy, &refusal));
  } else if (is(record, "c_cache_rules")) {
    calls_begin();
    for (size_t i = 0; i < times; ++i)
      add_status(sf_cache_rules(&seed, SF_RFC9651, text, length, &rules, &refusal));
  } else if (is(record, "c_select")) {
    calls_begin();
    for (size_t i = 0; i < times; ++i)
      add_status(sf_select(&seed, text, length, &field, 1, &index, &policy));
  } else if (is(record, "c_select_rules")) {
    calls_begin();
    for (size_t i = 0; i < times; ++i)
      add_status(sf_select_rules(&seed, SF_RFC9651, text, length, &field, 1, &index, &rules));
  } else if (is(record, "c_fallback")) {
    calls_begin();
    for (size_t i = 0; i < times; ++i) {
      sf_fallback fallback = sf_fallback_begin();
      add_status(sf_fallback_line(SF_FALLBACK_CACHE_CONTROL, text, length, &fallback));
      add_status(sf_fallback_line(SF_FALLBACK_EXPIRES, text, length, &fallback));
      add_status(sf_fallback_lifetime(&fallback, 0, &aged));
    }
  } else {
    return 0;
  }
  calls_end();
  return 1;
}

/* Calls that write a text into a buffer, likewise. */
static int answered_with_text(const struct record *record) {
  sf_refusal refusal = {0, 0, 0, 0, 0};
  sf_priority_flags priority;
  const char *text = record->text;
  size_t length = record->length, times = record->times, required = 0;
  size_t size = SF_APPENDED_SIZE(length, 1) + SF_REFUSAL_IN_TEXT_SIZE(length);
  char *buffer = allocated(size);
  if (is(record, "c_normalise")) {
    calls_begin();
    for (size_t i = 0; i < times; ++i) {
      add_status(sf_normalise(&seed, SF_RFC9651, record->kind, text, length, buffer, size,
                              &required, &refusal));
      add(required);
    }
  } else if (is(record, "c_refusal_in_text")) {
    add_status(sf_check(&seed, SF_RFC9651, record->kind, text, length, &refusal));
    calls_begin();
    for (size_t i = 0; i < times; ++i) {
      add_status(sf_refusal_in_text(&refusal, text, length, buffer, size, &required));
      add(required);
    }
  } else if (is(record, "c_priority_change")) {
    memset(&priority, 0, sizeof priority);
    priority.has_urgency = 1;
    priority.has_incremental = 1;
    calls_begin();
    for (size_t i = 0; i < times; ++i) {
      add_status(sf_priority_change(&seed, text, length, &priority, buffer, size, &required,
                                    &refusal));
      add(required);
    }
  } else if (is(record, "c_append")) {
    sf_hop hop;
    memset(&hop, 0, sizeof hop);
    hop.name.length = 1;
    hop.outcome = SF_HIT;
    calls_begin();
    for (size_t i = 0; i < times; ++i) {
      add_status(sf_cache_status_append(&seed, SF_RFC9651, text, length, &hop, "c", 1, buffer, size,
                                        &required, &refusal));
      add(required);
    }
  } else {
    free(buffer);
    return 0;
  }
  calls_end();
  free(buffer);
  return 1;
}

/* Joins the lines of the text, which line feeds end. */
static void join(const struct record *record) {
  char *buffer = allocated(2 * record->length);
  calls_begin();
  for (size_t i = 0; i < record->times; ++i) {
    sf_joined joined = {0, 0, 0};
    const char *line = record->text, *end = record->text + record->length;
    for (;;) {
      const char *feed = memchr(line, '\n', (size_t)(end - line));
      size_t length = (size_t)((feed == NULL ? end : feed) - line);
      add_status(sf_join(line, length, buffer, 2 * record->length, &joined));
      if (feed == NULL)
        break;
      line = feed + 1;
    }
    add(joined.length);
  }
  calls_end();
  free(buffer);
}

/* Calls on nodes, likewise. */
static int answered_with_nodes(const struct record *record) {
  sf_refusal refusal;
  sf_sizes sizes = {0, 0};
  sf_path path;
  const char *text = record->text;
  size_t length = record->length, times = record->times, required = 0, index = 0;
  size_t capacity = SF_NODES_SIZE(length), size = SF_BYTES_SIZE(length);
  sf_node *nodes = allocated(capacity * sizeof *nodes);
  sf_hop *hops = allocated((length / 2 + 1) * sizeof *hops);
  char *bytes = allocated(size), *buffer = allocated(SF_CANONICAL_SIZE(length));
  int is_known = 1;
  if (is(record, "c_write") || is(record, "c_find"))
    add_status(sf_parse(&seed, SF_RFC9651, record->kind, text, length, nodes, capacity, bytes, size,
                        &sizes, &refusal));
  if (is(record, "c_parse")) {
    calls_begin();
    for (size_t i = 0; i < times; ++i) {
      add_status(sf_parse(&seed, SF_RFC9651, record->kind, text, length, nodes, capacity, bytes,
                          size, &sizes, &refusal));
      add(sizes.nodes);
    }
    calls_end();
  } else if (is(record, "c_write")) {
    calls_begin();
    for (size_t i = 0; i < times; ++i) {
      add_status(sf_write(&seed, SF_RFC9651, record->kind, nodes, sizes.nodes, text, length, bytes,
                          sizes.bytes, buffer, SF_CANONICAL_SIZE(length), &required, &index));
      add(required);
    }
    calls_end();
  } else if (is(record, "c_find")) {
    calls_begin();
    for (size_t i = 0; i < times; ++i) {
      add_status(sf_find(nodes, sizes.nodes, text, length, bytes, sizes.bytes, SF_MEMBER, "zz", 2,
                         &index));
      add(index);
    }
    calls_end();
  } else if (is(record, "c_cache_status")) {
    calls_begin();
    for (size_t i = 0; i < times; ++i) {
      add_status(sf_cache_status(&seed, text, length, hops, length / 2 + 1, bytes, size, &path,
                                 &refusal));
      add(path.hops);
    }
    calls_end();
  } else if (is(record, "c_hop_text")) {
    path.hops = 0;
    add_status(sf_cache_status(&seed, text, length, hops, length / 2 + 1, bytes, size, &path,
                               &refusal));
    char *written = allocated(SF_HOP_SIZE(size));
    calls_begin();
    for (size_t i = 0; i < times * path.hops; ++i) {
      add_status(sf_hop_text(&seed, &hops[i % path.hops], bytes, path.bytes, written,
                             SF_HOP_SIZE(size), &required));
      add(required);
    }
    calls_end();
    free(written);
  } else {
    is_known = 0;
  }
  free(nodes);
  free(hops);
  free(bytes);
  free(buffer);
  return is_known;
}

int main(void) {
  struct record record;
  char kind[8];
  while (scanf("%31s %7s %*u %zu %zu", record.operation, kind, &record.times,
               &record.length) == 4) {
    record.kind = kind[0] == 'i' ? SF_ITEM : kind[0] == 'l' ? SF_LIST : SF_DICT;
    record.text = allocated(record.length);
    if (getchar() != '\n' || fread(record.text, 1, record.length, stdin) != record.length ||
        getchar() != '\n')
      return 2;
    if (is(&record, "c_join")) {
      join(&record);
    } else if (!answered_plainly(&record) && !answered_with_text(&record) &&
               !answered_with_nodes(&record)) {
      fprintf(stderr, "calls: no operation %s\n", record.operation);
      return 2;
    }
    free(record.text);
  }
  if (!feof(stdin))
    return 2;
  printf("%016llx\n", (unsigned long long)digest);
  return 0;
}
