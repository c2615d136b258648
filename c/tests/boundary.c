/* Tests of every function of sf_functions.h, called from C: the worked texts in both dialects; buffers of
 * exactly the required size, one element too small, and empty; length 0 with NULL and with a
 * pointer one past a block; numbers that are no kind; malloc failing at each call in turn; and a
 * thread for each processor. Each text and buffer ends at a page that can't be read (buffers.h).
 *
 * Prints 'N passed, M failed'. It is linked with --wrap=malloc, --wrap=realloc and --wrap=free, and
 * counts the blocks that the library allocates and frees. */
#define _DEFAULT_SOURCE
#define _POSIX_C_SOURCE 200809L
#include "buffers.h"
#include "decisions.h"
#include "pointers.h"
#include "texts.h"
#include <inttypes.h>
#include <malloc.h>
#include <pthread.h>
#include <sf.h>
#include <stdio.h>
#include <stdlib.h>
#include <string.h>
#include <sys/wait.h>
#include <unistd.h>

/* The library's memory. Each thread counts its own. */

void *__real_malloc(size_t size);
void *__real_realloc(void *block, size_t size);
void __real_free(void *block);
void *__wrap_malloc(size_t size);
void *__wrap_realloc(void *block, size_t size);
void __wrap_free(void *block);

static __thread long calls;         /* of malloc and realloc, by the last call of the library */
static __thread long refused_from;  /* the first call that is refused, counted from 1; 0: none is */
static __thread int refused_once;   /* whether only that one is */
static __thread long refusals;      /* how many were */
static __thread long blocks;        /* that were taken and not given back */
static __thread size_t held, peak;  /* their bytes, now and at most */
static __thread int watching;       /* whether the library runs */

static int refuses(void) {
  if (!watching)
    return 0;
  ++calls;
  if (refused_from == 0)
    return 0;
  if (refused_once ? calls != refused_from : calls < refused_from)
    return 0;
  ++refusals;
  return 1;
}

static void took(size_t size) {
  held += size;
  if (held > peak)
    peak = held;
}

void *__wrap_malloc(size_t size) {
  if (refuses())
    return NULL;
  void *block = __real_malloc(size);
  if (watching && block != NULL) {
    ++blocks;
    took(malloc_usable_size(block));
  }
  return block;
}

void *__wrap_realloc(void *block, size_t size) {
  if (refuses())
    return NULL;
  size_t before = block == NULL ? 0 : malloc_usable_size(block);
  void *moved = __real_realloc(block, size);
  if (watching && moved != NULL) {
    blocks += block == NULL;
    held -= before;
    took(malloc_usable_size(moved));
  }
  return moved;
}

void __wrap_free(void *block) {
  if (watching && block != NULL) {
    --blocks;
    held -= malloc_usable_size(block);
  }
  __real_free(block);
}

/* Checks, and their count. */

static pthread_mutex_t counting = PTHREAD_MUTEX_INITIALIZER;
static long passed, failed;

static void check(int holds, const char *what, int line, const char *about) {
  pthread_mutex_lock(&counting);
  if (holds) {
    ++passed;
  } else {
    ++failed;
    fprintf(stderr, "boundary.c:%d: %s [%s]\n", line, what, about);
  }
  pthread_mutex_unlock(&counting);
}

/* That a fact holds of the text that is tested. */
#define CHECK(fact) check((fact) != 0, #fact, __LINE__, about)

/* A call of the library, watched: it frees what it allocates. */
#define CALL(call)                                                                                 \
  do {                                                                                             \
    blocks = calls = 0;                                                                            \
    held = peak = 0;                                                                               \
    watching = 1;                                                                                  \
    status = (call);                                                                               \
    watching = 0;                                                                                  \
    CHECK(blocks == 0);                                                                            \
  } while (0)

/* The same of a call that does not allocate. */
#define FREE_CALL(call)                                                                            \
  do {                                                                                             \
    CALL(call);                                                                                    \
    CHECK(calls == 0);                                                                             \
  } while (0)

/* The most that a call had allocated at a time is within what the header states. */
#define CHECK_MEMORY(length) CHECK(peak <= SF_MEMORY_SIZE(length))

static const sf_seed seed = {{3, 1, 4, 1, 5, 9, 2, 6, 5, 3, 5, 8, 9, 7, 9, 3}};

/* What a refusal holds before a call that does not write it. */
static const sf_refusal untouched = {77, 78, 79, 80, 81};

static int is_untouched(const sf_refusal *refusal) {
  return memcmp(refusal, &untouched, sizeof *refusal) == 0;
}

static int all_are(const unsigned char *bytes, size_t length) {
  for (size_t i = 0; i < length; ++i)
    if (bytes[i] != BUFFER_BYTE)
      return 0;
  return 1;
}

static unsigned hex(const char *digits) {
  unsigned value;
  if (sscanf(digits, "%2x", &value) != 1)
    abort();
  return value;
}

/* Whether a refusal's set is this one: `20 30-39 end`. */
static int is_set(const sf_refusal *refusal, const char *set) {
  uint64_t low = 0, high = 0;
  uint32_t may_end = 0;
  while (*set != '\0') {
    if (strcmp(set, "end") == 0) {
      may_end = 1;
      break;
    }
    unsigned from = hex(set), to = from;
    set += 2;
    if (*set == '-') {
      to = hex(set + 1);
      set += 3;
    }
    for (unsigned byte = from; byte <= to; ++byte) {
      if (byte < 64)
        low |= UINT64_C(1) << byte;
      else
        high |= UINT64_C(1) << (byte - 64);
    }
    if (*set == ' ')
      ++set;
  }
  return refusal->expected_low == low && refusal->expected_high == high &&
         refusal->may_end == may_end;
}

static int is_same_policy(const sf_policy *a, const sf_policy *b) {
  return memcmp(a, b, offsetof(sf_policy, is_private) + 1) == 0; /* but for what is after it */
}

/* The structs have the layout of those in the archive; rust/sf-sys/src/lib.rs has their sizes. */
#define SIZE(type, size) CHECK(sizeof(type) == (size))
#define AT(type, member, place) CHECK(offsetof(type, member) == (place))

static void layouts(void) {
  const char *about = "layout";
  SIZE(sf_seed, 16);
  SIZE(sf_refusal, 32);
  AT(sf_refusal, offset, 0);
  AT(sf_refusal, expected_low, 8);
  AT(sf_refusal, expected_high, 16);
  AT(sf_refusal, found, 24);
  AT(sf_refusal, may_end, 28);
  SIZE(sf_node, 32);
  AT(sf_node, number, 0);
  AT(sf_node, key_at, 8);
  AT(sf_node, key_length, 12);
  AT(sf_node, text_at, 16);
  AT(sf_node, text_length, 20);
  AT(sf_node, size, 24);
  AT(sf_node, type, 28);
  AT(sf_node, role, 29);
  AT(sf_node, coded, 30);
  SIZE(sf_sizes, 16);
  AT(sf_sizes, nodes, 0);
  AT(sf_sizes, bytes, 8);
  SIZE(sf_priority_flags, 4);
  AT(sf_priority_flags, urgency, 0);
  AT(sf_priority_flags, incremental, 1);
  AT(sf_priority_flags, has_urgency, 2);
  AT(sf_priority_flags, has_incremental, 3);
  SIZE(sf_response_priority_flags, 4);
  AT(sf_response_priority_flags, urgency, 0);
  AT(sf_response_priority_flags, incremental, 1);
  AT(sf_response_priority_flags, has_urgency, 2);
  AT(sf_response_priority_flags, has_incremental, 3);
  SIZE(sf_policy, 24);
  AT(sf_policy, max_age, 0);
  AT(sf_policy, s_maxage, 8);
  AT(sf_policy, has_max_age, 16);
  AT(sf_policy, has_s_maxage, 17);
  AT(sf_policy, must_revalidate, 18);
  AT(sf_policy, no_store, 19);
  AT(sf_policy, no_cache, 20);
  AT(sf_policy, is_private, 21);
  SIZE(sf_rules, 32);
  AT(sf_rules, policy, 0);
  AT(sf_rules, invalid_max_age, 24);
  AT(sf_rules, invalid_s_maxage, 25);
  AT(sf_rules, proxy_revalidate, 26);
  AT(sf_rules, must_understand, 27);
  AT(sf_rules, is_public, 28);
  SIZE(sf_time, 16);
  AT(sf_time, seconds, 0);
  AT(sf_time, lines, 8);
  SIZE(sf_fallback, 72);
  AT(sf_fallback, rules, 0);
  AT(sf_fallback, expires, 32);
  AT(sf_fallback, date, 48);
  AT(sf_fallback, is_refused, 64);
  SIZE(sf_response, 24);
  AT(sf_response, age, 0);
  AT(sf_response, lifetime, 8);
  AT(sf_response, has_lifetime, 16);
  AT(sf_response, is_understood, 17);
  SIZE(sf_decision, 16);
  AT(sf_decision, seconds, 0);
  AT(sf_decision, reuse, 8);
  AT(sf_decision, cause, 9);
  AT(sf_decision, allows_storing, 10);
  AT(sf_decision, allows_authorized, 11);
  SIZE(sf_span, 16);
  AT(sf_span, at, 0);
  AT(sf_span, length, 8);
  SIZE(sf_hop, 88);
  AT(sf_hop, name, 0);
  AT(sf_hop, why_token, 16);
  AT(sf_hop, key, 32);
  AT(sf_hop, detail, 48);
  AT(sf_hop, ttl, 64);
  AT(sf_hop, outcome, 72);
  AT(sf_hop, why, 74);
  AT(sf_hop, status, 76);
  AT(sf_hop, has_status, 78);
  AT(sf_hop, stored, 79);
  AT(sf_hop, has_stored, 80);
  AT(sf_hop, collapsed, 81);
  AT(sf_hop, has_collapsed, 82);
  AT(sf_hop, has_ttl, 83);
  AT(sf_hop, has_key, 84);
  AT(sf_hop, has_detail, 85);
  AT(sf_hop, name_is_token, 86);
  AT(sf_hop, detail_is_token, 87);
  SIZE(sf_path, 40);
  AT(sf_path, hops, 0);
  AT(sf_path, bytes, 8);
  AT(sf_path, served, 16);
  AT(sf_path, nameless, 24);
  AT(sf_path, is_served, 32);
  SIZE(sf_joined, 24);
  AT(sf_joined, length, 0);
  AT(sf_joined, required, 8);
  AT(sf_joined, begun, 16);
}

/* What the header computes. */
static void macros(void) {
  const char *about = "version";
  char version[32];
  sprintf(version, "%d.%d.%d", SF_VERSION_MAJOR, SF_VERSION_MINOR, SF_VERSION_PATCH);
  CHECK(strcmp(version, SF_VERSION) == 0);
#if SF_VERSION_NUMBER < 100 || SF_VERSION_NUMBER >= 1000000
  CHECK(0);
#endif
  CHECK(sf_version() == SF_VERSION_NUMBER);

  about = "statuses";
  CHECK(strcmp(sf_status_name(SF_OK), "SF_OK") == 0);
  CHECK(strcmp(sf_status_name(SF_REFUSED), "SF_REFUSED") == 0);
  CHECK(strcmp(sf_status_name(SF_SECOND_REFUSED), "SF_SECOND_REFUSED") == 0);
  CHECK(strcmp(sf_status_name(SF_SHORT), "SF_SHORT") == 0);
  CHECK(strcmp(sf_status_name(SF_NO_MEMORY), "SF_NO_MEMORY") == 0);
  CHECK(strcmp(sf_status_name(SF_EMPTY), "SF_EMPTY") == 0);
  CHECK(strcmp(sf_status_name(SF_BAD_CALL), "SF_BAD_CALL") == 0);
  CHECK(strcmp(sf_status_name(SF_NOT_A_CACHE), "SF_NOT_A_CACHE") == 0);
  CHECK(strcmp(sf_status_name(SF_INVALID), "SF_INVALID") == 0);
  CHECK(strcmp(sf_status_name(SF_ABSENT), "SF_ABSENT") == 0);
  CHECK(strcmp(sf_status_name(SF_TOO_LONG), "SF_TOO_LONG") == 0);
  CHECK(strcmp(sf_status_name(SF_TOO_MANY), "SF_TOO_MANY") == 0);
  CHECK(strcmp(sf_status_name(SF_TOO_MANY + 1), "SF_?") == 0);
  CHECK(strcmp(sf_status_name(UINT32_MAX), "SF_?") == 0);

  about = "names";
  CHECK(strcmp(sf_kind_name(SF_ITEM), "Item") == 0);
  CHECK(strcmp(sf_kind_name(SF_DICT), "Dictionary") == 0);
  CHECK(strcmp(sf_kind_name(0), "?") == 0 && strcmp(sf_kind_name(SF_RFC9651), "?") == 0);
  CHECK(strcmp(sf_role_name(SF_MEMBER), "member") == 0 && strcmp(sf_role_name(SF_LIST), "?") == 0);
  CHECK(strcmp(sf_type_name(SF_INNER_LIST), "Inner List") == 0);
  CHECK(strcmp(sf_type_name(SF_DISPLAY_STRING), "Display String") == 0);
  CHECK(strcmp(sf_type_name(SF_DISPLAY_STRING + 1), "?") == 0);
  CHECK(strcmp(sf_outcome_name(SF_UNSAID), "unsaid") == 0);
  CHECK(strcmp(sf_outcome_name(SF_CONFLICT + 1), "?") == 0);
  CHECK(strcmp(sf_forward_name(SF_URI_MISS), "uri-miss") == 0);
  CHECK(strcmp(sf_forward_name(SF_OTHER), "") == 0);
  CHECK(strcmp(sf_forward_name(SF_NO_FORWARD), "") == 0);
  CHECK(strcmp(sf_reuse_name(SF_REUSE_FRESH), "fresh") == 0 && strcmp(sf_reuse_name(0), "?") == 0);
  CHECK(strcmp(sf_cause_name(SF_BY_INVALID_S_MAXAGE), "invalid s-maxage") == 0);
  CHECK(strcmp(sf_cause_name(SF_BY_NOTHING), "") == 0 && strcmp(sf_cause_name(0), "") == 0);

  about = "trimming";
  static const struct {
    const char *text, *rest;
  } trimmed[] = {{"", ""},       {" ", ""},          {" \t \t", ""},       {"a", "a"},
                 {"\ta", "a"},   {"a\t ", "a"},      {" \ta \tb\t ", "a \tb"}, {"a\n", "a\n"},
                 {"\va", "\va"}};
  for (size_t i = 0; i < sizeof trimmed / sizeof *trimmed; ++i) {
    size_t length = strlen(trimmed[i].text);
    char *text = take_buffer(trimmed[i].text, length);
    sf_text rest = sf_trim(text, length);
    CHECK(rest.length == strlen(trimmed[i].rest));
    CHECK(rest.length == 0 || memcmp(rest.at, trimmed[i].rest, rest.length) == 0);
    give_buffer(text);
  }
  CHECK(sf_trim(NULL, 0).length == 0);

  about = "sizes of buffers";
  int number = 2000000000;
  uint32_t word = UINT32_MAX;
  unsigned char byte = 255;
  size_t most = SIZE_MAX / 8 * 5;
  CHECK(SF_CANONICAL_SIZE(number) == 3200000000u);
  CHECK(SF_NODES_SIZE(number) == 1600000000u && SF_BYTES_SIZE(number) == 3200000000u);
  CHECK(SF_CANONICAL_SIZE(word) == UINT64_C(6871947672));
  CHECK(SF_CANONICAL_SIZE(byte) == 408 && SF_NODES_SIZE(byte) == 204);
  CHECK(SF_CANONICAL_SIZE(most) == SIZE_MAX / 8 * 8 && SF_NODES_SIZE(most) == SIZE_MAX / 8 * 4);
  CHECK(SF_CANONICAL_SIZE(number - 1999999999 + 1) == 3); /* the length is an expression */
  for (size_t length = 0; length < 100; ++length)
    CHECK(SF_CANONICAL_SIZE(length) == length * 8 / 5 &&
          SF_NODES_SIZE(length) == (length * 8 + 5) / 10);
}

/* Whether a range is there, and is these bytes. */
static int is_range(const char *at, size_t length, const char *bytes, size_t bytes_length) {
  return length == bytes_length && (length == 0 || memcmp(at, bytes, length) == 0);
}

/* A parsed value: nodes with the text and the bytes that they point into. */
typedef struct value {
  const unsigned char *text;
  size_t text_length;
  sf_node *nodes;
  unsigned char *bytes;
  sf_sizes sizes;
} value;

static const char *key_of(const value *v, const sf_node *node) {
  return node_key(node, v->text, v->text_length, v->bytes);
}

static const char *bytes_of(const value *v, const sf_node *node) {
  return node_text(node, v->text, v->text_length, v->bytes);
}

/* Whether a range of a node is within the text, or within the bytes. */
static int is_within(const value *v, size_t at, size_t length) {
  return length == 0 || at + length <= v->text_length ||
         (at >= v->text_length && at + length <= v->text_length + v->sizes.bytes);
}

/* Whether two nodes say the same. */
static int is_same_node(const value *v, const sf_node *a, const value *w, const sf_node *b) {
  return a->role == b->role && a->type == b->type && a->number == b->number && a->size == b->size &&
         a->coded == 0 && b->coded == 0 && is_within(v, a->key_at, a->key_length) &&
         is_within(v, a->text_at, a->text_length) && is_within(w, b->key_at, b->key_length) &&
         is_within(w, b->text_at, b->text_length) &&
         is_range(key_of(v, a), a->key_length, key_of(w, b), b->key_length) &&
         is_range(bytes_of(v, a), a->text_length, bytes_of(w, b), b->text_length);
}

/* The value of a text that is accepted, in buffers of exactly its size. One that is smaller by an
 * element gets SF_TOO_MANY or SF_SHORT, with sizes that are large enough. */
static value take_value(uint32_t dialect, uint32_t kind, const char *about,
                        const unsigned char *text, size_t length) {
  uint32_t status;
  sf_refusal refusal = untouched;
  value v = {text, length, NULL, NULL, {4711, 4712}};
  sf_sizes sizes = {4711, 4712}, again = {4711, 4712};
  CALL(sf_parse(&seed, dialect, kind, text, length, NULL, 0, NULL, 0, &sizes, &refusal));
  CHECK(status == (sizes.nodes == 0 ? SF_OK : SF_TOO_MANY));
  CHECK(sizes.nodes <= SF_NODES_SIZE(length) && sizes.bytes <= SF_BYTES_SIZE(length));
  v.nodes = take_buffer(NULL, sizes.nodes * sizeof *v.nodes);
  v.bytes = take_buffer(NULL, sizes.bytes);
  CALL(sf_parse(&seed, dialect, kind, text, length, v.nodes, sizes.nodes, v.bytes, sizes.bytes,
                &v.sizes, &refusal));
  CHECK(status == SF_OK && v.sizes.nodes == sizes.nodes && v.sizes.bytes <= sizes.bytes);
  if (sizes.nodes > 0) {
    CALL(sf_parse(&seed, dialect, kind, text, length, v.nodes, sizes.nodes - 1, v.bytes,
                  sizes.bytes, &again, &refusal));
    CHECK(status == SF_TOO_MANY && again.nodes == sizes.nodes && again.bytes == sizes.bytes);
  }
  give_buffer(v.bytes);
  if (v.sizes.bytes > 0) {
    v.bytes = take_buffer(NULL, v.sizes.bytes - 1);
    CALL(sf_parse(&seed, dialect, kind, text, length, v.nodes, sizes.nodes, v.bytes,
                  v.sizes.bytes - 1, &again, &refusal));
    CHECK(status == SF_SHORT && again.nodes == sizes.nodes && again.bytes == sizes.bytes);
    give_buffer(v.bytes);
  }
  v.bytes = take_buffer(NULL, v.sizes.bytes);
  CALL(sf_parse(&seed, dialect, kind, text, length, v.nodes, sizes.nodes, v.bytes, v.sizes.bytes,
                &again, &refusal));
  CHECK(status == SF_OK && memcmp(&again, &v.sizes, sizeof again) == 0);
  CHECK(is_untouched(&refusal));
  return v;
}

static void give_value(value v) {
  give_buffer(v.nodes);
  give_buffer(v.bytes);
}

/* The nodes of a text and of its canonical text say the same, and are written as the latter, also
 * after they were copied by a builder. */
static void same_value(uint32_t dialect, uint32_t kind, const char *about,
                       const unsigned char *text, size_t length, const unsigned char *canonical,
                       size_t canonical_length) {
  uint32_t status;
  value v = take_value(dialect, kind, about, text, length);
  value w = take_value(dialect, kind, about, canonical, canonical_length);
  CHECK(v.sizes.nodes == w.sizes.nodes);
  size_t size = 0;
  for (size_t i = 0; i < v.sizes.nodes; ++i) {
    CHECK(is_same_node(&v, &v.nodes[i], &w, &w.nodes[i]));
    size += v.nodes[i].key_length + v.nodes[i].text_length;
  }
  CHECK(v.sizes.nodes <= SF_NODES_SIZE(length) && size <= SF_BYTES_SIZE(length));
  value u = {NULL, 0, take_buffer(NULL, v.sizes.nodes * sizeof *u.nodes), take_buffer(NULL, size),
             {v.sizes.nodes, size}};
  sf_builder builder = sf_build(sf_nodes_of(u.nodes, v.sizes.nodes), sf_buffer_of(u.bytes, size));
  for (size_t i = 0; i < v.sizes.nodes; i += v.nodes[i].size)
    put_copy(&builder, v.nodes + i, text, length, v.bytes);
  CHECK(builder.status == SF_OK && builder.nodes.length == v.sizes.nodes);
  CHECK(builder.bytes.length == size);
  for (size_t i = 0; i < v.sizes.nodes; ++i)
    CHECK(is_same_node(&v, &v.nodes[i], &u, &u.nodes[i]));

  for (size_t capacity = canonical_length - (canonical_length > 0);
       capacity <= canonical_length + 1; ++capacity) {
    unsigned char *out = take_buffer(NULL, capacity);
    size_t required = 4711, invalid = 4711;
    uint32_t right = capacity < canonical_length ? SF_SHORT : SF_OK;
    CALL(sf_write(&seed, dialect, kind, v.nodes, v.sizes.nodes, text, length, v.bytes,
                  v.sizes.bytes, out, capacity, &required, &invalid));
    CHECK(status == right && required == canonical_length && invalid == 4711);
    CHECK(status == SF_SHORT ? all_are(out, capacity)
                             : is_range((char *)out, required, (const char *)canonical, required) &&
                                   (capacity == required || out[required] == BUFFER_BYTE));
    required = 4711;
    CALL(write_built(&seed, dialect, kind, &builder, out, capacity, &required, &invalid));
    CHECK(status == right && required == canonical_length && invalid == 4711);
    CHECK(status == SF_SHORT ||
          is_range((char *)out, required, (const char *)canonical, required));
    give_buffer(out);
  }
  give_value(u);
  give_value(v);
  give_value(w);
}

static void accepted(uint32_t dialect, uint32_t kind, const char *from, size_t length,
                     const char *canonical, size_t canonical_length) {
  const char *about = from;
  uint32_t status;
  unsigned char *text = take_buffer(from, length);
  sf_refusal refusal = untouched;

  FREE_CALL(sf_check(&seed, dialect, kind, text, length, &refusal));
  CHECK(status == SF_OK);

  /* A buffer of exactly the size, a longer one, and each shorter one. */
  for (size_t capacity = 0; capacity <= canonical_length + 3; ++capacity) {
    unsigned char *out = take_buffer(NULL, capacity);
    size_t required = 4711;
    CALL(sf_normalise(&seed, dialect, kind, text, length, out, capacity, &required, &refusal));
    CHECK(required == canonical_length);
    if (capacity < canonical_length) {
      CHECK(status == SF_SHORT);
      CHECK(all_are(out, capacity));
    } else {
      CHECK(status == SF_OK);
      CHECK(canonical_length == 0 || memcmp(out, canonical, canonical_length) == 0);
      CHECK(capacity == canonical_length ||
            all_are(out + canonical_length, capacity - canonical_length));
    }
    give_buffer(out);
  }
  CHECK(canonical_length <= SF_CANONICAL_SIZE(length));

  /* It is equal to its canonical text. */
  unsigned char *other = take_buffer(canonical, canonical_length);
  uint32_t equal = 4711;
  CALL(sf_equal(&seed, dialect, kind, text, length, other, canonical_length, &equal, &refusal));
  CHECK(status == SF_OK && equal == 1);
  same_value(dialect, kind, about, text, length, other, canonical_length);
  give_buffer(other);
  CHECK(is_untouched(&refusal));
  give_buffer(text);
}

static void refused(uint32_t dialect, uint32_t kind, const char *from, size_t length,
                    uint64_t place, int32_t found, const char *set) {
  const char *about = from;
  uint32_t status;
  unsigned char *text = take_buffer(from, length);

  sf_refusal refusal = untouched;
  CALL(sf_check(&seed, dialect, kind, text, length, &refusal));
  CHECK(status == SF_REFUSED);
  CHECK(refusal.offset == place);
  CHECK(refusal.found == found);
  CHECK(is_set(&refusal, set));
  CHECK((refusal.found == SF_ENDED) == (refusal.offset == length));
  CHECK(refusal.found != SF_ENDED || refusal.may_end == 0);

  sf_refusal same = untouched;
  unsigned char out[4];
  memset(out, 0xa5, sizeof out);
  size_t required = 4711;
  CALL(sf_normalise(&seed, dialect, kind, text, length, out, sizeof out, &required, &same));
  CHECK(status == SF_REFUSED && memcmp(&same, &refusal, sizeof same) == 0);
  CHECK(all_are(out, sizeof out) && required == 4711);

  uint32_t equal = 4711;
  same = untouched;
  CALL(sf_equal(&seed, dialect, kind, text, length, text, length, &equal, &same));
  CHECK(status == SF_REFUSED && memcmp(&same, &refusal, sizeof same) == 0 && equal == 4711);

  /* after one that is accepted it is the second */
  same = untouched;
  CALL(sf_equal(&seed, dialect, kind, "a", 1, text, length, &equal, &same));
  CHECK(status == SF_SECOND_REFUSED && memcmp(&same, &refusal, sizeof same) == 0 && equal == 4711);

  sf_sizes sizes = {4711, 4712};
  for (size_t capacity = 0; capacity <= length; ++capacity) {
    sf_node *nodes = take_buffer(NULL, capacity * sizeof *nodes);
    unsigned char *bytes = take_buffer(NULL, capacity);
    same = untouched;
    CALL(sf_parse(&seed, dialect, kind, text, length, nodes, capacity, bytes, capacity, &sizes,
                  &same));
    CHECK(status == SF_REFUSED && memcmp(&same, &refusal, sizeof same) == 0);
    CHECK(sizes.nodes == 4711 && sizes.bytes == 4712);
    give_buffer(nodes);
    give_buffer(bytes);
  }
  give_buffer(text);
}

/* A text that RFC 9651 accepts, by RFC 8941: it has the same value, or it is refused at the first
 * Date or Display String, which in the worked texts begins at the first @ or %. */
static void older(uint32_t kind, const char *text, size_t length, const char *canonical,
                  size_t canonical_length) {
  const char *about = text;
  size_t place = 0;
  while (place < length && text[place] != '@' && text[place] != '%')
    ++place;
  if (place == length) {
    accepted(SF_RFC8941, kind, text, length, canonical, canonical_length);
    return;
  }
  sf_refusal refusal = untouched;
  uint32_t status;
  CALL(sf_check(&seed, SF_RFC8941, kind, text, length, &refusal));
  CHECK(status == SF_REFUSED && refusal.offset == place && refusal.found == text[place]);
}

/* A text that RFC 9651 refuses, by RFC 8941. */
static void refused_too(uint32_t kind, const char *text, size_t length) {
  const char *about = text;
  sf_refusal refusal = untouched;
  uint32_t status;
  CALL(sf_check(&seed, SF_RFC8941, kind, text, length, &refusal));
  CHECK(status == SF_REFUSED && refusal.offset <= length);
}

static void worked_texts(void) {
#define ROW(kind, text, canonical)                                                                 \
  accepted(SF_RFC9651, kind, text, sizeof text - 1, canonical, sizeof canonical - 1);              \
  older(kind, text, sizeof text - 1, canonical, sizeof canonical - 1);
  ACCEPTED(ROW)
#undef ROW
#define ROW(kind, text, place, found, set)                                                         \
  refused(SF_RFC9651, kind, text, sizeof text - 1, place, found, set);                             \
  refused_too(kind, text, sizeof text - 1);
  REFUSED(ROW)
#undef ROW
#define ROW(kind, text, place, found, set)                                                         \
  refused(SF_RFC8941, kind, text, sizeof text - 1, place, found, set);
  REFUSED_8941(ROW)
#undef ROW
}

/* Numbers that are no dialect, of the calls that take no kind, or no cache. */
static void bad_dialects(void) {
  static const uint32_t numbers[] = {0, SF_ITEM, SF_DICT, SF_MEMBER, SF_SHARED_CACHE, 9650, 9652,
                                     8940, 8942, UINT32_MAX};
  static const sf_rules no_rules;
  static const sf_response new_response;
  const char *about = "bad dialect";
  uint32_t status;
  for (size_t i = 0; i < sizeof numbers / sizeof *numbers; ++i) {
    uint32_t dialect = numbers[i];
    sf_refusal refusal = untouched;
    sf_priority_flags request = {9, 9, 9, 9}, nines = {9, 9, 9, 9};
    sf_response_priority_flags response = {9, 9, 9, 9};
    sf_rules rules, fives;
    sf_path path = {4711, 4712, 4713, 4714, 4715};
    sf_hop hop, own;
    size_t required = 4711, index = 4711;
    sf_span field = {0, 1};
    unsigned char *bytes = take_buffer(NULL, 8);
    memset(&rules, 0xa5, sizeof rules);
    memset(&fives, 0xa5, sizeof fives);
    memset(&own, 0, sizeof own);
    FREE_CALL(sf_priority_in(&seed, dialect, "a", 1, &request, &refusal));
    CHECK(status == SF_BAD_CALL && memcmp(&request, &nines, sizeof request) == 0);
    FREE_CALL(sf_response_priority(&seed, dialect, "a", 1, &response, &refusal));
    CHECK(status == SF_BAD_CALL && memcmp(&response, &nines, sizeof response) == 0);
    FREE_CALL(sf_cache_rules(&seed, dialect, "a", 1, &rules, &refusal));
    CHECK(status == SF_BAD_CALL && memcmp(&rules, &fives, sizeof rules) == 0);
    FREE_CALL(sf_select_rules(&seed, dialect, "a", 1, &field, 1, &index, &rules));
    CHECK(status == SF_BAD_CALL && index == 4711 && memcmp(&rules, &fives, sizeof rules) == 0);
    FREE_CALL(sf_cache_status_in(&seed, dialect, "a", 1, &hop, 1, bytes, 8, &path, &refusal));
    CHECK(status == SF_BAD_CALL && path.hops == 4711 && path.is_served == 4715);
    FREE_CALL(sf_cache_status_append(&seed, dialect, "a", 1, &own, NULL, 0, bytes, 8, &required,
                                     &refusal));
    CHECK(status == SF_BAD_CALL && required == 4711 && all_are(bytes, 8));
    CHECK(is_untouched(&refusal));
    sf_fallback fallback, zeros;
    memset(&fallback, 0, sizeof fallback);
    memset(&zeros, 0, sizeof zeros);
    FREE_CALL(sf_fallback_line(dialect, "no-store", 8, &fallback));
    CHECK(status == SF_BAD_CALL && memcmp(&fallback, &zeros, sizeof fallback) == 0);
    sf_decision decision = {4711, 1, 2, 3, 4};
    if (dialect != SF_SHARED_CACHE) {
      FREE_CALL(sf_decide(&no_rules, dialect, &new_response, &decision));
      CHECK(status == SF_BAD_CALL && decision.seconds == 4711 && decision.allows_authorized == 4);
    }
    give_buffer(bytes);
  }
}

/* Numbers that are no kind or no dialect. */
static void bad_calls(void) {
  static const uint32_t numbers[][2] = {{SF_LIST, SF_RFC9651},
                                        {SF_ITEM, SF_RFC8941},
                                        {0, 0},
                                        {0, SF_ITEM},
                                        {SF_RFC9651, 0},
                                        {1, 1},
                                        {SF_RFC9651, SF_DICT + 1},
                                        {SF_RFC9651 + 1, SF_ITEM},
                                        {SF_RFC8941 - 1, SF_ITEM},
                                        {SF_RFC9651, SF_MEMBER},
                                        {SF_RFC9651, SF_INNER_LIST},
                                        {SF_RFC9651, SF_RFC9651},
                                        {SF_DICT, SF_DICT},
                                        {UINT32_MAX, SF_ITEM},
                                        {SF_RFC9651, UINT32_MAX}};
  for (size_t i = 0; i < sizeof numbers / sizeof *numbers; ++i) {
    const char *about = "bad call";
    uint32_t dialect = numbers[i][0], kind = numbers[i][1], status, equal = 4711;
    sf_refusal refusal = untouched;
    size_t required = 4711;
    sf_sizes sizes = {4711, 4712};
    unsigned char *bytes = take_buffer(NULL, 4);
    sf_node *nodes = take_buffer(NULL, 2 * sizeof *nodes);
    CALL(sf_check(&seed, dialect, kind, "a", 1, &refusal));
    CHECK(status == SF_BAD_CALL);
    CALL(sf_normalise(&seed, dialect, kind, "a", 1, bytes, 4, &required, &refusal));
    CHECK(status == SF_BAD_CALL && required == 4711 && all_are(bytes, 4));
    CALL(sf_equal(&seed, dialect, kind, "a", 1, "a", 1, &equal, &refusal));
    CHECK(status == SF_BAD_CALL && equal == 4711);
    CALL(sf_parse(&seed, dialect, kind, "a", 1, nodes, 2, bytes, 4, &sizes, &refusal));
    CHECK(status == SF_BAD_CALL && sizes.nodes == 4711 && sizes.bytes == 4712);
    size_t invalid = 4711;
    sf_builder builder = sf_build(sf_nodes_of(nodes, 2), sf_buffer_of(bytes, 4));
    sf_put_token(&builder, NULL, "a");
    unsigned char out[4] = {BUFFER_BYTE, BUFFER_BYTE, BUFFER_BYTE, BUFFER_BYTE};
    CALL(write_built(&seed, dialect, kind, &builder, out, 4, &required, &invalid));
    CHECK(status == SF_BAD_CALL && required == 4711 && invalid == 4711 && all_are(out, 4));
    CHECK(is_untouched(&refusal));
    give_buffer(bytes);
    give_buffer(nodes);
  }
}

/* Two texts of a kind, and whether their values are equal. */
static void comparing(void) {
  static const struct {
    uint32_t kind;
    const char *first, *second;
    uint32_t equal;
  } rows[] = {
      {SF_DICT, "a=1, b=2", "b=2, a=1", 0}, {SF_DICT, "u=1,i", "u=1, i=?1", 1},
      {SF_ITEM, "1", "1.0", 0},             {SF_ITEM, "1.0", "1.000", 1},
      {SF_ITEM, "a", "\"a\"", 0},           {SF_ITEM, "%\"a\"", "%\"%61\"", 1},
      {SF_LIST, "", "  ", 1},               {SF_LIST, "a;b;c", "a;c;b", 0},
      {SF_LIST, "a;b;c;b=1", "a;b=1;c", 1}, {SF_LIST, "(a)", "a", 0},
  };
  for (size_t i = 0; i < sizeof rows / sizeof *rows; ++i) {
    const char *about = rows[i].first;
    uint32_t status, equal = 4711;
    sf_refusal refusal = untouched;
    CALL(sf_equal(&seed, SF_RFC9651, rows[i].kind, rows[i].first, strlen(rows[i].first),
                  rows[i].second, strlen(rows[i].second), &equal, &refusal));
    CHECK(status == SF_OK && equal == rows[i].equal);
    CHECK(is_untouched(&refusal));
  }
}

/* Whether a span of the bytes is a text. */
static int is_text(const unsigned char *bytes, size_t size, size_t at, size_t length,
                   const char *text) {
  return at <= size && length <= size - at && length == strlen(text) &&
         (length == 0 || memcmp(bytes + at, text, length) == 0);
}

/* A call that writes a text: to a buffer of each length that is too small, of exactly the length,
 * and of longer ones. The call names buffer, size and required. */
#define WRITES(call, expected) WRITES_BY(CALL, call, expected)

/* The same of a call that does not allocate. */
#define FREE_WRITES(call, expected) WRITES_BY(FREE_CALL, call, expected)

#define WRITES_BY(CALLED, call, expected)                                                          \
  do {                                                                                             \
    size_t whole = strlen(expected);                                                               \
    for (size_t size = 0; size <= whole + 3; ++size) {                                             \
      unsigned char *buffer = take_buffer(NULL, size);                                             \
      size_t *required = take_buffer(NULL, sizeof *required);                                      \
      CALLED(call);                                                                                \
      CHECK(*required == whole && status == (size < whole ? SF_SHORT : SF_OK));                    \
      if (size < whole)                                                                            \
        CHECK(all_are(buffer, size));                                                              \
      else                                                                                         \
        CHECK((whole == 0 || memcmp(buffer, expected, whole) == 0) &&                              \
              (size == whole || all_are(buffer + whole, size - whole)));                           \
      give_buffer(required);                                                                       \
      give_buffer(buffer);                                                                         \
    }                                                                                              \
  } while (0)

/* Refusals in words. The words are those of the rules in specs/RefusalTexts and specs/Names of the
 * parser. */
static void refusals_in_words(void) {
  static const struct {
    uint32_t kind;
    const char *text, *message, *shown; /* what follows the message in the second call */
  } rows[] = {
      {SF_ITEM, "1 2", "byte 0x32 '2' at place 2, expected a space or the end",
       "\nline 1, place 2:\n1 2\n  ^"},
      {SF_LIST, "(a", "the text ended at place 2, expected a token character, `)`, `;` or a space",
       "\nline 1, place 2:\n(a\n  ^"},
      {SF_DICT, "a =1", "byte 0x3d '=' at place 2, expected `,`, a tab, a space or the end",
       "\nline 1, place 2:\na =1\n  ^"},
      {SF_ITEM, ":YQ===\t\xff", "byte 0x3d '=' at place 5, expected `:`",
       "\nline 1, place 5:\n:YQ===??\n     ^"},
      {SF_ITEM, "\"a\\b\"", "byte 0x62 'b' at place 3, expected a quote or `\\`",
       "\nline 1, place 3:\n\"a\\b\"\n   ^"},
      {SF_ITEM, "1.", "the text ended at place 2, expected a digit",
       "\nline 1, place 2:\n1.\n  ^"},
      {SF_ITEM, "\"a\x7f\"", "byte 0x7f at place 2, expected a printable character",
       "\nline 1, place 2:\n\"a?\"\n  ^"},
  };
  uint32_t status;
  for (size_t i = 0; i < sizeof rows / sizeof *rows; ++i) {
    const char *about = rows[i].text;
    size_t length = strlen(about);
    unsigned char *text = take_buffer(about, length);
    sf_refusal *refusal = take_buffer(&untouched, sizeof untouched);
    CALL(sf_check(&seed, SF_RFC9651, rows[i].kind, text, length, refusal));
    CHECK(status == SF_REFUSED);
    char shown[160];
    sprintf(shown, "%s%s", rows[i].message, rows[i].shown);
    WRITES(sf_refusal_text(refusal, buffer, size, required), rows[i].message);
    WRITES(sf_refusal_in_text(refusal, text, length, buffer, size, required), shown);
    give_buffer(refusal);
    give_buffer(text);
  }

  /* any numbers */
  const char *about = "a refusal of the caller's";
  sf_refusal refusal = {UINT64_MAX, UINT64_C(1) << 34, 0, 256, 255};
  WRITES(sf_refusal_text(&refusal, buffer, size, required),
         "the text ended at place 18446744073709551615, expected a quote or the end");
  WRITES(sf_refusal_in_text(&refusal, "ab", 2, buffer, size, required),
         "the text ended at place 18446744073709551615, expected a quote or the end"
         "\nline 1, place 2:\nab\n  ^");
  refusal.found = INT32_MIN;
  refusal.offset = 0;
  refusal.may_end = 0;
  unsigned char *none = take_buffer(NULL, 0);
  WRITES(sf_refusal_in_text(&refusal, none, 0, buffer, size, required),
         "the text ended at place 0, expected a quote\nline 1, place 0:\n\n^");
  give_buffer(none);
  refusal.found = 255;
  refusal.expected_low = 0;
  refusal.expected_high = UINT64_C(1) << 63;
  WRITES(sf_refusal_text(&refusal, buffer, size, required),
         "byte 0xff at place 0, expected 0x7f");
  refusal.found = 0;
  WRITES(sf_refusal_text(&refusal, buffer, size, required),
         "byte 0x00 at place 0, expected 0x7f");

  /* The longest message: each byte is listed by itself if one of each class is missing, here 9, A
   * and a. These are 32 bytes in hexadecimal, a tab, a space, a quote, a backquote, and 89 others;
   * then the end. */
  about = "the longest message";
  size_t required = 4711, longest = sizeof "the text ended at place 18446744073709551615, expected " - 1 +
                                    32 * 4 + 5 + 7 + 7 + 11 + 89 * 3 + 124 * 2 + 4 + 7;
  char buffer[SF_REFUSAL_SIZE], in_text[SF_REFUSAL_IN_TEXT_SIZE(sizeof "text" - 1)];
  sf_refusal most = {UINT64_MAX, ~(UINT64_C(1) << '9'),
                     ~(UINT64_C(1) << ('A' - 64) | UINT64_C(1) << ('a' - 64)), SF_ENDED, 1};
  CALL(sf_refusal_text(&most, buffer, sizeof buffer, &required));
  CHECK(status == SF_OK && required == longest && longest == 739);
  CALL(sf_refusal_in_text(&most, "text", 4, in_text, sizeof in_text, &required));
  CHECK(status == SF_OK && required == longest + sizeof "\nline 1, place 4:\ntext\n    ^" - 1);
}

/* A node by its role and its key, among some of the nodes of a Dictionary. */
static void finding(void) {
  const char *about = "a=1, bb=(x;y z;y=2;bb);y=3;a, c;a=4, yy";
  static const struct {
    size_t from, count;
    uint32_t role;
    const char *key;
    long index; /* -1: there is none */
  } rows[] = {
      {0, 12, SF_MEMBER, "a", 0},           {0, 12, SF_MEMBER, "bb", 1},
      {0, 12, SF_MEMBER, "c", 9},           {0, 12, SF_MEMBER, "yy", 11},
      {0, 12, SF_MEMBER, "y", -1},          {0, 12, SF_MEMBER, "b", -1},
      {0, 12, SF_MEMBER, "bbb", -1},        {0, 12, SF_MEMBER, "", -1},
      {1, 8, SF_INNER_PARAMETER, "y", 6},   {1, 8, SF_INNER_PARAMETER, "a", 7},
      {1, 8, SF_INNER_PARAMETER, "bb", -1}, {1, 8, SF_PARAMETER, "y", 2},
      {4, 3, SF_PARAMETER, "y", 1},         {4, 3, SF_PARAMETER, "bb", 2},
      {9, 2, SF_PARAMETER, "a", 1},         {9, 2, SF_INNER_PARAMETER, "a", -1},
      {0, 9, SF_MEMBER, "c", -1},           {0, 0, SF_MEMBER, "a", -1},
      {0, 12, 0, "a", -1},                  {0, 12, SF_INNER_ITEM, "", 2},
      {0, 12, UINT32_MAX, "a", -1},
  };
  uint32_t status;
  value parsed = take_value(SF_RFC9651, SF_DICT, about, (const unsigned char *)about,
                            strlen(about));
  CHECK(parsed.sizes.nodes == 12 && parsed.sizes.bytes == 0);

  /* the same with all keys in the bytes, and with some of them */
  sf_node copied_nodes[12], mixed_nodes[12];
  unsigned char copied_bytes[40];
  sf_builder builder = sf_build(sf_nodes_of(copied_nodes, 12), sf_buffer_of(copied_bytes, sizeof copied_bytes));
  for (size_t i = 0; i < 12; i += parsed.nodes[i].size)
    put_copy(&builder, parsed.nodes + i, about, parsed.text_length, NULL);
  CHECK(builder.status == SF_OK && builder.nodes.length == 12);
  unsigned char *text = take_buffer(about, parsed.text_length);
  unsigned char *bytes = take_buffer(copied_bytes, builder.bytes.length);
  for (size_t i = 0; i < 12; ++i) {
    mixed_nodes[i] = i % 2 == 0 ? parsed.nodes[i] : copied_nodes[i];
    if (i % 2 != 0)
      mixed_nodes[i].key_at += (uint32_t)parsed.text_length;
  }
  const struct {
    const sf_node *nodes;
    const void *text;
    size_t text_length;
    const void *bytes;
    size_t bytes_length;
  } forms[] = {
      {parsed.nodes, text, parsed.text_length, NULL, 0},
      {copied_nodes, NULL, 0, bytes, builder.bytes.length},
      {mixed_nodes, text, parsed.text_length, bytes, builder.bytes.length},
  };
  for (size_t form = 0; form < sizeof forms / sizeof *forms; ++form) {
    for (size_t i = 0; i < sizeof rows / sizeof *rows; ++i) {
      sf_node *nodes =
          take_buffer(forms[form].nodes + rows[i].from, rows[i].count * sizeof *nodes);
      size_t length = strlen(rows[i].key);
      unsigned char *key = take_buffer(rows[i].key, length);
      size_t *index = take_buffer(NULL, sizeof *index);
      size_t before = *index;
      FREE_CALL(sf_find(nodes, rows[i].count, forms[form].text, forms[form].text_length,
                        forms[form].bytes, forms[form].bytes_length, rows[i].role, key, length,
                        index));
      CHECK(status == (rows[i].index < 0 ? SF_ABSENT : SF_OK));
      CHECK(*index == (rows[i].index < 0 ? before : (size_t)rows[i].index));
      give_buffer(index);
      give_buffer(key);
      give_buffer(nodes);
    }
  }

  /* nodes of the caller's, whose keys are not there */
  about = "keys past the bytes";
  sf_node wild[3];
  memset(wild, 0, sizeof wild);
  for (size_t i = 0; i < 3; ++i)
    wild[i].role = SF_MEMBER;
  wild[0].key_at = UINT32_MAX;
  wild[0].key_length = 1;
  wild[1].key_at = (uint32_t)builder.bytes.length;
  wild[1].key_length = UINT32_MAX;
  wild[2].key_at = (uint32_t)builder.bytes.length;
  size_t index = 4711;
  CALL(sf_find(wild, 3, NULL, 0, bytes, builder.bytes.length, SF_MEMBER, "a", 1, &index));
  CHECK(status == SF_ABSENT && index == 4711);
  CALL(sf_find(wild, 3, bytes, builder.bytes.length, NULL, 0, SF_MEMBER, "a", 1, &index));
  CHECK(status == SF_ABSENT && index == 4711);
  CALL(sf_find(wild, 3, NULL, 0, bytes, builder.bytes.length, SF_MEMBER, NULL, 0, &index));
  CHECK(status == SF_OK && index == 2);
  about = "a key partly in the text";
  wild[0].key_at = 1;
  wild[0].key_length = 2;
  index = 4711;
  CALL(sf_find(wild, 1, "ab", 2, "cd", 2, SF_MEMBER, "bc", 2, &index));
  CHECK(status == SF_ABSENT && index == 4711);
  give_buffer(bytes);
  give_buffer(text);
  give_value(parsed);
}

/* What a node is to say. */
typedef struct row {
  uint32_t role, type;
  int64_t number;
  const char *key, *text;
  size_t size;
} row;

static int is_row(const value *v, const sf_node *node, const row *expected) {
  return node->role == expected->role && node->type == expected->type &&
         node->number == expected->number && node->size == expected->size && node->coded == 0 &&
         is_within(v, node->key_at, node->key_length) &&
         is_within(v, node->text_at, node->text_length) &&
         is_range(key_of(v, node), node->key_length, expected->key, strlen(expected->key)) &&
         is_range(bytes_of(v, node), node->text_length, expected->text, strlen(expected->text));
}

/* The nodes of a text, in each buffer that is too small, in buffers of exactly their size, and in
 * longer ones. If a key is repeated, a scan needs more nodes than the value has. With so many
 * nodes, so many bytes are decoded; with fewer, all keys and bytes are in the buffer. If no key is
 * repeated, the call does not allocate, also if a buffer is too small. */
static void parsed(uint32_t kind, const char *from, const row *rows, size_t count, size_t decoded,
                   size_t scanned) {
  const char *about = from;
  uint32_t status;
  size_t length = strlen(from), all_bytes = 0;
  for (size_t i = 0; i < count; ++i)
    all_bytes += strlen(rows[i].key) + strlen(rows[i].text);
  int is_repeated = scanned != count;
  size_t most = is_repeated && scanned != SIZE_MAX ? scanned : count;
  unsigned char *text = take_buffer(from, length);
  sf_refusal refusal = untouched;
  for (size_t n = 0; n <= most + 1; ++n) {
    size_t size = n < scanned && is_repeated ? all_bytes : decoded;
    for (size_t b = 0; b <= size + 1; ++b) {
      value v = {text, length, take_buffer(NULL, n * sizeof *v.nodes), take_buffer(NULL, b),
                 {4711, 4712}};
      CALL(sf_parse(&seed, SF_RFC9651, kind, text, length, v.nodes, n, v.bytes, b, &v.sizes,
                    &refusal));
      CHECK(status == (n < count ? SF_TOO_MANY : b < size ? SF_SHORT : SF_OK));
      CHECK(v.sizes.nodes == count && v.sizes.bytes == (status == SF_OK ? size : all_bytes));
      CHECK(is_repeated || calls == 0);
      for (size_t i = 0; status == SF_OK && i < count; ++i)
        CHECK(is_row(&v, &v.nodes[i], &rows[i]));
      give_value(v);
    }
  }
  CHECK(count <= SF_NODES_SIZE(length) && all_bytes <= SF_BYTES_SIZE(length));

  /* buffers of the sizes that are always large enough */
  value v = {text, length, take_buffer(NULL, SF_NODES_SIZE(length) * sizeof *v.nodes),
             take_buffer(NULL, SF_BYTES_SIZE(length)), {4711, 4712}};
  CALL(sf_parse(&seed, SF_RFC9651, kind, text, length, v.nodes, SF_NODES_SIZE(length), v.bytes,
                SF_BYTES_SIZE(length), &v.sizes, &refusal));
  size_t size = SF_NODES_SIZE(length) < scanned && is_repeated ? all_bytes : decoded;
  CHECK(status == SF_OK && v.sizes.nodes == count && v.sizes.bytes == size);
  CHECK(scanned == SIZE_MAX || calls == 0);
  give_value(v);
  CHECK(is_untouched(&refusal));
  give_buffer(text);
}

#define PARSED(kind, text, rows, decoded)                                                          \
  parsed(kind, text, rows, sizeof rows / sizeof *rows, decoded, sizeof rows / sizeof *rows)
/* A key of a Dictionary is repeated, and its members have so many nodes one by one. */
#define PARSED_SETTLED(kind, text, rows, decoded, scanned)                                         \
  parsed(kind, text, rows, sizeof rows / sizeof *rows, decoded, scanned)
/* A key of parameters is repeated. */
#define PARSED_REPEATED(kind, text, rows)                                                          \
  parsed(kind, text, rows, sizeof rows / sizeof *rows, 0, SIZE_MAX)

static void nodes_of_values(void) {
  static const row integer[] = {{SF_MEMBER, SF_INTEGER, -7, "", "", 1}};
  PARSED(SF_ITEM, " -007 ", integer, 0);
  static const row most[] = {{SF_MEMBER, SF_INTEGER, SF_NUMBER_MAX, "", "", 1},
                             {SF_MEMBER, SF_INTEGER, -SF_NUMBER_MAX, "", "", 1},
                             {SF_MEMBER, SF_DECIMAL, SF_NUMBER_MAX, "", "", 1},
                             {SF_MEMBER, SF_DECIMAL, -SF_NUMBER_MAX, "", "", 1},
                             {SF_MEMBER, SF_DATE, SF_NUMBER_MAX, "", "", 1},
                             {SF_MEMBER, SF_DATE, -SF_NUMBER_MAX, "", "", 1}};
  PARSED(SF_LIST,
         "999999999999999, -999999999999999, 999999999999.999, -999999999999.999, "
         "@999999999999999, @-999999999999999",
         most, 0);
  static const row decimal[] = {{SF_MEMBER, SF_DECIMAL, 1500, "", "", 3},
                                {SF_PARAMETER, SF_BOOLEAN, 0, "q", "", 1},
                                {SF_PARAMETER, SF_INTEGER, 1, "r", "", 1}};
  PARSED_REPEATED(SF_ITEM, "01.500;q;q=?0;r=1", decimal);
  PARSED(SF_ITEM, "01.500;q=?0;r=1", decimal, 0);
  static const row string[] = {{SF_MEMBER, SF_STRING, 0, "", "a\"b\\", 1}};
  PARSED(SF_ITEM, "\"a\\\"b\\\\\"", string, 4);
  static const row unescaped[] = {{SF_MEMBER, SF_STRING, 0, "", "a'b", 1}};
  PARSED(SF_ITEM, "\"a'b\"", unescaped, 0);
  static const row bytes[] = {{SF_MEMBER, SF_BYTE_SEQUENCE, 0, "", "\x89", 1}};
  PARSED(SF_ITEM, ":iZ==:", bytes, 1);
  static const row display[] = {{SF_MEMBER, SF_DISPLAY_STRING, 0, "", "f\xc3\xbc", 1}};
  PARSED(SF_ITEM, "%\"f%c3%bc\"", display, 3);
  static const row date[] = {{SF_MEMBER, SF_DATE, 1659578233, "", "", 1}};
  PARSED(SF_ITEM, "@1659578233", date, 0);
  static const row dict[] = {{SF_MEMBER, SF_INNER_LIST, 0, "a", "", 4},
                             {SF_INNER_ITEM, SF_INTEGER, 1, "", "", 1},
                             {SF_INNER_ITEM, SF_INTEGER, 2, "", "", 1},
                             {SF_INNER_PARAMETER, SF_BYTE_SEQUENCE, 0, "y", "a", 1},
                             {SF_MEMBER, SF_BOOLEAN, 1, "b", "", 2},
                             {SF_PARAMETER, SF_BOOLEAN, 1, "x", "", 1}};
  PARSED_SETTLED(SF_DICT, "a=1,b;x, a=(1  2 );y=:YQ:", dict, 1, 7);
  PARSED(SF_DICT, "a=(1  2 );y=:YQ:,b;x", dict, 1);
  static const row list[] = {{SF_MEMBER, SF_TOKEN, 0, "", "abc", 4},
                             {SF_PARAMETER, SF_INTEGER, 1, "a", "", 1},
                             {SF_PARAMETER, SF_INTEGER, 2, "b", "", 1},
                             {SF_PARAMETER, SF_BOOLEAN, 1, "cde_456", "", 1},
                             {SF_MEMBER, SF_INNER_LIST, 0, "", "", 6},
                             {SF_INNER_ITEM, SF_TOKEN, 0, "", "ghi", 2},
                             {SF_PARAMETER, SF_INTEGER, 4, "jk", "", 1},
                             {SF_INNER_ITEM, SF_TOKEN, 0, "", "l", 1},
                             {SF_INNER_PARAMETER, SF_STRING, 0, "q", "9", 1},
                             {SF_INNER_PARAMETER, SF_TOKEN, 0, "r", "w", 1}};
  PARSED(SF_LIST, "abc;a=1;b=2; cde_456, (ghi;jk=4 l);q=\"9\";r=w", list, 0);
  static const row of_both[] = {{SF_MEMBER, SF_INNER_LIST, 0, "", "", 4},
                                {SF_INNER_ITEM, SF_TOKEN, 0, "", "a", 2},
                                {SF_PARAMETER, SF_BOOLEAN, 1, "b", "", 1},
                                {SF_INNER_PARAMETER, SF_BOOLEAN, 1, "b", "", 1}};
  PARSED(SF_LIST, "(a;b);b", of_both, 0);
  static const row inner[] = {{SF_MEMBER, SF_INNER_LIST, 0, "", "", 1}};
  PARSED(SF_LIST, "( )", inner, 0);
  parsed(SF_LIST, "", NULL, 0, 0, 0);
  parsed(SF_DICT, "  ", NULL, 0, 0, 0);
}

/* What is put to a builder: a letter for each call. */
typedef struct step {
  char call; /* ( begins an Inner List, ) ends it, = puts an Item, ; a parameter */
  uint32_t type;
  const char *key;
  int64_t number;
  const char *text;
} step;

/* By the call for the type. */
static void put(sf_builder *to, const step *one) {
  int is_param = one->call == ';';
  switch (one->call == '(' || one->call == ')' ? (uint32_t)one->call : one->type) {
  case '(':
    sf_begin_inner_list(to, one->key);
    break;
  case ')':
    sf_end_inner_list(to);
    break;
  case SF_INTEGER:
    (is_param ? sf_param_integer : sf_put_integer)(to, one->key, one->number);
    break;
  case SF_DECIMAL:
    (is_param ? sf_param_decimal : sf_put_decimal)(to, one->key, one->number);
    break;
  case SF_STRING:
    (is_param ? sf_param_string : sf_put_string)(to, one->key, one->text);
    break;
  case SF_TOKEN:
    (is_param ? sf_param_token : sf_put_token)(to, one->key, one->text);
    break;
  case SF_BYTE_SEQUENCE:
    (is_param ? sf_param_byte_sequence : sf_put_byte_sequence)(to, one->key, sf_cstr(one->text));
    break;
  case SF_BOOLEAN:
    (is_param ? sf_param_boolean : sf_put_boolean)(to, one->key, (int)one->number);
    break;
  case SF_DATE:
    (is_param ? sf_param_date : sf_put_date)(to, one->key, one->number);
    break;
  case SF_DISPLAY_STRING:
    (is_param ? sf_param_display_string : sf_put_display_string)(to, one->key, one->text);
    break;
  default:
    abort();
  }
}

/* What was put has the nodes of this text, and is written as it. The steps in each buffer that is
 * too small: the status stays, and what was put before stays. */
static void built(uint32_t kind, const step *steps, size_t count, const char *text) {
  const char *about = text;
  uint32_t status;
  value parsed_value = take_value(SF_RFC9651, kind, about, (const unsigned char *)text,
                                  strlen(text));
  size_t nodes_length = parsed_value.sizes.nodes, bytes_length = 0;
  for (size_t i = 0; i < nodes_length; ++i)
    bytes_length += parsed_value.nodes[i].key_length + parsed_value.nodes[i].text_length;
  for (size_t n = 0; n <= nodes_length + 1; ++n) {
    for (size_t b = 0; b <= bytes_length + 1; ++b) {
      value v = {NULL, 0, take_buffer(NULL, n * sizeof *v.nodes), take_buffer(NULL, b), {n, b}};
      sf_builder builder = sf_build(sf_nodes_of(v.nodes, n), sf_buffer_of(v.bytes, b));
      for (size_t i = 0; i < count; ++i)
        put(&builder, &steps[i]);
      CHECK(builder.status == (n < nodes_length || b < bytes_length ? SF_SHORT : SF_OK));
      CHECK(builder.nodes.length <= nodes_length && builder.bytes.length <= bytes_length);
      for (size_t i = 0; builder.status == SF_OK && i < nodes_length; ++i)
        CHECK(is_same_node(&parsed_value, &parsed_value.nodes[i], &v, &v.nodes[i]));
      size_t invalid = 4711;
      if (builder.status == SF_OK) {
        CHECK(builder.nodes.length == nodes_length && builder.bytes.length == bytes_length);
        WRITES(write_built(&seed, SF_RFC9651, kind, &builder, buffer, size, required, &invalid),
               text);
      } else {
        size_t required = 4711;
        CALL(write_built(&seed, SF_RFC9651, kind, &builder, NULL, 0, &required, &invalid));
        CHECK(status == SF_BAD_CALL && required == 4711);
      }
      CHECK(invalid == 4711);
      give_value(v);
    }
  }
  give_value(parsed_value);
}

#define BUILT(kind, steps, text) built(kind, steps, sizeof steps / sizeof *steps, text)

/* Dictionaries of many keys: if they all differ, the call does not allocate; if the last is the
 * first again, there is one member less. */
static void many_keys(void) {
  const char *about = "many keys";
  uint32_t status;
  for (size_t count = 8; count <= 8192; count *= 2) {
    size_t length = count * 6 - 1;
    char *text = malloc(length + 2);
    if (text == NULL)
      abort();
    for (size_t i = 0; i < count; ++i)
      snprintf(text + i * 6, 7, "k%04zx,", i);
    text[length] = '\0';
    sf_refusal refusal = untouched;
    value v = {(unsigned char *)text, length,
               take_buffer(NULL, SF_NODES_SIZE(length) * sizeof *v.nodes),
               take_buffer(NULL, SF_BYTES_SIZE(length)), {4711, 4712}};
    FREE_CALL(sf_parse(&seed, SF_RFC9651, SF_DICT, text, length, v.nodes, SF_NODES_SIZE(length),
                       v.bytes, SF_BYTES_SIZE(length), &v.sizes, &refusal));
    CHECK(status == SF_OK && v.sizes.nodes == count && v.sizes.bytes == 0);
    memcpy(text + length - 5, text, 5);
    CALL(sf_parse(&seed, SF_RFC9651, SF_DICT, text, length, v.nodes, SF_NODES_SIZE(length),
                  v.bytes, SF_BYTES_SIZE(length), &v.sizes, &refusal));
    CHECK(status == SF_OK && v.sizes.nodes == count - 1);
    CHECK(is_untouched(&refusal));
    give_value(v);
    free(text);
  }
}

/* Of very many keys it is found out with memory whether they differ. */
static void very_many_keys(void) {
  enum { COUNT = 16384, LENGTH = COUNT * 6 - 1 };
  const char *about = "very many keys";
  uint32_t status;
  char *text = malloc(LENGTH + 2);
  value v = {(unsigned char *)text, LENGTH, malloc(COUNT * sizeof *v.nodes), malloc(COUNT * 6),
             {4711, 4712}};
  if (text == NULL || v.nodes == NULL || v.bytes == NULL)
    abort();
  for (size_t i = 0; i < COUNT; ++i)
    snprintf(text + i * 6, 7, "k%04zx,", i);
  sf_refusal refusal = untouched;
  CALL(sf_parse(&seed, SF_RFC9651, SF_DICT, text, LENGTH, v.nodes, COUNT, v.bytes, COUNT * 6,
                &v.sizes, &refusal));
  CHECK(status == SF_OK && calls > 0 && v.sizes.nodes == COUNT && v.sizes.bytes == 0);
  CHECK_MEMORY(LENGTH);
  free(v.nodes);
  free(v.bytes);
  free(text);
}

/* Short texts, and buffers of which one has an element less than the value needs. The other one is
 * large enough for any text of the length. The text is counted, without memory. */
static void short_texts(void) {
  static const struct {
    uint32_t kind;
    const char *text;
    size_t nodes, decoded, all_bytes;
  } rows[] = {
      {SF_ITEM, "a", 1, 0, 1},      {SF_LIST, "a", 1, 0, 1},       {SF_DICT, "a", 1, 0, 1},
      {SF_LIST, ":/w:", 1, 1, 1},   {SF_ITEM, ":YQ:", 1, 1, 1},    {SF_LIST, ":YQ:", 1, 1, 1},
      {SF_LIST, "a;b", 2, 0, 2},    {SF_ITEM, "\"\\\"\"", 1, 1, 1}, {SF_LIST, "\"\\\"\"", 1, 1, 1},
      {SF_DICT, "a=:/w:", 1, 1, 2}, {SF_LIST, "(a b c)", 4, 0, 3}, {SF_LIST, ":YWJj:", 1, 3, 3},
  };
  for (size_t i = 0; i < sizeof rows / sizeof *rows; ++i) {
    const char *about = rows[i].text;
    uint32_t status;
    size_t length = strlen(about), nodes = rows[i].nodes, decoded = rows[i].decoded;
    size_t most_nodes = SF_NODES_SIZE(length), most_bytes = SF_BYTES_SIZE(length);
    unsigned char *text = take_buffer(about, length);
    sf_refusal refusal = untouched;
    value v = {text, length, take_buffer(NULL, most_nodes * sizeof *v.nodes),
               take_buffer(NULL, most_bytes), {4711, 4712}};
    for (size_t bytes = 0; bytes <= most_bytes; ++bytes) {
      v.sizes = (sf_sizes){4711, 4712};
      FREE_CALL(sf_parse(&seed, SF_RFC9651, rows[i].kind, text, length, v.nodes, nodes - 1, v.bytes,
                         bytes, &v.sizes, &refusal));
      CHECK(status == SF_TOO_MANY && v.sizes.nodes == nodes && v.sizes.bytes == rows[i].all_bytes);
    }
    for (size_t count = nodes; decoded > 0 && count <= most_nodes; ++count) {
      v.sizes = (sf_sizes){4711, 4712};
      FREE_CALL(sf_parse(&seed, SF_RFC9651, rows[i].kind, text, length, v.nodes, count, v.bytes,
                         decoded - 1, &v.sizes, &refusal));
      CHECK(status == SF_SHORT && v.sizes.nodes == nodes && v.sizes.bytes == rows[i].all_bytes);
    }
    FREE_CALL(sf_parse(&seed, SF_RFC9651, rows[i].kind, text, length, v.nodes, nodes, v.bytes,
                       decoded, &v.sizes, &refusal));
    CHECK(status == SF_OK && v.sizes.nodes == nodes && v.sizes.bytes == decoded);
    CHECK(is_untouched(&refusal));
    give_value(v);
    give_buffer(text);
  }
}

/* Buffers that are much too small for many members: the text is counted, without memory unless a
 * key is repeated, and then with memory for the different keys. */
static void limits(void) {
  enum { LENGTH = 65535 };
  static const struct {
    uint32_t kind;
    const char *members;
    int is_repeated;
  } rows[] = {
      {SF_LIST, "a;b,", 0},
      {SF_LIST, "a,", 0},
      {SF_LIST, "(a :YWJj:;b),", 0},
      {SF_LIST, "\"\\\"\",", 0},
      {SF_DICT, "a,", 1},
      {SF_DICT, "a=1;b,", 1},
      {SF_LIST, "a;b;b,", 1},
  };
  for (size_t i = 0; i < sizeof rows / sizeof *rows; ++i) {
    const char *about = rows[i].members;
    uint32_t status;
    size_t size = strlen(about), length = LENGTH / size * size - 1;
    char *text = malloc(LENGTH);
    if (text == NULL)
      abort();
    for (size_t at = 0; at < length; ++at)
      text[at] = about[at % size];
    sf_refusal refusal = untouched;
    sf_sizes sizes = {4711, 4712};
    CALL(sf_parse(&seed, SF_RFC9651, rows[i].kind, text, length, NULL, 0, NULL, 0, &sizes,
                  &refusal));
    CHECK(status == SF_TOO_MANY && is_untouched(&refusal));
    CHECK(rows[i].is_repeated ? peak <= 1024 : calls == 0);
    size_t nodes = sizes.nodes, bytes = sizes.bytes;
    value v = {(unsigned char *)text, length, malloc(SF_NODES_SIZE(length) * sizeof *v.nodes),
               malloc(SF_BYTES_SIZE(length)), {4711, 4712}};
    CALL(sf_parse(&seed, SF_RFC9651, rows[i].kind, text, length, v.nodes, SF_NODES_SIZE(length),
                  v.bytes, SF_BYTES_SIZE(length), &v.sizes, &refusal));
    size_t keys_and_texts = 0;
    for (size_t n = 0; n < v.sizes.nodes; ++n)
      keys_and_texts += v.nodes[n].key_length + v.nodes[n].text_length;
    CHECK(status == SF_OK && nodes == v.sizes.nodes && bytes == keys_and_texts);
    free(v.nodes);
    free(v.bytes);
    if (rows[i].kind == SF_LIST && text[0] == 'a') {
      sf_hop hops[8];
      sf_path path = {4711, 4712, 4713, 4714, 4715};
      FREE_CALL(sf_cache_status(&seed, text, length, hops, 8, NULL, 0, &path, &refusal));
      CHECK(status == SF_SHORT && path.hops == (length + 1) / size && path.bytes == path.hops);
      CHECK(path.nameless == 4714 && path.is_served == 0 && is_untouched(&refusal));
    }
    free(text);
  }
}

/* A call that refuses the text at its last byte, without an allocation. */
#define LEAN_CALL(call)                                                                            \
  do {                                                                                             \
    refusal = untouched;                                                                           \
    FREE_CALL(call);                                                                               \
    CHECK(status == SF_REFUSED && refusal.offset == length - 1);                                   \
  } while (0)

/* Malformed Lists and Dictionaries of this length: spaces, then whole members, and last a byte with
 * which no member begins. */
static void lean_refusals_of(size_t length) {
  static const struct {
    uint32_t kind;
    const char *members;
    char last;
  } rows[] = {
      {SF_LIST, "a;b,", '='},
      {SF_LIST, "\"a text\" , ", ','},
      {SF_LIST, "(1 :YQ==:;p);q,\t", '!'},
      {SF_LIST, "\"a text of more than 16 bytes\";a-key-of-more-than-16-bytes=tokens,", '!'},
      {SF_DICT, "k=1,", '!'},
      {SF_DICT, "k;p=\"x, y\"; q, ", '='},
      {SF_DICT, "k=(a b),", 'K'},
  };
  for (size_t i = 0; i < sizeof rows / sizeof *rows; ++i) {
    const char *about = rows[i].members;
    size_t each = strlen(about);
    unsigned char *text = take_buffer(NULL, length);
    size_t front = (length - 1) % each;
    memset(text, ' ', front);
    for (size_t at = front; at < length - 1; at += each)
      memcpy(text + at, about, each);
    text[length - 1] = (unsigned char)rows[i].last;
    value v = {text, length, take_buffer(NULL, SF_NODES_SIZE(length) * sizeof *v.nodes),
               take_buffer(NULL, SF_BYTES_SIZE(length)), {4711, 4712}};
    sf_refusal refusal;
    uint32_t status;
    LEAN_CALL(sf_check(&seed, SF_RFC9651, rows[i].kind, text, length, &refusal));
    LEAN_CALL(sf_check(&seed, SF_RFC8941, rows[i].kind, text, length, &refusal));
    LEAN_CALL(sf_parse(&seed, SF_RFC9651, rows[i].kind, text, length, v.nodes,
                       SF_NODES_SIZE(length), v.bytes, SF_BYTES_SIZE(length), &v.sizes, &refusal));
    if (rows[i].kind == SF_DICT) {
      sf_priority_flags priority;
      sf_response_priority_flags response;
      sf_policy policy;
      sf_rules rules;
      LEAN_CALL(sf_priority(&seed, text, length, &priority, &refusal));
      LEAN_CALL(sf_priority_in(&seed, SF_RFC8941, text, length, &priority, &refusal));
      const sf_priority_flags sets = {1, 1, 1, 1};
      size_t unused;
      LEAN_CALL(sf_priority_change(&seed, text, length, &sets, v.bytes, SF_BYTES_SIZE(length),
                                   &unused, &refusal));
      LEAN_CALL(sf_response_priority(&seed, SF_RFC8941, text, length, &response, &refusal));
      LEAN_CALL(sf_cache_control(&seed, text, length, &policy, &refusal));
      LEAN_CALL(sf_cache_rules(&seed, SF_RFC8941, text, length, &rules, &refusal));
    } else {
      sf_hop hops[4];
      sf_path path;
      LEAN_CALL(sf_cache_status(&seed, text, length, hops, 4, v.bytes, SF_BYTES_SIZE(length), &path,
                                &refusal));
    }
    /* what may look for nodes first */
    size_t required = 4711;
    CALL(sf_normalise(&seed, SF_RFC9651, rows[i].kind, text, length, v.bytes, SF_BYTES_SIZE(length),
                      &required, &refusal));
    CHECK(status == SF_REFUSED && required == 4711);
    CHECK_MEMORY(length);
    give_value(v);
    give_buffer(text);
  }
}

static void lean_refusals(void) {
  lean_refusals_of(90);
  lean_refusals_of(200);
  lean_refusals_of(65536);
}

static void building(void) {
  static const step signature[] = {
      {'(', 0, "sig1", 0, NULL},           {'=', SF_STRING, NULL, 0, "@method"},
      {'=', SF_STRING, NULL, 0, "@path"},  {')', 0, NULL, 0, NULL},
      {';', SF_INTEGER, "created", 1, NULL}, {';', SF_STRING, "keyid", 0, "k"}};
  BUILT(SF_DICT, signature, "sig1=(\"@method\" \"@path\");created=1;keyid=\"k\"");
  static const step types[] = {
      {'=', SF_INTEGER, NULL, -SF_NUMBER_MAX, NULL}, {'=', SF_DECIMAL, NULL, -500, NULL},
      {'=', SF_STRING, NULL, 0, "a\"b\\"},           {'=', SF_TOKEN, NULL, 0, "*a/b:c"},
      {'=', SF_BYTE_SEQUENCE, NULL, 0, "a"},         {'=', SF_BOOLEAN, NULL, 0, NULL},
      {'=', SF_DATE, NULL, 1659578233, NULL},        {'=', SF_DISPLAY_STRING, NULL, 0, "f\xc3\xbc"}};
  BUILT(SF_LIST, types,
        "-999999999999999, -0.5, \"a\\\"b\\\\\", *a/b:c, :YQ==:, ?0, @1659578233, %\"f%c3%bc\"");
  static const step params[] = {
      {'=', SF_TOKEN, NULL, 0, "t"},        {';', SF_INTEGER, "a", 7, NULL},
      {';', SF_DECIMAL, "b", 1000, NULL},   {';', SF_STRING, "c", 0, ""},
      {';', SF_TOKEN, "d", 0, "x"},         {';', SF_BYTE_SEQUENCE, "e", 0, ""},
      {';', SF_BOOLEAN, "f", 7, NULL},      {';', SF_DATE, "*g", -1, NULL},
      {';', SF_DISPLAY_STRING, "h", 0, ""}};
  BUILT(SF_ITEM, params, "t;a=7;b=1.0;c=\"\";d=x;e=::;f;*g=@-1;h=%\"\"");
  static const step nested[] = {
      {'(', 0, "a", 0, NULL},          {'=', SF_INTEGER, NULL, 1, NULL},
      {';', SF_BOOLEAN, "x", 1, NULL}, {';', SF_BOOLEAN, "y", 0, NULL},
      {'=', SF_INTEGER, NULL, 2, NULL}, {')', 0, NULL, 0, NULL},
      {';', SF_BOOLEAN, "x", 1, NULL}, {'=', SF_BOOLEAN, "b", 1, NULL},
      {';', SF_TOKEN, "x", 0, "y"},    {'(', 0, "c", 0, NULL},
      {')', 0, NULL, 0, NULL},         {'(', 0, "d", 0, NULL},
      {')', 0, NULL, 0, NULL},         {';', SF_INTEGER, "z", 0, NULL}};
  BUILT(SF_DICT, nested, "a=(1;x;y=?0 2);x, b;x=y, c=(), d=();z=0");
  static const step open[] = {{'(', 0, NULL, 0, NULL}, {'=', SF_TOKEN, NULL, 0, "a"}};
  BUILT(SF_LIST, open, "(a)");
  built(SF_LIST, NULL, 0, "");
  built(SF_DICT, NULL, 0, "");

  /* calls that are out of place */
  static const struct {
    const char *calls; /* each the call of a step, with the key "k" */
    size_t nodes;      /* how many are put before the first that fails */
  } rows[] = {{";", 0}, {"(;", 1}, {"((", 1}, {")", 0}, {"())", 1}, {"=)", 1}, {"(=(", 2}};
  for (size_t i = 0; i < sizeof rows / sizeof *rows; ++i) {
    const char *about = rows[i].calls;
    sf_node nodes[8];
    char bytes[32];
    sf_builder builder = sf_build(sf_nodes_of(nodes, 8), sf_buffer_of(bytes, sizeof bytes));
    for (const char *call = rows[i].calls; *call != '\0'; ++call) {
      step one = {*call, SF_INTEGER, "k", 1, NULL};
      put(&builder, &one);
    }
    CHECK(builder.status == SF_BAD_CALL && builder.nodes.length == rows[i].nodes);
    step again[] = {{'=', SF_TOKEN, "k", 0, "a"}, {';', SF_TOKEN, "k", 0, "a"},
                    {'(', 0, "k", 0, NULL},       {')', 0, NULL, 0, NULL}};
    for (size_t k = 0; k < sizeof again / sizeof *again; ++k)
      put(&builder, &again[k]);
    CHECK(builder.status == SF_BAD_CALL && builder.nodes.length == rows[i].nodes);
  }

  /* with lengths: keys and texts within others, and a NUL */
  const char *about = "lengths";
  uint32_t status;
  sf_node nodes[4];
  char bytes[16];
  sf_builder builder = sf_build(sf_nodes_of(nodes, 4), sf_buffer_of(bytes, sizeof bytes));
  size_t invalid;
  sf_put(&builder, sf_text_of("abc", 2), SF_DISPLAY_STRING, 0, sf_text_of("x\0y", 3));
  sf_param(&builder, sf_text_of("key", 1), SF_TOKEN, 0, sf_text_of("token", 3));
  WRITES(write_built(&seed, SF_RFC9651, SF_DICT, &builder, buffer, size, required, &invalid),
         "ab=%\"x%00y\";k=tok");

  /* parts of a parsed value in other places */
  about = "a=1;x, b=(c;y \"d\\\"\");z";
  value v = take_value(SF_RFC9651, SF_DICT, about, (const unsigned char *)about, strlen(about));
  sf_node copies[12];
  char copied[32];
  builder = sf_build(sf_nodes_of(copies, 12), sf_buffer_of(copied, sizeof copied));
  sf_begin_inner_list(&builder, NULL);
  put_copy(&builder, v.nodes + 3, about, v.text_length, v.bytes); /* c;y */
  put_copy(&builder, v.nodes + 5, about, v.text_length, v.bytes); /* "d\"" */
  put_copy(&builder, v.nodes + 1, about, v.text_length, v.bytes); /* x */
  sf_end_inner_list(&builder);
  put_copy(&builder, v.nodes + 6, about, v.text_length, v.bytes); /* z */
  put_copy(&builder, v.nodes + 5, about, v.text_length, v.bytes);
  put_copy(&builder, v.nodes + 6, about, v.text_length, v.bytes);
  CHECK(builder.status == SF_OK);
  WRITES(write_built(&seed, SF_RFC9651, SF_LIST, &builder, buffer, size, required, &invalid),
         "(c;y \"d\\\"\";x);z, \"d\\\"\";z");
  sf_begin_inner_list(&builder, NULL);
  put_copy(&builder, v.nodes + 2, about, v.text_length, v.bytes);
  CHECK(builder.status == SF_BAD_CALL && builder.nodes.length == 9);

  /* an Inner List without its first Item, by its key in the text; a member of a Dictionary in it */
  builder = sf_build(sf_nodes_of(copies, 12), sf_buffer_of(copied, sizeof copied));
  sf_begin(&builder, sf_text_of(node_key(v.nodes + 2, about, v.text_length, v.bytes),
                                v.nodes[2].key_length));
  put_copy(&builder, v.nodes + 5, about, v.text_length, v.bytes); /* "d\"" */
  put_copy(&builder, v.nodes, about, v.text_length, v.bytes);     /* a=1;x */
  sf_end_inner_list(&builder);
  put_copy(&builder, v.nodes + 6, about, v.text_length, v.bytes); /* z */
  put_copy(&builder, v.nodes, about, v.text_length, v.bytes);
  WRITES(write_built(&seed, SF_RFC9651, SF_DICT, &builder, buffer, size, required, &invalid),
         "b=(\"d\\\"\" 1;x);z, a=1;x");
  give_value(v);
}

/* Bare items that are changed where they are. */
static void changing(void) {
  const char *about = "a=1;x, b=(c;y \"d\\\"\");z=%\"e\"";
  uint32_t status;
  size_t text_length = strlen(about), invalid = 4711;
  unsigned char *text = take_buffer(about, text_length);
  sf_node nodes[8];
  sf_sizes sizes;
  sf_refusal refusal = untouched;
  char *bytes = take_buffer(NULL, 8);
  CALL(sf_parse(&seed, SF_RFC9651, SF_DICT, text, text_length, nodes, 8, bytes, 8, &sizes,
                &refusal));
  CHECK(status == SF_OK && sizes.nodes == 7 && sizes.bytes == 3);
  sf_set_number(nodes + 1, SF_DECIMAL, -500); /* of x, which was true */
  sf_set_number(nodes + 5, SF_DATE, 7);
  CHECK(nodes[0].size == 2 && nodes[5].key_length == 0 && nodes[5].size == 1);
#define SET(node, type, value, length)                                                             \
  set_text(nodes + (node), type, value, length, text_length, bytes, 8, &sizes)
  sf_node before = nodes[0];
  CHECK(SET(0, SF_TOKEN, "longer", 6) == SF_SHORT && sizes.bytes == 3);
  CHECK(set_text(nodes, SF_TOKEN, "f", 1, UINT32_MAX - 2, bytes, 8, &sizes) == SF_TOO_LONG);
  CHECK(set_text(nodes, SF_TOKEN, "f", 1, SIZE_MAX, bytes, 8, &sizes) == SF_TOO_LONG);
  CHECK(memcmp(&before, nodes, sizeof before) == 0 && sizes.bytes == 3);
  sf_node last = before; /* at the last offset that there is */
  sf_sizes last_sizes = sizes;
  CHECK(set_text(&last, SF_TOKEN, "f", 1, UINT32_MAX - 3, bytes, 8, &last_sizes) == SF_OK);
  CHECK(last.text_at == UINT32_MAX && last.text_length == 1 && last_sizes.bytes == 4);
  CHECK(SET(0, SF_TOKEN, "fg/", 3) == SF_OK && sizes.bytes == 6);
  CHECK(SET(3, SF_STRING, NULL, 0) == SF_OK && sizes.bytes == 6);
  CHECK(SET(6, SF_BYTE_SEQUENCE, "\0\xff", 2) == SF_OK && sizes.bytes == 8);
  CHECK(SET(6, SF_BYTE_SEQUENCE, "a", 1) == SF_SHORT);
#undef SET
  WRITES(sf_write(&seed, SF_RFC9651, SF_DICT, nodes, sizes.nodes, text, text_length, bytes,
                  sizes.bytes, buffer, size, required, &invalid),
         "a=fg/;x=-0.5, b=(\"\";y @7);z=:AP8=:");
  sf_set_number(nodes + 4, SF_INTEGER, SF_NUMBER_MAX + 1);
  size_t required = 4711;
  CALL(sf_write(&seed, SF_RFC9651, SF_DICT, nodes, sizes.nodes, text, text_length, bytes,
                sizes.bytes, NULL, 0, &required, &invalid));
  CHECK(status == SF_INVALID && invalid == 4 && required == 4711);
  give_buffer(text);
  give_buffer(bytes);
}

/* Nodes that describe no value of the kind: sf_write says which is the first. */
static void broken_nodes(void) {
  enum { ROLE, TYPE, SIZE_OF, KEY_AT, KEY_LENGTH, TEXT_AT, TEXT_LENGTH, NUMBER, CODED };
  static const struct {
    uint32_t kind;
    const char *text; /* its nodes are changed */
    size_t node;
    int member; /* of the node */
    uint32_t now;
    size_t invalid;
    const char *canonical; /* NULL if the nodes are no value */
  } rows[] = {
      {SF_LIST, "a, b", 1, ROLE, SF_INNER_ITEM, 1, NULL},
      {SF_LIST, "a, b", 1, ROLE, SF_PARAMETER, 1, NULL},
      {SF_LIST, "a, b", 1, ROLE, 0, 1, NULL},
      {SF_LIST, "a, b", 0, TYPE, 0, 0, NULL},
      {SF_LIST, "a, b", 1, TYPE, SF_DISPLAY_STRING + 1, 1, NULL},
      {SF_LIST, "a, b", 1, TYPE, SF_STRING, 0, "a, \"b\""},
      {SF_LIST, "a, b", 1, TYPE, SF_BYTE_SEQUENCE, 0, "a, :Yg==:"},
      {SF_LIST, "a, b", 1, TYPE, SF_DISPLAY_STRING, 0, "a, %\"b\""},
      {SF_LIST, "a, b", 0, SIZE_OF, 2, 1, NULL},
      {SF_LIST, "a, b", 1, SIZE_OF, 2, 1, NULL},
      {SF_LIST, "a, b", 1, SIZE_OF, 0, 1, NULL},
      {SF_LIST, "a, b", 1, TEXT_LENGTH, 0, 1, NULL},
      {SF_LIST, "a, b", 1, TEXT_LENGTH, 2, 1, NULL},
      {SF_LIST, "a, b", 1, TEXT_LENGTH, UINT32_MAX, 1, NULL},
      {SF_LIST, "a, b", 1, TEXT_AT, 0, 0, "a, a"},
      {SF_LIST, "a, b", 1, TEXT_AT, 1, 1, NULL},
      {SF_LIST, "a, b", 1, TEXT_AT, UINT32_MAX, 1, NULL},
      {SF_LIST, "a, b", 1, KEY_LENGTH, 1, 1, NULL},
      {SF_LIST, "(a b);c", 0, SIZE_OF, 3, 3, NULL},
      {SF_LIST, "(a b);c", 1, ROLE, SF_MEMBER, 1, NULL},
      {SF_LIST, "(a b);c", 2, TYPE, SF_INNER_LIST, 2, NULL},
      {SF_LIST, "(a b);c", 0, TEXT_LENGTH, 1, 0, NULL},
      {SF_LIST, "(a b);c", 0, NUMBER, 1, 0, NULL},
      {SF_LIST, "(a b);c", 1, NUMBER, 1, 1, NULL},
      {SF_LIST, "?1, 5", 0, NUMBER, 2, 0, NULL},
      {SF_LIST, "?1, 5", 0, NUMBER, 0, 0, "?0, 5"},
      {SF_LIST, "?1, 5", 1, NUMBER, 7, 0, "?1, 7"},
      {SF_LIST, "?1, 5", 1, TEXT_LENGTH, 1, 1, NULL},
      {SF_DICT, "a, b", 1, KEY_LENGTH, 0, 1, NULL},
      {SF_DICT, "a, b", 1, KEY_AT, 0, 1, NULL},
      {SF_DICT, "a, b", 1, KEY_AT, 1, 1, NULL},
      {SF_DICT, "a;x;y", 2, KEY_AT, 2, 2, NULL},
      {SF_DICT, "a;x;y", 2, KEY_AT, 0, 0, "a;x;a"},
      {SF_DICT, "a;x;y", 0, SIZE_OF, 2, 2, NULL},
      {SF_ITEM, "\"a\\\"\"", 0, CODED, 1, 0, NULL},
      {SF_ITEM, "a", 0, CODED, 1, 0, "a"},
  };
  for (size_t i = 0; i < sizeof rows / sizeof *rows; ++i) {
    const char *about = rows[i].text;
    uint32_t status;
    size_t length = strlen(about), required = 4711, invalid = 4711;
    value v = take_value(SF_RFC9651, rows[i].kind, about, (const unsigned char *)about, length);
    unsigned char *text = take_buffer(about, length);
    sf_node *node = &v.nodes[rows[i].node];
    uint32_t now = rows[i].now;
    switch (rows[i].member) {
    case ROLE:
      node->role = (uint8_t)now;
      break;
    case TYPE:
      node->type = (uint8_t)now;
      break;
    case SIZE_OF:
      node->size = now;
      break;
    case KEY_AT:
      node->key_at = now;
      break;
    case KEY_LENGTH:
      node->key_length = now;
      break;
    case TEXT_AT:
      node->text_at = now;
      break;
    case TEXT_LENGTH:
      node->text_length = now;
      break;
    case NUMBER:
      node->number = now;
      break;
    default:
      node->coded = (uint8_t)now;
    }
    if (rows[i].canonical != NULL) {
      WRITES(sf_write(&seed, SF_RFC9651, rows[i].kind, v.nodes, v.sizes.nodes, text, length,
                      v.bytes, v.sizes.bytes, buffer, size, required, &invalid),
             rows[i].canonical);
      CHECK(invalid == 4711);
    } else {
      unsigned char *out = take_buffer(NULL, 16);
      CALL(sf_write(&seed, SF_RFC9651, rows[i].kind, v.nodes, v.sizes.nodes, text, length, v.bytes,
                    v.sizes.bytes, out, 16, &required, &invalid));
      CHECK(status == SF_INVALID && invalid == rows[i].invalid && required == 4711);
      CHECK(all_are(out, 16));
      give_buffer(out);
    }
    give_buffer(text);
    give_value(v);
  }

  /* values that no text has */
  static const struct {
    uint32_t type;
    int64_t number;
    const char *key, *text;
  } items[] = {
      {SF_INTEGER, SF_NUMBER_MAX + 1, "k", NULL},  {SF_INTEGER, -SF_NUMBER_MAX - 1, "k", NULL},
      {SF_DECIMAL, SF_NUMBER_MAX + 1, "k", NULL},  {SF_DECIMAL, INT64_MIN, "k", NULL},
      {SF_DATE, SF_NUMBER_MAX + 1, "k", NULL},     {SF_DATE, INT64_MIN, "k", NULL},
      {SF_STRING, 0, "k", "\x1f"},                 {SF_STRING, 0, "k", "a\x7f"},
      {SF_STRING, 0, "k", "\xc3\xbc"},             {SF_TOKEN, 0, "k", ""},
      {SF_TOKEN, 0, "k", "1a"},                    {SF_TOKEN, 0, "k", "a b"},
      {SF_TOKEN, 0, "k", "a,"},                    {SF_DISPLAY_STRING, 0, "k", "\xc3"},
      {SF_DISPLAY_STRING, 0, "k", "\xed\xa0\x80"}, {SF_TOKEN, 0, "", "a"},
      {SF_TOKEN, 0, "A", "a"},                     {SF_TOKEN, 0, "1", "a"},
      {SF_TOKEN, 0, "a b", "a"},                   {SF_TOKEN, 0, "a\x80", "a"},
      {SF_INNER_LIST, 0, "k", ""},                 {SF_DISPLAY_STRING + 1, 0, "k", ""},
  };
  for (size_t i = 0; i < sizeof items / sizeof *items; ++i) {
    const char *about = items[i].text == NULL ? "a number" : items[i].text;
    uint32_t status;
    sf_node nodes[4];
    char bytes[16];
    sf_builder builder = sf_build(sf_nodes_of(nodes, 4), sf_buffer_of(bytes, sizeof bytes));
    size_t required = 4711, invalid = 4711;
    unsigned char out[16];
    memset(out, BUFFER_BYTE, sizeof out);
    sf_put_integer(&builder, NULL, 1);
    sf_param(&builder, sf_cstr(items[i].key), items[i].type, items[i].number,
             sf_cstr(items[i].text));
    CALL(write_built(&seed, SF_RFC9651, SF_ITEM, &builder, out, sizeof out, &required, &invalid));
    CHECK(status == SF_INVALID && invalid == 1 && required == 4711 && all_are(out, sizeof out));
  }

  /* another kind, and a type that is not of the dialect */
  const char *about = "kinds";
  uint32_t status;
  sf_node nodes[2];
  char bytes[8];
  size_t required = 4711, invalid = 4711;
  sf_builder builder = sf_build(sf_nodes_of(nodes, 2), sf_buffer_of(bytes, sizeof bytes));
  CALL(write_built(&seed, SF_RFC9651, SF_ITEM, &builder, NULL, 0, &required, &invalid));
  CHECK(status == SF_INVALID && invalid == 0);
  sf_put_date(&builder, NULL, 1);
  WRITES(write_built(&seed, SF_RFC9651, SF_ITEM, &builder, buffer, size, required, &invalid),
         "@1");
  WRITES(write_built(&seed, SF_RFC9651, SF_LIST, &builder, buffer, size, required, &invalid),
         "@1");
  CALL(write_built(&seed, SF_RFC9651, SF_DICT, &builder, NULL, 0, &required, &invalid));
  CHECK(status == SF_INVALID && invalid == 0);
  CALL(write_built(&seed, SF_RFC8941, SF_LIST, &builder, NULL, 0, &required, &invalid));
  CHECK(status == SF_INVALID && invalid == 0);
  sf_put_date(&builder, NULL, 2);
  invalid = 4711; /* an Item of two nodes begins with one of this size */
  CALL(write_built(&seed, SF_RFC9651, SF_ITEM, &builder, NULL, 0, &required, &invalid));
  CHECK(status == SF_INVALID && invalid == 0);
}

/* What is written of nodes that no text has. */
static void odd_nodes(void) {
  const char *about = "odd nodes";
  size_t invalid = 4711;
  uint32_t status;
  /* in an Inner List, text_at and coded have no effect */
  sf_node list = {0, 0, 0, 1, 0, 1, SF_INNER_LIST, SF_MEMBER, 1};
  WRITES(sf_write(&seed, SF_RFC9651, SF_LIST, &list, 1, NULL, 0, NULL, 0, buffer, size, required,
                  &invalid),
         "()");
  list.key_at = 1; /* but the place of its key has */
  size_t unwritten = 4711;
  CALL(sf_write(&seed, SF_RFC9651, SF_LIST, &list, 1, NULL, 0, NULL, 0, NULL, 0, &unwritten,
                &invalid));
  CHECK(status == SF_INVALID && invalid == 0 && unwritten == 4711);
  /* the text of an Integer, and its number */
  for (int coded = 0; coded < 256; ++coded) {
    sf_node number = {5, 0, 0, 0, 1, 1, SF_INTEGER, SF_MEMBER, (uint8_t)coded};
    invalid = 4711;
    if (coded == 0) {
      size_t required = 4711;
      CALL(sf_write(&seed, SF_RFC9651, SF_ITEM, &number, 1, "5", 1, NULL, 0, NULL, 0, &required,
                    &invalid));
      CHECK(status == SF_INVALID && invalid == 0 && required == 4711);
      continue;
    }
    WRITES(sf_write(&seed, SF_RFC9651, SF_ITEM, &number, 1, "5", 1, NULL, 0, buffer, size, required,
                    &invalid),
           "5");
    size_t required = 4711;
    number.number = 6;
    CALL(sf_write(&seed, SF_RFC9651, SF_ITEM, &number, 1, "5", 1, NULL, 0, NULL, 0, &required,
                  &invalid));
    CHECK(status == SF_INVALID && invalid == 0 && required == 4711);
    number.number = 5;
    number.text_length = 0;
    CALL(sf_write(&seed, SF_RFC9651, SF_ITEM, &number, 1, "5", 1, NULL, 0, NULL, 0, &required,
                  &invalid));
    CHECK(status == SF_INVALID && required == 4711);
  }
  /* a key that begins in the text and ends in the bytes is written, and not found */
  sf_node across = {1, 0, 2, 0, 0, 1, SF_BOOLEAN, SF_MEMBER, 0};
  WRITES(sf_write(&seed, SF_RFC9651, SF_DICT, &across, 1, "k", 1, "l", 1, buffer, size, required,
                  &invalid),
         "kl");
  size_t index = 4711;
  CALL(sf_find(&across, 1, "k", 1, "l", 1, SF_MEMBER, "kl", 2, &index));
  CHECK(status == SF_ABSENT && index == 4711);
}

static void priorities(void) {
  static const struct {
    const char *text;
    sf_priority_flags says;
  } rows[] = {
      {"", {3, 0, 0, 0}},      {"u=1, i", {1, 1, 1, 1}}, {"u=8, i", {3, 1, 0, 1}},
      {"u=1.0", {3, 0, 0, 0}}, {"u=-0", {0, 0, 1, 0}},   {"u=1, u=9", {3, 0, 0, 0}},
      {"i=1", {3, 0, 0, 0}},   {"i=?0", {3, 0, 0, 1}},   {"u=3;x", {3, 0, 1, 0}},
      {"u=0", {SF_URGENCY_FIRST, 0, 1, 0}},
      {"u=7", {SF_URGENCY_LAST, 0, 1, 0}},
      {"u=-1", {SF_URGENCY_DEFAULT, 0, 0, 0}},
  };
  uint32_t status;
  for (size_t i = 0; i < sizeof rows / sizeof *rows; ++i) {
    const char *about = rows[i].text;
    size_t length = strlen(about);
    unsigned char *text = take_buffer(about, length);
    sf_priority_flags priority = {9, 9, 9, 9};
    sf_refusal refusal = untouched;
    FREE_CALL(sf_priority(&seed, text, length, &priority, &refusal));
    CHECK(status == SF_OK && memcmp(&priority, &rows[i].says, sizeof priority) == 0);
    CHECK(is_untouched(&refusal));
    give_buffer(text);
  }
  const char *about = "u=1, ";
  sf_priority_flags priority = {9, 9, 9, 9}, nines = {9, 9, 9, 9};
  sf_refusal refusal = untouched;
  CALL(sf_priority(&seed, about, 5, &priority, &refusal));
  CHECK(status == SF_REFUSED && refusal.offset == 5 && refusal.found == -1);
  CHECK(is_set(&refusal, "09 20 2a 61-7a"));
  CHECK(memcmp(&priority, &nines, sizeof nines) == 0);

  static const struct {
    sf_priority_flags client;
    sf_response_priority_flags server;
    sf_priority_flags both;
  } pairs[] = {
      {{5, 1, 1, 1}, {1, 0, 1, 0}, {1, 1, 1, 1}}, /* u=5, i and u=1 */
      {{3, 0, 0, 0}, {0, 0, 0, 0}, {3, 0, 0, 0}},
      {{5, 1, 1, 1}, {3, 0, 1, 1}, {3, 0, 1, 1}}, /* the defaults, set by the server, count */
      {{5, 1, 0, 0}, {1, 1, 0, 0}, {3, 0, 0, 0}}, /* what is not said does not count */
      {{2, 0, 1, 1}, {8, 9, 1, 7}, {2, 1, 1, 1}}, /* 8 is no urgency, 9 and 7 are flags */
      {{255, 255, 255, 255}, {0, 0, 0, 0}, {3, 1, 0, 1}},
  };
  about = "merge";
  for (size_t i = 0; i < sizeof pairs / sizeof *pairs; ++i) {
    sf_priority_flags both = sf_priority_merge(&pairs[i].client, &pairs[i].server);
    CHECK(memcmp(&both, &pairs[i].both, sizeof both) == 0);
  }
}

/* The text of what a struct sets, and what is read from it. */
static void priority_texts(void) {
  static const struct {
    sf_priority_flags sets;
    const char *text;
  } rows[] = {
      {{3, 0, 0, 0}, ""},       {{0, 0, 0, 0}, ""},       {{5, 0, 1, 0}, "u=5"},
      {{3, 0, 1, 0}, "u=3"},    {{0, 0, 1, 0}, "u=0"},    {{3, 1, 0, 1}, "i"},
      {{3, 0, 0, 1}, "i=?0"},   {{1, 1, 1, 1}, "u=1, i"}, {{7, 0, 1, 1}, "u=7, i=?0"},
      {{0, 9, 0, 7}, "i"},      {{2, 200, 255, 255}, "u=2, i"},
  };
  uint32_t status;
  for (size_t i = 0; i < sizeof rows / sizeof *rows; ++i) {
    const char *about = rows[i].text;
    sf_priority_flags *sets = take_buffer(&rows[i].sets, sizeof rows[i].sets);
    WRITES(sf_priority_text(sets, buffer, size, required), rows[i].text);
    CHECK(strlen(rows[i].text) <= SF_PRIORITY_SIZE);
    static const sf_response_priority_flags nothing;
    sf_priority_flags again = {9, 9, 9, 9}, merged = sf_priority_merge(sets, &nothing);
    sf_refusal refusal = untouched;
    FREE_CALL(sf_priority(&seed, rows[i].text, strlen(rows[i].text), &again, &refusal));
    CHECK(status == SF_OK && memcmp(&again, &merged, sizeof again) == 0);
    give_buffer(sets);
  }
}

/* A value that is not set would not be in the text, nor an urgency that is none: it is refused. */
static void forgotten_flags(void) {
  static const sf_priority_flags requests[] = {
      {1, 0, 0, 0}, {7, 1, 0, 1}, {3, 1, 0, 0}, {0, 1, 1, 0},     {8, 0, 1, 0},
      {9, 0, 0, 0}, {4, 0, 0, 0}, {2, 0, 0, 1}, {255, 255, 0, 0}, {8, 1, 1, 1}};
  static const sf_response_priority_flags responses[] = {
      {1, 0, 0, 0}, {3, 0, 0, 0}, {7, 1, 0, 1}, {0, 1, 0, 0}, {0, 1, 1, 0},
      {8, 0, 1, 0}, {8, 0, 0, 0}, {2, 0, 0, 1}, {0, 255, 0, 0}};
  uint32_t status;
  unsigned char out[16];
  for (size_t i = 0; i < sizeof requests / sizeof *requests; ++i) {
    const char *about = "a request's priority that is not set";
    size_t required = 4711;
    sf_refusal refusal = untouched;
    memset(out, BUFFER_BYTE, sizeof out);
    FREE_CALL(sf_priority_text(&requests[i], out, sizeof out, &required));
    CHECK(status == SF_INVALID && required == 4711 && all_are(out, sizeof out));
    FREE_CALL(
        sf_priority_change(&seed, "u=5", 3, &requests[i], out, sizeof out, &required, &refusal));
    CHECK(status == SF_INVALID && required == 4711 && all_are(out, sizeof out));
    FREE_CALL(
        sf_priority_change(&seed, "u=", 2, &requests[i], out, sizeof out, &required, &refusal));
    CHECK(status == SF_INVALID && required == 4711 && is_untouched(&refusal));
  }
  for (size_t i = 0; i < sizeof responses / sizeof *responses; ++i) {
    const char *about = "a response's priority that is not set";
    size_t required = 4711;
    memset(out, BUFFER_BYTE, sizeof out);
    FREE_CALL(sf_response_priority_text(&responses[i], out, sizeof out, &required));
    CHECK(status == SF_INVALID && required == 4711 && all_are(out, sizeof out));
  }
  const char *about = "seconds that are not set";
  static const sf_rules unset_rules[] = {{{60, 0, 0, 0, 0, 0, 0, 0}, 0, 0, 0, 0, 0},
                                         {{0, 60, 1, 0, 0, 0, 0, 0}, 0, 0, 0, 0, 0}};
  static const sf_rules none;
  static const sf_response new_response, unset_response = {0, 60, 0, 0};
  sf_decision decision = {4711, 1, 2, 3, 4};
  for (size_t i = 0; i < 2; ++i) {
    FREE_CALL(sf_decide(&unset_rules[i], SF_SHARED_CACHE, &new_response, &decision));
    CHECK(status == SF_INVALID && decision.seconds == 4711 && decision.reuse == 1);
  }
  FREE_CALL(sf_decide(&none, SF_PRIVATE_CACHE, &unset_response, &decision));
  CHECK(status == SF_INVALID && decision.seconds == 4711 && decision.reuse == 1);
  FREE_CALL(sf_decide(&unset_rules[0], SF_SHARED_CACHE - 1, &new_response, &decision));
  CHECK(status == SF_BAD_CALL && decision.seconds == 4711);
}

/* What a response sets: an absent parameter is not a default there. */
static void response_priorities(void) {
  static const struct {
    const char *text;
    sf_response_priority_flags sets;
    const char *written;
  } rows[] = {
      {"", {0, 0, 0, 0}, ""},           {"u=3", {3, 0, 1, 0}, "u=3"},
      {"u=0", {0, 0, 1, 0}, "u=0"},     {"i=?0", {0, 0, 0, 1}, "i=?0"},
      {"i", {0, 1, 0, 1}, "i"},         {"u=7,  i=?1", {7, 1, 1, 1}, "u=7, i"},
      {"u=8, i=1", {0, 0, 0, 0}, ""},   {"x=(a b), i=?0, u=3;y", {3, 0, 1, 1}, "u=3, i=?0"},
      {"u=1, u=2", {2, 0, 1, 0}, "u=2"}, {"u=2, u=9", {0, 0, 0, 0}, ""},
  };
  uint32_t status;
  for (size_t i = 0; i < sizeof rows / sizeof *rows; ++i) {
    const char *about = rows[i].text;
    size_t length = strlen(about);
    unsigned char *text = take_buffer(about, length);
    sf_response_priority_flags *sets = take_buffer(NULL, sizeof *sets);
    sf_refusal refusal = untouched;
    FREE_CALL(sf_response_priority(&seed, SF_RFC8941, text, length, sets, &refusal));
    CHECK(status == SF_OK && memcmp(sets, &rows[i].sets, sizeof *sets) == 0);
    CHECK(is_untouched(&refusal));
    WRITES(sf_response_priority_text(sets, buffer, size, required), rows[i].written);
    CHECK(calls == 0 && strlen(rows[i].written) <= SF_PRIORITY_SIZE);
    give_buffer(sets);
    give_buffer(text);
  }
  const char *about = "u=1, x=@1";
  sf_response_priority_flags sets = {9, 9, 9, 9}, nines = {9, 9, 9, 9};
  sf_refusal refusal = untouched;
  FREE_CALL(sf_response_priority(&seed, SF_RFC9651, about, 9, &sets, &refusal));
  CHECK(status == SF_OK && sets.urgency == 1 && sets.has_incremental == 0);
  sets = nines;
  CALL(sf_response_priority(&seed, SF_RFC8941, about, 9, &sets, &refusal));
  CHECK(status == SF_REFUSED && refusal.offset == 7 && memcmp(&sets, &nines, sizeof sets) == 0);
  sf_priority_flags request = {9, 9, 9, 9};
  CALL(sf_priority_in(&seed, SF_RFC8941, about, 9, &request, &refusal));
  CHECK(status == SF_REFUSED && refusal.offset == 7 && request.urgency == 9);
  FREE_CALL(sf_priority_in(&seed, SF_RFC9651, about, 9, &request, &refusal));
  CHECK(status == SF_OK && request.urgency == 1 && request.has_incremental == 0);
  FREE_CALL(sf_priority_in(&seed, SF_RFC8941, "i", 1, &request, &refusal));
  CHECK(status == SF_OK && request.urgency == 3 && request.incremental == 1);
}

/* Adds lines of a field, each in a buffer of its length. The result is that of the last line. */
static uint32_t fallback_lines(const char *about, uint32_t field, const char *const *lines,
                               sf_fallback *fallback) {
  uint32_t status = SF_OK;
  for (; *lines != NULL; ++lines) {
    unsigned char *line = take_buffer(*lines, strlen(*lines));
    FREE_CALL(sf_fallback_line(field, line, strlen(*lines), fallback));
    give_buffer(line);
  }
  return status;
}

/* What is decided by Cache-Control, Expires and Date of a row of the table. */
static void decided_by_fallback(const char *about, const struct decision_row *row) {
  uint32_t status;
  sf_fallback *fallback = take_buffer(NULL, sizeof *fallback);
  sf_response response = row->response;
  sf_decision decision = {9, 9, 9, 9, 9};
  memset(fallback, 0, sizeof *fallback);
  for (uint32_t i = 0; i < 3; ++i)
    (void)fallback_lines(about, SF_FALLBACK_CACHE_CONTROL + i, row->lines[i], fallback);
  FREE_CALL(sf_fallback_lifetime(fallback, 0, &response));
  CHECK(status == (row->lines[1][0] == NULL ? SF_EMPTY : SF_OK));
  FREE_CALL(sf_decide(&fallback->rules, row->cache, &response, &decision));
  CHECK(status == SF_OK && decision.reuse == row->decision.reuse);
  CHECK(decision.cause == row->decision.cause && decision.seconds == row->decision.seconds);
  give_buffer(fallback);
}

/* The rows of tests/decisions.txt: the field that is obeyed, and what is decided by it. */
static void decisions(void) {
  uint32_t status;
  for (size_t i = 0; i < sizeof decision_rows / sizeof *decision_rows; ++i) {
    const struct decision_row *row = &decision_rows[i];
    char about[16], texts[512];
    sprintf(about, "row %d", row->row);
    size_t first = strlen(row->targets[0]), length = first + strlen(row->targets[1]);
    sprintf(texts, "%s%s", row->targets[0], row->targets[1]);
    const sf_span fields[] = {{0, first}, {first, length - first}};
    size_t index = 4711;
    sf_rules rules, again;
    memset(&rules, 0xa5, sizeof rules);
    CALL(sf_select_rules(&seed, SF_RFC9651, texts, length, fields, 2, &index, &rules));
    if (row->index == DECISION_FALLBACK) {
      CHECK(status == SF_EMPTY && index == 4711);
      decided_by_fallback(about, row);
      continue;
    }
    CHECK(status == SF_OK && index == (size_t)row->index);
    sf_refusal refusal = untouched;
    CALL(sf_cache_rules(&seed, SF_RFC8941, row->targets[index], strlen(row->targets[index]), &again,
                        &refusal));
    CHECK(status == SF_OK && is_untouched(&refusal));
    CHECK(memcmp(&rules, &again, offsetof(sf_policy, is_private) + 1) == 0);
    CHECK(memcmp(&rules.invalid_max_age, &again.invalid_max_age, 5) == 0);
    sf_decision *decision = take_buffer(NULL, sizeof *decision);
    FREE_CALL(sf_decide(&rules, row->cache, &row->response, decision));
    CHECK(status == SF_OK && decision->reuse == row->decision.reuse);
    CHECK(decision->cause == row->decision.cause && decision->seconds == row->decision.seconds);
    give_buffer(decision);
  }
}

/* What the table has not. */
static void other_decisions(void) {
  static const struct {
    const char *text;
    sf_rules rules;
  } rows[] = {
      {"max-age=60, public, proxy-revalidate, must-understand=?1",
       {{60, 0, 1, 0, 0, 0, 0, 0}, 0, 0, 1, 1, 1}},
      {"max-age=1.5, s-maxage=-1, public=?0", {{0, 0, 0, 0, 0, 0, 0, 0}, 1, 1, 0, 0, 0}},
      {"max-age=1.5, max-age=7", {{7, 0, 1, 0, 0, 0, 0, 0}, 0, 0, 0, 0, 0}},
      {"max-age=7, max-age", {{0, 0, 0, 0, 0, 0, 0, 0}, 1, 0, 0, 0, 0}},
      {"private, no-cache, no-store, must-revalidate", {{0, 0, 0, 0, 1, 1, 1, 1}, 0, 0, 0, 0, 0}},
      {"x", {{0, 0, 0, 0, 0, 0, 0, 0}, 0, 0, 0, 0, 0}},
  };
  uint32_t status;
  for (size_t i = 0; i < sizeof rows / sizeof *rows; ++i) {
    const char *about = rows[i].text;
    size_t length = strlen(about);
    unsigned char *text = take_buffer(about, length);
    sf_rules *rules = take_buffer(NULL, sizeof *rules);
    sf_refusal refusal = untouched;
    FREE_CALL(sf_cache_rules(&seed, SF_RFC9651, text, length, rules, &refusal));
    CHECK(status == SF_OK && is_same_policy(&rules->policy, &rows[i].rules.policy));
    CHECK(memcmp(&rules->invalid_max_age, &rows[i].rules.invalid_max_age, 5) == 0);
    give_buffer(rules);
    give_buffer(text);
  }
  const char *about = "no rules";
  sf_rules rules;
  sf_refusal refusal = untouched;
  memset(&rules, 9, sizeof rules);
  FREE_CALL(sf_cache_rules(&seed, SF_RFC9651, NULL, 0, &rules, &refusal));
  CHECK(status == SF_EMPTY && rules.is_public == 9 && is_untouched(&refusal));
  CALL(sf_cache_rules(&seed, SF_RFC9651, "max-age=60,", 11, &rules, &refusal));
  CHECK(status == SF_REFUSED && refusal.offset == 11 && rules.is_public == 9);
  refusal = untouched;
  CALL(sf_cache_rules(&seed, SF_RFC8941, "no-store, x=@1", 14, &rules, &refusal));
  CHECK(status == SF_REFUSED && refusal.offset == 12 && rules.is_public == 9);

  about = "permissions, and other lifetimes";
  static const struct {
    sf_rules rules;
    sf_response response;
    uint32_t cache;
    sf_decision decision;
  } decided[] = {
      {{{0, 0, 0, 0, 0, 0, 0, 0}, 0, 0, 0, 0, 255}, {20, 60, 255, 0}, SF_SHARED_CACHE,
       {40, SF_REUSE_FRESH, SF_BY_EXPIRES, 1, 1}},
      {{{60, 0, 7, 0, 0, 0, 0, 0}, 0, 0, 0, 0, 0}, {0, 9, 1, 0}, SF_SHARED_CACHE,
       {60, SF_REUSE_FRESH, SF_BY_MAX_AGE, 1, 0}},
      {{{0, 60, 0, 1, 0, 0, 0, 0}, 0, 0, 0, 0, 0}, {0, 0, 0, 0}, SF_PRIVATE_CACHE,
       {0, SF_REUSE_UNSPECIFIED, SF_BY_NOTHING, 0, 1}},
      {{{0, 0, 0, 0, 0, 0, 0, 1}, 0, 0, 0, 0, 0}, {0, 0, 0, 0}, SF_PRIVATE_CACHE,
       {0, SF_REUSE_UNSPECIFIED, SF_BY_NOTHING, 1, 0}},
      {{{0, 0, 0, 0, 0, 1, 0, 0}, 0, 0, 0, 1, 0}, {0, 60, 1, 1}, SF_SHARED_CACHE,
       {60, SF_REUSE_FRESH, SF_BY_EXPIRES, 0, 0}},
      {{{0, 0, 0, 0, 0, 0, 0, 0}, 0, 0, 0, 0, 0}, {1, UINT64_MAX, 1, 0}, SF_PRIVATE_CACHE,
       {2147483647, SF_REUSE_FRESH, SF_BY_EXPIRES, 0, 0}},
      {{{UINT64_MAX, 0, 1, 0, 0, 0, 0, 0}, 0, 0, 0, 0, 0}, {UINT64_MAX, 0, 0, 0}, SF_SHARED_CACHE,
       {0, SF_REUSE_STALE, SF_BY_MAX_AGE, 1, 0}},
  };
  for (size_t i = 0; i < sizeof decided / sizeof *decided; ++i) {
    sf_decision decision = {9, 9, 9, 9, 9};
    FREE_CALL(sf_decide(&decided[i].rules, decided[i].cache, &decided[i].response, &decision));
    CHECK(status == SF_OK && decision.seconds == decided[i].decision.seconds);
    CHECK(memcmp(&decision.reuse, &decided[i].decision.reuse, 4) == 0);
  }
}

/* Cache-Control (RFC 9111 section 5.2), line by line. */
static void cache_control_lines(void) {
  static const struct {
    const char *lines[4];
    uint32_t status; /* of the last line */
    sf_rules rules;
  } rows[] = {
      {{"No-Store, Max-Age=0,,"}, SF_OK, {{0, 0, 1, 0, 0, 1, 0, 0}, 0, 0, 0, 0, 0}},
      {{"max-age=60", "PRIVATE, s-maxage=\"9\""}, SF_OK,
       {{60, 9, 1, 1, 0, 0, 0, 1}, 0, 0, 0, 0, 0}},
      {{"max-age=60", "Max-Age=060"}, SF_OK, {{60, 0, 1, 0, 0, 0, 0, 0}, 0, 0, 0, 0, 0}},
      {{"max-age=60", "max-age=5"}, SF_OK, {{0, 0, 0, 0, 0, 0, 0, 0}, 1, 0, 0, 0, 0}},
      {{"max-age=60", "max-age=5", "max-age=60"}, SF_OK, {{0, 0, 0, 0, 0, 0, 0, 0}, 1, 0, 0, 0, 0}},
      {{"s-maxage=1.5", "public"}, SF_OK, {{0, 0, 0, 0, 0, 0, 0, 0}, 0, 1, 0, 0, 1}},
      {{"max-age=\"\\60\""}, SF_OK, {{60, 0, 1, 0, 0, 0, 0, 0}, 0, 0, 0, 0, 0}},
      {{"max-age=9999999999999999999999"}, SF_OK,
       {{UINT64_C(2147483648), 0, 1, 0, 0, 0, 0, 0}, 0, 0, 0, 0, 0}},
      {{"x=\"a, no-store\"", "must-understand, proxy-revalidate, must-revalidate, no-cache=\"a\""},
       SF_OK, {{0, 0, 0, 0, 1, 0, 1, 0}, 0, 0, 1, 1, 0}},
      {{"", " , \t"}, SF_OK, {{0, 0, 0, 0, 0, 0, 0, 0}, 0, 0, 0, 0, 0}},
      {{"max-age=60", "a b"}, SF_REFUSED, {{0, 0, 0, 0, 0, 1, 0, 0}, 0, 0, 0, 0, 0}},
      {{"max-age= 60"}, SF_REFUSED, {{0, 0, 0, 0, 0, 1, 0, 0}, 0, 0, 0, 0, 0}},
      {{"a; b", "max-age=60, must-understand"}, SF_REFUSED,
       {{0, 0, 0, 0, 0, 1, 0, 0}, 0, 0, 0, 0, 0}},
      {{"max-age=60, x=\"a", "b\""}, SF_REFUSED, {{0, 0, 0, 0, 0, 1, 0, 0}, 0, 0, 0, 0, 0}},
  };
  for (size_t i = 0; i < sizeof rows / sizeof *rows; ++i) {
    const char *about = rows[i].lines[0];
    sf_fallback fallback;
    memset(&fallback, 0, sizeof fallback);
    CHECK(fallback_lines(about, SF_FALLBACK_CACHE_CONTROL, rows[i].lines, &fallback) ==
          rows[i].status);
    CHECK(is_same_policy(&fallback.rules.policy, &rows[i].rules.policy));
    CHECK(memcmp(&fallback.rules.invalid_max_age, &rows[i].rules.invalid_max_age, 5) == 0);
    CHECK(fallback.is_refused == (rows[i].status == SF_REFUSED));
    CHECK(fallback.expires.lines == 0 && fallback.date.lines == 0);
  }
  const char *about = "no bytes, and no list";
  uint32_t status;
  sf_fallback fallback;
  memset(&fallback, 0, sizeof fallback);
  FREE_CALL(sf_fallback_line(SF_FALLBACK_CACHE_CONTROL, NULL, 0, &fallback));
  CHECK(status == SF_OK && fallback.is_refused == 0);
  FREE_CALL(sf_fallback_line(SF_FALLBACK_CACHE_CONTROL, "a\0", 2, &fallback));
  CHECK(status == SF_REFUSED && fallback.is_refused == 1 && fallback.rules.policy.no_store == 1);
  fallback.is_refused = 255; /* any number but 0 */
  FREE_CALL(sf_fallback_line(SF_FALLBACK_CACHE_CONTROL, "public", 6, &fallback));
  CHECK(status == SF_REFUSED && fallback.rules.is_public == 0);
}

/* Expires and Date (RFC 9111 sections 4.2.1 and 5.3). The dates are those of RFC 9110 section 5.6.7,
 * and a minute later; 784111777 is the first one. */
static void lifetimes(void) {
#define FIRST "Sun, 06 Nov 1994 08:49:37 GMT"
#define LATER "Sun, 06 Nov 1994 08:50:37 GMT"
  static const struct {
    const char *expires[3], *date[3];
    uint64_t received;
    uint32_t status;
    uint64_t lifetime; /* 7 is what was there before */
  } rows[] = {
      {{0}, {0}, 784111777, SF_EMPTY, 7},
      {{0}, {FIRST}, 784111777, SF_EMPTY, 7},
      {{LATER}, {FIRST}, 0, SF_OK, 60},
      {{LATER}, {FIRST}, UINT64_MAX, SF_OK, 60},
      {{LATER}, {0}, 784111827, SF_OK, 10},
      {{LATER}, {0}, UINT64_MAX, SF_OK, 0},
      {{FIRST}, {LATER}, 0, SF_OK, 0},
      {{FIRST}, {FIRST}, 0, SF_OK, 0},
      {{"Sunday, 06-Nov-94 08:50:37 GMT"}, {"Sun Nov  6 08:49:37 1994"}, 0, SF_OK, 60},
      {{"0"}, {FIRST}, 0, SF_OK, 0},
      {{""}, {FIRST}, 0, SF_OK, 0},
      {{"-1"}, {0}, 784111777, SF_OK, 0},
      {{"sun, 06 nov 1994 08:50:37 gmt"}, {FIRST}, 0, SF_OK, 0},
      {{"Sun, 06 Nov 1994 08:50:37 +0000"}, {FIRST}, 0, SF_OK, 0},
      {{" " LATER}, {FIRST}, 0, SF_OK, 0},
      {{LATER, LATER}, {FIRST}, 0, SF_OK, 0},
      {{LATER, ""}, {FIRST}, 0, SF_OK, 0},
      {{"0", LATER}, {FIRST}, 0, SF_OK, 0},
      {{"Sun", "06 Nov 1994 08:50:37 GMT"}, {FIRST}, 0, SF_OK, 0},
      {{LATER}, {"x"}, 784111827, SF_OK, 10},
      {{LATER}, {FIRST, FIRST}, 784111827, SF_OK, 10},
      {{LATER}, {"Sun", "06 Nov 1994 08:49:37 GMT"}, 784111827, SF_OK, 10},
      {{"Fri, 31 Dec 9999 23:59:59 GMT"}, {"Thu, 01 Jan 1970 00:00:00 GMT"}, 0, SF_OK,
       UINT64_C(253402300799)},
  };
#undef FIRST
#undef LATER
  uint32_t status;
  for (size_t i = 0; i < sizeof rows / sizeof *rows; ++i) {
    char about[32];
    sf_fallback fallback;
    sf_response response = {3, 7, 5, 6};
    sprintf(about, "lifetime %d", (int)i);
    memset(&fallback, 0, sizeof fallback);
    CHECK(fallback_lines(about, SF_FALLBACK_EXPIRES, rows[i].expires, &fallback) == SF_OK);
    CHECK(fallback_lines(about, SF_FALLBACK_DATE, rows[i].date, &fallback) == SF_OK);
    FREE_CALL(sf_fallback_lifetime(&fallback, rows[i].received, &response));
    CHECK(status == rows[i].status && response.lifetime == rows[i].lifetime);
    CHECK(response.has_lifetime == (status == SF_OK ? 1 : 5));
    CHECK(response.age == 3 && response.is_understood == 6 && fallback.is_refused == 0);
  }
  const char *about = "a third line, and other numbers";
  sf_fallback fallback;
  sf_response response = {0, 0, 0, 0};
  memset(&fallback, 0, sizeof fallback);
  fallback.expires.lines = UINT32_MAX;
  fallback.expires.seconds = 7;
  FREE_CALL(sf_fallback_line(SF_FALLBACK_EXPIRES, NULL, 0, &fallback));
  CHECK(status == SF_OK && fallback.expires.lines == 2 && fallback.expires.seconds == 0);
  FREE_CALL(sf_fallback_lifetime(&fallback, 0, &response));
  CHECK(status == SF_OK && response.has_lifetime == 1 && response.lifetime == 0);
}

/* The field that came in, with what a struct sets. */
static void changed_priorities(void) {
  static const struct {
    const char *from;
    sf_priority_flags sets;
    const char *text;
    int repeats; /* whether a key is repeated: then the call allocates */
  } rows[] = {
      {"", {1, 1, 1, 1}, "u=1, i", 0},
      {"", {3, 0, 0, 0}, "", 0},
      {"", {3, 1, 0, 1}, "i", 0},
      {"", {0, 0, 1, 0}, "u=0", 0},
      {"u=5, i", {3, 0, 0, 0}, "u=5, i", 0},
      {"u=5,  i=?1", {1, 0, 1, 0}, "u=1, i", 0},
      {"u=5, i", {3, 0, 0, 1}, "u=5, i=?0", 0},
      {"i;x, u;y=1", {7, 0, 1, 1}, "i=?0, u=7", 0},
      {"x=1;y, u=5, z=(a b);c", {2, 1, 1, 1}, "x=1;y, u=2, z=(a b);c, i", 0},
      {"x, u=(1 2), i=7", {0, 1, 1, 1}, "x, u=0, i", 0},
      {"uu=1, ii", {4, 1, 1, 1}, "uu=1, ii, u=4, i", 0},
      {"u=5, x, u=6", {7, 0, 1, 0}, "u=7, x", 1},
      {"x;p=1;p=2, i", {7, 0, 1, 0}, "x;p=2, i, u=7", 1},
      {"x=%\"%c3%bc\", y=:YQ:", {1, 0, 1, 0}, "x=%\"%c3%bc\", y=:YQ==:, u=1", 0},
      {"a, b, c, d, e, f, g, h, j, k, l, m, n, o, p, q", {1, 0, 1, 0},
       "a, b, c, d, e, f, g, h, j, k, l, m, n, o, p, q, u=1", 0},
      /* u and i alone: in both orders, with a new one, and with what is not read so */
      {"u=5", {3, 1, 0, 1}, "u=5, i", 0},
      {"i", {1, 0, 1, 0}, "i, u=1", 0},
      {"i", {5, 0, 1, 1}, "i=?0, u=5", 0},
      {"i=?0", {3, 0, 0, 0}, "i=?0", 0},
      {"i, u=3", {1, 0, 1, 0}, "i, u=1", 0},
      {"i=?0, u=7", {3, 1, 0, 1}, "i, u=7", 0},
      {" i,u=07\t", {3, 0, 0, 0}, "i, u=7", 0},
      {"u=9, i", {3, 0, 0, 1}, "u=9, i=?0", 0},
      {"u=-1, i", {0, 0, 1, 0}, "u=0, i", 0},
      {"u=1.5", {3, 1, 0, 1}, "u=1.5, i", 0},
      {"i=?0;a", {1, 0, 1, 0}, "i=?0;a, u=1", 0},
      {"i, i=?0", {1, 0, 1, 0}, "i=?0, u=1", 0},
      {"u=1, i, u=2", {3, 0, 0, 0}, "u=2, i", 0},
      {"i, u=1, i=?0", {3, 0, 0, 0}, "i=?0, u=1", 0},
      {"u=1, i, u=02", {3, 1, 0, 1}, "u=2, i", 0},
      {"u=1, i, u=2", {5, 0, 1, 1}, "u=5, i=?0", 0},
      {"u=1, u=9, i", {3, 0, 0, 0}, "u=9, i", 1},
      {"u=1, x, u=2", {3, 0, 0, 0}, "u=2, x", 1},
      {"u=1, u=2, i;p", {3, 0, 0, 0}, "u=2, i;p", 1},
      {"u=1,       i", {2, 0, 1, 0}, "u=2, i", 0},
      {"u=1,        i", {2, 0, 1, 0}, "u=2, i", 0},
      {"u=1,           i", {2, 0, 1, 0}, "u=2, i", 0},
      {"u=1,            i", {2, 0, 1, 0}, "u=2, i", 0},
      /* as many nodes as a text of 16 bytes has at most, and one more in 17 bytes */
      {"a,b,c,d,e,f,g,hh", {1, 0, 1, 0}, "a, b, c, d, e, f, g, hh, u=1", 0},
      {"a,b,c,d,e,f,g,h,j", {1, 0, 1, 0}, "a, b, c, d, e, f, g, h, j, u=1", 0},
  };
  uint32_t status;
  for (size_t i = 0; i < sizeof rows / sizeof *rows; ++i) {
    const char *about = rows[i].from;
    size_t length = strlen(about);
    unsigned char *text = take_buffer(about, length);
    sf_priority_flags *sets = take_buffer(&rows[i].sets, sizeof rows[i].sets);
    sf_refusal refusal = untouched;
    if (rows[i].repeats)
      WRITES(sf_priority_change(&seed, text, length, sets, buffer, size, required, &refusal),
             rows[i].text);
    else
      FREE_WRITES(sf_priority_change(&seed, text, length, sets, buffer, size, required, &refusal),
                  rows[i].text);
    CHECK(is_untouched(&refusal));
    give_buffer(sets);
    give_buffer(text);
  }
  /* Fields of 100 to 125 bytes: what is short is put together on the stack first. */
  for (size_t length = 100; length <= 125; ++length) {
    char field[126], about[132];
    memset(field, 'a', length);
    memcpy(field, "x=\"", 3);
    field[length - 1] = '"';
    field[length] = '\0';
    snprintf(about, sizeof about, "%s, u=1", field);
    sf_priority_flags *sets = take_buffer(&(sf_priority_flags){1, 0, 1, 0}, sizeof *sets);
    unsigned char *text = take_buffer(field, length);
    sf_refusal refusal = untouched;
    FREE_WRITES(sf_priority_change(&seed, text, length, sets, buffer, size, required, &refusal),
                about);
    give_buffer(sets);
    give_buffer(text);
  }
  const char *about = "u=1, ";
  sf_priority_flags sets = {1, 1, 1, 1};
  sf_refusal refusal = untouched;
  unsigned char out[16];
  size_t required = 4711;
  memset(out, BUFFER_BYTE, sizeof out);
  CALL(sf_priority_change(&seed, about, 5, &sets, out, sizeof out, &required, &refusal));
  CHECK(status == SF_REFUSED && refusal.offset == 5 && refusal.found == SF_ENDED);
  CHECK(required == 4711 && all_are(out, sizeof out));
}

static void policies(void) {
  static const struct {
    const char *text;
    sf_policy says;
    int shared, alone; /* the lifetimes; -1: none */
  } rows[] = {
      {"max-age=30, s-maxage=90, no-store=?0", {30, 90, 1, 1, 0, 0, 0, 0}, 90, 30},
      {"max-age=30,s-maxage=90,no-store=?1", {30, 90, 1, 1, 0, 1, 0, 0}, 90, 30},
      {"max-age=-1", {0, 0, 0, 0, 0, 0, 0, 0}, -1, -1},
      {"max-age=1.0", {0, 0, 0, 0, 0, 0, 0, 0}, -1, -1},
      {"max-age", {0, 0, 0, 0, 0, 0, 0, 0}, -1, -1},
      {"max-age=(1)", {0, 0, 0, 0, 0, 0, 0, 0}, -1, -1},
      {"max-age=60;x=1", {60, 0, 1, 0, 0, 0, 0, 0}, 60, 60},
      {"max-age=0", {0, 0, 1, 0, 0, 0, 0, 0}, 0, 0},
      {"s-maxage=5", {0, 5, 0, 1, 0, 0, 0, 0}, 5, -1},
      {"private=(a b), no-cache=\"x\", must-revalidate", {0, 0, 0, 0, 1, 0, 1, 1}, -1, -1},
  };
  uint32_t status;
  for (size_t i = 0; i < sizeof rows / sizeof *rows; ++i) {
    const char *about = rows[i].text;
    size_t length = strlen(about);
    unsigned char *text = take_buffer(about, length);
    sf_policy policy;
    memset(&policy, 0, sizeof policy);
    sf_refusal refusal = untouched;
    FREE_CALL(sf_cache_control(&seed, text, length, &policy, &refusal));
    CHECK(status == SF_OK && is_untouched(&refusal));
    CHECK(policy.max_age == rows[i].says.max_age);
    CHECK(policy.s_maxage == rows[i].says.s_maxage);
    CHECK(policy.has_max_age == rows[i].says.has_max_age);
    CHECK(policy.has_s_maxage == rows[i].says.has_s_maxage);
    CHECK(policy.must_revalidate == rows[i].says.must_revalidate);
    CHECK(policy.no_store == rows[i].says.no_store);
    CHECK(policy.no_cache == rows[i].says.no_cache);
    CHECK(policy.is_private == rows[i].says.is_private);
    uint64_t seconds = 4711;
    CHECK(sf_lifetime(&policy, 1, &seconds) == (rows[i].shared >= 0));
    CHECK(seconds == (rows[i].shared >= 0 ? (uint64_t)rows[i].shared : 4711));
    seconds = 4711;
    CHECK(sf_lifetime(&policy, 0, &seconds) == (rows[i].alone >= 0));
    CHECK(seconds == (rows[i].alone >= 0 ? (uint64_t)rows[i].alone : 4711));
    give_buffer(text);
  }
  const char *about = "no policy";
  sf_policy policy, ones;
  memset(&policy, 1, sizeof policy);
  memset(&ones, 1, sizeof ones);
  sf_refusal refusal = untouched;
  unsigned char *none = take_buffer(NULL, 0);
  FREE_CALL(sf_cache_control(&seed, none, 0, &policy, &refusal));
  CHECK(status == SF_EMPTY && is_untouched(&refusal));
  give_buffer(none);
  CALL(sf_cache_control(&seed, "max-age=60,", 11, &policy, &refusal));
  CHECK(status == SF_REFUSED && refusal.offset == 11 && refusal.found == -1);
  CHECK(is_set(&refusal, "09 20 2a 61-7a"));
  CHECK(memcmp(&policy, &ones, sizeof ones) == 0);
  /* any number but 0 sets a flag, and names a shared cache */
  sf_policy large = {7, 8, 200, 255, 0, 0, 0, 0};
  uint64_t seconds;
  CHECK(sf_lifetime(&large, UINT32_MAX, &seconds) == 1 && seconds == 8);
  CHECK(sf_lifetime(&large, 0, &seconds) == 1 && seconds == 7);
}

/* The first field of a target list that is not ignored. */
static void selecting(void) {
  static const struct {
    const char *texts; /* those of the fields, with a bar between two */
    long index;        /* -1: every field is ignored */
    sf_policy chosen;
  } rows[] = {
      {"max-age=60", 0, {60, 0, 1, 0, 0, 0, 0, 0}},
      {"max-age=60|max-age=600", 0, {60, 0, 1, 0, 0, 0, 0, 0}},
      {"|s-maxage=600", 1, {0, 600, 0, 1, 0, 0, 0, 0}},
      {"max-age=60,|no-store|no-cache", 1, {0, 0, 0, 0, 0, 1, 0, 0}},
      {"a b||(a)|must-revalidate, private|", 3, {0, 0, 0, 0, 1, 0, 0, 1}},
      {"max-age=1, max-age=2", 0, {2, 0, 1, 0, 0, 0, 0, 0}},
      {"x|max-age=1", 0, {0, 0, 0, 0, 0, 0, 0, 0}}, /* it has a member, and no directive */
      {"", -1, {0, 0, 0, 0, 0, 0, 0, 0}},
      {"  |max-age=60,||7", -1, {0, 0, 0, 0, 0, 0, 0, 0}},
  };
  uint32_t status;
  for (size_t i = 0; i < sizeof rows / sizeof *rows; ++i) {
    const char *about = rows[i].texts;
    size_t length = strlen(about), count = 0, from = 0;
    sf_span spans[8];
    for (size_t to = 0; to <= length; ++to) {
      if (to < length && about[to] != '|')
        continue;
      spans[count].at = from;
      spans[count++].length = to - from;
      from = to + 1;
    }
    unsigned char *texts = take_buffer(about, length);
    sf_span *fields = take_buffer(spans, count * sizeof *fields);
    size_t *index = take_buffer(NULL, sizeof *index);
    sf_policy *policy = take_buffer(NULL, sizeof *policy);
    CALL(sf_select(&seed, texts, length, fields, count, index, policy));
    if (rows[i].index >= 0) {
      CHECK(status == SF_OK && *index == (size_t)rows[i].index);
      CHECK(is_same_policy(policy, &rows[i].chosen));
    } else {
      CHECK(status == SF_EMPTY && all_are((unsigned char *)index, sizeof *index));
      CHECK(all_are((unsigned char *)policy, sizeof *policy));
    }
    give_buffer(policy);
    give_buffer(index);
    give_buffer(fields);
    give_buffer(texts);
  }

  /* the range of the field that is reached is not within the texts */
  static const char about[] = "max-age=60";
  static const struct {
    sf_span fields[2];
    uint32_t status;
  } ranges[] = {
      {{{0, 11}, {0, 10}}, SF_BAD_CALL},       {{{1, 10}, {0, 10}}, SF_BAD_CALL},
      {{{11, 0}, {0, 10}}, SF_BAD_CALL},       {{{SIZE_MAX, 1}, {0, 10}}, SF_BAD_CALL},
      {{{1, SIZE_MAX}, {0, 10}}, SF_BAD_CALL}, {{{10, 0}, {0, 11}}, SF_BAD_CALL},
      {{{3, 5}, {SIZE_MAX, 0}}, SF_BAD_CALL},  {{{0, 10}, {0, 11}}, SF_OK},
      {{{0, 10}, {SIZE_MAX, 2}}, SF_OK},       {{{10, 0}, {0, 8}}, SF_EMPTY},
  };
  unsigned char *texts = take_buffer(about, 10), *none = take_buffer(NULL, 0);
  for (size_t i = 0; i < sizeof ranges / sizeof *ranges; ++i) {
    size_t index = 4711;
    sf_policy policy, nines;
    memset(&policy, 9, sizeof policy);
    memset(&nines, 9, sizeof nines);
    CALL(sf_select(&seed, texts, 10, ranges[i].fields, 2, &index, &policy));
    CHECK(status == ranges[i].status && index == (status == SF_OK ? 0 : 4711));
    CHECK(status == SF_OK ? policy.max_age == 60 : memcmp(&policy, &nines, sizeof policy) == 0);
  }
  size_t index = 4711;
  sf_policy policy;
  CALL(sf_select(&seed, texts, 10, (const sf_span *)(const void *)none, 0, &index, &policy));
  CHECK(status == SF_EMPTY && index == 4711);
  static const sf_span nowhere = {0, 1}, absent = {0, 0};
  CALL(sf_select(&seed, none, 0, &nowhere, 1, &index, &policy));
  CHECK(status == SF_BAD_CALL && index == 4711);
  CALL(sf_select(&seed, none, 0, &absent, 1, &index, &policy));
  CHECK(status == SF_EMPTY && index == 4711);
  give_buffer(texts);
  give_buffer(none);
}

/* The same choice, by the dialect, with what decides. */
static void selecting_rules(void) {
  static const char about[] = "max-age=60, x=@1 no-store a b";
  static const sf_span fields[] = {{0, 0}, {0, 16}, {17, 8}};
  size_t index = 4711;
  sf_rules rules;
  uint32_t status;
  unsigned char *texts = take_buffer(about, sizeof about - 1);
  FREE_CALL(sf_select_rules(&seed, SF_RFC9651, texts, sizeof about - 1, fields, 3, &index, &rules));
  CHECK(status == SF_OK && index == 1 && rules.policy.max_age == 60 && rules.policy.no_store == 0);
  CALL(sf_select_rules(&seed, SF_RFC8941, texts, sizeof about - 1, fields, 3, &index, &rules));
  CHECK(status == SF_OK && index == 2 && rules.policy.max_age == 0 && rules.policy.no_store == 1);
  sf_policy policy;
  CALL(sf_select(&seed, texts, sizeof about - 1, fields, 3, &index, &policy));
  CHECK(status == SF_OK && index == 1 && policy.max_age == 60);
  static const sf_span ignored[] = {{26, 3}, {0, 0}}, past[] = {{26, 3}, {26, 4}};
  memset(&rules, 9, sizeof rules);
  index = 4711;
  CALL(sf_select_rules(&seed, SF_RFC9651, texts, sizeof about - 1, ignored, 2, &index, &rules));
  CHECK(status == SF_EMPTY && index == 4711 && rules.is_public == 9);
  CALL(sf_select_rules(&seed, SF_RFC9651, texts, sizeof about - 1, past, 2, &index, &rules));
  CHECK(status == SF_BAD_CALL && index == 4711 && rules.is_public == 9);
  give_buffer(texts);
}

/* What a hop is to tell; a text that is NULL is not said. */
typedef struct hop_row {
  const char *name;
  int name_is_token;
  uint16_t outcome, why;
  const char *why_token;
  int status, stored, collapsed; /* -1: not said */
  const char *ttl, *key, *detail;
  int detail_is_token;
} hop_row;

static int is_said(const unsigned char *bytes, size_t size, sf_span span, uint8_t says,
                   const char *text) {
  return says == (text != NULL) &&
         is_text(bytes, size, span.at, span.length, text == NULL ? "" : text);
}

static int is_number(unsigned number, uint8_t says, int row) {
  return says == (row >= 0) && number == (row >= 0 ? (unsigned)row : 0);
}

static int is_hop(const unsigned char *bytes, size_t size, const sf_hop *hop, const hop_row *row) {
  return is_said(bytes, size, hop->name, 1, row->name) &&
         hop->name_is_token == row->name_is_token && hop->outcome == row->outcome &&
         hop->why == row->why &&
         is_said(bytes, size, hop->why_token, hop->why != SF_NO_FORWARD, row->why_token) &&
         is_number(hop->status, hop->has_status, row->status) &&
         is_number(hop->stored, hop->has_stored, row->stored) &&
         is_number(hop->collapsed, hop->has_collapsed, row->collapsed) &&
         hop->has_ttl == (row->ttl != NULL) &&
         hop->ttl == (row->ttl == NULL ? 0 : strtoll(row->ttl, NULL, 10)) &&
         is_said(bytes, size, hop->key, hop->has_key, row->key) &&
         is_said(bytes, size, hop->detail, hop->has_detail, row->detail) &&
         hop->detail_is_token == row->detail_is_token;
}

/* A path in each buffer that is too small, in buffers of exactly its size, and in longer ones. The
 * call does not allocate. */
static void told(const char *from, const hop_row *rows, size_t count, size_t size, long served) {
  const char *about = from;
  uint32_t status;
  size_t length = strlen(from);
  unsigned char *text = take_buffer(from, length);
  sf_refusal refusal = untouched;
  for (size_t n = 0; n <= count + 1; ++n) {
    for (size_t b = 0; b <= size + 1; ++b) {
      sf_hop *hops = take_buffer(NULL, n * sizeof *hops);
      unsigned char *bytes = take_buffer(NULL, b);
      sf_path path = {4711, 4712, 4713, 4714, 4715};
      CALL(sf_cache_status(&seed, text, length, hops, n, bytes, b, &path, &refusal));
      CHECK(path.hops == count && path.bytes == size && path.nameless == 4714);
      CHECK(path.is_served == (served >= 0) && path.served == (served < 0 ? 0 : (size_t)served));
      CHECK(calls == 0);
      if (n < count || b < size) {
        CHECK(status == SF_SHORT);
      } else {
        CHECK(status == SF_OK);
        for (size_t i = 0; i < count; ++i)
          CHECK(is_hop(bytes, size, &hops[i], &rows[i]));
      }
      give_buffer(hops);
      give_buffer(bytes);
    }
  }
  CHECK(count <= SF_NODES_SIZE(length) && size <= SF_BYTES_SIZE(length));
  CHECK(is_untouched(&refusal));
  give_buffer(text);
}

#define TOLD(text, rows, size, served) told(text, rows, sizeof rows / sizeof *rows, size, served)

static void paths(void) {
  static const hop_row two[] = {
      {"OriginCache", 1, SF_HIT, 0, NULL, -1, -1, -1, "1100", NULL, NULL, 0},
      {"CDN Company Here", 0, SF_HIT, 0, NULL, -1, -1, -1, "545", NULL, NULL, 0}};
  TOLD("OriginCache; hit; ttl=1100, \"CDN Company Here\"; hit; ttl=545", two, 27, 1);
  static const hop_row all[] = {{"c", 1, SF_FORWARDED, SF_STALE, "stale", 304, 1, 0, "-3", "k\"",
                                 "why not", 0}};
  TOLD("c;fwd=stale;fwd-status=304;stored;collapsed=?0;ttl=-3;key=\"k\\\"\";detail=\"why not\"",
       all, 15, -1);
  static const hop_row both[] = {
      {"c", 1, SF_HIT, 0, NULL, -1, -1, -1, NULL, NULL, NULL, 0},
      {"d", 1, SF_CONFLICT, SF_MISS, "miss", -1, -1, -1, NULL, NULL, "e", 1}};
  TOLD("c;hit, d;hit;fwd=miss;detail=e", both, 7, 0);
  /* a token that the RFC does not know, a status that is none */
  static const hop_row odd[] = {
      {"c", 1, SF_FORWARDED, SF_OTHER, "odd", -1, 1, -1, "-3", NULL, NULL, 0}};
  TOLD("c;hit=?0;fwd=odd;fwd-status=99;stored;ttl=-3", odd, 4, -1);
  static const hop_row least[] = {{"c", 1, SF_FORWARDED, SF_MISS, "miss", SF_FWD_STATUS_MIN, -1, -1,
                                   NULL, NULL, NULL, 0}};
  TOLD("c;fwd=miss;fwd-status=100", least, 5, -1);
  static const hop_row greatest[] = {{"c", 1, SF_FORWARDED, SF_MISS, "miss", SF_FWD_STATUS_MAX, -1,
                                      -1, NULL, NULL, NULL, 0}};
  TOLD("c;fwd=miss;fwd-status=999", greatest, 5, -1);
  static const hop_row over[] = {
      {"c", 1, SF_FORWARDED, SF_MISS, "miss", -1, -1, -1, NULL, NULL, NULL, 0}};
  TOLD("c;fwd=miss;fwd-status=1000", over, 5, -1);
  /* parameters of another type, and what counts beside fwd alone */
  static const hop_row none[] = {{"c", 1, SF_UNSAID, 0, NULL, -1, -1, -1, NULL, NULL, NULL, 0}};
  TOLD("c;hit=\"x\";fwd=1;ttl=1.0;key=k;detail=1", none, 1, -1);
  TOLD("c;stored;collapsed;fwd-status=304", none, 1, -1);
  static const hop_row empty[] = {{"", 0, SF_UNSAID, 0, NULL, -1, -1, -1, NULL, "", "", 0}};
  TOLD("\"\";key=\"\";detail=\"\"", empty, 0, -1);
  static const char *const words[] = {"bypass",  "method", "uri-miss", "vary-miss",
                                      "miss",    "request", "stale",   "partial"};
  for (size_t i = 0; i < sizeof words / sizeof *words; ++i) {
    char text[32] = "c;fwd-status=999;fwd=";
    strcat(text, words[i]);
    hop_row row = {"c", 1, SF_FORWARDED, (uint16_t)(SF_BYPASS + i), words[i], 999, -1, -1, NULL,
                   NULL, NULL, 0};
    told(text, &row, 1, 1 + strlen(words[i]), -1);
  }
  told("", NULL, 0, 0, -1);

  static const struct {
    const char *text;
    size_t place;
  } rows[] = {{"7;hit", 0}, {"a, (b), 7", 1}, {"a, b, :YQ==:", 2}, {"a, (), b", 1}, {"?1", 0}};
  uint32_t status;
  sf_hop hop;
  unsigned char byte;
  sf_path path = {4711, 4712, 4713, 4714, 4715};
  sf_refusal refusal = untouched;
  for (size_t i = 0; i < sizeof rows / sizeof *rows; ++i) {
    const char *about = rows[i].text;
    size_t length = strlen(about);
    unsigned char *text = take_buffer(about, length);
    CALL(sf_cache_status(&seed, text, length, &hop, 1, &byte, 1, &path, &refusal));
    CHECK(status == SF_NOT_A_CACHE && path.nameless == rows[i].place);
    CHECK(path.hops == 4711 && path.bytes == 4712 && path.served == 4713 && path.is_served == 4715);
    give_buffer(text);
  }
  const char *about = "a,";
  CHECK(is_untouched(&refusal));
  path.nameless = 4714;
  CALL(sf_cache_status(&seed, about, 2, &hop, 1, &byte, 1, &path, &refusal));
  CHECK(status == SF_REFUSED && refusal.offset == 2 && refusal.found == -1);
  CHECK(path.hops == 4711 && path.bytes == 4712 && path.served == 4713 && path.nameless == 4714);
  CHECK(path.is_served == 4715);
}

/* A hop, written and read back: the text is this one. The call does not allocate. */
static void hop_written(const sf_hop *from, const char *names, const char *text) {
  const char *about = text;
  uint32_t status;
  size_t length = strlen(names);
  sf_hop *hop = take_buffer(from, sizeof *from);
  unsigned char *bytes = take_buffer(names, length);
  FREE_WRITES(sf_hop_text(&seed, hop, bytes, length, buffer, size, required), text);
  CHECK(memcmp(hop, from, sizeof *from) == 0);
  give_buffer(hop);
  give_buffer(bytes);
}

static void hop_refused(const sf_hop *from, const char *names, const char *about) {
  uint32_t status;
  size_t length = strlen(names), required = 4711;
  unsigned char *bytes = take_buffer(names, length), buffer[64];
  memset(buffer, BUFFER_BYTE, sizeof buffer);
  FREE_CALL(sf_hop_text(&seed, from, bytes, length, buffer, sizeof buffer, &required));
  CHECK(status == SF_INVALID && required == 4711 && all_are(buffer, sizeof buffer));
  give_buffer(bytes);
}

/* Names of 40 to 80 bytes, without an escape and of escapes alone: what is short is put together on
 * the stack first. */
static void long_hops(void) {
  char names[81], text[163];
  for (size_t n = 40; n <= 80; ++n)
    for (int escaped = 0; escaped < 2; ++escaped) {
      size_t length = 0;
      text[length++] = '"';
      for (size_t i = 0; i < n; ++i) {
        names[i] = escaped ? '"' : 'a';
        if (escaped)
          text[length++] = '\\';
        text[length++] = names[i];
      }
      text[length++] = '"';
      names[n] = text[length] = '\0';
      sf_hop hop;
      memset(&hop, 0, sizeof hop);
      hop.name.length = n;
      hop_written(&hop, names, text);
    }
}

static void written_hops(void) {
  long_hops();
  /* a hop of one's own: what is not set is zero */
  sf_hop hop;
  memset(&hop, 0, sizeof hop);
  hop_written(&hop, "", "\"\"");
  hop.name.length = 4;
  hop_written(&hop, "edge", "\"edge\"");
  hop.name_is_token = 1;
  hop.outcome = SF_HIT;
  hop_written(&hop, "edge", "edge;hit");
  hop.has_ttl = 1;
  hop.ttl = -30;
  hop_written(&hop, "edge", "edge;hit;ttl=-30");
  hop.ttl = SF_NUMBER_MAX;
  hop_written(&hop, "edge", "edge;hit;ttl=999999999999999");
  hop.ttl = SF_NUMBER_MAX + 1;
  hop_refused(&hop, "edge", "a ttl that is no Integer");
  hop.ttl = -SF_NUMBER_MAX - 1;
  hop_refused(&hop, "edge", "a ttl that is no Integer");
  hop.has_ttl = 0;
  hop_written(&hop, "edge", "edge;hit");
  hop.has_key = 255;
  hop.key = (sf_span){4, 3};
  hop_written(&hop, "edgea\"b", "edge;hit;key=\"a\\\"b\"");
  hop_refused(&hop, "edgeab", "a key past the bytes");
  hop.key.at = SIZE_MAX;
  hop_refused(&hop, "edgea\"b", "a key past all bytes");
  hop.key = (sf_span){7, 0};
  hop_written(&hop, "edgea\"b", "edge;hit;key=\"\"");
  hop.key.at = 8;
  hop_refused(&hop, "edgea\"b", "an empty key past the bytes");
  hop.key = (sf_span){4, 1};
  hop_refused(&hop, "edge\x7f", "a key that is no String");
  hop.has_key = 0;
  hop.has_detail = 1;
  hop.detail = (sf_span){0, 2};
  hop_written(&hop, "edge", "edge;hit;detail=\"ed\"");
  hop.detail_is_token = 1;
  hop_written(&hop, "edge", "edge;hit;detail=ed");
  hop.detail.length = 0;
  hop_refused(&hop, "edge", "a detail that is no Token");
  hop.has_detail = 0;
  hop_refused(&hop, "ed e", "a name that is no Token");
  hop.name_is_token = 0;
  hop_written(&hop, "ed e", "\"ed e\";hit");
  hop_refused(&hop, "ed\te", "a name that is no String");

  /* what was forwarded counts if the outcome says so */
  hop.why = SF_STALE;
  hop.status = 304;
  hop.has_status = 1;
  hop.stored = 1;
  hop.has_stored = 1;
  hop.has_collapsed = 1;
  hop_written(&hop, "edge", "\"edge\";hit");
  hop.outcome = SF_UNSAID;
  hop_written(&hop, "edge", "\"edge\"");
  hop.outcome = SF_FORWARDED;
  hop_written(&hop, "edge", "\"edge\";fwd=stale;fwd-status=304;stored;collapsed=?0");
  hop.outcome = SF_CONFLICT;
  hop_written(&hop, "edge", "\"edge\";hit;fwd=stale;fwd-status=304;stored;collapsed=?0");
  hop.outcome = SF_CONFLICT + 1;
  hop_refused(&hop, "edge", "no outcome");
  hop.outcome = SF_FORWARDED;
  hop.status = SF_FWD_STATUS_MIN - 1;
  hop_refused(&hop, "edge", "no status");
  hop.status = SF_FWD_STATUS_MAX + 1;
  hop_refused(&hop, "edge", "no status");
  hop.status = SF_FWD_STATUS_MAX;
  hop.has_stored = hop.has_collapsed = 0;
  static const char *const reasons[] = {
      "\"edge\";fwd=bypass;fwd-status=999",    "\"edge\";fwd=method;fwd-status=999",
      "\"edge\";fwd=uri-miss;fwd-status=999",  "\"edge\";fwd=vary-miss;fwd-status=999",
      "\"edge\";fwd=miss;fwd-status=999",      "\"edge\";fwd=request;fwd-status=999",
      "\"edge\";fwd=stale;fwd-status=999",     "\"edge\";fwd=partial;fwd-status=999"};
  for (size_t i = 0; i < sizeof reasons / sizeof *reasons; ++i) {
    hop.why = (uint16_t)(SF_BYPASS + i);
    hop_written(&hop, "edge", reasons[i]);
  }
  hop.why = SF_NO_FORWARD;
  hop_refused(&hop, "edge", "no reason");
  hop.why = SF_OTHER + 1;
  hop_refused(&hop, "edge", "no reason");
  hop.why = SF_OTHER;
  hop_refused(&hop, "edge", "a reason that is no Token");
  hop.why_token = (sf_span){4, 3};
  hop_written(&hop, "edgeodd", "\"edge\";fwd=odd;fwd-status=999");

  /* all at once */
  hop = (sf_hop){{0, 1}, {1, 3}, {4, 2}, {6, 3}, -3, SF_FORWARDED, SF_OTHER, 100, 1, 0, 1, 1, 1,
                 1, 1, 1, 1, 0};
  static const char every[] = "c;fwd=odd;fwd-status=100;ttl=-3;stored=?0;collapsed;key=\"k\\\"\";"
                            "detail=\"why\"";
  hop_written(&hop, "coddk\"why", every);

  /* each hop of a path, written, is a member of its canonical text */
  static const char text[] = "a;hit;ttl=5, \"b c\";fwd=miss;fwd-status=200;stored;key=\"k\", "
                             "d;fwd=odd;detail=e, f;hit;fwd=partial;collapsed=?0;detail=\"\", g";
  static const char *const members[] = {
      "a;hit;ttl=5", "\"b c\";fwd=miss;fwd-status=200;stored;key=\"k\"", "d;fwd=odd;detail=e",
      "f;hit;fwd=partial;collapsed=?0;detail=\"\"", "g"};
  const char *about = text;
  uint32_t status;
  sf_hop hops[5];
  char bytes[SF_BYTES_SIZE(sizeof text)];
  sf_path path;
  sf_refusal refusal = untouched;
  CALL(sf_cache_status(&seed, text, sizeof text - 1, hops, 5, bytes, sizeof bytes, &path,
                       &refusal));
  CHECK(status == SF_OK && path.hops == 5);
  for (size_t i = 0; i < 5; ++i) {
    char buffer[80];
    size_t required = 0;
    FREE_CALL(sf_hop_text(&seed, &hops[i], bytes, path.bytes, buffer, sizeof buffer, &required));
    CHECK(status == SF_OK && required == strlen(members[i]));
    CHECK(memcmp(buffer, members[i], required) == 0);
  }
}

/* The field that came, with the own hop at its end. */
static void appended_hops(void) {
  static const struct {
    const char *text, *appended;
  } rows[] = {
      {"", "edge;fwd=miss;ttl=-1;stored"},
      {"  ", "edge;fwd=miss;ttl=-1;stored"},
      {"a;hit", "a;hit, edge;fwd=miss;ttl=-1;stored"},
      {"a; hit,\t\"b c\";fwd=odd", "a;hit, \"b c\";fwd=odd, edge;fwd=miss;ttl=-1;stored"},
      /* members that name no cache stay */
      {"7, (x  y);z", "7, (x y);z, edge;fwd=miss;ttl=-1;stored"},
      {"a;x=1.0;x=2", "a;x=2, edge;fwd=miss;ttl=-1;stored"},
  };
  sf_hop hop = {.name = {0, 4}, .name_is_token = 1, .outcome = SF_FORWARDED, .why = SF_MISS,
                .ttl = -1, .has_ttl = 1, .stored = 1, .has_stored = 1};
  uint32_t status;
  sf_refusal refusal = untouched;
  for (size_t i = 0; i < sizeof rows / sizeof *rows; ++i) {
    const char *about = rows[i].text;
    size_t length = strlen(about);
    unsigned char *text = take_buffer(about, length), *names = take_buffer("edge", 4);
    WRITES(sf_cache_status_append(&seed, SF_RFC8941, text, length, &hop, names, 4, buffer, size,
                                  required, &refusal),
           rows[i].appended);
    CHECK(strlen(rows[i].appended) <= SF_APPENDED_SIZE(length, 4));
    give_buffer(names);
    give_buffer(text);
  }
  /* nothing is appended to a malformed field, of either dialect */
  static const char *const malformed[] = {"a;hit,", "a;hit,, b", "a b", "(", "\x80", "a;x=@1"};
  static const size_t places[] = {6, 6, 2, 1, 0, 4};
  unsigned char out[64];
  size_t required = 4711;
  for (size_t i = 0; i < sizeof malformed / sizeof *malformed; ++i) {
    const char *about = malformed[i];
    memset(out, BUFFER_BYTE, sizeof out);
    CALL(sf_cache_status_append(&seed, SF_RFC8941, about, strlen(about), &hop, "edge", 4, out,
                                sizeof out, &required, &refusal));
    CHECK(status == SF_REFUSED && refusal.offset == places[i]);
    CHECK(required == 4711 && all_are(out, sizeof out));
  }
  const char *about = "a;x=@1";
  refusal = untouched;
  CALL(sf_cache_status_append(&seed, SF_RFC9651, about, 6, &hop, "edge", 4, out, sizeof out,
                              &required, &refusal));
  CHECK(status == SF_OK && required == 35 && memcmp(out, "a;x=@1, edge;fwd", 16) == 0);
  sf_hop hops[2];
  sf_path path;
  char bytes[16];
  CALL(sf_cache_status_in(&seed, SF_RFC8941, about, 6, hops, 2, bytes, sizeof bytes, &path,
                          &refusal));
  CHECK(status == SF_REFUSED && refusal.offset == 4);
  refusal = untouched;
  FREE_CALL(sf_cache_status_in(&seed, SF_RFC9651, about, 6, hops, 2, bytes, sizeof bytes, &path,
                               &refusal));
  CHECK(status == SF_OK && path.hops == 1 && is_untouched(&refusal));

  /* what is no hop, or has hit and fwd, is refused before the text is read */
  about = "no hop to append";
  memset(out, BUFFER_BYTE, sizeof out);
  required = 4711;
  for (int i = 0; i < 3; ++i) {
    sf_hop wrong = hop;
    if (i == 0)
      wrong.outcome = SF_CONFLICT;
    else if (i == 1)
      wrong.name.length = 5;
    else
      wrong.why = SF_NO_FORWARD;
    CALL(sf_cache_status_append(&seed, SF_RFC9651, "a;hit", 5, &wrong, "edge", 4, out, sizeof out,
                                &required, &refusal));
    CHECK(status == SF_INVALID && required == 4711 && all_are(out, sizeof out));
    CALL(sf_cache_status_append(&seed, SF_RFC9651, "a;hit,", 6, &wrong, "edge", 4, out, sizeof out,
                                &required, &refusal));
    CHECK(status == SF_INVALID && required == 4711 && is_untouched(&refusal));
  }
  /* the longest text of a hop: each byte is escaped, in each of the ranges */
  about = "the longest hop";
  sf_hop longest = {{0, 8}, {8, 1}, {0, 8}, {0, 8}, -SF_NUMBER_MAX, SF_FORWARDED, SF_VARY_MISS, 999,
                    1, 0, 1, 0, 1, 1, 1, 1, 0, 0};
  char text[SF_HOP_SIZE(8)];
  CALL(sf_hop_text(&seed, &longest, "\"\\\"\\\"\\\"\\", 8, text, sizeof text, &required));
  CHECK(status == SF_OK && required > 7 * 8 + 64);
}

/* Where a refusal is in the lines that were joined, and messages of a bounded size. */
static void excerpts(void) {
  static const struct {
    const char *lines[4];
    uint64_t offset;
    size_t line, at;
  } places[] = {
      {{NULL}, 7, 0, 0},
      {{"abc", NULL}, 1, 0, 1},
      {{"abc", NULL}, 3, 0, 3},
      {{"abc", NULL}, 9, 0, 3},
      {{"abc", "de", NULL}, 2, 0, 2},
      {{"abc", "de", NULL}, 3, 0, 3}, /* the comma that joins them is after the first */
      {{"abc", "de", NULL}, 4, 0, 3},
      {{"abc", "de", NULL}, 5, 1, 0},
      {{"abc", "de", NULL}, 7, 1, 2},
      {{"abc", "", "f", NULL}, 5, 1, 0},
      {{"abc", "", "f", NULL}, 6, 1, 0},
      {{"abc", "", "f", NULL}, 7, 2, 0},
      {{"abc", "", "f", NULL}, UINT64_MAX, 2, 1},
  };
  const char *about = "the line of a refusal";
  for (size_t i = 0; i < sizeof places / sizeof *places; ++i) {
    sf_text lines[4];
    size_t count = 0;
    for (; places[i].lines[count] != NULL; ++count) {
      lines[count].at = places[i].lines[count];
      lines[count].length = strlen(places[i].lines[count]);
    }
    sf_refusal refusal = untouched;
    refusal.offset = places[i].offset;
    sf_location location = sf_locate_in_lines(&refusal, lines, count);
    CHECK(location.index == places[i].line && location.refusal.offset == places[i].at);
    CHECK(location.number == places[i].line + 1);
  }
  static const struct {
    const char *text;
    uint64_t offset;
    size_t most;
    const char *shown;
  } rows[] = {
      {"1 2", 2, 80, "\n1 2\n  ^"}, {"1 2", 2, 3, "\n1 2\n  ^"}, {"", 0, 8, "\n\n^"},
      {"", 0, 0, "\n\n^"},
      /* `...` where it is cut off */
      {"1 2", 2, 2, "\n... 2\n    ^"}, {"1 2", 2, 1, "\n...2\n   ^"},
      {"1 2", 2, 0, "\n......\n   ^"}, {"1 2", 0, 0, "\n...\n^"},
      {"1 2", 3, 0, "\n...\n   ^"},
      {"abcdefghij", 0, 4, "\nabcd...\n^"},
      {"abcdefghij", 5, 4, "\n...defg...\n     ^"},
      {"abcdefghij", 5, 9, "\n...bcdefghij\n       ^"},
      {"abcdefghij", 4, 9, "\nabcdefghi...\n    ^"},
      {"abcdefghij", 9, 4, "\n...ghij\n      ^"},
      {"abcdefghij", 10, 4, "\n...ghij\n       ^"},
      {"abcdefghij", 99, 4, "\n...ghij\n       ^"},
      {"a\tb\xff", 1, 8, "\na?b?\n ^"},
  };
  uint32_t status;
  for (size_t i = 0; i < sizeof rows / sizeof *rows; ++i) {
    about = rows[i].text;
    size_t length = strlen(about);
    unsigned char *text = take_buffer(about, length);
    sf_refusal refusal = {rows[i].offset, UINT64_C(1) << 32, 0, 0x32, 1};
    char message[160];
    sprintf(message, "byte 0x32 '2' at place %d, expected a space or the end%s",
            (int)rows[i].offset, rows[i].shown);
    WRITES(show_excerpt(&refusal, text, length, rows[i].most, buffer, size, required),
           message);
    CHECK(strlen(message) <= SF_REFUSAL_EXCERPT_SIZE(rows[i].most));
    give_buffer(text);
  }
  about = "an excerpt of a long text";
  size_t length = 1 << 20, required = 0;
  char *text = malloc(length), buffer[SF_REFUSAL_EXCERPT_SIZE(16)];
  if (text == NULL)
    stop("no memory");
  memset(text, 'x', length);
  sf_refusal refusal = {1 << 19, 1, 0, 'x', 0};
  CALL(show_excerpt(&refusal, text, length, 16, buffer, sizeof buffer, &required));
  CHECK(status == SF_OK && required <= sizeof buffer && peak <= SF_MEMORY_SIZE(0));
  CHECK(memcmp(buffer + required - 36, "\n...xxxxxxxxxxxxxxxx...\n           ^", 36) == 0);
  free(text);
}

/* Each struct that a call is given, in a buffer of its own, as the answers are. */
static void structs(void) {
  static const struct {
    uint32_t kind;
    const char *text;
  } rows[] = {
      {SF_ITEM, "a;q=1"}, {SF_ITEM, "a,"}, {SF_LIST, "a;hit;ttl=1"}, {SF_LIST, "a, "},
      {SF_LIST, "7"},     {SF_LIST, ""},   {SF_DICT, "u=1, i"},      {SF_DICT, "max-age=5,"},
      {SF_DICT, ""},
  };
  sf_seed *secret = take_buffer(&seed, sizeof seed);
  for (size_t i = 0; i < sizeof rows / sizeof *rows; ++i) {
    const char *about = rows[i].text;
    uint32_t kind = rows[i].kind, status, right;
    size_t length = strlen(about);
    unsigned char *text = take_buffer(about, length);
    sf_refusal *refusal = take_buffer(&untouched, sizeof untouched);
    size_t *required = take_buffer(NULL, sizeof *required);
    uint32_t *equal = take_buffer(NULL, sizeof *equal);
    sf_sizes *sizes = take_buffer(NULL, sizeof *sizes);
    sf_path *path = take_buffer(NULL, sizeof *path);
    sf_policy *policy = take_buffer(NULL, sizeof *policy);
    sf_priority_flags *priority = take_buffer(NULL, sizeof *priority);
    uint64_t *seconds = take_buffer(NULL, sizeof *seconds);
    unsigned char *bytes = take_buffer(NULL, 40);
    sf_node *nodes = take_buffer(NULL, 4 * sizeof *nodes);
    sf_hop *hops = take_buffer(NULL, 4 * sizeof *hops);

    CALL(sf_check(secret, SF_RFC9651, kind, text, length, refusal));
    right = status;
    CHECK(right == SF_OK || right == SF_REFUSED);
    CALL(sf_normalise(secret, SF_RFC9651, kind, text, length, bytes, 40, required, refusal));
    CHECK(status == right);
    CALL(sf_equal(secret, SF_RFC9651, kind, text, length, text, length, equal, refusal));
    CHECK(status == right);
    CALL(sf_parse(secret, SF_RFC9651, kind, text, length, nodes, 4, bytes, 40, sizes, refusal));
    CHECK(status == right);
    if (kind == SF_LIST) {
      CALL(sf_cache_status(secret, text, length, hops, 4, bytes, 40, path, refusal));
      CHECK(status == right || (right == SF_OK && status == SF_NOT_A_CACHE));
    }
    if (kind == SF_DICT) {
      CALL(sf_priority(secret, text, length, priority, refusal));
      CHECK(status == right);
      static const sf_response_priority_flags nothing;
      *priority = sf_priority_merge(priority, &nothing);
      CALL(sf_cache_control(secret, text, length, policy, refusal));
      CHECK(status == right || (right == SF_OK && status == SF_EMPTY));
      CHECK(sf_lifetime(policy, 1, seconds) <= 1 && sf_lifetime(policy, 0, seconds) <= 1);
    }
    CHECK(memcmp(secret, &seed, sizeof seed) == 0);
    CHECK(length == 0 || memcmp(text, about, length) == 0);
    give_buffer(text);
    give_buffer(refusal);
    give_buffer(required);
    give_buffer(equal);
    give_buffer(sizes);
    give_buffer(path);
    give_buffer(policy);
    give_buffer(priority);
    give_buffer(seconds);
    give_buffer(bytes);
    give_buffer(nodes);
    give_buffer(hops);
  }
  give_buffer(secret);
}

/* Lines, joined into a buffer that is as long as the text, or one byte too small for some line. */
static void joining(void) {
  static const struct {
    const char *lines[4], *text;
  } rows[] = {
      {{NULL}, ""},           {{"", NULL}, ""},
      {{"a", NULL}, "a"},     {{"a", "", NULL}, "a, "},
      {{"", "", NULL}, ", "}, {{"\"a", "b\"", NULL}, "\"a, b\""},
      {{"a;q=1.0,b", "(c  d)", "e", NULL}, "a;q=1.0,b, (c  d), e"},
  };
  uint32_t status;
  for (size_t i = 0; i < sizeof rows / sizeof *rows; ++i) {
    const char *about = rows[i].text;
    size_t whole = strlen(about);
    for (size_t capacity = 0; capacity <= whole + 2; ++capacity) {
      unsigned char *text = take_buffer(NULL, capacity);
      sf_joined joined = {0, 0, 0};
      size_t length = 0;
      int fits = 1;
      for (size_t l = 0; fits && rows[i].lines[l] != NULL; ++l) {
        size_t line_length = strlen(rows[i].lines[l]);
        unsigned char *line = take_buffer(rows[i].lines[l], line_length);
        size_t next = length + (l > 0 ? 2 : 0) + line_length;
        fits = next <= capacity;
        CALL(sf_join(line, line_length, text, capacity, &joined));
        CHECK(status == (fits ? SF_OK : SF_SHORT));
        if (fits)
          length = next;
        else
          CHECK(joined.required == next);
        CHECK(joined.length == length && joined.begun == (l > 0 || fits));
        CHECK(length == 0 || memcmp(text, about, length) == 0);
        CHECK(capacity == length || all_are(text + length, capacity - length));
        give_buffer(line);
      }
      CHECK(!fits || length == whole);
      give_buffer(text);
    }
  }
  const char *about = "joined before";
  unsigned char buffer[4] = {0xa5, 0xa5, 0xa5, 0xa5};
  sf_joined joined = {5, 6, 1};
  CALL(sf_join("a", 1, buffer, sizeof buffer, &joined));
  CHECK(status == SF_BAD_CALL && joined.length == 5 && joined.required == 6 && joined.begun == 1);
  joined.length = SIZE_MAX;
  unsigned char *none = take_buffer(NULL, 0);
  CALL(sf_join(none, 0, none, 0, &joined));
  CHECK(status == SF_BAD_CALL && joined.length == SIZE_MAX);
  give_buffer(none);
  joined.length = 0;
  joined.begun = 9; /* any number but 0 says that it has begun */
  CALL(sf_join("a", 1, buffer, sizeof buffer, &joined));
  CHECK(status == SF_OK && joined.length == 3 && memcmp(buffer, ", a", 3) == 0 &&
        buffer[3] == 0xa5);
  CHECK(joined.begun == 1 && joined.required == 6);
}

/* malloc fails at its n-th call, alone or from there on, for each n: the result is the right one or
 * SF_NO_MEMORY, with all that the call may write unchanged, and nothing leaks. */

static const char large[] = "abc;a=1;b=2; cde_456, "
                            "(ghi;jk=4 \"l\" :YWJjZA:);q=\"9\";r=%\"w%c3%bc\", "
                            "k;a;b;c;d;e;f;g;h;i;j;k;l;m;n;o;p;q;r;s;t;u;v;w;x;y;z, 1, 2, 3, 4, 5";
static const char directives[] = "max-age=30, s-maxage=90, a;b;c, d=(e f), g=\"h\", u=1, i";

/* A call that does not allocate has the same result without memory. */
#define WITHOUT_MEMORY(call, right)                                                                \
  do {                                                                                             \
    refused_once = 0;                                                                              \
    refused_from = 1;                                                                              \
    FREE_CALL(call);                                                                               \
    refused_from = 0;                                                                              \
    CHECK(status == SF_OK && (right));                                                             \
  } while (0)

#define EACH_REFUSAL(call, right, left) EACH_REFUSAL_OF(SF_OK, call, right, left)

/* The same of a call that returns another status with memory. */
#define EACH_REFUSAL_OF(answered, call, right, left)                                               \
  do {                                                                                             \
    for (int once = 0; once < 2; ++once) {                                                         \
      long met = 0;                                                                                \
      for (long n = 1; n < 10000; ++n) {                                                           \
        refusals = 0;                                                                              \
        refused_once = once;                                                                       \
        refused_from = n;                                                                          \
        CALL(call);                                                                                \
        refused_from = 0;                                                                          \
        if (refusals == 0) {                                                                       \
          CHECK(status == (answered) && (right));                                                  \
          break;                                                                                   \
        }                                                                                          \
        ++met;                                                                                     \
        CHECK(status == (answered) ? (right) : status == SF_NO_MEMORY && (left));                  \
      }                                                                                            \
      CHECK(met > 0);                                                                              \
    }                                                                                              \
  } while (0)

/* All that one call may write. */
typedef struct answer {
  sf_refusal refusal;
  size_t required;
  uint32_t equal;
  sf_sizes sizes;
  sf_priority_flags priority;
  sf_policy policy;
  sf_path path;
  sf_node nodes[32];
  sf_hop hops[8];
  unsigned char bytes[128];
} answer;

typedef enum question {
  TO_CHECK,
  TO_NORMALISE,
  TO_COMPARE,        /* with itself */
  TO_COMPARE_SECOND, /* with a text that is accepted before it */
  TO_PARSE,
  TO_ASK_PRIORITY,
  TO_ASK_POLICY,
  TO_SELECT, /* of a target list of one field */
  TO_CHANGE_PRIORITY,
  TO_ASK_PATH,
  QUESTIONS
} question;

static int is_for(question asked, uint32_t dialect, uint32_t kind) {
  if (asked < TO_ASK_PRIORITY)
    return 1;
  return dialect == SF_RFC9651 && kind == (asked == TO_ASK_PATH ? SF_LIST : SF_DICT);
}

static uint32_t ask(question asked, uint32_t dialect, uint32_t kind, const void *text,
                    size_t length, answer *a) {
  const sf_span field = {0, length};
  const sf_priority_flags sets = {1, 1, 1, 1};
  switch (asked) {
  case TO_CHECK:
    return sf_check(&seed, dialect, kind, text, length, &a->refusal);
  case TO_NORMALISE:
    return sf_normalise(&seed, dialect, kind, text, length, a->bytes, sizeof a->bytes, &a->required,
                        &a->refusal);
  case TO_COMPARE:
    return sf_equal(&seed, dialect, kind, text, length, text, length, &a->equal, &a->refusal);
  case TO_COMPARE_SECOND:
    return sf_equal(&seed, dialect, kind, "a;b", 3, text, length, &a->equal, &a->refusal);
  case TO_PARSE:
    return sf_parse(&seed, dialect, kind, text, length, a->nodes, 32, a->bytes, sizeof a->bytes,
                    &a->sizes, &a->refusal);
  case TO_ASK_PRIORITY:
    return sf_priority(&seed, text, length, &a->priority, &a->refusal);
  case TO_ASK_POLICY:
    return sf_cache_control(&seed, text, length, &a->policy, &a->refusal);
  case TO_CHANGE_PRIORITY:
    return sf_priority_change(&seed, text, length, &sets, a->bytes, sizeof a->bytes, &a->required,
                              &a->refusal);
  case TO_SELECT:
    return sf_select(&seed, text, length, &field, 1, &a->required, &a->policy);
  default:
    return sf_cache_status(&seed, text, length, a->hops, 8, a->bytes, sizeof a->bytes, &a->path,
                           &a->refusal);
  }
}

/* The length of the texts of a call together. */
static size_t texts_length(question asked, size_t length) {
  return asked == TO_COMPARE ? 2 * length : asked == TO_COMPARE_SECOND ? 3 + length : length;
}

/* Unless sf_parse or sf_cache_status succeeds, its buffers hold nothing of meaning. */
static void forget(question asked, uint32_t status, answer *a) {
  if ((asked != TO_PARSE && asked != TO_ASK_PATH) || status == SF_OK)
    return;
  memset(a->nodes, 0xa5, sizeof a->nodes);
  memset(a->hops, 0xa5, sizeof a->hops);
  memset(a->bytes, 0xa5, sizeof a->bytes);
}

/* Whether two outputs are the same, except for padding between members. */
static int is_same(const answer *a, const answer *b) {
  return memcmp(&a->refusal, &b->refusal, sizeof a->refusal) == 0 && a->required == b->required &&
         a->equal == b->equal && memcmp(&a->sizes, &b->sizes, sizeof a->sizes) == 0 &&
         memcmp(&a->priority, &b->priority, sizeof a->priority) == 0 &&
         is_same_policy(&a->policy, &b->policy) &&
         memcmp(&a->path, &b->path, offsetof(sf_path, is_served) + sizeof a->path.is_served) == 0 &&
         memcmp(a->nodes, b->nodes, sizeof a->nodes) == 0 &&
         memcmp(a->hops, b->hops, sizeof a->hops) == 0 &&
         memcmp(a->bytes, b->bytes, sizeof a->bytes) == 0;
}

/* How many results of a text were SF_NO_MEMORY; each of the others is the one with enough memory,
 * also if that is a refusal. */
static long scarce(uint32_t dialect, uint32_t kind, const char *text, size_t length) {
  const char *about = text;
  uint32_t status, with_memory;
  answer blank, right, got;
  long met = 0;
  memset(&blank, 0xa5, sizeof blank);
  for (question asked = TO_CHECK; asked < QUESTIONS; ++asked) {
    if (!is_for(asked, dialect, kind))
      continue;
    memcpy(&right, &blank, sizeof right);
    CALL(ask(asked, dialect, kind, text, length, &right));
    CHECK_MEMORY(texts_length(asked, length));
    with_memory = status;
    forget(asked, status, &right);
    CHECK(status != SF_SHORT && status != SF_TOO_MANY && status != SF_NO_MEMORY &&
          status != SF_BAD_CALL);
    for (int once = 0; once < 2; ++once) {
      for (long n = 1; n < 10000; ++n) {
        memcpy(&got, &blank, sizeof got);
        refusals = 0;
        refused_once = once;
        refused_from = n;
        CALL(ask(asked, dialect, kind, text, length, &got));
        refused_from = 0;
        forget(asked, status, &got);
        met += status == SF_NO_MEMORY;
        CHECK(status == SF_NO_MEMORY ? refusals > 0 && is_same(&got, &blank)
                                     : status == with_memory && is_same(&got, &right));
        if (refusals == 0)
          break;
      }
    }
  }
  return met;
}

/* A text of at least so many bytes: the pattern again and again, with a new key of letters for each
 * '#' in it, between a beginning and an end. It is to be freed. */
static char *long_text(const char *begin, const char *pattern, const char *end, size_t least,
                       size_t *length) {
  char *text = malloc(least + 64);
  size_t at = (size_t)sprintf(text, "%s", begin);
  for (unsigned key = 0; at < least;) {
    for (const char *from = pattern; *from != '\0'; ++from) {
      if (*from != '#') {
        text[at++] = *from;
        continue;
      }
      unsigned left = key++;
      do
        text[at++] = (char)('a' + left % 26);
      while ((left /= 26) > 0);
    }
  }
  *length = at + (size_t)sprintf(text + at, "%s", end);
  return text;
}

/* Texts that need much memory for their length, accepted and refused; the buffers of `ask` are too
 * small for most of them, so that they are parsed into a tree. */
static void memory(void) {
  static const struct {
    uint32_t kind;
    const char *begin, *pattern, *end;
  } rows[] = {
      {SF_LIST, "a;b", ",a;b", ""},     {SF_LIST, "a;b", ",a;b", "="},
      {SF_LIST, "a", ",a", ""},         {SF_LIST, "a", ",a", "="},
      {SF_LIST, "()", ",()", ""},       {SF_LIST, "()", ",()", "="},
      {SF_LIST, "(a", " a", ")"},       {SF_LIST, "(a", " a", "="},
      {SF_LIST, "(a;b", " a;b", ")"},   {SF_LIST, "(a;b", " a;b", "="},
      {SF_LIST, "(a)", ",(a)", ""},     {SF_LIST, "();a", ",();a", "="},
      {SF_LIST, "::", ",::", ""},       {SF_LIST, "\"\\\"", "\\\"", "\""},
      {SF_LIST, "%\"", "%c3%bc", "\""}, {SF_LIST, "%\"", "%c3%bc", "\"="},
      {SF_LIST, ":YWJj", "YWJj", ":"},  {SF_ITEM, "1", ";#", ""},
      {SF_ITEM, "1", ";#", "="},        {SF_ITEM, "1", ";#", ";a"},
      {SF_ITEM, "1", ";#=1", ""},       {SF_ITEM, "\"a", "a", "\""},
      {SF_DICT, "a", ",#", ""},         {SF_DICT, "a", ",#", "="},
      {SF_DICT, "a", ",#=()", ""},      {SF_DICT, "a", ",#=()", "="},
      {SF_DICT, "a", ",#;a", ""},       {SF_DICT, "a", ",#;a", "="},
      {SF_DICT, "a", ",a", ""},         {SF_DICT, "a", ",a;b", "="},
      {SF_DICT, "a=(a", " a", ")"},     {SF_DICT, "a=(a", " a", "="},
  };
  enum { SMALL = 1000, LARGE = 20000 };
  for (size_t i = 0; i < sizeof rows / sizeof *rows; ++i) {
    /* lengths from one to twice the other, since blocks grow by doubling */
    for (size_t least = SMALL; least <= LARGE; least = least * 7 / 6) {
      const char *about = rows[i].pattern;
      uint32_t status;
      size_t length, required, invalid;
      char *text = long_text(rows[i].begin, rows[i].pattern, rows[i].end, least, &length);
      sf_refusal refusal;
      answer a;
      for (question asked = TO_CHECK; asked < QUESTIONS; ++asked) {
        if (!is_for(asked, SF_RFC9651, rows[i].kind))
          continue;
        CALL(ask(asked, SF_RFC9651, rows[i].kind, text, length, &a));
        CHECK(status != SF_NO_MEMORY);
        CHECK_MEMORY(texts_length(asked, length));
      }
      CALL(sf_check(&seed, SF_RFC9651, rows[i].kind, text, length, &refusal));
      if (status == SF_REFUSED) {
        CALL(sf_refusal_text(&refusal, a.bytes, sizeof a.bytes, &required));
        CHECK_MEMORY(0);
        CALL(sf_refusal_in_text(&refusal, text, length, a.bytes, sizeof a.bytes, &required));
        CHECK_MEMORY(length);
      } else {
        value v = {(const unsigned char *)text, length, malloc(SF_NODES_SIZE(length) * sizeof(sf_node)),
                   malloc(SF_BYTES_SIZE(length)), {0, 0}};
        CALL(sf_parse(&seed, SF_RFC9651, rows[i].kind, text, length, v.nodes, SF_NODES_SIZE(length),
                      v.bytes, SF_BYTES_SIZE(length), &v.sizes, &refusal));
        CHECK(status == SF_OK);
        CHECK_MEMORY(length);
        CALL(sf_write(&seed, SF_RFC9651, rows[i].kind, v.nodes, v.sizes.nodes, text, length, v.bytes,
                      v.sizes.bytes, a.bytes, sizeof a.bytes, &required, &invalid));
        CHECK(status == SF_SHORT || status == SF_OK);
        CHECK_MEMORY(length + v.sizes.bytes + v.sizes.nodes);
        free(v.bytes);
        free(v.nodes);
      }
      free(text);
    }
  }

  const char *about = "a long hop";
  uint32_t status;
  size_t length, required;
  for (size_t least = SMALL; least <= LARGE; least = least * 7 / 6) {
    char *bytes = long_text("", "a", "", least, &length);
    sf_hop hop = {{0, length}, {0, 0}, {0, 0}, {0, 0}, 0, SF_HIT, 0, 0, 0, 0, 0, 0, 0, 0, 0, 0, 1, 0};
    FREE_CALL(sf_hop_text(&seed, &hop, bytes, length, NULL, 0, &required));
    CHECK(status == SF_SHORT && required == length + 4);
    free(bytes);
  }
}

static void scarce_texts(void) {
  const char *about = "worked texts, no memory";
  long met = 0;
#define ROW(kind, text, canonical)                                                                 \
  met += scarce(SF_RFC9651, kind, text, sizeof text - 1);                                          \
  met += scarce(SF_RFC8941, kind, text, sizeof text - 1);
  ACCEPTED(ROW)
#undef ROW
  CHECK(met > 0);
  met = 0;
#define ROW(kind, text, place, found, set) met += scarce(SF_RFC9651, kind, text, sizeof text - 1);
  REFUSED(ROW)
#undef ROW
#define ROW(kind, text, place, found, set) met += scarce(SF_RFC8941, kind, text, sizeof text - 1);
  REFUSED_8941(ROW)
#undef ROW
  CHECK(met > 0);
}

static void want_of_memory(void) {
  uint32_t status;
  sf_refusal refusal = untouched;

  const char *about = "sf_check, no memory";
  WITHOUT_MEMORY(sf_check(&seed, SF_RFC9651, SF_LIST, large, sizeof large - 1, &refusal),
                 is_untouched(&refusal));
  WITHOUT_MEMORY(sf_check(&seed, SF_RFC8941, SF_DICT, "a=1, a;b;b", 10, &refusal),
                 is_untouched(&refusal));

  about = "sf_normalise, no memory";
  unsigned char buffer[400];
  size_t required = 4711, length;
  memset(buffer, 0xa5, sizeof buffer);
  CALL(sf_normalise(&seed, SF_RFC9651, SF_LIST, large, sizeof large - 1, buffer, sizeof buffer,
                    &required, &refusal));
  CHECK(status == SF_OK);
  length = required;
  EACH_REFUSAL((memset(buffer, 0xa5, sizeof buffer), required = 4711,
                sf_normalise(&seed, SF_RFC9651, SF_LIST, large, sizeof large - 1, buffer,
                             sizeof buffer, &required, &refusal)),
               required == length && all_are(buffer + length, sizeof buffer - length),
               required == 4711 && all_are(buffer, sizeof buffer) && is_untouched(&refusal));

  about = "sf_equal, no memory";
  uint32_t equal = 4711;
  EACH_REFUSAL((equal = 4711, sf_equal(&seed, SF_RFC9651, SF_LIST, large, sizeof large - 1, buffer,
                                       length, &equal, &refusal)),
               equal == 1, equal == 4711 && is_untouched(&refusal));

  about = "sf_parse, no memory";
  static const char repeated[] = "a=1, b=(c \"d\\\"\");x, a=(e;f g :YQ:);h;i;h=j";
  sf_node nodes[100];
  sf_sizes sizes = {4711, 4712};
  EACH_REFUSAL((sizes.nodes = 4711, sf_parse(&seed, SF_RFC9651, SF_DICT, repeated,
                                             sizeof repeated - 1, nodes, 100, buffer, sizeof buffer,
                                             &sizes, &refusal)),
               sizes.nodes == 11 && nodes[0].size == 7 && nodes[7].size == 4,
               sizes.nodes == 4711 && is_untouched(&refusal));
  WITHOUT_MEMORY(sf_parse(&seed, SF_RFC9651, SF_DICT, directives, sizeof directives - 1, nodes, 100,
                          buffer, sizeof buffer, &sizes, &refusal),
                 sizes.nodes == 11 && nodes[2].size == 3 && is_untouched(&refusal));

  about = "sf_write, no memory";
  sf_node few_nodes[16];
  char few_bytes[64];
  size_t invalid = 4711;
  sf_builder builder = sf_build(sf_nodes_of(few_nodes, 16), sf_buffer_of(few_bytes, sizeof few_bytes));
  sf_begin_inner_list(&builder, "sig1");
  sf_put_string(&builder, NULL, "@method");
  sf_put_string(&builder, NULL, "@path");
  sf_end_inner_list(&builder);
  sf_param_integer(&builder, "created", 1);
  sf_param_string(&builder, "keyid", "k");
  static const char built_text[] = "sig1=(\"@method\" \"@path\");created=1;keyid=\"k\"";
  EACH_REFUSAL((memset(buffer, 0xa5, sizeof buffer), required = 4711,
                write_built(&seed, SF_RFC9651, SF_DICT, &builder, buffer, sizeof buffer,
                               &required, &invalid)),
               required == sizeof built_text - 1 && memcmp(buffer, built_text, required) == 0 &&
                   all_are(buffer + required, sizeof buffer - required),
               required == 4711 && all_are(buffer, sizeof buffer));
  EACH_REFUSAL((memset(buffer, 0xa5, sizeof buffer), required = 4711,
                sf_write(&seed, SF_RFC9651, SF_DICT, nodes, sizes.nodes, directives,
                         sizeof directives - 1, NULL, 0, buffer, sizeof buffer, &required,
                         &invalid)),
               required == sizeof directives - 1 && memcmp(buffer, directives, required) == 0,
               required == 4711 && all_are(buffer, sizeof buffer));
  CHECK(invalid == 4711);

  about = "sf_priority, no memory";
  sf_priority_flags priority = {9, 9, 9, 9};
  WITHOUT_MEMORY(sf_priority(&seed, directives, sizeof directives - 1, &priority, &refusal),
                 priority.urgency == 1 && priority.incremental == 1 && is_untouched(&refusal));
  WITHOUT_MEMORY(sf_priority(&seed, "u=1, u=5, i, i=?0", 17, &priority, &refusal),
                 priority.urgency == 5 && priority.incremental == 0 &&
                     priority.has_incremental == 1);

  about = "sf_priority_change, no memory";
  static const char changed[] = "max-age=30, s-maxage=90, a;b;c, d=(e f), g=\"h\", u=7, i=?0";
  sf_priority_flags change = {7, 0, 1, 1};
  memset(buffer, 0xa5, sizeof buffer);
  WITHOUT_MEMORY(sf_priority_change(&seed, directives, sizeof directives - 1, &change, buffer,
                                    sizeof buffer, &required, &refusal),
                 required == sizeof changed - 1 && memcmp(buffer, changed, required) == 0 &&
                     all_are(buffer + required, sizeof buffer - required) &&
                     is_untouched(&refusal));
  static const char twice[] = "u=1, a;b=1;b=2, c=\"a text of more than sixteen bytes\"";
  static const char once_changed[] = "u=7, a;b=2, c=\"a text of more than sixteen bytes\", i=?0";
  EACH_REFUSAL((memset(buffer, 0xa5, sizeof buffer), required = 4711,
                sf_priority_change(&seed, twice, sizeof twice - 1, &change, buffer, sizeof buffer,
                                   &required, &refusal)),
               required == sizeof once_changed - 1 &&
                   memcmp(buffer, once_changed, required) == 0 &&
                   all_are(buffer + required, sizeof buffer - required),
               required == 4711 && all_are(buffer, sizeof buffer) && is_untouched(&refusal));

  about = "sf_cache_control, no memory";
  sf_policy policy;
  memset(&policy, 9, sizeof policy);
  WITHOUT_MEMORY(sf_cache_control(&seed, directives, sizeof directives - 1, &policy, &refusal),
                 policy.max_age == 30 && policy.s_maxage == 90 && is_untouched(&refusal));
  WITHOUT_MEMORY(sf_cache_control(&seed, "max-age=1, no-store, max-age=2", 30, &policy, &refusal),
                 policy.max_age == 2 && policy.no_store == 1);

  about = "sf_select, no memory";
  static const char targets[] = "max-age=60, a b  max-age=30, s-maxage=90, a;b;c, d=(e f)";
  static const sf_span fields[] = {{0, 15}, {0, 0}, {17, sizeof targets - 1 - 17}, {0, 10}};
  size_t chosen = 4711;
  WITHOUT_MEMORY(sf_select(&seed, targets, sizeof targets - 1, fields, 4, &chosen, &policy),
                 chosen == 2 && policy.max_age == 30 && policy.s_maxage == 90);

  static const sf_span well_formed[] = {{0, 0}, {17, sizeof targets - 1 - 17}};
  WITHOUT_MEMORY(sf_select(&seed, targets, sizeof targets - 1, well_formed, 2, &chosen, &policy),
                 chosen == 1 && policy.max_age == 30 && policy.s_maxage == 90);

  about = "sf_cache_status, no memory";
  static const char caches[] = "origin; fwd=stale; fwd-status=304; collapsed; key=\"abc\", "
                               "\"edge\"; hit; ttl=30; detail=odd, a;fwd=none, b, c, d, e, f";
  sf_hop hops[9];
  sf_path path = {4711, 4712, 4713, 4714, 4715};
  WITHOUT_MEMORY(sf_cache_status(&seed, caches, sizeof caches - 1, hops, 9, buffer, sizeof buffer,
                                 &path, &refusal),
                 path.hops == 8 && path.served == 1 && path.is_served == 1 &&
                     path.nameless == 4714 && hops[2].why == SF_OTHER && is_untouched(&refusal));
  path.hops = 4711;
  refused_from = 1;
  FREE_CALL(sf_cache_status(&seed, caches, sizeof caches - 1, hops, 7, buffer, sizeof buffer, &path,
                            &refusal));
  refused_from = 0;
  CHECK(status == SF_SHORT && path.hops == 8 && path.served == 1 && path.nameless == 4714);
  static const char nameless[] = "origin; key=\"a key of more than sixteen bytes\", (a), b";
  EACH_REFUSAL_OF(SF_NOT_A_CACHE,
                  (path.nameless = 4714, sf_cache_status(&seed, nameless, sizeof nameless - 1, hops,
                                                         9, buffer, sizeof buffer, &path, &refusal)),
                  path.nameless == 1, path.nameless == 4714 && is_untouched(&refusal));

  about = "sf_cache_rules, no memory";
  sf_rules rules;
  memset(&rules, 9, sizeof rules);
  WITHOUT_MEMORY(sf_cache_rules(&seed, SF_RFC8941, directives, sizeof directives - 1, &rules,
                                &refusal),
                 rules.policy.s_maxage == 90 && rules.is_public == 0 && is_untouched(&refusal));
  WITHOUT_MEMORY(sf_select_rules(&seed, SF_RFC8941, targets, sizeof targets - 1, well_formed, 2,
                                 &chosen, &rules),
                 chosen == 1 && rules.policy.max_age == 30);
  WITHOUT_MEMORY(sf_select_rules(&seed, SF_RFC8941, targets, sizeof targets - 1, fields, 4, &chosen,
                                 &rules),
                 chosen == 2 && rules.policy.s_maxage == 90);
  sf_response_priority_flags response = {9, 9, 9, 9};
  WITHOUT_MEMORY(sf_response_priority(&seed, SF_RFC8941, directives, sizeof directives - 1, &response,
                                      &refusal),
                 response.urgency == 1 && response.incremental == 1 && is_untouched(&refusal));

  about = "sf_cache_status_append, no memory";
  static const char came[] = "origin; fwd=stale; key=\"a key of more than sixteen bytes\", b";
  static const char appended[] = "origin;fwd=stale;key=\"a key of more than sixteen bytes\", b, "
                                 "edge;hit;detail=\"of more than sixteen bytes\"";
  static const char own_bytes[] = "edgeof more than sixteen bytes";
  sf_hop own = {.name = {0, 4}, .detail = {4, 26}, .outcome = SF_HIT, .has_detail = 1,
                .name_is_token = 1};
  EACH_REFUSAL((memset(buffer, 0xa5, sizeof buffer), required = 4711,
                sf_cache_status_append(&seed, SF_RFC8941, came, sizeof came - 1, &own, own_bytes,
                                       sizeof own_bytes - 1, buffer, sizeof buffer, &required,
                                       &refusal)),
               required == sizeof appended - 1 && memcmp(buffer, appended, required) == 0 &&
                   all_are(buffer + required, sizeof buffer - required),
               required == 4711 && all_are(buffer, sizeof buffer) && is_untouched(&refusal));

  about = "sf_refusal_text, no memory";
  static const char message[] = "byte 0x32 '2' at place 2, expected a space or the end";
  static const char shown[] = "byte 0x32 '2' at place 2, expected a space or the end\n"
                              "line 1, place 2:\n1 2\n  ^";
  sf_refusal why = {2, UINT64_C(1) << 32, 0, '2', 1};
  EACH_REFUSAL((memset(buffer, 0xa5, sizeof buffer), required = 4711,
                sf_refusal_text(&why, buffer, sizeof buffer, &required)),
               required == sizeof message - 1 && memcmp(buffer, message, required) == 0,
               required == 4711 && all_are(buffer, sizeof buffer));
  EACH_REFUSAL((memset(buffer, 0xa5, sizeof buffer), required = 4711,
                sf_refusal_in_text(&why, "1 2", 3, buffer, sizeof buffer, &required)),
               required == sizeof shown - 1 && memcmp(buffer, shown, required) == 0,
               required == 4711 && all_are(buffer, sizeof buffer));

  about = "sf_hop_text, no memory";
  static const char line[] = "cccccccccccccccccccc;fwd=odd;fwd-status=100;ttl=-3;stored=?0;"
                             "collapsed;key=\"k\";detail=\"dddddddddddddddddddd\"";
  static const char names[] = "ccccccccccccccccccccoddkdddddddddddddddddddd";
  sf_hop hop = {{0, 20}, {20, 3}, {23, 1}, {24, 20}, -3, SF_FORWARDED, SF_OTHER, 100, 1, 0, 1,
                1, 1, 1, 1, 1, 1, 0};
  memset(buffer, 0xa5, sizeof buffer);
  WITHOUT_MEMORY(
      sf_hop_text(&seed, &hop, names, sizeof names - 1, buffer, sizeof buffer, &required),
      required == sizeof line - 1 && memcmp(buffer, line, required) == 0 &&
          all_are(buffer + required, sizeof buffer - required));

  /* what does not allocate has the same result without memory */
  about = "no memory is taken";
  static const char spaces[] = "    -007     ";
  refused_once = 0;
  refused_from = 1;
  CALL(sf_check(&seed, SF_RFC9651, SF_ITEM, spaces, sizeof spaces - 1, &refusal));
  CHECK(status == SF_OK);
  sf_joined joined = {0, 0, 0};
  CALL(sf_join("a", 1, buffer, sizeof buffer, &joined));
  CHECK(status == SF_OK);
  sf_node node;
  memset(&node, 0, sizeof node);
  node.role = SF_MEMBER;
  node.key_length = 1;
  size_t index = 4711;
  CALL(sf_find(&node, 1, NULL, 0, "a", 1, SF_MEMBER, "a", 1, &index));
  CHECK(status == SF_OK && index == 0);
  sf_priority_flags sets = {1, 1, 1, 1};
  CALL(sf_priority_text(&sets, buffer, sizeof buffer, &required));
  CHECK(status == SF_OK && required == 6 && memcmp(buffer, "u=1, i", 6) == 0);
  refused_from = 0;
}

/* How often each call allocates for the fields that most messages have. */

/* The fields that the calls are for; the Priority is one of a request and of a response. */
static const char asking[] = "u=5, i";
static const char caching[] = "max-age=60, s-maxage=3600, private";
static const char passing[] = "OriginCache; fwd=uri-miss; stored; ttl=1100, "
                              "\"CDN Company Here\"; hit; key=\"/a?b=c\"; detail=pool-7";
static const char signing[] = "sig1=(\"@method\" \"@authority\" \"@path\" \"content-digest\")"
                              ";created=1700000000;keyid=\"key-ed25519-7\"";

/* A call that allocates at most so often. */
#define CALL_WITH(most, call)                                                                      \
  do {                                                                                             \
    CALL(call);                                                                                    \
    CHECK(status == SF_OK && calls <= (most));                                                     \
  } while (0)

/* The calls for fields of any name, of a text that spells a value of the kind. */
static void allocations_for(uint32_t kind, const char *text, size_t length) {
  const char *about = text;
  uint32_t status, equal;
  sf_refusal refusal;
  sf_node nodes[64];
  char bytes[256], buffer[512];
  sf_sizes sizes;
  size_t required, invalid, index;
  CALL_WITH(0, sf_check(&seed, SF_RFC9651, kind, text, length, &refusal));
  CALL_WITH(0, sf_check(&seed, SF_RFC8941, kind, text, length, &refusal));
  FREE_CALL(sf_parse(&seed, SF_RFC9651, kind, text, length, nodes, 1, bytes, 0, &sizes, &refusal));
  CHECK(status == SF_TOO_MANY);
  CALL_WITH(0, sf_parse(&seed, SF_RFC9651, kind, text, length, nodes, 64, bytes, sizeof bytes,
                        &sizes, &refusal));
  FREE_CALL(sf_find(nodes, sizes.nodes, text, length, bytes, sizes.bytes, SF_MEMBER, "u", 1,
                    &index));
  CHECK(status == (text == asking ? SF_OK : SF_ABSENT));
  CALL_WITH(1, sf_normalise(&seed, SF_RFC9651, kind, text, length, buffer, sizeof buffer, &required,
                            &refusal));
  CALL_WITH(24, sf_equal(&seed, SF_RFC9651, kind, text, length, buffer, required, &equal,
                         &refusal));
  CALL_WITH(12, sf_write(&seed, SF_RFC9651, kind, nodes, sizes.nodes, text, length, bytes,
                         sizes.bytes, buffer, sizeof buffer, &required, &invalid));
  sf_joined joined = {0, 0, 0};
  CALL_WITH(0, sf_join(text, length, buffer, sizeof buffer, &joined));
}

/* The calls for the fields that the library knows. */
static void allocations(void) {
  allocations_for(SF_DICT, asking, sizeof asking - 1);
  allocations_for(SF_LIST, passing, sizeof passing - 1);
  allocations_for(SF_DICT, signing, sizeof signing - 1);

  const char *about = "allocations for a Priority";
  uint32_t status;
  sf_refusal refusal;
  size_t required;
  char buffer[256];
  sf_priority_flags priority;
  sf_response_priority_flags response;
  CALL_WITH(0, sf_priority(&seed, asking, sizeof asking - 1, &priority, &refusal));
  CALL_WITH(0, sf_priority_in(&seed, SF_RFC8941, asking, sizeof asking - 1, &priority, &refusal));
  CALL_WITH(0, sf_response_priority(&seed, SF_RFC8941, asking, sizeof asking - 1, &response,
                                    &refusal));
  CALL_WITH(0, (priority = sf_priority_merge(&priority, &response), SF_OK));
  CALL_WITH(0, sf_priority_text(&priority, buffer, sizeof buffer, &required));
  CALL_WITH(0, sf_response_priority_text(&response, buffer, sizeof buffer, &required));
  CALL_WITH(0, sf_priority_change(&seed, asking, sizeof asking - 1, &priority, buffer,
                                  sizeof buffer, &required, &refusal));

  about = "allocations for a targeted field";
  sf_policy policy;
  sf_rules rules;
  sf_response given = {0};
  sf_decision decision;
  const sf_span fields[] = {{0, 0}, {0, sizeof caching - 1}};
  uint64_t seconds;
  CALL_WITH(0, sf_cache_control(&seed, caching, sizeof caching - 1, &policy, &refusal));
  CALL_WITH(0, (sf_lifetime(&policy, 1, &seconds) == 1 ? SF_OK : SF_INVALID));
  CALL_WITH(0, sf_cache_rules(&seed, SF_RFC8941, caching, sizeof caching - 1, &rules, &refusal));
  CALL_WITH(0, sf_select(&seed, caching, sizeof caching - 1, fields, 2, &required, &policy));
  CALL_WITH(0, sf_select_rules(&seed, SF_RFC8941, caching, sizeof caching - 1, fields, 2, &required,
                               &rules));
  CALL_WITH(0, sf_decide(&rules, SF_SHARED_CACHE, &given, &decision));

  about = "allocations for a Cache-Status";
  sf_hop hops[4];
  char bytes[256];
  sf_path path;
  FREE_CALL(sf_cache_status(&seed, passing, sizeof passing - 1, hops, 1, bytes, 0, &path, &refusal));
  CHECK(status == SF_SHORT);
  CALL_WITH(0, sf_cache_status_in(&seed, SF_RFC8941, passing, sizeof passing - 1, hops, 4, bytes,
                                  sizeof bytes, &path, &refusal));
  CALL_WITH(0, sf_cache_status(&seed, passing, sizeof passing - 1, hops, 4, bytes, sizeof bytes,
                               &path, &refusal));
  for (size_t i = 0; i < path.hops; ++i) {
    CALL_WITH(0, sf_hop_text(&seed, &hops[i], bytes, path.bytes, buffer, sizeof buffer, &required));
    CALL_WITH(16, sf_cache_status_append(&seed, SF_RFC8941, passing, sizeof passing - 1, &hops[i],
                                         bytes, path.bytes, buffer, sizeof buffer, &required,
                                         &refusal));
  }
}

/* All of it, with length 0 beside NULL, and beside a pointer one past a block. */
static void all(void) {
  layouts();
  macros();
  for (none_is_a_place = 0; none_is_a_place < 2; ++none_is_a_place) {
    worked_texts();
    bad_dialects();
    bad_calls();
    comparing();
    refusals_in_words();
    nodes_of_values();
    many_keys();
    very_many_keys();
    short_texts();
    limits();
    lean_refusals();
    finding();
    building();
    changing();
    broken_nodes();
    odd_nodes();
    priorities();
    priority_texts();
    changed_priorities();
    forgotten_flags();
    response_priorities();
    decisions();
    other_decisions();
    cache_control_lines();
    lifetimes();
    policies();
    selecting();
    selecting_rules();
    paths();
    written_hops();
    appended_hops();
    excerpts();
    structs();
    joining();
  }
  none_is_a_place = 0;
  allocations();
  want_of_memory();
  scarce_texts();
}

/* A length that is one more than that of the text, or of the buffer, ends the program: a byte past
 * the end can't be touched unseen. */
static void past_the_end(size_t text_length, size_t buffer_length) {
  const char *about = "past the end";
  pid_t child = fork();
  if (child == 0) {
    fclose(stderr);
    sf_refusal refusal;
    size_t required;
    void *text = take_buffer("a,b", 3), *buffer = take_buffer(NULL, 3);
    uint32_t unseen = sf_normalise(&seed, SF_RFC9651, SF_LIST, text, text_length, buffer,
                                   buffer_length, &required, &refusal);
    (void)unseen;
    _exit(0);
  }
  int status = 0;
  CHECK(child > 0 && waitpid(child, &status, 0) == child);
  CHECK(!WIFEXITED(status) || WEXITSTATUS(status) != 0);
}

/* A text of 4 GiB. None of it is read. */
static void too_long(void) {
  const char *about = "4 GiB";
  uint32_t status;
  size_t length = (size_t)UINT32_MAX + 1;
  void *text = mmap(NULL, length, PROT_NONE, MAP_PRIVATE | MAP_ANONYMOUS | MAP_NORESERVE, -1, 0);
  if (text == MAP_FAILED)
    stop("no addresses");
  sf_node node;
  char byte;
  sf_sizes sizes = {4711, 4712};
  sf_refusal refusal = untouched;
  CALL(sf_parse(&seed, SF_RFC9651, SF_ITEM, text, length, &node, 1, &byte, 1, &sizes, &refusal));
  CHECK(status == SF_TOO_LONG && sizes.nodes == 4711 && sizes.bytes == 4712);
  CHECK(is_untouched(&refusal));
  sf_builder builder = sf_build(sf_nodes_of(&node, 1), sf_buffer_of(&byte, length));
  sf_put(&builder, sf_cstr(NULL), SF_TOKEN, 0, sf_text_of(text, length));
  CHECK(builder.status == SF_TOO_LONG && builder.nodes.length == 0);
  munmap(text, length);
}

/* A text of 4 GiB less a byte, of spaces but for its end, whose decoded byte has the last offset. The
 * spaces are the same pages of memory again and again. */
static void nearly_too_long(void) {
  const char *about = "4 GiB less a byte";
  enum { STEP = 2 << 20 };
  static const char end[] = ":YQ:";
  uint32_t status;
  size_t length = UINT32_MAX, whole = (size_t)UINT32_MAX + 1;
  FILE *file = tmpfile();
  char *spaces = malloc(STEP);
  if (file == NULL || spaces == NULL)
    stop("no file");
  memset(spaces, ' ', STEP);
  if (fwrite(spaces, 1, STEP, file) != STEP || fflush(file) != 0)
    stop("no file");
  free(spaces);
  char *text = mmap(NULL, whole, PROT_NONE, MAP_PRIVATE | MAP_ANONYMOUS | MAP_NORESERVE, -1, 0);
  if (text == MAP_FAILED)
    stop("no addresses");
  for (size_t at = 0; at < whole; at += STEP)
    if (mmap(text + at, STEP, PROT_READ | PROT_WRITE, MAP_PRIVATE | MAP_FIXED, fileno(file), 0) ==
        MAP_FAILED)
      stop("no addresses");
  memcpy(text + length - (sizeof end - 1), end, sizeof end - 1);
  sf_node node;
  char byte = 0;
  sf_sizes sizes = {4711, 4712};
  sf_refusal refusal = untouched;
  CALL(sf_parse(&seed, SF_RFC9651, SF_ITEM, text, length, &node, 1, &byte, 1, &sizes, &refusal));
  CHECK(status == SF_OK && sizes.nodes == 1 && sizes.bytes == 1 && byte == 'a');
  CHECK(node.text_at == UINT32_MAX && node.text_length == 1 && node.type == SF_BYTE_SEQUENCE);
  CHECK(node_text(&node, text, length, &byte) == &byte && is_untouched(&refusal));
  munmap(text, whole);
  fclose(file);
}

static void *run(void *unused) {
  all();
  return unused;
}

int main(void) {
  past_the_end(4, 3);
  past_the_end(3, 4);
  too_long();
  nearly_too_long();
  memory();
  all();
  enum { MOST = 64 };
  pthread_t threads[MOST];
  long cores = sysconf(_SC_NPROCESSORS_ONLN);
  int count = cores < 2 ? 2 : cores > MOST ? MOST : (int)cores;
  for (int i = 0; i < count; ++i)
    if (pthread_create(&threads[i], NULL, run, NULL) != 0)
      return 1;
  for (int i = 0; i < count; ++i)
    pthread_join(threads[i], NULL);
  printf("%ld passed, %ld failed\n", passed, failed);
  return failed != 0;
}
