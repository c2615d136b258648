/* What the calls of the library say of one text, compared: for the fuzz targets.
 *
 * - An accepted text, normalised and parsed again, has an equal value. Its nodes and those of its
 *   canonical text describe the same, also after a builder copied them, and are written as the
 *   canonical text.
 * - Nodes with a random change are written as a text that has these nodes, or refused.
 * - A text and its canonical text have the same hops and the same priority, also after the priority
 *   was changed.
 * - The field that is chosen among parts of a text is the first that has a policy.
 * - What is decided by the parts of a text, as lines of fields in a head, is what the calls for each
 *   field decide; and a refusal is in the line that it is said to be in.
 * - Where a node of an accepted text is said to begin, its key begins there, otherwise an Item or
 *   Inner List of its type; and later nodes begin later, unless a key is repeated.
 * - For a buffer that is one element too small, the required size is returned.
 * - The parts of a text between its commas, joined one by one, are the text again.
 * - A text is accepted if and only if its parts are, if it is cut at some of its commas; it is then
 *   equal to their canonical texts, joined.
 * - A refusal is the same from each call that reads the text, and agrees with the prefix of the
 *   text that it names.
 *
 * The archive is not instrumented: the sanitizers see this file, and of the archive only the
 * functions that it calls, such as memcpy. So texts and buffers end at a page that can't be read
 * (buffers.h).
 *
 * A file that includes this defines _DEFAULT_SOURCE first. */
#ifndef COMPARISONS_H
#define COMPARISONS_H

#include "buffers.h"
#include "pointers.h"
#include <sf.h>
#include <stddef.h>
#include <stdint.h>
#include <stdio.h>
#include <stdlib.h>
#include <string.h>

#define CHECK(fact)                                                                                \
  do {                                                                                             \
    if (!(fact)) {                                                                                 \
      fprintf(stderr, "%s:%d: %s\n", __FILE__, __LINE__, #fact);                                   \
      abort();                                                                                     \
    }                                                                                              \
  } while (0)

/* The archive does not count its branches for the fuzzer. The shapes of results are reported to it
 * instead: an input with a result of a new shape is kept. */
__attribute__((section("__libfuzzer_extra_counters"))) static uint8_t shapes[1 << 14];

static void shape(uint64_t a, uint64_t b, uint64_t c) {
  uint64_t hash = (a + 1) * UINT64_C(0x9e3779b97f4a7c15);
  hash = (hash ^ b ^ hash >> 29) * UINT64_C(0xbf58476d1ce4e5b9);
  hash = (hash ^ c ^ hash >> 32) * UINT64_C(0x94d049bb133111eb);
  shapes[hash >> 50] = 1;
}

/* Whether all of it is compared. Otherwise what takes most of the time is left out: buffers that
 * are too small, changes of nodes, parts of texts, what fields mean, and of the bytes after the
 * prefix of a refusal all but a quarter of those at the bounds of what it lists. */
static int is_thorough = 1;

static const sf_seed seed = {{2, 7, 1, 8, 2, 8, 1, 8, 2, 8, 4, 5, 9, 0, 4, 5}};

/* The bytes of a text between two places. */
static uint8_t *part(const uint8_t *text, size_t from, size_t to) {
  return from < to ? take_buffer(text + from, to - from) : NULL;
}

/* A number that the bytes of a text choose. */
static uint32_t hash(const uint8_t *text, size_t length) {
  uint32_t bits = 2166136261u;
  for (size_t i = 0; i < length; ++i)
    bits = (bits ^ text[i]) * 16777619u;
  return bits;
}

static int is_expected(const sf_refusal *refusal, unsigned byte) {
  uint64_t word = byte < 64 ? refusal->expected_low : refusal->expected_high;
  return byte < 128 && (word >> (byte % 64) & 1) != 0;
}

/* The status and the refusal of a call. */
#define REFUSES(expected, call)                                                                    \
  do {                                                                                             \
    memset(&other, 0, sizeof other);                                                               \
    CHECK((call) == (expected));                                                                   \
    CHECK(memcmp(&other, refusal, sizeof other) == 0);                                             \
  } while (0)

/* Each call that reads the text refuses it alike. */
static void refused_alike(uint32_t dialect, uint32_t kind, const uint8_t *text, size_t length,
                          const sf_refusal *refusal) {
  sf_refusal other;
  size_t required = 0;
  sf_sizes sizes = {0, 0};
  uint32_t equal = 0;
  REFUSES(SF_REFUSED,
          sf_normalise(&seed, dialect, kind, text, length, NULL, 0, &required, &other));
  REFUSES(SF_REFUSED, sf_equal(&seed, dialect, kind, text, length, "a", 1, &equal, &other));
  REFUSES(SF_SECOND_REFUSED, sf_equal(&seed, dialect, kind, "a", 1, text, length, &equal, &other));
  REFUSES(SF_REFUSED,
          sf_parse(&seed, dialect, kind, text, length, NULL, 0, NULL, 0, &sizes, &other));
  size_t nodes_capacity = SF_NODES_SIZE(length), bytes_capacity = SF_BYTES_SIZE(length);
  sf_node *nodes = take_buffer(NULL, nodes_capacity * sizeof *nodes);
  uint8_t *bytes = take_buffer(NULL, bytes_capacity);
  REFUSES(SF_REFUSED, sf_parse(&seed, dialect, kind, text, length, nodes, nodes_capacity, bytes,
                               bytes_capacity, &sizes, &other));
  give_buffer(nodes);
  give_buffer(bytes);
  if (kind == SF_LIST) {
    sf_path path;
    REFUSES(SF_REFUSED, sf_cache_status_in(&seed, dialect, text, length, NULL, 0, NULL, 0, &path,
                                           &other));
  }
  if (kind == SF_DICT) {
    sf_priority_flags priority;
    sf_response_priority_flags response;
    sf_rules rules;
    REFUSES(SF_REFUSED, sf_priority_in(&seed, dialect, text, length, &priority, &other));
    REFUSES(SF_REFUSED, sf_response_priority(&seed, dialect, text, length, &response, &other));
    REFUSES(SF_REFUSED, sf_cache_rules(&seed, dialect, text, length, &rules, &other));
  }
}

/* Whether the bytes beside this one are expected if it is, and not if it is not. */
static int is_inside(const sf_refusal *refusal, unsigned byte) {
  int expected = is_expected(refusal, byte);
  return byte > 0 && is_expected(refusal, byte - 1) == expected &&
         is_expected(refusal, byte + 1) == expected;
}

/* What a refusal says of the text: the prefix up to its offset is viable, with the byte after it it
 * is not, and with each expected byte instead it is. */
static void refused(uint32_t dialect, uint32_t kind, const uint8_t *text, size_t length,
                    const sf_refusal *refusal) {
  CHECK(refusal->offset <= length);
  CHECK((refusal->found == SF_ENDED) == (refusal->offset == length));
  CHECK(refusal->found == SF_ENDED || refusal->found == text[refusal->offset]);
  CHECK(refusal->found < 0 || !is_expected(refusal, (unsigned)refusal->found));
  CHECK(refusal->expected_low != 0 || refusal->expected_high != 0);
  CHECK(refusal->may_end <= (refusal->found != SF_ENDED));
  shape(refusal->offset < 16 ? refusal->offset : 16, refusal->expected_low, refusal->expected_high);
  refused_alike(dialect, kind, text, length, refusal);

  size_t place = (size_t)refusal->offset;
  uint32_t bits = hash(text, length);
  uint8_t *front = take_buffer(NULL, place + 1);
  if (place > 0)
    memcpy(front, text, place);
  sf_refusal other;
  uint32_t status = sf_check(&seed, dialect, kind, front, place, &other);
  CHECK(status == (refusal->may_end ? SF_OK : SF_REFUSED));
  CHECK(status == SF_OK || (other.offset == place && other.found == -1));
  for (unsigned byte = 0; byte < 256; ++byte) {
    if (!is_thorough && (is_inside(refusal, byte) || (bits ^ byte) % 4 != 0))
      continue;
    front[place] = (uint8_t)byte;
    status = sf_check(&seed, dialect, kind, front, place + 1, &other);
    int fits = status == SF_OK || other.offset == place + 1;
    CHECK(fits == is_expected(refusal, byte));
  }
  give_buffer(front);
}

/* A parsed value: nodes with the text and the bytes that they point into. */
typedef struct value {
  const uint8_t *text;
  size_t text_length;
  sf_node *nodes;
  uint8_t *bytes;
  sf_sizes sizes;
} value;

/* The value of a text that is accepted, in buffers that are always large enough. */
static value parse_once(uint32_t dialect, uint32_t kind, const uint8_t *text, size_t length) {
  value v = {text, length, NULL, NULL, {0, 0}};
  size_t nodes = SF_NODES_SIZE(length), bytes = SF_BYTES_SIZE(length);
  sf_refusal refusal;
  v.nodes = take_buffer(NULL, nodes * sizeof *v.nodes);
  v.bytes = take_buffer(NULL, bytes);
  CHECK(sf_parse(&seed, dialect, kind, text, length, v.nodes, nodes, v.bytes, bytes, &v.sizes,
                 &refusal) == SF_OK);
  return v;
}

/* The value of a text that is accepted, in buffers of exactly its size if all is compared. */
static value parse(uint32_t dialect, uint32_t kind, const uint8_t *text, size_t length) {
  if (!is_thorough)
    return parse_once(dialect, kind, text, length);
  value v = {text, length, NULL, NULL, {0, 0}};
  sf_refusal refusal;
  sf_sizes sizes = {0, 0}, again = {0, 0};
  uint32_t status =
      sf_parse(&seed, dialect, kind, text, length, NULL, 0, NULL, 0, &sizes, &refusal);
  CHECK(status == (sizes.nodes == 0 ? SF_OK : SF_TOO_MANY));
  CHECK(sizes.nodes <= SF_NODES_SIZE(length) && sizes.bytes <= SF_BYTES_SIZE(length));
  v.nodes = take_buffer(NULL, sizes.nodes * sizeof *v.nodes);
  v.bytes = take_buffer(NULL, sizes.bytes);
  status = sf_parse(&seed, dialect, kind, text, length, v.nodes, sizes.nodes, v.bytes, sizes.bytes,
                    &v.sizes, &refusal);
  CHECK(status == SF_OK && v.sizes.nodes == sizes.nodes && v.sizes.bytes <= sizes.bytes);
  if (sizes.nodes > 0) {
    status = sf_parse(&seed, dialect, kind, text, length, v.nodes, sizes.nodes - 1, v.bytes,
                      sizes.bytes, &again, &refusal);
    CHECK(status == SF_TOO_MANY && memcmp(&again, &sizes, sizeof sizes) == 0);
  }
  give_buffer(v.bytes);
  if (v.sizes.bytes > 0) {
    v.bytes = take_buffer(NULL, v.sizes.bytes - 1);
    status = sf_parse(&seed, dialect, kind, text, length, v.nodes, sizes.nodes, v.bytes,
                      v.sizes.bytes - 1, &again, &refusal);
    CHECK(status == SF_SHORT && memcmp(&again, &sizes, sizeof sizes) == 0);
    give_buffer(v.bytes);
  }
  v.bytes = take_buffer(NULL, v.sizes.bytes);
  status = sf_parse(&seed, dialect, kind, text, length, v.nodes, sizes.nodes, v.bytes,
                    v.sizes.bytes, &again, &refusal);
  CHECK(status == SF_OK && memcmp(&again, &v.sizes, sizeof again) == 0);
  return v;
}

static void drop(value v) {
  give_buffer(v.nodes);
  give_buffer(v.bytes);
}

static int same_bytes(const uint8_t *a, size_t a_at, const uint8_t *b, size_t b_at, size_t length) {
  return length == 0 || memcmp(a + a_at, b + b_at, length) == 0;
}

static const char *key_of(const value *v, const sf_node *node) {
  return node_key(node, v->text, v->text_length, v->bytes);
}

static const char *bytes_of(const value *v, const sf_node *node) {
  return node_text(node, v->text, v->text_length, v->bytes);
}

/* Whether a range of a node is within the text, or within the bytes. */
static int is_in(const value *v, size_t at, size_t length) {
  return length == 0 || at + length <= v->text_length ||
         (at >= v->text_length && at + length <= v->text_length + v->sizes.bytes);
}

/* Of how many nodes of a value the keys are looked up: of about so many if it has more. */
enum { LOOKED_UP = 512 };

static uint32_t find(const value *v, const sf_node *nodes, size_t count, uint32_t role,
                     const sf_node *key, size_t *index) {
  return sf_find(nodes, count, v->text, v->text_length, v->bytes, v->sizes.bytes, role,
                 key_of(v, key), key->key_length, index);
}

/* Each parameter of a node is found by its key, and no other. */
static void parameters_found(const value *v, size_t i) {
  const sf_node *node = &v->nodes[i];
  uint32_t role = node->type == SF_INNER_LIST ? SF_INNER_PARAMETER : SF_PARAMETER;
  for (size_t k = 0; node->role != role && k < node->size; k += node->size / LOOKED_UP + 1) {
    size_t index = SIZE_MAX;
    if (node[k].role == role)
      CHECK(find(v, node, node->size, role, &node[k], &index) == SF_OK && index == k);
  }
}

/* Two nodes say the same. */
static void same_node(const value *v, const sf_node *a, const value *w, const sf_node *b) {
  CHECK(is_in(v, a->key_at, a->key_length) && is_in(v, a->text_at, a->text_length));
  CHECK(is_in(w, b->key_at, b->key_length) && is_in(w, b->text_at, b->text_length));
  CHECK(a->role == b->role && a->type == b->type && a->number == b->number && a->size == b->size);
  CHECK(a->coded == 0 && b->coded == 0);
  CHECK(a->key_length == b->key_length && a->text_length == b->text_length);
  CHECK(a->key_length == 0 || memcmp(key_of(v, a), key_of(w, b), a->key_length) == 0);
  CHECK(a->text_length == 0 || memcmp(bytes_of(v, a), bytes_of(w, b), a->text_length) == 0);
}

/* The nodes nest, point into the text and the bytes, and are those of another value. */
static void same_nodes(const value *v, const value *w) {
  CHECK(v->sizes.nodes == w->sizes.nodes);
  for (size_t i = 0; i < v->sizes.nodes; ++i) {
    const sf_node *a = &v->nodes[i];
    CHECK(a->size >= 1 && a->size <= v->sizes.nodes - i);
    CHECK(a->role >= SF_MEMBER && a->role <= SF_INNER_PARAMETER);
    CHECK(a->type >= SF_INNER_LIST && a->type <= SF_DISPLAY_STRING);
    CHECK(a->role < SF_PARAMETER || (a->key_length > 0 && a->size == 1));
    CHECK(a->type != SF_INNER_LIST || a->role == SF_MEMBER);
    same_node(v, a, w, &w->nodes[i]);
    shape(a->role * 16u + a->type, i > 0 ? v->nodes[i - 1].type + 1u : 0,
          a->size < 8 ? a->size : 8);
    if (i % (v->sizes.nodes / LOOKED_UP + 1) != 0)
      continue;
    size_t index = SIZE_MAX;
    CHECK(find(v, v->nodes, v->sizes.nodes, a->role, a, &index) == SF_OK);
    CHECK(a->role == SF_MEMBER && a->key_length > 0 ? index == i : index <= i);
    parameters_found(v, i);
  }
}

/* A copy of a value by a builder, in buffers of exactly its size; it fails in smaller ones. */
static value copy(const value *v) {
  size_t bytes = 0;
  for (size_t i = 0; i < v->sizes.nodes; ++i)
    bytes += v->nodes[i].key_length + v->nodes[i].text_length;
  CHECK(bytes <= SF_BYTES_SIZE(v->text_length));
  value u = {NULL, 0, take_buffer(NULL, v->sizes.nodes * sizeof *u.nodes), take_buffer(NULL, bytes),
             {v->sizes.nodes, bytes}};
  for (int less = bytes > 0 ? 2 : 1; less >= 0; --less) {
    size_t nodes = v->sizes.nodes - (less == 1 && v->sizes.nodes > 0);
    sf_builder builder =
        sf_build(sf_nodes_of(u.nodes, nodes), sf_buffer_of(u.bytes, bytes - (less == 2)));
    for (size_t i = 0; i < v->sizes.nodes; i += v->nodes[i].size)
      put_copy(&builder, v->nodes + i, v->text, v->text_length, v->bytes);
    CHECK(builder.status == (less > 0 && v->sizes.nodes > 0 ? SF_SHORT : SF_OK));
    CHECK(less > 0 || (builder.nodes.length == v->sizes.nodes && builder.bytes.length == bytes));
  }
  return u;
}

/* The nodes are written as a text. */
static void written(uint32_t dialect, uint32_t kind, const value *v, const uint8_t *text,
                    size_t length) {
  size_t required = 0, again = 0, invalid = SIZE_MAX;
  uint8_t *buffer = take_buffer(NULL, length);
  uint32_t status = sf_write(&seed, dialect, kind, v->nodes, v->sizes.nodes, v->text,
                             v->text_length, v->bytes, v->sizes.bytes, buffer, length, &required,
                             &invalid);
  CHECK(status == SF_OK && required == length && invalid == SIZE_MAX);
  CHECK(same_bytes(buffer, 0, text, 0, length));
  for (size_t less = 1; is_thorough && less <= 2 && length > 0; ++less) {
    size_t capacity = less == 1 ? length - 1 : 0;
    status = sf_write(&seed, dialect, kind, v->nodes, v->sizes.nodes, v->text, v->text_length,
                      v->bytes, v->sizes.bytes, capacity == 0 ? NULL : buffer, capacity, &again,
                      &invalid);
    CHECK(status == SF_SHORT && again == length);
  }
  give_buffer(buffer);
}

/* One node with a change that the text chooses. If the nodes are still written, the nodes of the
 * text say the same as the changed ones; otherwise the first wrong node is one of them, or one past
 * the last. */
static void write_changed(uint32_t dialect, uint32_t kind, const value *v, uint32_t bits) {
  if (v->sizes.nodes == 0)
    return;
  sf_node *node = &v->nodes[bits % v->sizes.nodes], was = *node;
  uint32_t other = bits >> 16 & 0xff;
  switch (bits >> 8 & 15) {
  case 0:
    node->role = (uint8_t)(bits & 0x10000 ? other : SF_MEMBER + other % 5);
    break;
  case 1:
  case 2:
    node->type = (uint8_t)(bits & 0x10000 ? other : SF_INNER_LIST + other % 10);
    break;
  case 3:
    node->size = other % 8;
    break;
  case 4:
    node->key_at = other % 32;
    break;
  case 5:
    node->key_length = other % 4;
    break;
  case 6:
    node->text_at = other % 32;
    break;
  case 7:
    node->text_length = other % 8;
    break;
  case 8:
    node->number = (int64_t)other - 2;
    break;
  case 9:
    node->number = bits & 0x10000 ? SF_NUMBER_MAX + 1 : -SF_NUMBER_MAX - 1;
    break;
  case 10:
    node->coded = (uint8_t)other;
    break;
  case 11:
    node->key_at = UINT32_MAX - other;
    break;
  case 12:
    node->text_at = UINT32_MAX - other;
    break;
  case 13:
    node->text_length = UINT32_MAX - other;
    break;
  default:
    node->text_length += 1;
  }
  size_t required = 0, again = 0, invalid = SIZE_MAX;
  uint32_t status = sf_write(&seed, dialect, kind, v->nodes, v->sizes.nodes, v->text,
                             v->text_length, v->bytes, v->sizes.bytes, NULL, 0, &required,
                             &invalid);
  shape(bits >> 8 & 15, status, v->sizes.nodes < 8 ? v->sizes.nodes : 8);
  CHECK(status == SF_OK || status == SF_SHORT || status == SF_INVALID);
  if (status == SF_INVALID) {
    CHECK(invalid <= v->sizes.nodes && required == 0);
  } else {
    CHECK(invalid == SIZE_MAX);
    uint8_t *text = take_buffer(NULL, required);
    status = sf_write(&seed, dialect, kind, v->nodes, v->sizes.nodes, v->text, v->text_length,
                      v->bytes, v->sizes.bytes, text, required, &again, &invalid);
    CHECK(status == SF_OK && again == required);
    value w = parse(dialect, kind, text, required);
    CHECK(w.sizes.nodes == v->sizes.nodes);
    if (was.coded == node->coded && is_in(v, node->key_at, node->key_length) &&
        is_in(v, node->text_at, node->text_length)) /* and not partly in either */
      for (size_t i = 0; i < w.sizes.nodes; ++i)
        same_node(v, &v->nodes[i], &w, &w.nodes[i]);
    drop(w);
    give_buffer(text);
  }
  *node = was;
}

/* What is known of a text before it is parsed. */
typedef struct known {
  const uint8_t *canonical; /* its canonical text */
  size_t canonical_length;
  value tree; /* its value */
} known;

/* The canonical text of a text, of *required bytes; it doesn't fit in smaller buffers. */
static uint8_t *normalise(uint32_t dialect, uint32_t kind, const uint8_t *text, size_t length,
                          size_t *required) {
  size_t capacity = SF_CANONICAL_SIZE(length), again = 0;
  uint8_t *canonical = take_buffer(NULL, capacity);
  sf_refusal refusal;
  CHECK(sf_normalise(&seed, dialect, kind, text, length, canonical, capacity, required, &refusal) ==
        SF_OK);
  CHECK(*required <= capacity);
  if (!is_thorough)
    return canonical;
  give_buffer(canonical);
  canonical = take_buffer(NULL, *required);
  for (size_t less = 1; less <= 2 && *required > 0; ++less) {
    capacity = less == 1 ? *required - 1 : 0;
    CHECK(sf_normalise(&seed, dialect, kind, text, length, capacity == 0 ? NULL : canonical,
                       capacity, &again, &refusal) == SF_SHORT);
    CHECK(again == *required);
  }
  CHECK(sf_normalise(&seed, dialect, kind, text, length, canonical, *required, &again, &refusal) ==
        SF_OK);
  CHECK(again == *required);
  return canonical;
}

/* Nodes that a builder copied, and some that are changed. */
static void rebuilt(uint32_t dialect, uint32_t kind, value *v, const uint8_t *canonical,
                    size_t required) {
  value u = copy(v);
  same_nodes(v, &u);
  written(dialect, kind, &u, canonical, required);
  uint32_t bits = hash(v->text, v->text_length);
  for (int i = 0; i < 8; ++i, bits = bits * 1664525u + 1013904223u)
    write_changed(dialect, kind, i % 2 == 0 ? v : &u, bits);
  drop(u);
}

/* Each node of a value begins where it is said to. */
static void node_offsets(uint32_t kind, value *v) {
  sf_tree tree = sf_tree_in(sf_nodes_of(v->nodes, v->sizes.nodes), sf_buffer_of(v->bytes, v->sizes.bytes));
  size_t before = 0;
  tree.text = sf_text_of(v->text, v->text_length);
  tree.nodes.length = v->sizes.nodes;
  tree.bytes.length = v->sizes.bytes;
  tree.kind = kind;
  for (size_t i = 0; i < v->sizes.nodes && v->text_length <= 2000; ++i) {
    const sf_node *node = &v->nodes[i];
    size_t at = sf_node_offset(&tree, node);
    int is_in_text = node->key_length == 0 || node->key_at < v->text_length;
    const char *begins = node->type == SF_INNER_LIST       ? "("
                         : node->type == SF_STRING         ? "\""
                         : node->type == SF_BYTE_SEQUENCE  ? ":"
                         : node->type == SF_BOOLEAN        ? "?"
                         : node->type == SF_DATE           ? "@"
                         : node->type == SF_DISPLAY_STRING ? "%"
                         : node->type == SF_TOKEN          ? ""
                                                           : "-0123456789";
    CHECK(at + node->key_length <= v->text_length && at < v->text_length);
    CHECK(same_bytes(v->text, at, (const uint8_t *)key_of(v, node), 0, node->key_length));
    if (node->key_length == 0)
      CHECK(*begins == 0 ? same_bytes(v->text, at, (const uint8_t *)bytes_of(v, node), 0, node->text_length)
                         : strchr(begins, v->text[at]) != NULL);
    CHECK(i == 0 || at > before || !is_in_text || v->sizes.bytes > 0);
    before = at;
  }
}

/* An accepted text; of which more is known if k is not NULL. */
static void accepted(uint32_t dialect, uint32_t kind, const uint8_t *text, size_t length,
                     const known *k) {
  sf_refusal refusal;
  size_t required = 0, again = 0;
  uint32_t equal = 0;
  uint8_t *canonical = normalise(dialect, kind, text, length, &required);

  /* the canonical text is its own, and an equal value */
  uint8_t *twice = take_buffer(NULL, required);
  uint32_t status =
      sf_normalise(&seed, dialect, kind, canonical, required, twice, required, &again, &refusal);
  CHECK(status == SF_OK && again == required && same_bytes(twice, 0, canonical, 0, required));
  status = sf_equal(&seed, dialect, kind, text, length, twice, required, &equal, &refusal);
  CHECK(status == SF_OK && equal == 1);

  value v = parse(dialect, kind, text, length), w = parse(dialect, kind, twice, required);
  same_nodes(&v, &w);
  written(dialect, kind, &v, canonical, required);
  if (k != NULL) {
    CHECK(required == k->canonical_length && same_bytes(canonical, 0, k->canonical, 0, required));
    same_nodes(&v, &k->tree);
    written(dialect, kind, &k->tree, canonical, required);
  }
  if (is_thorough) {
    node_offsets(kind, &v);
    rebuilt(dialect, kind, &v, canonical, required);
  }
  drop(v);
  drop(w);
  give_buffer(twice);
  give_buffer(canonical);
}

/* The parts of a text between its commas with a space, joined again, are the text. */
static void joining(const uint8_t *text, size_t length) {
  uint8_t *buffer = take_buffer(NULL, length);
  sf_joined joined = {0, 0, 0};
  size_t from = 0;
  for (size_t i = 0; i <= length; ++i) {
    int comma = i + 1 < length && text[i] == ',' && text[i + 1] == ' ';
    if (!comma && i < length)
      continue;
    uint8_t *line = part(text, from, i);
    CHECK(sf_join(line, i - from, buffer, length, &joined) == SF_OK);
    give_buffer(line);
    from = i + 2;
    i += 1;
  }
  CHECK(joined.length == length && same_bytes(buffer, 0, text, 0, length));
  CHECK(sf_join("a", 1, buffer, length, &joined) == SF_SHORT && joined.required == length + 3);
  give_buffer(buffer);
}

/* The text against parts of it. It is cut after a part that is accepted and not empty, at a comma
 * that its bytes choose, and the spaces after the comma are omitted. */
static void parts(uint32_t dialect, uint32_t kind, const uint8_t *text, size_t length,
                  int is_some) {
  uint32_t bits = hash(text, length);
  size_t capacity = SF_CANONICAL_SIZE(length) + 2 * length,
         line_capacity = SF_CANONICAL_SIZE(length);
  uint8_t *whole = take_buffer(NULL, capacity), *line = take_buffer(NULL, line_capacity);
  sf_joined joined = {0, 0, 0};
  sf_refusal refusal;
  size_t from = 0;
  int is_whole = 0;
  for (size_t i = 0; i <= length; ++i) {
    bits = bits * 1664525u + 1013904223u;
    if (i < from || (i < length && (text[i] != ',' || bits >> 31 != 0)))
      continue;
    uint8_t *line_text = part(text, from, i);
    size_t required = 0;
    uint32_t status = sf_normalise(&seed, dialect, kind, line_text, i - from, line, line_capacity,
                                   &required, &refusal);
    give_buffer(line_text);
    CHECK(status == SF_OK || status == SF_REFUSED);
    if (status == SF_REFUSED || required == 0)
      continue;
    CHECK(sf_join(line, required, whole, capacity, &joined) == SF_OK);
    is_whole = i == length;
    from = i + 1;
    while (from < length && (text[from] == ' ' || text[from] == '\t'))
      ++from;
  }
  CHECK(is_whole == is_some);
  if (is_whole) {
    uint32_t equal = 0;
    CHECK(sf_equal(&seed, dialect, kind, text, length, whole, joined.length, &equal, &refusal) ==
          SF_OK);
    CHECK(equal == 1);
  }
  give_buffer(line);
  give_buffer(whole);
}

typedef struct caches {
  sf_hop *hops;
  uint8_t *bytes;
  sf_path path;
} caches;

/* The path of a List, in buffers of exactly its size; no hops if a member names no cache. */
static caches tell(const uint8_t *text, size_t length) {
  caches c = {NULL, NULL, {0, 0, 0, 0, 0}};
  sf_refusal refusal;
  uint32_t status =
      sf_cache_status(&seed, text, length, NULL, 0, NULL, 0, &c.path, &refusal);
  if (status == SF_NOT_A_CACHE)
    return c;
  CHECK(status == (c.path.hops == 0 ? SF_OK : SF_SHORT));
  CHECK(c.path.hops <= SF_NODES_SIZE(length) && c.path.bytes <= SF_BYTES_SIZE(length));
  c.hops = take_buffer(NULL, c.path.hops * sizeof *c.hops);
  c.bytes = take_buffer(NULL, c.path.bytes);
  sf_path path = {0, 0, 0, 0, 0};
  if (c.path.hops > 0) {
    status = sf_cache_status(&seed, text, length, c.hops, c.path.hops - 1, c.bytes, c.path.bytes,
                             &path, &refusal);
    CHECK(status == SF_SHORT && path.hops == c.path.hops && path.bytes == c.path.bytes);
  }
  if (c.path.bytes > 0) {
    status = sf_cache_status(&seed, text, length, c.hops, c.path.hops, c.bytes, c.path.bytes - 1,
                             &path, &refusal);
    CHECK(status == SF_SHORT && path.hops == c.path.hops && path.bytes == c.path.bytes);
  }
  status = sf_cache_status(&seed, text, length, c.hops, c.path.hops, c.bytes, c.path.bytes, &path,
                           &refusal);
  CHECK(status == SF_OK && path.hops == c.path.hops && path.bytes == c.path.bytes);
  return c;
}

static int is_within(sf_span span, size_t size) {
  return span.at <= size && span.length <= size - span.at;
}

static void one_hop(const sf_hop *hop, size_t size) {
  CHECK(is_within(hop->name, size) && is_within(hop->why_token, size));
  CHECK(is_within(hop->key, size) && is_within(hop->detail, size));
  CHECK(hop->outcome <= SF_CONFLICT && hop->why <= SF_OTHER);
  shape(hop->outcome * 16u + hop->why, hop->has_status * 4u + hop->has_stored * 2u +
        hop->has_collapsed, hop->has_ttl * 4u + hop->has_key * 2u + hop->has_detail);
  CHECK((hop->why != SF_NO_FORWARD) == (hop->outcome >= SF_FORWARDED));
  CHECK((hop->why != SF_NO_FORWARD) == (hop->why_token.length > 0));
  CHECK(hop->has_status <= 1 && hop->has_stored <= 1 && hop->has_collapsed <= 1);
  CHECK(hop->has_ttl <= 1 && hop->has_key <= 1 && hop->has_detail <= 1);
  CHECK(hop->has_status ? hop->status >= 100 && hop->status <= 999 : hop->status == 0);
  CHECK(hop->stored <= hop->has_stored && hop->collapsed <= hop->has_collapsed);
  CHECK(hop->has_ttl || hop->ttl == 0);
  CHECK(hop->has_key || hop->key.length == 0);
  CHECK(hop->has_detail || (hop->detail.length == 0 && !hop->detail_is_token));
}

static int same_range(const uint8_t *a, sf_span p, const uint8_t *b, sf_span q) {
  return p.length == q.length && same_bytes(a, p.at, b, q.at, p.length);
}

/* A hop, written, is read as the same. */
static void write_again(const sf_hop *hop, const uint8_t *bytes, size_t size) {
  size_t required = 0, again = 0;
  CHECK(sf_hop_text(&seed, hop, bytes, size, NULL, 0, &required) == SF_SHORT);
  uint8_t *text = take_buffer(NULL, required);
  CHECK(sf_hop_text(&seed, hop, bytes, size, text, required, &again) == SF_OK);
  CHECK(again == required);
  caches c = tell(text, required);
  CHECK(c.hops != NULL && c.path.hops == 1);
  CHECK(same_range(bytes, hop->name, c.bytes, c.hops[0].name));
  CHECK(same_range(bytes, hop->why_token, c.bytes, c.hops[0].why_token));
  CHECK(same_range(bytes, hop->key, c.bytes, c.hops[0].key));
  CHECK(same_range(bytes, hop->detail, c.bytes, c.hops[0].detail));
  CHECK(memcmp(&hop->ttl, &c.hops[0].ttl,
               offsetof(sf_hop, detail_is_token) + 1 - offsetof(sf_hop, ttl)) == 0);
  give_buffer(c.hops);
  give_buffer(c.bytes);
  give_buffer(text);
}

/* The members of a List that name no cache, as faults of a head: those whose nodes are no String and
 * no Token, at the places of these nodes. */
static void nameless(const uint8_t *text, size_t length) {
  enum { MOST = 16 }; /* for each of many nodes, sf_node_offset would take long */
  sf_context context = sf_context_of(seed, SF_RFC9651);
  size_t most = SF_NODES_SIZE(length), bytes_most = SF_BYTES_SIZE(length), count = 0;
  sf_node *nodes = take_buffer(NULL, most * sizeof *nodes);
  char *bytes = take_buffer(NULL, bytes_most);
  sf_tree tree = sf_tree_in(sf_nodes_of(nodes, most), sf_buffer_of(bytes, bytes_most));
  sf_hop_list list = sf_hop_list_in(sf_hops_of(NULL, 0), sf_buffer_of(NULL, 0));
  sf_head_line line;
  sf_head head = sf_head_in(sf_head_lines_of(&line, 1), sf_buffer_of(NULL, 0));
  CHECK(sf_read_tree(&context, SF_LIST, sf_text_of(text, length), &tree) == SF_OK);
  sf_fault *faults = take_buffer(NULL, tree.nodes.length * sizeof *faults);
  head.faults = sf_faults_of(faults, tree.nodes.length);
  CHECK(sf_add_field_line(&head, sf_cstr("Cache-Status"), sf_text_of(text, length)) == SF_OK);
  for (int twice = 0; twice < 2; ++twice) {
    sf_status status = sf_find_hops(&context, &head, &list);
    CHECK(status == SF_OK || (status == SF_SHORT && head.faults.length == 0));
  }
  for (const sf_node *node = nodes; node < sf_tree_end(&tree); node += node->size)
    if (node->type != SF_STRING && node->type != SF_TOKEN) {
      CHECK(count < head.faults.length && faults[count].reason == SF_FAULT_NOT_A_CACHE);
      if (count < MOST)
        CHECK(faults[count].location.refusal.offset == sf_node_offset(&tree, node));
      ++count;
    }
  CHECK(head.faults.length == count && head.faults.required == count);
  give_buffer(nodes);
  give_buffer(bytes);
  give_buffer(faults);
}

/* The path of a text and that of its canonical text. */
static void paths(const uint8_t *text, size_t length) {
  nameless(text, length);
  sf_refusal refusal;
  size_t required = SF_CANONICAL_SIZE(length);
  uint8_t *canonical = take_buffer(NULL, required);
  CHECK(sf_normalise(&seed, SF_RFC9651, SF_LIST, text, length, canonical, required, &required,
                     &refusal) == SF_OK);
  caches c = tell(text, length), d = tell(canonical, required);
  CHECK(memcmp(&c.path, &d.path, offsetof(sf_path, is_served) + sizeof c.path.is_served) == 0);
  CHECK(c.hops == NULL || memcmp(c.hops, d.hops, c.path.hops * sizeof *c.hops) == 0);
  CHECK(same_bytes(c.bytes, 0, d.bytes, 0, c.bytes == NULL ? 0 : c.path.bytes));
  long served = -1;
  for (size_t i = 0; c.hops != NULL && i < c.path.hops; ++i) {
    one_hop(&c.hops[i], c.path.bytes);
    write_again(&c.hops[i], c.bytes, c.path.bytes);
    if (c.hops[i].outcome == SF_HIT)
      served = (long)i;
  }
  CHECK(c.path.is_served == (served >= 0));
  CHECK(c.path.served == (served < 0 ? 0 : (size_t)served));
  give_buffer(c.hops);
  give_buffer(c.bytes);
  give_buffer(d.hops);
  give_buffer(d.bytes);
  give_buffer(canonical);
}

/* The choice among parts of a text, as if each were a field, is the first that has a policy. */
static void selecting(const uint8_t *text, size_t length) {
  enum { FIELDS = 5 };
  sf_span *fields = take_buffer(NULL, FIELDS * sizeof *fields);
  sf_policy policy, chosen;
  sf_refusal refusal;
  size_t first = FIELDS, index = FIELDS;
  memset(&policy, 0, sizeof policy);
  memset(&chosen, 0, sizeof chosen);
  for (size_t i = 0; i < FIELDS; ++i) {
    fields[i].at = i < FIELDS - 1 && length > 0 ? text[i * 7 % length] % (length + 1) : 0;
    fields[i].length = i < FIELDS - 1 ? (length - fields[i].at) / (i + 1) : length;
    uint8_t *field = part(text, fields[i].at, fields[i].at + fields[i].length);
    if (first == FIELDS &&
        sf_cache_control(&seed, field, fields[i].length, &policy, &refusal) == SF_OK)
      first = i;
    give_buffer(field);
  }
  uint32_t status = sf_select(&seed, text, length, fields, FIELDS, &index, &chosen);
  CHECK(status == (first < FIELDS ? SF_OK : SF_EMPTY) && index == first);
  CHECK(memcmp(&policy, &chosen, offsetof(sf_policy, is_private) + 1) == 0);
  shape(first, policy.max_age < 8 ? policy.max_age : 8, policy.no_store);
  give_buffer(fields);
}

/* A changed field has the changed priority, and exactly the required length. */
static void change_priority(const uint8_t *text, size_t length, const sf_priority_flags *before) {
  uint32_t bits = hash(text, length);
  uint8_t has_urgency = bits >> 4 & 1, has_incremental = bits >> 5 & 1;
  uint8_t urgency = has_urgency ? (uint8_t)(bits % 8) : 0;
  uint8_t incremental = has_incremental ? (uint8_t)(bits >> 3 & 1) : 0;
  const sf_priority_flags sets = {urgency, incremental, has_urgency, has_incremental};
  const sf_response_priority_flags server = {urgency, incremental, has_urgency, has_incremental};
  sf_refusal refusal;
  size_t required = 0, again = 0;
  uint32_t status = sf_priority_change(&seed, text, length, &sets, NULL, 0, &required, &refusal);
  CHECK(status == (required == 0 ? SF_OK : SF_SHORT));
  uint8_t *changed = take_buffer(NULL, required);
  CHECK(sf_priority_change(&seed, text, length, &sets, changed, required, &again, &refusal) ==
        SF_OK);
  CHECK(again == required);
  sf_priority_flags now = {9, 9, 9, 9};
  CHECK(sf_priority(&seed, changed, required, &now, &refusal) == SF_OK);
  sf_priority_flags expected = sf_priority_merge(before, &server);
  CHECK(memcmp(&now, &expected, sizeof now) == 0);
  give_buffer(changed);
}

/* What is forbidden is not done, and more age makes nothing fresh. */
static void decisions(const uint8_t *text, size_t length, const sf_policy *policy, uint32_t right) {
  sf_refusal refusal;
  sf_rules rules;
  memset(&rules, 0, sizeof rules);
  CHECK(sf_cache_rules(&seed, SF_RFC9651, text, length, &rules, &refusal) == right);
  CHECK(memcmp(&rules.policy, policy, offsetof(sf_policy, is_private) + 1) == 0);
  CHECK(!(rules.invalid_max_age && policy->has_max_age));
  CHECK(!(rules.invalid_s_maxage && policy->has_s_maxage));
  for (uint32_t cache = SF_SHARED_CACHE; cache <= SF_PRIVATE_CACHE; ++cache) {
    sf_response response = {hash(text, length) % 64, 0, 0, 0}, older = response;
    sf_decision now, later;
    older.age += 1 + hash(text, length) / 64 % 8;
    CHECK(sf_decide(&rules, cache, &response, &now) == SF_OK);
    CHECK(sf_decide(&rules, cache, &older, &later) == SF_OK);
    CHECK((now.reuse == SF_REUSE_FRESH) == (now.seconds > 0));
    CHECK(later.reuse != SF_REUSE_FRESH || now.reuse == SF_REUSE_FRESH);
    CHECK(!policy->no_store || now.reuse == SF_REUSE_NOT_STORED);
    CHECK(!policy->no_cache || now.reuse != SF_REUSE_FRESH);
    CHECK(!policy->is_private || cache == SF_PRIVATE_CACHE || now.reuse == SF_REUSE_NOT_STORED);
    CHECK(!policy->must_revalidate || now.reuse != SF_REUSE_STALE);
    shape(now.reuse, now.cause, now.allows_storing);
  }
}

/* A line of Cache-Control that is refused forbids storing, and no line after it permits that;
 * and the lines of other fields change nothing of it. */
static void fallbacks(const uint8_t *text, size_t length) {
  sf_fallback one, both;
  memset(&one, 0, sizeof one);
  uint32_t status = sf_fallback_line(SF_FALLBACK_CACHE_CONTROL, text, length, &one);
  CHECK(status == SF_OK ? one.is_refused == 0 : status == SF_REFUSED && one.is_refused == 1);
  CHECK(status == SF_OK || one.rules.policy.no_store);
  CHECK(!(one.rules.invalid_max_age && one.rules.policy.has_max_age));
  both = one;
  CHECK(sf_fallback_line(SF_FALLBACK_CACHE_CONTROL, "must-understand", 15, &both) == status);
  CHECK(both.rules.must_understand == (status == SF_OK));
  CHECK(!one.rules.policy.no_store || both.rules.policy.no_store);
  both = one;
  CHECK(sf_fallback_line(SF_FALLBACK_CACHE_CONTROL, text, length, &both) == status);
  CHECK(memcmp(&both.rules, &one.rules, offsetof(sf_policy, is_private) + 1) == 0);
  CHECK(sf_fallback_line(SF_FALLBACK_EXPIRES, text, length, &both) == SF_OK);
  CHECK(sf_fallback_line(SF_FALLBACK_DATE, text, length, &both) == SF_OK);
  CHECK(both.expires.lines == 1 || both.expires.lines == 2);
  CHECK(both.expires.lines == both.date.lines && both.expires.seconds == both.date.seconds);
  sf_response response = {0, 0, 0, 0};
  CHECK(sf_fallback_lifetime(&both, 0, &response) == SF_OK);
  CHECK(response.has_lifetime == 1 && response.lifetime == 0);
  shape(status, both.expires.lines, one.rules.policy.no_store);
}

static void consumers(const uint8_t *text, size_t length, int is_dict) {
  sf_refusal refusal;
  sf_priority_flags priority = {0, 0, 0, 0};
  uint32_t status = sf_priority(&seed, text, length, &priority, &refusal);
  CHECK(status == (is_dict ? SF_OK : SF_REFUSED));
  if (is_dict) {
    CHECK(priority.urgency <= 7 && priority.incremental <= 1);
    sf_response_priority_flags response = {9, 9, 9, 9}, again = {9, 9, 9, 9};
    CHECK(sf_response_priority(&seed, SF_RFC9651, text, length, &response, &refusal) == SF_OK);
    CHECK(response.has_urgency == priority.has_urgency);
    CHECK(response.has_incremental == priority.has_incremental);
    sf_priority_flags both = sf_priority_merge(&priority, &response);
    CHECK(memcmp(&both, &priority, sizeof both) == 0);
    change_priority(text, length, &priority);
    char written[SF_PRIORITY_SIZE];
    size_t required = 0;
    CHECK(sf_priority_text(&priority, written, sizeof written, &required) == SF_OK);
    CHECK(sf_priority(&seed, written, required, &both, &refusal) == SF_OK);
    CHECK(memcmp(&both, &priority, sizeof both) == 0);
    CHECK(sf_response_priority_text(&response, written, sizeof written, &required) == SF_OK);
    CHECK(sf_response_priority(&seed, SF_RFC8941, written, required, &again, &refusal) == SF_OK);
    CHECK(memcmp(&again, &response, sizeof again) == 0);
  }
  sf_policy policy;
  memset(&policy, 0, sizeof policy);
  status = sf_cache_control(&seed, text, length, &policy, &refusal);
  CHECK(is_dict ? status == SF_OK || status == SF_EMPTY : status == SF_REFUSED);
  uint64_t shared = 0, alone = 0;
  uint32_t in_shared = sf_lifetime(&policy, 1, &shared);
  uint32_t in_private = sf_lifetime(&policy, 0, &alone);
  CHECK(in_private == policy.has_max_age && in_shared >= in_private);
  CHECK(policy.has_s_maxage || shared == alone);
  selecting(text, length);
  fallbacks(text, length);
  decisions(text, length, &policy, status);
}

/* What a decision finds to be malformed in a head of these two fields, by turns: the place in the line
 * as it was received, and that the byte there is not one of those that are allowed. */
static void faults_of(uint32_t dialect, sf_head *head, const sf_rules *rules) {
  sf_context context = sf_context_of(seed, (sf_dialect)dialect);
  sf_target target = sf_target_of("t");
  sf_exchange exchange = sf_exchange_of(SF_SHARED_CACHE, 0);
  sf_fault faults[2];
  sf_verdict verdict;
  head->faults = SF_FAULTS(faults);
  CHECK(sf_decide_response(&context, head, &target, 1, &exchange, &verdict) == SF_OK);
  CHECK(head->faults.length == head->faults.required);
  int by_s_maxage = rules->policy.has_s_maxage || rules->invalid_s_maxage;
  size_t in_seconds = (by_s_maxage ? rules->invalid_s_maxage : rules->invalid_max_age) &&
                      verdict.decision.reuse != SF_REUSE_NOT_STORED &&
                      verdict.decision.cause != SF_BY_NO_CACHE;
  CHECK(head->faults.length == (target.status == SF_REFUSED) + verdict.is_refused + in_seconds);
  for (size_t i = 0; i < head->faults.length; ++i) {
    const sf_location *location = &faults[i].location;
    const sf_head_line *line = &head->lines.at[location->index];
    size_t end = (size_t)(line->value.at - line->received.at) + line->value.length;
    size_t at = (size_t)location->refusal.offset;
    int32_t found = location->refusal.found;
    uint64_t expected = found < 64 ? location->refusal.expected_low : location->refusal.expected_high;
    char message[SF_FAULT_SIZE(13, 20)];
    sf_buffer out = SF_BUFFER(message);
    CHECK(sf_show_fault(&faults[i], 20, &out) == SF_OK && out.at[out.length - 1] == '^');
    CHECK(location->line.at == line->received.at);
    if (faults[i].reason >= SF_FAULT_NOT_SECONDS) {
      CHECK(at >= (size_t)(line->value.at - line->received.at) + 7 && at <= end);
      continue;
    }
    CHECK(faults[i].reason == SF_FAULT_REFUSED);
    CHECK(location->index % 2 == (size_t)(strcmp(faults[i].field, "t") != 0) && at <= end);
    CHECK(found == (at < end ? (int32_t)(uint8_t)location->line.at[at] : -1));
    CHECK(found < 0 || found > 127 || !(expected >> found % 64 & 1));
  }
}

/* A head of a text in one memory of the size for it: it has each line and each fault, and the lines of
 * all of its fields can be joined in what the memory has for them, twice. */
static void head_in_memory(const uint8_t *text, size_t length) {
  sf_text rest = sf_text_of(text, length);
  size_t size = sf_head_memory_size(rest), joined = 0;
  void *memory = malloc(size);
  CHECK(memory != NULL && size <= 74 * length + 1024);
  sf_head head = sf_head_in_memory(memory, size, rest);
  CHECK(sf_take_response(&head, &rest) != SF_SHORT && head.faults.length == head.faults.required);
  for (size_t i = 0; i < head.lines.length; ++i)
    joined += head.lines.at[i].value.length + 2;
  CHECK(2 * joined <= head.joined.capacity && head.lines.length + 10 <= head.faults.capacity);
  CHECK(head.status != 0 || head.is_incomplete == 1);
  for (size_t i = 0; i < head.faults.length; ++i) {
    char message[SF_FAULT_IN_SIZE(1, 0, 20)];
    sf_buffer out = SF_BUFFER(message);
    const sf_fault *fault = &head.faults.at[i];
    CHECK(sf_show_fault_in("f", fault, 20, &out) == SF_OK && memcmp(message, "f, line ", 8) == 0);
    CHECK(fault->reason != SF_FAULT_NOT_A_START || i == 0);
  }
  free(memory);
}

/* The lines of a text, and a head with the parts of it between its commas as the lines of two fields. */
static void heads(uint32_t dialect, const uint8_t *text, size_t length) {
  sf_context context = sf_context_of(seed, (sf_dialect)dialect);
  sf_head_line *lines = malloc(sizeof *lines * (2 * length + 2));
  CHECK(lines != NULL);
  sf_head head = sf_head_in(sf_head_lines_of(lines, 2 * length + 2), sf_buffer_of(NULL, 0));
  sf_text rest = sf_text_of(text, length), joined;
  while (rest.length > 0) {
    size_t before = rest.length;
    sf_text line = sf_take_line(&rest);
    CHECK(line.length > 0 && line.length + rest.length == before);
    uint32_t status = sf_add_head_line(&head, line);
    CHECK(status == SF_OK || status == SF_EMPTY || status == SF_REFUSED);
  }
  sf_fallback fallback = sf_fallback_begin();
  head.lines.length = 0;
  for (size_t from = 0, to = 0; to <= length; ++to)
    if (to == length || text[to] == ',') {
      sf_text part = length == 0 ? sf_text_of(text, 0) : sf_text_of(text + from, to - from);
      CHECK(sf_add_field_line(&head, sf_cstr("T"), part) == SF_OK);
      CHECK(sf_add_field_line(&head, sf_cstr("cache-control"), part) == SF_OK);
      sf_add_fallback_line(&fallback, SF_FALLBACK_CACHE_CONTROL, part);
      from = to + 1;
    }

  uint32_t status = sf_find_field(&head, "t", &joined);
  size_t required = head.joined.required;
  uint8_t *buffer = take_buffer(NULL, required);
  CHECK(status == (required == 0 ? SF_OK : SF_SHORT));
  head.joined = sf_buffer_of(buffer, required);
  CHECK(sf_find_field(&head, "t", &joined) == SF_OK);
  CHECK(required == 0 || joined.length == required);
  head.joined.length = 0;

  sf_target target = sf_target_of("t");
  sf_exchange exchange = sf_exchange_of(SF_SHARED_CACHE, 0);
  exchange.status = 100 + hash(text, length) % 500;
  sf_verdict verdict;
  CHECK(sf_decide_response(&context, &head, &target, 1, &exchange, &verdict) == SF_OK);
  sf_choice choice;
  sf_response response = {0, 0, 0, 0};
  sf_decision decision;
  status = sf_choose_rules(&context, &joined, 1, &choice);
  CHECK(verdict.target == (status == SF_OK ? 0 : 1) && head.joined.length == 0);
  if (status != SF_OK)
    choice.rules = fallback.rules;
  CHECK(verdict.is_refused == (status == SF_OK ? 0 : fallback.is_refused));
  if (verdict.is_refused) {
    sf_fallback alone = sf_fallback_begin();
    sf_text line = lines[verdict.refused_line].value;
    CHECK(sf_add_fallback_line(&alone, SF_FALLBACK_CACHE_CONTROL, line) == SF_REFUSED);
  }
  CHECK(sf_decide(&choice.rules, SF_SHARED_CACHE, &response, &decision) == SF_OK);
  CHECK(memcmp(&decision, &verdict.decision, offsetof(sf_decision, allows_authorized) + 1) == 0);
  CHECK(!verdict.may_store || (decision.reuse != SF_REUSE_NOT_STORED && exchange.status >= 200));
  CHECK((verdict.obstacle == SF_NO_OBSTACLE) == (verdict.may_store == 1));
  shape(verdict.obstacle, decision.cause, target.status);
  if (target.status == SF_REFUSED) {
    sf_location location = sf_locate_in_head(&target.refusal, &head, "t");
    const sf_head_line *line = &lines[location.index];
    size_t end = (size_t)(line->value.at - line->received.at) + line->value.length;
    CHECK(location.index % 2 == 0 && location.line.at == line->received.at);
    CHECK(location.number == line->number && location.line.length == line->received.length);
    CHECK(location.refusal.offset <= end && end <= location.line.length);
    if (location.refusal.offset < end)
      CHECK((uint8_t)location.line.at[location.refusal.offset] == location.refusal.found);
    else
      CHECK(location.refusal.found == -1 && location.refusal.may_end == 0);
  }
  faults_of(dialect, &head, &choice.rules);
  head_in_memory(text, length);
  give_buffer(buffer);
  free(lines);
}

static int has_members(uint32_t dialect, uint32_t kind, const uint8_t *text, size_t length) {
  sf_refusal refusal;
  size_t required = 0;
  return sf_normalise(&seed, dialect, kind, text, length, NULL, 0, &required, &refusal) == SF_SHORT;
}

/* What is compared of one text, of which more is known if k is not NULL: then it is accepted.
 * Returns whether it is. */
static int compare(uint32_t dialect, uint32_t kind, const uint8_t *text, size_t length,
                   const known *k) {
  sf_refusal refusal;
  uint32_t status = sf_check(&seed, dialect, kind, text, length, &refusal);
  CHECK(status == SF_OK || (status == SF_REFUSED && k == NULL));
  if (status == SF_OK)
    accepted(dialect, kind, text, length, k);
  else
    refused(dialect, kind, text, length, &refusal);
  if (!is_thorough)
    return status == SF_OK;
  joining(text, length);
  if (kind == SF_DICT)
    heads(dialect, text, length);
  if (kind != SF_ITEM)
    parts(dialect, kind, text, length, status == SF_OK && has_members(dialect, kind, text, length));
  if (kind == SF_LIST && dialect == SF_RFC9651 && status == SF_OK)
    paths(text, length);
  if (kind == SF_DICT && dialect == SF_RFC9651)
    consumers(text, length, status == SF_OK);
  return status == SF_OK;
}

#endif
