/* Fields at random by the grammar of RFC 9651, for the long run of the fuzzer: a value, a
 * spelling of it with whatever the grammar leaves open, its canonical text by section 4.1, which
 * is written here and not by the library, and its nodes, which a builder makes. And changes of
 * texts at random.
 *
 * Left open are white space, leading and trailing zeros of numbers, -0, characters of a Display
 * String that need no escape, the padding and the pad bits of a Byte Sequence, true with or
 * without ?1, and keys that are overwritten: a key with a value that doesn't count, and again
 * with the one that does. */
#ifndef GRAMMAR_H
#define GRAMMAR_H

#include <sf.h>
#include <stdint.h>
#include <stdio.h>
#include <stdlib.h>
#include <string.h>

/* A random number generator: xorshift64*. */
typedef struct rng {
  uint64_t state; /* never 0 */
} rng;

/* The generator of an input of a run: inputs are the same on each machine, and in any order. */
static rng rng_of(uint64_t run, uint64_t number) {
  uint64_t bits = run * UINT64_C(0x9e3779b97f4a7c15) + number;
  bits = (bits ^ bits >> 30) * UINT64_C(0xbf58476d1ce4e5b9);
  bits = (bits ^ bits >> 27) * UINT64_C(0x94d049bb133111eb);
  rng r = {(bits ^ bits >> 31) | 1};
  return r;
}

static uint64_t next(rng *r) {
  r->state ^= r->state >> 12;
  r->state ^= r->state << 25;
  r->state ^= r->state >> 27;
  return r->state * UINT64_C(0x2545f4914f6cdd1d);
}

/* A number below a limit, which is at least 1. */
static uint32_t below(rng *r, uint32_t limit) { return (uint32_t)((next(r) >> 32) * limit >> 32); }

static int one_in(rng *r, uint32_t count) { return below(r, count) == 0; }

static uint8_t one_of(rng *r, const char *bytes, size_t count) {
  return (uint8_t)bytes[below(r, (uint32_t)count)];
}

#define ONE_OF(r, string) one_of((r), (string), sizeof(string) - 1)

/* A length: mostly short, at times one at which the library begins to do otherwise, or as many
 * as the text may have. */
static size_t pick_length(rng *r, size_t most) {
  static const uint16_t edges[] = {0, 1, 7, 8, 9, 15, 16, 17, 23, 24, 31, 32, 33, 63, 64, 65, 128};
  uint32_t how = below(r, 16);
  size_t length = how < 10   ? below(r, 12)
                  : how < 15 ? edges[below(r, sizeof edges / sizeof *edges)]
                             : below(r, (uint32_t)most + 1);
  return length < most ? length : most;
}

/* A length of 4 KiB or more, below 4 KiB doubled so many times. */
static size_t pick_long(rng *r, uint32_t doublings) {
  uint32_t least = UINT32_C(4096) << below(r, doublings);
  return least + below(r, least);
}

/* Bytes that are written one after the other. */
typedef struct sink {
  uint8_t *at;
  size_t length, capacity;
} sink;

static sink new_sink(size_t capacity) {
  sink s = {malloc(capacity), 0, capacity};
  if (s.at == NULL)
    abort();
  return s;
}

/* What does not fit is a mistake of this file. */
static void put(sink *to, const void *bytes, size_t length) {
  if (length > to->capacity - to->length) {
    fprintf(stderr, "grammar.h: a text is too long\n");
    abort();
  }
  if (length > 0)
    memcpy(to->at + to->length, bytes, length);
  to->length += length;
}

static void put_byte(sink *to, uint8_t byte) {
  if (to->length < to->capacity)
    to->at[to->length++] = byte;
  else
    put(to, &byte, 1);
}

static void put_string(sink *to, const char *string) { put(to, string, strlen(string)); }

static void put_spaces(rng *r, sink *to) {
  for (uint32_t count = one_in(r, 4) ? below(r, 4) : 0; count > 0; --count)
    put_byte(to, ' ');
}

/* Optional white space, as between members. */
static void put_blanks(rng *r, sink *to) {
  for (uint32_t count = one_in(r, 3) ? below(r, 4) : 0; count > 0; --count)
    put_byte(to, one_in(r, 4) ? '\t' : ' ');
}

/* The digits of a number, at least so many. */
static void put_digits(sink *to, uint64_t number, size_t least) {
  char digits[24];
  size_t from = sizeof digits;
  for (; number > 0 || sizeof digits - from < least; number /= 10)
    digits[--from] = (char)('0' + number % 10);
  put(to, digits + from, sizeof digits - from);
}

/* A bare item (section 3.3). */
typedef struct bare {
  sf_type type;
  int64_t number;
  sink bytes; /* of a String, Token, Byte Sequence or Display String, in UTF-8 */
} bare;

/* The bounds of a text's parts: a text of 64 KiB with parts of that length has to fit in a sink. */
enum { LONGEST_INPUT = 1 << 16, SINK_SIZE = LONGEST_INPUT * 8 };

static int64_t pick_number(rng *r, int64_t least, int64_t most) {
  static const int64_t limits[] = {0,
                                   1,
                                   7,
                                   9,
                                   10,
                                   99,
                                   100,
                                   999,
                                   1000,
                                   999999,
                                   1000000,
                                   INT64_C(2147483647),
                                   INT64_C(2147483648),
                                   INT64_C(4294967295),
                                   INT64_C(4294967296),
                                   INT64_C(99999999999999),
                                   INT64_C(100000000000000),
                                   SF_NUMBER_MAX - 1,
                                   SF_NUMBER_MAX};
  int64_t number;
  if (one_in(r, 2))
    number = (int64_t)below(r, 1000);
  else if (one_in(r, 2))
    number = limits[below(r, sizeof limits / sizeof *limits)];
  else
    number = (int64_t)(next(r) % (SF_NUMBER_MAX + UINT64_C(1)));
  if (one_in(r, 4))
    number = -number;
  return number < least ? least : number > most ? most : number;
}

/* A character of a Display String, in UTF-8: mostly at a limit of a number of bytes, or beside the
 * surrogates (RFC 3629 sections 3 and 4). */
static void put_character(rng *r, sink *to) {
  static const uint32_t limits[] = {0,       0x1f,    0x20,    0x22,    0x25,     0x5c,
                                    0x7e,    0x7f,    0x80,    0x7ff,   0x800,    0xfff,
                                    0x1000,  0xd7ff,  0xe000,  0xfeff,  0xffff,   0xfffd,
                                    0x10000, 0x3ffff, 0x40000, 0xfffff, 0x100000, 0x10ffff};
  uint32_t c = one_in(r, 3)   ? limits[below(r, sizeof limits / sizeof *limits)]
               : one_in(r, 2) ? ' ' + below(r, 95)
                              : below(r, one_in(r, 2) ? 0x800 : 0x110000);
  if (c >= 0xd800 && c < 0xe000)
    c -= 0x1000;
  if (c < 0x80) {
    put_byte(to, (uint8_t)c);
  } else if (c < 0x800) {
    put_byte(to, (uint8_t)(0xc0 | c >> 6));
    put_byte(to, (uint8_t)(0x80 | (c & 63)));
  } else if (c < 0x10000) {
    put_byte(to, (uint8_t)(0xe0 | c >> 12));
    put_byte(to, (uint8_t)(0x80 | (c >> 6 & 63)));
    put_byte(to, (uint8_t)(0x80 | (c & 63)));
  } else {
    put_byte(to, (uint8_t)(0xf0 | c >> 18));
    put_byte(to, (uint8_t)(0x80 | (c >> 12 & 63)));
    put_byte(to, (uint8_t)(0x80 | (c >> 6 & 63)));
    put_byte(to, (uint8_t)(0x80 | (c & 63)));
  }
}

#define LOWER "abcdefghijklmnopqrstuvwxyz"
#define UPPER "ABCDEFGHIJKLMNOPQRSTUVWXYZ"
#define DIGIT "0123456789"
#define TOKEN_FIRST LOWER UPPER "*"
#define TOKEN_BYTE LOWER UPPER DIGIT "!#$%&'*+-.^_`|~:/"
#define KEY_FIRST LOWER "*"
#define KEY_BYTE LOWER DIGIT "_-.*"

/* A value of a bare item, whose bytes are at most so many. */
static void pick_bare(rng *r, uint32_t dialect, size_t most, bare *b) {
  static const uint8_t types[] = {SF_INTEGER, SF_DECIMAL,       SF_STRING,        SF_TOKEN,
                                  SF_TOKEN,   SF_BOOLEAN,       SF_BYTE_SEQUENCE, SF_STRING,
                                  SF_DATE,    SF_DISPLAY_STRING};
  b->type = (sf_type)types[below(r, dialect == SF_RFC8941 ? 8 : 10)];
  b->number = 0;
  b->bytes.length = 0;
  size_t length = pick_length(r, most);
  switch (b->type) {
  case SF_INTEGER:
  case SF_DECIMAL:
  case SF_DATE:
    b->number = pick_number(r, -SF_NUMBER_MAX, SF_NUMBER_MAX);
    break;
  case SF_BOOLEAN:
    b->number = one_in(r, 2);
    break;
  case SF_STRING:
    for (; length > 0; --length)
      put_byte(&b->bytes, one_in(r, 6) ? ONE_OF(r, "\"\\ ~%") : (uint8_t)(' ' + below(r, 95)));
    break;
  case SF_TOKEN:
    put_byte(&b->bytes, ONE_OF(r, TOKEN_FIRST));
    for (; length > 1; --length)
      put_byte(&b->bytes, ONE_OF(r, TOKEN_BYTE));
    break;
  case SF_BYTE_SEQUENCE:
    for (; length > 0; --length)
      put_byte(&b->bytes, (uint8_t)below(r, 256));
    break;
  default:
    while (b->bytes.length + 4 <= length)
      put_character(r, &b->bytes);
  }
}

/* The digits of a number, with leading zeros up to so many digits if there is a generator. */
static void put_number(rng *r, sink *to, uint64_t number, uint32_t most) {
  put_digits(to, number, r != NULL && one_in(r, 8) ? 1 + below(r, most) : 1);
}

/* The sign of a number; at times -0 if there is a generator. */
static uint64_t put_sign(rng *r, sink *to, int64_t number) {
  if (number < 0 || (number == 0 && r != NULL && one_in(r, 4)))
    put_byte(to, '-');
  return number < 0 ? (uint64_t)-number : (uint64_t)number;
}

static void put_decimal(rng *r, sink *to, int64_t thousandths) {
  uint64_t number = put_sign(r, to, thousandths);
  uint64_t fraction = number % 1000;
  size_t least = fraction % 10 != 0 ? 3 : fraction % 100 != 0 ? 2 : 1;
  size_t length = r != NULL && one_in(r, 3) ? least + below(r, (uint32_t)(4 - least)) : least;
  put_number(r, to, number / 1000, 12);
  put_byte(to, '.');
  put_digits(to, length == 3 ? fraction : length == 2 ? fraction / 10 : fraction / 100, length);
}

/* Base64 (RFC 4648 section 4). With a generator, the padding is at times left out or shorter,
 * and the pad bits are not zero (RFC 9651 section 4.2.7). */
static void put_base64(rng *r, sink *to, const uint8_t *bytes, size_t length) {
  static const char alphabet[] = UPPER LOWER DIGIT "+/";
  for (; length >= 3; bytes += 3, length -= 3) {
    put_byte(to, (uint8_t)alphabet[bytes[0] >> 2]);
    put_byte(to, (uint8_t)alphabet[(bytes[0] & 3) << 4 | bytes[1] >> 4]);
    put_byte(to, (uint8_t)alphabet[(bytes[1] & 15) << 2 | bytes[2] >> 6]);
    put_byte(to, (uint8_t)alphabet[bytes[2] & 63]);
  }
  if (length == 0)
    return;
  uint32_t pad = r != NULL && one_in(r, 3) ? below(r, length == 1 ? 16 : 4) : 0;
  put_byte(to, (uint8_t)alphabet[bytes[0] >> 2]);
  if (length == 1) {
    put_byte(to, (uint8_t)alphabet[(uint32_t)(bytes[0] & 3) << 4 | pad]);
  } else {
    put_byte(to, (uint8_t)alphabet[(bytes[0] & 3) << 4 | bytes[1] >> 4]);
    put_byte(to, (uint8_t)alphabet[(uint32_t)(bytes[1] & 15) << 2 | pad]);
  }
  size_t padding = 3 - length;
  put(to, "==", r != NULL && one_in(r, 3) ? below(r, (uint32_t)padding + 1) : padding);
}

/* The characters of a Display String (section 4.1.11). With a generator, others are at times
 * escaped, too. */
static void put_display(rng *r, sink *to, const uint8_t *bytes, size_t length) {
  for (size_t i = 0; i < length; ++i) {
    static const char hex[] = "0123456789abcdef";
    int is_escaped = bytes[i] < ' ' || bytes[i] > '~' || bytes[i] == '%' || bytes[i] == '"';
    if (is_escaped || (r != NULL && one_in(r, 16))) {
      put_byte(to, '%');
      put_byte(to, (uint8_t)hex[bytes[i] >> 4]);
      put_byte(to, (uint8_t)hex[bytes[i] & 15]);
    } else {
      put_byte(to, bytes[i]);
    }
  }
}

/* The text of a bare item: with a generator one of its spellings, without one the canonical one
 * (section 4.1.3.1). */
static void put_bare(rng *r, sink *to, const bare *b) {
  switch (b->type) {
  case SF_DATE:
    put_byte(to, '@');
    put_number(r, to, put_sign(r, to, b->number), 15);
    break;
  case SF_INTEGER:
    put_number(r, to, put_sign(r, to, b->number), 15);
    break;
  case SF_DECIMAL:
    put_decimal(r, to, b->number);
    break;
  case SF_BOOLEAN:
    put_string(to, b->number ? "?1" : "?0");
    break;
  case SF_STRING:
    put_byte(to, '"');
    for (size_t i = 0; i < b->bytes.length; ++i) {
      if (b->bytes.at[i] == '"' || b->bytes.at[i] == '\\')
        put_byte(to, '\\');
      put_byte(to, b->bytes.at[i]);
    }
    put_byte(to, '"');
    break;
  case SF_TOKEN:
    put(to, b->bytes.at, b->bytes.length);
    break;
  case SF_BYTE_SEQUENCE:
    put_byte(to, ':');
    put_base64(r, to, b->bytes.at, b->bytes.length);
    put_byte(to, ':');
    break;
  default:
    put_string(to, "%\"");
    put_display(r, to, b->bytes.at, b->bytes.length);
    put_byte(to, '"');
  }
}

/* The keys of a part so far. */
typedef struct keys {
  uint64_t used;  /* those of the table */
  uint32_t count; /* all of them */
} keys;

/* A key that the part does not have yet: one that means something to a consumer, or one that
 * ends in the number of keys before it. */
static sf_text pick_key(rng *r, keys *k, char *buffer) {
  static const char *const table[] = {"a",
                                      "b",
                                      "c",
                                      "u",
                                      "i",
                                      "q",
                                      "*",
                                      "*a",
                                      "a_",
                                      "a-",
                                      "a1",
                                      "key",
                                      "hit",
                                      "fwd",
                                      "ttl",
                                      "detail",
                                      "stored",
                                      "collapsed",
                                      "fwd-status",
                                      "max-age",
                                      "s-maxage",
                                      "no-store",
                                      "no-cache",
                                      "private",
                                      "public",
                                      "must-revalidate",
                                      "must-understand",
                                      "proxy-revalidate"};
  uint32_t which = below(r, sizeof table / sizeof *table);
  uint32_t number = k->count++;
  if (one_in(r, 3) && (k->used >> which & 1) == 0) {
    k->used |= UINT64_C(1) << which;
    return sf_cstr(table[which]);
  }
  size_t length = 0;
  buffer[length++] = (char)ONE_OF(r, KEY_FIRST);
  for (size_t more = one_in(r, 32) ? below(r, 100) : below(r, 4); more > 0; --more)
    buffer[length++] = (char)ONE_OF(r, KEY_BYTE);
  length += (size_t)sprintf(buffer + length, ".%u", number);
  return sf_text_of(buffer, length);
}

enum { LONGEST_KEY = 128 };

/* A field that is made. */
typedef struct made {
  uint32_t dialect, kind;
  sink text;             /* a spelling */
  sink canonical;        /* the canonical text */
  sf_builder tree;       /* the nodes */
  size_t members;        /* how many the spelling has, those included that are overwritten */
  size_t *starts, *ends; /* where they begin and end in it */
  sink held;             /* a member that the spelling has later */
  bare value;            /* the bare item that was made last */
  size_t budget;         /* how long the spelling is to be */
} made;

/* Where a part of a field is put: its spelling, and the field of which it is a part; NULL if its
 * value is overwritten. */
typedef struct part_of {
  rng *r;
  sink *text;
  made *field;
} part_of;

/* An Item without its parameters, or the value of a parameter: true needs no text if it has a
 * key. */
static void make_bare(made *m, part_of p, sf_text key, int is_param, int is_value) {
  size_t left = m->budget > p.text->length ? m->budget - p.text->length : 0;
  pick_bare(p.r, m->dialect, left < 300 ? 300 : left, &m->value);
  const bare *b = &m->value;
  int is_true = is_value && b->type == SF_BOOLEAN && b->number == 1;
  if (!is_true || one_in(p.r, 2)) {
    if (is_value)
      put_byte(p.text, '=');
    put_bare(p.r, p.text, b);
  }
  if (p.field == NULL)
    return;
  if (!is_true) {
    if (is_value)
      put_byte(&m->canonical, '=');
    put_bare(NULL, &m->canonical, b);
  }
  (is_param ? sf_param : sf_put)(&m->tree, key, b->type, b->number,
                                 sf_text_of(b->bytes.at, b->bytes.length));
}

static void put_semicolon(rng *r, sink *to, sf_text key) {
  put_byte(to, ';');
  put_spaces(r, to);
  put(to, key.at, key.length);
}

/* How many parts something has; mostly few. */
static uint32_t pick_count(rng *r, uint32_t most) {
  uint32_t how = below(r, 32);
  return how < 18 ? 0 : how < 30 ? below(r, 4) : how < 31 ? 7 + below(r, 4) : below(r, most + 1);
}

/* Whether the field is to be a long one. */
static int is_long(const made *m) { return m->budget > 1024; }

static void put_param_key(made *m, part_of p, sf_text key) {
  put_semicolon(p.r, p.text, key);
  if (p.field != NULL) {
    put_byte(&m->canonical, ';');
    put(&m->canonical, key.at, key.length);
  }
}

/* Parameters (section 3.1.2). One whose key is overwritten is put again after some of the
 * others. */
static void make_params(made *m, part_of p, int is_filling) {
  static uint8_t held_bytes[SINK_SIZE];
  sink held = {held_bytes, 0, sizeof held_bytes};
  char buffer[LONGEST_KEY];
  keys k = {0, 0};
  uint32_t count = is_filling ? UINT32_MAX : pick_count(p.r, is_long(m) ? 400 : 40);
  for (; count > 0 && p.text->length < m->budget; --count) {
    sf_text key = pick_key(p.r, &k, buffer);
    if (held.length == 0 && p.field != NULL && one_in(p.r, 10)) {
      part_of lost = {p.r, p.text, NULL}, kept = {p.r, &held, p.field};
      put_param_key(m, lost, key);
      make_bare(m, lost, key, 1, 1);
      put_param_key(m, kept, key);
      make_bare(m, kept, key, 1, 1);
      continue;
    }
    put_param_key(m, p, key);
    make_bare(m, p, key, 1, 1);
    if (held.length > 0 && one_in(p.r, 2)) {
      put(p.text, held.at, held.length);
      held.length = 0;
    }
  }
  put(p.text, held.at, held.length);
}

static void put_kept(part_of p, uint8_t byte) {
  put_byte(p.text, byte);
  if (p.field != NULL)
    put_byte(&p.field->canonical, byte);
}

/* The Items of an Inner List (section 3.1.1). */
static void make_inner_list(made *m, part_of p, sf_text key, int is_value) {
  uint32_t most = is_long(m) && one_in(p.r, 4) ? 4000 : 5, count = below(p.r, most);
  if (is_value)
    put_kept(p, '=');
  put_kept(p, '(');
  put_spaces(p.r, p.text);
  if (p.field != NULL)
    sf_begin(&m->tree, key);
  for (uint32_t i = 0; i < count && (i == 0 || p.text->length < m->budget); ++i) {
    if (i > 0) {
      put_kept(p, ' ');
      put_spaces(p.r, p.text);
    }
    make_bare(m, p, sf_text_of(NULL, 0), 0, 0);
    make_params(m, p, 0);
  }
  if (count > 0)
    put_spaces(p.r, p.text);
  put_kept(p, ')');
  if (p.field != NULL)
    sf_end_inner_list(&m->tree);
  make_params(m, p, 0);
}

/* An Item or an Inner List, with its parameters. */
static void make_member(made *m, part_of p, sf_text key, int is_value) {
  if (one_in(p.r, 4)) {
    make_inner_list(m, p, key, is_value);
  } else {
    make_bare(m, p, key, 0, is_value);
    make_params(m, p, 0);
  }
}

/* Begins a member of the spelling. */
static void begin_member(rng *r, made *m) {
  if (m->members > 0) {
    put_blanks(r, &m->text);
    put_byte(&m->text, ',');
    put_blanks(r, &m->text);
  }
  m->starts[m->members] = m->text.length;
}

static void end_member(made *m) { m->ends[m->members++] = m->text.length; }

static void put_held(rng *r, made *m) {
  begin_member(r, m);
  put(&m->text, m->held.at, m->held.length);
  end_member(m);
  m->held.length = 0;
}

/* One member of a List or a Dictionary. One whose key is overwritten is put again after some of
 * those that follow. */
static void make_one(rng *r, made *m, keys *k) {
  char buffer[LONGEST_KEY];
  int is_dict = m->kind == SF_DICT;
  sf_text key = is_dict ? pick_key(r, k, buffer) : sf_text_of(NULL, 0);
  part_of here = {r, &m->text, m}, lost = {r, &m->text, NULL}, kept = {r, &m->held, m};
  int is_held = is_dict && m->held.length == 0 && one_in(r, 12);
  if (m->tree.nodes.length > 0)
    put_string(&m->canonical, ", ");
  put(&m->canonical, key.at, key.length);
  begin_member(r, m);
  put(&m->text, key.at, key.length);
  if (is_held) {
    make_member(m, lost, key, 1);
    put(&m->held, key.at, key.length);
    make_member(m, kept, key, 1);
  } else {
    make_member(m, here, key, is_dict);
  }
  end_member(m);
}

/* A field of a kind, with a spelling of about so many bytes. */
static void make_field(rng *r, made *m, uint32_t dialect, uint32_t kind, size_t budget) {
  m->dialect = dialect;
  m->kind = kind;
  m->budget = budget;
  m->text.length = m->canonical.length = m->held.length = m->members = 0;
  m->tree = sf_build(m->tree.nodes, m->tree.bytes);
  put_spaces(r, &m->text);
  if (kind == SF_ITEM) {
    part_of whole = {r, &m->text, m};
    begin_member(r, m);
    make_bare(m, whole, sf_text_of(NULL, 0), 0, 0);
    make_params(m, whole, is_long(m) || one_in(r, 2));
    end_member(m);
  } else {
    keys k = {0, 0};
    for (int goes_on = !one_in(r, 64); goes_on; goes_on = m->text.length < budget) {
      make_one(r, m, &k);
      if (m->held.length > 0 && one_in(r, 3))
        put_held(r, m);
    }
    if (m->held.length > 0)
      put_held(r, m);
  }
  put_spaces(r, &m->text);
}

static made new_made(void) {
  made m;
  memset(&m, 0, sizeof m);
  m.text = new_sink(SINK_SIZE);
  m.canonical = new_sink(SINK_SIZE);
  m.held = new_sink(SINK_SIZE);
  m.value.bytes = new_sink(SINK_SIZE);
  sink nodes = new_sink(SINK_SIZE * sizeof(sf_node)), bytes = new_sink(SINK_SIZE);
  m.tree = sf_build(sf_nodes_of((sf_node *)(void *)nodes.at, SINK_SIZE),
                    sf_buffer_of(bytes.at, bytes.capacity));
  m.starts = (size_t *)(void *)new_sink(SINK_SIZE * sizeof *m.starts).at;
  m.ends = (size_t *)(void *)new_sink(SINK_SIZE * sizeof *m.ends).at;
  return m;
}

/* What a change puts into a text: parts of fields, and what is wrong in most places. */
static const char *const fragments[] = {",",
                                        ", ",
                                        ",,",
                                        ";",
                                        ";;",
                                        ";a",
                                        ";a=",
                                        "=",
                                        "=?1",
                                        "=?0",
                                        "(",
                                        ")",
                                        "()",
                                        "( )",
                                        "((",
                                        "\"",
                                        "\"\"",
                                        "\\",
                                        "\\\"",
                                        "\\\\",
                                        "%\"",
                                        "%\"\"",
                                        "%",
                                        "%2",
                                        "%25",
                                        "%22",
                                        "%C3%BC",
                                        "%c3%bc",
                                        "%c0%80",
                                        "%c1%bf",
                                        "%c2%80",
                                        "%df%bf",
                                        "%e0%9f%bf",
                                        "%e0%a0%80",
                                        "%ed%9f%bf",
                                        "%ed%a0%80",
                                        "%ed%bf%bf",
                                        "%ee%80%80",
                                        "%ef%bf%bf",
                                        "%f0%8f%bf%bf",
                                        "%f0%90%80%80",
                                        "%f4%8f%bf%bf",
                                        "%f4%90%80%80",
                                        "%f5%80%80%80",
                                        "%ff",
                                        "%80",
                                        "%bf",
                                        "%c3",
                                        "%e2%82",
                                        "%f0%9f%98",
                                        ":",
                                        "::",
                                        ":YQ==:",
                                        ":YQ=:",
                                        ":YQ:",
                                        ":Y:",
                                        ":YWF=:",
                                        ":iZ==:",
                                        "=:",
                                        "====",
                                        "?",
                                        "?1",
                                        "?0",
                                        "?2",
                                        "@",
                                        "@1",
                                        "@-1",
                                        "@1.5",
                                        "-",
                                        "--1",
                                        "-0",
                                        "-0.0",
                                        "0.",
                                        "0.0",
                                        "00",
                                        "1.",
                                        "1.2345",
                                        "999999999999999",
                                        "1000000000000000",
                                        "-999999999999999",
                                        "999999999999.999",
                                        "1000000000000.0",
                                        "0000000000000001",
                                        "000000000000.001",
                                        "9999999999999.9",
                                        "*",
                                        "a",
                                        "A",
                                        "a.b-c_d*",
                                        "*a:b/c",
                                        "u=1",
                                        "i",
                                        "max-age=60",
                                        "hit",
                                        "fwd=miss",
                                        "\t",
                                        " ",
                                        "  ",
                                        "\r",
                                        "\n",
                                        "\r\n",
                                        "\x7f",
                                        "\x80",
                                        "\xc3\xbc",
                                        "\xff"};

/* What a text consists of for a change that moves, removes or puts a part of it: the bytes
 * between two of these. */
static int is_border(uint8_t byte) { return strchr(",;=() \":", byte) != NULL && byte != 0; }

/* A place in a text, at times one after which a part begins. */
static size_t pick_place(rng *r, const sink *text) {
  size_t place = below(r, (uint32_t)text->length + 1);
  if (one_in(r, 2))
    while (place > 0 && place < text->length && !is_border(text->at[place - 1]))
      ++place;
  return place;
}

/* Puts bytes in the place of others. */
static void replace(sink *text, size_t from, size_t to, const void *bytes, size_t length) {
  if (text->length - (to - from) + length > text->capacity)
    return;
  memmove(text->at + from + length, text->at + to, text->length - to);
  if (length > 0)
    memcpy(text->at + from, bytes, length);
  text->length = text->length - (to - from) + length;
}

/* The end of the digits of a text at a place. */
static size_t after_digits(const sink *text, size_t place) {
  while (place < text->length && text->at[place] >= '0' && text->at[place] <= '9')
    ++place;
  return place;
}

/* One change of a text; the other is a text from which a part may be taken. */
static void change(rng *r, sink *text, const sink *other) {
  static uint8_t taken[SINK_SIZE];
  size_t from = pick_place(r, text), to = pick_place(r, text), place, length;
  const char *word = fragments[below(r, sizeof fragments / sizeof *fragments)];
  if (from > to) {
    place = from;
    from = to;
    to = place;
  }
  switch (below(r, 10)) {
  case 0: /* a bit flipped */
    if (from < text->length)
      text->at[from] ^= (uint8_t)(1u << below(r, 8));
    break;
  case 1: /* another byte */
    if (from < text->length)
      text->at[from] = one_in(r, 2) ? (uint8_t)below(r, 256) : (uint8_t)word[0];
    break;
  case 2: /* a byte less */
    if (from < text->length)
      replace(text, from, from + 1, NULL, 0);
    break;
  case 3:
  case 4: /* a word, in the place of a byte or of none */
    replace(text, from, from < text->length && one_in(r, 3) ? from + 1 : from, word, strlen(word));
    break;
  case 5: /* a number at its limits */
    place = from;
    while (place < text->length && (text->at[place] < '0' || text->at[place] > '9'))
      ++place;
    length = (size_t)sprintf((char *)taken, "%lld",
                             (long long)pick_number(r, -SF_NUMBER_MAX, SF_NUMBER_MAX));
    replace(text, place, after_digits(text, place), taken, length);
    break;
  case 6: /* a part removed */
    replace(text, from, one_in(r, 2) || to - from < 16 ? to : from + 16, NULL, 0);
    break;
  case 7: /* a part twice, such as a member */
    length = to - from < 400 ? to - from : 400;
    memcpy(taken, text->at + from, length);
    place = one_in(r, 2) ? from + length : pick_place(r, text);
    replace(text, place, place, taken, length);
    if (one_in(r, 2))
      replace(text, place, place, ",", 1);
    break;
  case 8: /* the rest omitted */
    text->length = to;
    break;
  default: /* a part of another text */
    place = pick_place(r, other);
    length = other->length - place;
    if (length >= 32 && one_in(r, 2))
      length = 32;
    replace(text, from, one_in(r, 2) ? text->length : from, other->at + place, length);
  }
}

/* Some changes of a text. */
static void mutate(rng *r, sink *text, const sink *other) {
  for (uint32_t count = 1 + (one_in(r, 2) ? below(r, 4) : 0); count > 0; --count)
    change(r, text, other);
}

#endif
