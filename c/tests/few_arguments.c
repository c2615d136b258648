/* Tests of the calls of sf.h that have few arguments: what each returns, and each status, with the
 * examples of the RFCs, in C and in C++. c/test also tries calls with swapped arguments, which must
 * not compile.
 *
 * Prints 'N passed, M failed'. */
#define getrandom few_random_bytes /* a function below */
#include <sf.h>
#undef getrandom
#include <stdio.h>
#include <stdlib.h>
#include "decisions.h"

static long passed, failed;

static void check(int holds, const char *what, int line) {
  if (holds) {
    ++passed;
  } else {
    ++failed;
    fprintf(stderr, "few_arguments.c:%d: %s\n", line, what);
  }
}

/* That a fact holds. */
#define CHECK(fact) check((fact) != 0, #fact, __LINE__)

static int is(sf_text text, const char *expected) {
  size_t length = strlen(expected);
  return text.length == length && (length == 0 || memcmp(text.at, expected, length) == 0);
}

static const sf_seed seed = {{3, 1, 4, 1, 5, 9, 2, 6, 5, 3, 5, 8, 9, 7, 9, 3}};

/* A dialect and a kind that there are not. */
static sf_context no_dialect(void) {
  sf_context context = sf_context_of(seed, SF_RFC9651);
  context.dialect = 9652;
  return context;
}

static const sf_kind no_kind = (sf_kind)0;

/* What sf_random_seed calls: it does what the steps say, and then what the system does. A step is the
 * number of bytes that it writes, numbered from 1; below 0, it fails. */
enum { INTERRUPTED = -1, FAILS = -2, NO_STEP = -3 };
static const int *steps;
static int written_bytes;

#if defined(__cplusplus)
extern "C" {
#endif
ssize_t getrandom(void *bytes, size_t length, unsigned flags);

ssize_t few_random_bytes(void *bytes, size_t length, unsigned flags) {
  int step = steps == NULL ? (int)NO_STEP : *steps++;
  CHECK(flags == 0 && length >= 1 && length <= 16);
  if (step == NO_STEP)
    return getrandom(bytes, length, flags);
  errno = step == FAILS ? ENOSYS : EINTR;
  CHECK(step <= (int)length);
  for (int i = 0; i < step; ++i)
    ((unsigned char *)bytes)[i] = (unsigned char)++written_bytes;
  return step < 0 ? -1 : step;
}
#if defined(__cplusplus)
}
#endif

static void seeds(void) {
  static const struct {
    int steps[17], is_filled;
  } rows[] = {
      {{16}, 1},
      {{5, 11}, 1},
      {{1, 1, 1, 1, 1, 1, 1, 1, 1, 1, 1, 1, 1, 1, 1, 1}, 1},
      {{INTERRUPTED, INTERRUPTED, 16}, 1},
      {{15, INTERRUPTED, 1}, 1},
      {{FAILS, 16}, 0},
      {{15, FAILS, 1}, 0},
      {{7, INTERRUPTED, FAILS, 9}, 0},
      {{0, 16}, 0},
      {{3, 0, 13}, 0},
  };
  static const sf_seed filled = {{1, 2, 3, 4, 5, 6, 7, 8, 9, 10, 11, 12, 13, 14, 15, 16}};
  sf_seed first, second;
  for (size_t i = 0; i < sizeof rows / sizeof *rows; ++i) {
    steps = rows[i].steps;
    written_bytes = 0;
    first = seed;
    CHECK(sf_random_seed(&first) == rows[i].is_filled);
    CHECK(memcmp(&first, rows[i].is_filled ? &filled : &seed, sizeof first) == 0);
    CHECK(errno == (*(steps - 1) == FAILS ? ENOSYS : EINTR)); /* as the last call left it */
  }
  /* by the system; no byte stays in each of 20 seeds, but for a chance of 1 in 2^156 */
  steps = NULL;
  CHECK(sf_random_seed(&first) == 1 && sf_random_seed(&second) == 1);
  CHECK(memcmp(&first, &second, sizeof first) != 0);
  for (size_t i = 0; i < sizeof seed.bytes; ++i) {
    int is_new = 0;
    for (int k = 0; k < 20; ++k) {
      second = seed;
      CHECK(sf_random_seed(&second) == 1);
      is_new |= second.bytes[i] != seed.bytes[i];
    }
    CHECK(is_new);
  }
}

static void texts_and_buffers(void) {
  sf_context context = sf_context_of(seed, SF_RFC8941);
  CHECK(memcmp(&context.seed, &seed, sizeof seed) == 0);
  CHECK(context.dialect == SF_RFC8941 && context.invalid == 0 && context.refusal.offset == 0);
  CHECK(is(sf_cstr("u=1"), "u=1") && is(sf_cstr(""), "") && sf_cstr(NULL).length == 0);
  CHECK(is(sf_text_of("u=1, i", 3), "u=1") && sf_text_of(NULL, 0).length == 0);

  CHECK(sf_kind_of("item") == SF_ITEM && sf_kind_of("list") == SF_LIST);
  CHECK(sf_kind_of("dict") == SF_DICT && sf_kind_of("Dict") == 0 && sf_kind_of("") == 0);
  char printed[8];
  sf_text part = sf_text_of("u=1, i", 3);
  CHECK(snprintf(printed, sizeof printed, "<%.*s>", SF_ARGS(part)) == 5);
  CHECK(strcmp(printed, "<u=1>") == 0);

  char chars[9];
  sf_node nodes[7];
  sf_hop hops[5];
  sf_buffer buffer = SF_BUFFER(chars);
  CHECK(buffer.at == chars && buffer.capacity == 9 && buffer.length == 0 && buffer.required == 0);
  sf_nodes node_buffer = SF_NODES(nodes);
  CHECK(node_buffer.at == nodes && node_buffer.capacity == 7 && node_buffer.length == 0);
  sf_hops hop_buffer = SF_HOPS(hops);
  CHECK(hop_buffer.at == hops && hop_buffer.capacity == 5 && hop_buffer.length == 0);
  CHECK(is(sf_written(&buffer), ""));
  int numbers[3];
  CHECK(SF_LENGTH_OF(numbers) == 3);
}

static void lines(void) {
  char bytes[20];
  sf_lines field = sf_lines_in(SF_BUFFER(bytes));
  CHECK(is(sf_joined_text(&field), ""));
  /* RFC 9651 section 3.1: `Example-List: sugar, tea` and `Example-List: rum` */
  CHECK(sf_add_line(&field, sf_trim(" sugar, tea\t", 12)) == SF_OK);
  CHECK(is(sf_joined_text(&field), "sugar, tea"));
  CHECK(sf_add_line(&field, sf_cstr("rum")) == SF_OK);
  CHECK(is(sf_joined_text(&field), "sugar, tea, rum") && field.buffer.required == 0);
  CHECK(sf_add_line(&field, sf_cstr("milk")) == SF_SHORT && field.buffer.required == 21);
  CHECK(is(sf_joined_text(&field), "sugar, tea, rum"));
  char longer[21];
  memcpy(longer, bytes, field.buffer.length);
  field.buffer.at = longer;
  field.buffer.capacity = sizeof longer;
  CHECK(sf_add_line(&field, sf_cstr("milk")) == SF_OK);
  CHECK(is(sf_joined_text(&field), "sugar, tea, rum, milk"));
  /* an empty first line is a line */
  field = sf_lines_in(SF_BUFFER(bytes));
  CHECK(sf_add_line(&field, sf_text_of(NULL, 0)) == SF_OK && is(sf_joined_text(&field), ""));
  CHECK(sf_add_line(&field, sf_cstr("a")) == SF_OK && is(sf_joined_text(&field), ", a"));
  field.buffer.length = 21;
  CHECK(sf_add_line(&field, sf_cstr("a")) == SF_BAD_CALL);
  field = sf_lines_in(sf_buffer_of(NULL, 0));
  CHECK(sf_add_line(&field, sf_cstr("a")) == SF_SHORT && field.buffer.required == 1);
}

static void checking(void) {
  sf_context context = sf_context_of(seed, SF_RFC9651), old = sf_context_of(seed, SF_RFC8941);
  sf_context none = no_dialect();
  CHECK(sf_check_text(&context, SF_LIST, sf_cstr("sugar, tea, rum")) == SF_OK);
  CHECK(sf_check_text(&context, SF_ITEM, sf_cstr("@1659578233")) == SF_OK); /* section 3.3.7 */
  CHECK(sf_check_text(&old, SF_ITEM, sf_cstr("@1659578233")) == SF_REFUSED);
  CHECK(old.refusal.offset == 0 && old.refusal.found == '@');
  CHECK(sf_check_text(&context, no_kind, sf_cstr("a")) == SF_BAD_CALL);
  CHECK(sf_check_text(&none, SF_ITEM, sf_cstr("a")) == SF_BAD_CALL);

  char message[SF_REFUSAL_SIZE], shown[SF_REFUSAL_IN_TEXT_SIZE(3)], few[4];
  sf_buffer out = SF_BUFFER(message), in_text = SF_BUFFER(shown), small = SF_BUFFER(few);
  CHECK(sf_check_text(&context, SF_ITEM, sf_cstr("1 2")) == SF_REFUSED);
  CHECK(context.refusal.offset == 2 && context.refusal.found == '2' && context.refusal.may_end == 1);
#define FIRST_LINE "byte 0x32 '2' at place 2, expected a space or the end"
  CHECK(sf_write_refusal(&context.refusal, &out) == SF_OK && is(sf_written(&out), FIRST_LINE));
  CHECK(sf_write_refusal(&context.refusal, &small) == SF_SHORT);
  CHECK(small.length == 0 && small.required == strlen(FIRST_LINE));
  CHECK(sf_show_refusal(&context.refusal, sf_cstr("1 2"), &in_text) == SF_OK);
  CHECK(is(sf_written(&in_text), FIRST_LINE "\nline 1, place 2:\n1 2\n  ^"));
  CHECK(sf_show_refusal(&context.refusal, sf_cstr("1 2"), &small) == SF_SHORT);
  CHECK(small.length == 0 && small.required == in_text.length);
  CHECK(sf_show_excerpt(&context.refusal, sf_cstr("1 2"), 2, &out) == SF_OK);
  CHECK(is(sf_written(&out), FIRST_LINE "\n... 2\n    ^"));
  CHECK(sf_show_excerpt(&context.refusal, sf_cstr("1 2"), 2, &small) == SF_SHORT);
  CHECK(small.required == out.length && small.length == 0);
  /* an excerpt of one line of several; lines from 1 and places from 0 */
  {
    static const sf_text received[] = {{"a, b", 4}, {"", 0}, {"c, (d e, f", 10}};
    sf_refusal refused = context.refusal;
    sf_location location;
#define HEAD(place) "byte 0x32 '2' at place " place ", expected a space or the end\n"
    refused.offset = 2;
    location = sf_locate_in_lines(&refused, received, 3);
    CHECK(sf_show_excerpt_of_line(&location, 20, &out) == SF_OK);
    CHECK(is(sf_written(&out), HEAD("2") "line 1, place 2:\na, b\n  ^"));
    CHECK(location.index == 0 && is(location.line, "a, b") && location.refusal.may_end == 1);
    refused.offset = 5; /* in the comma and the space between two lines: after the first */
    location = sf_locate_in_lines(&refused, received, 3);
    CHECK(sf_show_excerpt_of_line(&location, 20, &out) == SF_OK);
    CHECK(is(sf_written(&out), HEAD("4") "line 1, place 4:\na, b\n    ^"));
    refused.offset = 6;
    location = sf_locate_in_lines(&refused, received, 3);
    CHECK(sf_show_excerpt_of_line(&location, 20, &out) == SF_OK);
    CHECK(is(sf_written(&out), "the text ended at place 0, expected a space\nline 2, place 0:\n\n^"));
    refused.offset = 5; /* a List that can't end there */
    refused.may_end = 0;
    location = sf_locate_in_lines(&refused, received, 3);
    CHECK(sf_show_excerpt_of_line(&location, 20, &out) == SF_OK);
    CHECK(is(sf_written(&out),
             "the text ended at place 4, expected a space\nline 1, place 4:\na, b\n    ^"));
    for (refused.offset = 0; refused.offset < 2; ++refused.offset) {
      location = sf_locate_in_lines(&refused, received, 3);
      CHECK(location.refusal.found == '2' && location.refusal.offset == refused.offset);
    }
    refused.may_end = 1;
    refused.offset = 15;
    location = sf_locate_in_lines(&refused, received, 3);
    CHECK(sf_show_excerpt_of_line(&location, 4, &out) == SF_OK);
    CHECK(is(sf_written(&out), HEAD("7") "line 3, place 7:\n... e, ...\n     ^"));
    CHECK(sf_show_excerpt_of_line(&location, 4, &small) == SF_SHORT);
    CHECK(small.required == out.length && small.length == 0);
    location.number = UINT64_MAX; /* as the caller counts */
    CHECK(sf_show_excerpt_of_line(&location, 4, &out) == SF_OK);
    CHECK(is(sf_written(&out), HEAD("7") "line 18446744073709551615, place 7:\n... e, ...\n     ^"));
    refused.offset = 99;
    location = sf_locate_in_lines(&refused, received, 3);
    CHECK(sf_show_excerpt_of_line(&location, 4, &out) == SF_OK);
    CHECK(is(sf_written(&out), HEAD("10") "line 3, place 10:\n...e, f\n       ^"));
    location = sf_locate_in_lines(&refused, NULL, 0);
    CHECK(sf_show_excerpt_of_line(&location, 4, &out) == SF_OK);
    CHECK(is(sf_written(&out), "the text ended at place 0, expected a space\nline 1, place 0:\n\n^"));
  }
  /* the refusal stays until another text is refused */
  CHECK(sf_check_text(&context, SF_ITEM, sf_cstr("1")) == SF_OK && context.refusal.offset == 2);

  /* white space at the ends (RFC 9651 section 4.2) */
  CHECK(sf_check_text(&context, SF_ITEM, sf_cstr(" 1 ")) == SF_OK);
  CHECK(sf_check_text(&context, SF_ITEM, sf_cstr("\t1")) == SF_REFUSED);
  CHECK(sf_check_text(&context, SF_ITEM, sf_cstr("1\t")) == SF_REFUSED);
  CHECK(sf_check_text(&context, SF_LIST, sf_cstr("\t1")) == SF_REFUSED);
  CHECK(sf_check_text(&context, SF_DICT, sf_cstr("\ta")) == SF_REFUSED);
  CHECK(sf_check_text(&context, SF_LIST, sf_cstr("1\t")) == SF_OK);
  CHECK(sf_check_text(&context, SF_DICT, sf_cstr("a\t")) == SF_OK);
  CHECK(sf_check_text(&context, SF_ITEM, sf_trim("\t1\t", 3)) == SF_OK);
  CHECK(sf_check_text(&context, SF_DICT, sf_trim(" \ta\t ", 5)) == SF_OK);
}

static void canonical_texts(void) {
  sf_context context = sf_context_of(seed, SF_RFC9651), none = no_dialect();
  char text[SF_CANONICAL_SIZE(40)];
  sf_buffer out = SF_BUFFER(text), empty = sf_buffer_of(NULL, 0);
  /* RFC 9651 section 3.1.2 */
  CHECK(sf_write_canonical(&context, SF_ITEM, sf_cstr("1; a; b=?0"), &out) == SF_OK);
  CHECK(is(sf_written(&out), "1;a;b=?0") && out.required == 0);
  CHECK(sf_write_canonical(&context, SF_ITEM, sf_cstr("1; a; b=?0"), &empty) == SF_SHORT);
  CHECK(empty.length == 0 && empty.required == 8);
  CHECK(sf_write_canonical(&context, SF_ITEM, sf_cstr("1; a; b="), &out) == SF_REFUSED);
  CHECK(context.refusal.offset == 8 && context.refusal.found == SF_ENDED && out.length == 0);
  CHECK(sf_write_canonical(&context, no_kind, sf_cstr("1"), &out) == SF_BAD_CALL);
  CHECK(sf_write_canonical(&none, SF_ITEM, sf_cstr("1"), &out) == SF_BAD_CALL);
  CHECK(sf_write_canonical(&context, SF_LIST, sf_cstr(""), &empty) == SF_OK && empty.length == 0);

  uint32_t equal = 7;
  sf_text first = sf_cstr("u=5, i"), second = sf_cstr("u=5,  i=?1");
  CHECK(sf_equal_texts(&context, SF_DICT, first, second, &equal) == SF_OK && equal == 1);
  CHECK(sf_equal_texts(&context, SF_DICT, first, sf_cstr("i, u=5"), &equal) == SF_OK && equal == 0);
  equal = 7;
  CHECK(sf_equal_texts(&context, SF_DICT, sf_cstr("u=,"), second, &equal) == SF_REFUSED);
  CHECK(context.refusal.offset == 2 && equal == 0);
  CHECK(sf_equal_texts(&context, SF_DICT, first, sf_cstr("u="), &equal) == SF_SECOND_REFUSED);
  CHECK(context.refusal.found == SF_ENDED && equal == 0);
  CHECK(sf_equal_texts(&none, SF_DICT, first, second, &equal) == SF_BAD_CALL);
}

static void trees(void) {
  sf_context context = sf_context_of(seed, SF_RFC9651), none = no_dialect();
  sf_node nodes[16];
  char bytes[64], text[128];
  sf_tree tree = sf_tree_in(SF_NODES(nodes), SF_BUFFER(bytes));
  sf_buffer out = SF_BUFFER(text);
  CHECK(sf_tree_end(&tree) == nodes && sf_find_member(&tree, "a") == NULL);

  /* RFC 9651 section 3.2 */
  sf_text from = sf_cstr("en=\"Applepie\", da=:w4ZibGV0w6ZydGU=:");
  CHECK(sf_read_tree(&context, SF_DICT, from, &tree) == SF_OK);
  CHECK(tree.text.at == from.at && tree.kind == SF_DICT && tree.nodes.length == 2);
  CHECK(tree.bytes.length == 11 && sf_tree_end(&tree) == nodes + 2);
  const sf_node *en = sf_find_member(&tree, "en"), *da = sf_find_member(&tree, "da");
  CHECK(en == nodes && en->type == SF_STRING && da == nodes + 1 && da->type == SF_BYTE_SEQUENCE);
  if (en == NULL || da == NULL)
    return;
  CHECK(is(sf_node_key(&tree, en), "en") && is(sf_node_text(&tree, en), "Applepie"));
  CHECK(is(sf_node_key(&tree, da), "da"));
  CHECK(is(sf_node_text(&tree, da), "\xc3\x86" "blet\xc3\xa6rte"));
  CHECK(sf_find_member(&tree, "e") == NULL && sf_find_member(&tree, "enn") == NULL);
  CHECK(sf_find_parameter(&tree, en, "en") == NULL);

  /* RFC 9651 section 3.1.2: a parameter of an Item, of an Inner List, and of one of its Items */
  CHECK(sf_read_tree(&context, SF_LIST,
                     sf_cstr("abc;a=1;b=2; cde_456, (ghi;jk=4 l);q=\"9\";r=w"), &tree) == SF_OK);
  CHECK(tree.nodes.length == 10 && tree.bytes.length == 0);
  size_t count = 0;
  for (const sf_node *node = tree.nodes.at; node < sf_tree_end(&tree); node += node->size)
    ++count;
  CHECK(count == 2);
  const sf_node *abc = nodes, *inner = nodes + abc->size, *ghi = inner + 1;
  CHECK(is(sf_node_text(&tree, abc), "abc") && is(sf_node_key(&tree, abc), ""));
  CHECK(inner->type == SF_INNER_LIST && is(sf_node_text(&tree, inner), ""));
  const sf_node *b = sf_find_parameter(&tree, abc, "b"), *q = sf_find_parameter(&tree, inner, "q");
  const sf_node *jk = sf_find_parameter(&tree, ghi, "jk");
  CHECK(b != NULL && b->number == 2 && q != NULL && is(sf_node_text(&tree, q), "9"));
  CHECK(jk != NULL && jk->number == 4);
  CHECK(sf_find_parameter(&tree, abc, "q") == NULL && sf_find_parameter(&tree, inner, "jk") == NULL);
  CHECK(sf_find_parameter(&tree, inner, "r") == nodes + 9);
  /* a parameter has none, not even itself */
  CHECK(sf_find_parameter(&tree, b, "b") == NULL && sf_find_parameter(&tree, jk, "jk") == NULL);
  CHECK(sf_find_parameter(&tree, q, "q") == NULL && sf_next_parameter(b, NULL) == NULL);

  /* of a type: that of the bare item, or SF_INNER_LIST; NULL is no node and has no parameters */
  static const struct {
    const char *key;
    sf_type type;
  } types[] = {{"a", SF_INNER_LIST}, {"b", SF_INTEGER}, {"c", SF_DECIMAL}, {"d", SF_STRING}, {"e", SF_TOKEN},
               {"f", SF_BYTE_SEQUENCE}, {"g", SF_BOOLEAN}, {"h", SF_DATE}, {"i", SF_DISPLAY_STRING}};
  sf_node more[20];
  char decoded[32];
  sf_tree typed = sf_tree_in(SF_NODES(more), SF_BUFFER(decoded));
#define BARE_ITEMS "b=1;x=y, c=1.0, d=\"\", e=t, f=::, g, h=@1, i=%\"\""
  CHECK(sf_read_tree(&context, SF_DICT, sf_cstr("a=(b);x=y, " BARE_ITEMS), &typed) == SF_OK);
  for (size_t i = 0; i < sizeof types / sizeof *types; ++i) {
    sf_node *member = sf_find_member(&typed, types[i].key);
    CHECK(member != NULL && member->type == types[i].type);
    for (size_t k = 0; k < sizeof types / sizeof *types; ++k)
      CHECK(sf_find_member_of(&typed, types[i].key, types[k].type) == (i == k ? member : NULL));
  }
  CHECK(sf_find_member_of(&typed, "", SF_TOKEN) == NULL && sf_find_member_of(&typed, "x", SF_TOKEN) == NULL);
  CHECK(sf_find_member_of(&typed, "b", (sf_type)0) == NULL);
  CHECK(sf_find_member_of(&tree, "b", SF_INTEGER) == NULL); /* of a List */
  for (int i = 0; i < 2; ++i) {
    sf_node *member = sf_find_member(&typed, types[i].key), *x = sf_find_parameter(&typed, member, "x");
    CHECK(x != NULL && x->role == (i == 0 ? SF_INNER_PARAMETER : SF_PARAMETER));
    CHECK(sf_find_parameter_of(&typed, member, "x", SF_TOKEN) == x);
    CHECK(sf_find_parameter_of(&typed, member, "x", SF_STRING) == NULL);
    CHECK(sf_find_parameter_of(&typed, member, "y", SF_TOKEN) == NULL);
    CHECK(sf_find_parameter_of(&typed, member, "x", SF_INNER_LIST) == NULL);
  }
  CHECK(sf_find_parameter(&typed, NULL, "x") == NULL);
  CHECK(sf_find_parameter_of(&typed, NULL, "x", SF_TOKEN) == NULL);
  CHECK(sf_read_tree(&context, SF_DICT, sf_cstr(BARE_ITEMS), &typed) == SF_OK);
  const sf_node *items = typed.nodes.at;
  for (size_t i = 1; i < sizeof types / sizeof *types; ++i, items += items->size)
    CHECK(sf_find_member_of(&typed, types[i].key, types[i].type) == items);

  /* each status; the tree is empty then */
  sf_tree small = sf_tree_in(sf_nodes_of(nodes, 9), SF_BUFFER(bytes));
  from = sf_cstr("abc;a=1;b=2; cde_456, (ghi;jk=4 l);q=\"9\";r=w");
  CHECK(sf_read_tree(&context, SF_LIST, from, &small) == SF_TOO_MANY);
  CHECK(small.nodes.length == 0 && small.nodes.required == 10 && small.text.length == 0);
  CHECK(sf_tree_end(&small) == small.nodes.at);
  small = sf_tree_in(SF_NODES(nodes), sf_buffer_of(bytes, 1));
  CHECK(sf_read_tree(&context, SF_ITEM, sf_cstr(":YWI=:"), &small) == SF_SHORT);
  CHECK(small.bytes.required >= 2 && small.bytes.length == 0 && small.nodes.length == 0);
  CHECK(sf_read_tree(&context, SF_DICT, sf_cstr("a =1"), &small) == SF_REFUSED);
  CHECK(context.refusal.offset == 2 && small.nodes.length == 0 && small.nodes.required == 0);
  CHECK(sf_read_tree(&context, no_kind, sf_cstr("a"), &small) == SF_BAD_CALL);
  CHECK(sf_read_tree(&none, SF_LIST, sf_cstr("a"), &small) == SF_BAD_CALL);
  CHECK(sf_read_tree(&context, SF_LIST, sf_text_of(NULL, 0), &small) == SF_OK);
  CHECK(small.nodes.length == 0 && small.kind == SF_LIST);

  /* changed and written */
  char few[8];
  tree = sf_tree_in(SF_NODES(nodes), SF_BUFFER(few));
  CHECK(sf_read_tree(&context, SF_DICT, sf_cstr("a=1,  b;x=:YQ:"), &tree) == SF_OK);
  CHECK(sf_write_tree(&context, &tree, &out) == SF_OK);
  CHECK(is(sf_written(&out), "a=1, b;x=:YQ==:"));
  sf_node *a = sf_find_member(&tree, "a"), *member = sf_find_member(&tree, "b");
  CHECK(sf_set_text(&tree, a, SF_STRING, sf_cstr("longer word")) == SF_SHORT);
  CHECK(tree.bytes.required == 12 && a->type == SF_INTEGER && tree.bytes.length == 1);
  CHECK(sf_set_text(&tree, a, SF_STRING, sf_cstr("word")) == SF_OK && tree.bytes.length == 5);
  CHECK(is(sf_node_text(&tree, a), "word"));
  sf_set_number(sf_find_parameter(&tree, member, "x"), SF_DECIMAL, 1500);
  CHECK(sf_write_tree(&context, &tree, &out) == SF_OK);
  CHECK(is(sf_written(&out), "a=\"word\", b;x=1.5"));
  CHECK(out.length <= SF_WRITTEN_SIZE(tree.nodes.length, tree.text.length + tree.bytes.length));
  sf_buffer empty = sf_buffer_of(NULL, 0);
  CHECK(sf_write_tree(&context, &tree, &empty) == SF_SHORT && empty.required == out.length);
  sf_set_number(member, SF_INTEGER, SF_NUMBER_MAX + 1);
  CHECK(sf_write_tree(&context, &tree, &out) == SF_INVALID && context.invalid == 1);
  CHECK(out.length == 0);
  tree.kind = 0;
  CHECK(sf_write_tree(&context, &tree, &out) == SF_BAD_CALL);
}

static void builders(void) {
  sf_context context = sf_context_of(seed, SF_RFC9651);
  sf_node nodes[12], parsed[12];
  char bytes[64], decoded[16], text[128];
  sf_buffer out = SF_BUFFER(text), empty = sf_buffer_of(NULL, 0);
  /* RFC 9651 section 3.1.1 */
  sf_builder field = sf_build(SF_NODES(nodes), SF_BUFFER(bytes));
  sf_begin_inner_list(&field, NULL);
  sf_put_string(&field, NULL, "foo");
  sf_param_integer(&field, "a", 1);
  sf_param_integer(&field, "b", 2);
  sf_end_inner_list(&field);
  sf_param_integer(&field, "lvl", 5);
  sf_tree tree = sf_tree_in(SF_NODES(parsed), SF_BUFFER(decoded));
  CHECK(sf_read_tree(&context, SF_LIST, sf_cstr("(\"bar\" \"baz\");lvl=1"), &tree) == SF_OK);
  sf_put_copy(&field, &tree, tree.nodes.at);
  CHECK(sf_write_built(&context, SF_LIST, &field, &out) == SF_OK);
  CHECK(is(sf_written(&out), "(\"foo\";a=1;b=2);lvl=5, (\"bar\" \"baz\");lvl=1"));
  CHECK(sf_write_built(&context, SF_LIST, &field, &empty) == SF_SHORT);
  CHECK(empty.required == out.length);
  CHECK(sf_write_built(&context, SF_DICT, &field, &out) == SF_INVALID && context.invalid == 0);
  CHECK(sf_write_built(&context, no_kind, &field, &out) == SF_BAD_CALL);
  sf_end_inner_list(&field);
  CHECK(field.status == SF_BAD_CALL);
  CHECK(sf_write_built(&context, SF_LIST, &field, &out) == SF_BAD_CALL && out.length == 0);
  field = sf_build(sf_nodes_of(nodes, 1), sf_buffer_of(bytes, 1));
  sf_put_token(&field, NULL, "ab");
  CHECK(field.status == SF_SHORT);
}

static void priorities(void) {
  sf_context context = sf_context_of(seed, SF_RFC8941), none = no_dialect();
  sf_priority_flags client = SF_PRIORITY_UNSET;
  sf_response_priority_flags server = {0, 0, 0, 0};
  /* RFC 9218 section 8 */
  CHECK(sf_read_priority(&context, sf_cstr("u=5, i"), &client) == SF_OK);
  CHECK(client.urgency == 5 && client.incremental == 1);
  CHECK(sf_read_response_priority(&context, sf_cstr("u=1"), &server) == SF_OK);
  CHECK(server.urgency == 1 && server.has_urgency == 1 && server.has_incremental == 0);
  sf_priority_flags merged = sf_merge_priority(client, server);
  CHECK(merged.urgency == 1 && merged.incremental == 1);
  CHECK(sf_read_priority(&context, sf_cstr("u=5, "), &client) == SF_REFUSED);
  CHECK(context.refusal.offset == 5 && client.urgency == 5);
  CHECK(sf_read_response_priority(&context, sf_cstr("u=@1"), &server) == SF_REFUSED);
  CHECK(context.refusal.offset == 2 && server.urgency == 1);
  CHECK(sf_read_priority(&none, sf_cstr("u=5"), &client) == SF_BAD_CALL);
  CHECK(sf_read_response_priority(&none, sf_cstr("u=5"), &server) == SF_BAD_CALL);

  char text[SF_PRIORITY_SIZE], changed[SF_PRIORITY_CHANGE_SIZE(16)];
  sf_buffer out = SF_BUFFER(text), longer = SF_BUFFER(changed), empty = sf_buffer_of(NULL, 0);
  CHECK(sf_write_priority(client, &out) == SF_OK && is(sf_written(&out), "u=5, i"));
  CHECK(sf_write_priority(client, &empty) == SF_SHORT && empty.required == 6);
  CHECK(sf_write_response_priority(server, &out) == SF_OK && is(sf_written(&out), "u=1"));
  CHECK(sf_write_response_priority(server, &empty) == SF_SHORT && empty.required == 3);
  sf_priority_flags forgotten = {1, 0, 0, 0};
  CHECK(sf_write_priority(forgotten, &out) == SF_INVALID && out.length == 0);
  server.has_urgency = 0;
  CHECK(sf_write_response_priority(server, &out) == SF_INVALID && out.length == 0);
  sf_priority_flags urgency = {0, 0, 1, 0};
  CHECK(sf_change_priority(&context, sf_cstr("x=(a  b), u=5, i"), urgency, &longer) == SF_OK);
  CHECK(is(sf_written(&longer), "x=(a b), u=0, i"));
  CHECK(sf_change_priority(&context, sf_cstr("u=5"), urgency, &empty) == SF_SHORT);
  CHECK(empty.required == 3);
  CHECK(sf_change_priority(&context, sf_cstr("u="), urgency, &longer) == SF_REFUSED);
  CHECK(context.refusal.offset == 2 && longer.length == 0);
  CHECK(sf_change_priority(&context, sf_cstr("u=5"), forgotten, &longer) == SF_INVALID);
  /* by the dialect of the context: RFC 8941 has no Date */
  sf_context newest = sf_context_of(seed, SF_RFC9651);
  CHECK(sf_change_priority(&context, sf_cstr("x=@1, i"), urgency, &longer) == SF_REFUSED);
  CHECK(context.refusal.offset == 2 && context.refusal.found == '@' && longer.length == 0);
  CHECK(sf_change_priority(&newest, sf_cstr("x=@1, i"), urgency, &longer) == SF_OK);
  CHECK(is(sf_written(&longer), "x=@1, i, u=0"));
  CHECK(sf_change_priority(&none, sf_cstr("u=5"), urgency, &longer) == SF_BAD_CALL);
  CHECK(sf_change_priority(&context, sf_cstr("u="), forgotten, &longer) == SF_INVALID);
}

static void decisions(void) {
  sf_context context = sf_context_of(seed, SF_RFC8941), none = no_dialect();
  sf_response response = {0, 0, 0, 0};
  sf_rules rules;
  sf_decision decision;
  memset(&rules, 0x5a, sizeof rules);
  sf_rules before = rules;
  CHECK(sf_read_rules(&context, sf_cstr(""), &rules) == SF_EMPTY);
  CHECK(sf_read_rules(&context, sf_cstr("max-age=600,"), &rules) == SF_REFUSED);
  CHECK(context.refusal.offset == 12 && context.refusal.found == SF_ENDED);
  CHECK(sf_read_rules(&none, sf_cstr("max-age=600"), &rules) == SF_BAD_CALL);
  CHECK(memcmp(&rules, &before, sizeof rules) == 0);
  /* RFC 9213 section 3.1 */
  CHECK(sf_read_rules(&context, sf_cstr("max-age=600"), &rules) == SF_OK);
  CHECK(sf_decide(&rules, SF_SHARED_CACHE, &response, &decision) == SF_OK);
  CHECK(decision.reuse == SF_REUSE_FRESH && decision.seconds == 600);
  rules.invalid_max_age = 1; /* beside a max-age that is valid, which then has no effect */
  CHECK(sf_decide(&rules, SF_SHARED_CACHE, &response, &decision) == SF_OK);
  CHECK(decision.reuse == SF_REUSE_STALE && decision.cause == SF_BY_INVALID_MAX_AGE);

  /* each target list, and the field that counts; -1 if none does */
  static const struct {
    const char *fields[3];
    int index;
  } rows[] = {{{"max-age=600", "no-store", ""}, 0}, {{"", "max-age=600", "no-store"}, 1},
              {{"a b", "", "none"}, 2},             {{"max-age=60, x=@1", "a", ""}, 1},
              {{"", "", ""}, -1},                   {{"a b", "\ta", "=,"}, -1}};
  for (size_t i = 0; i < sizeof rows / sizeof *rows; ++i) {
    sf_text fields[3];
    char texts[64];
    sf_span spans[3];
    sf_lines all = sf_lines_in(SF_BUFFER(texts));
    for (int k = 0; k < 3; ++k) {
      fields[k] = sf_cstr(rows[i].fields[k]);
      spans[k].at = all.buffer.length;
      spans[k].length = fields[k].length;
      all.begun = 0;
      CHECK(sf_add_line(&all, fields[k]) == SF_OK);
    }
    sf_choice choice;
    memset(&choice, 0x5a, sizeof choice);
    sf_choice unset = choice;
    size_t index = 99;
    sf_rules same;
    memset(&same, 0x5a, sizeof same);
    uint32_t status = sf_choose_rules(&context, fields, 3, &choice);
    CHECK(status == (rows[i].index < 0 ? SF_EMPTY : SF_OK));
    CHECK(sf_select_rules(&seed, SF_RFC8941, texts, all.buffer.length, spans, 3, &index, &same) ==
          status);
    if (status == SF_OK)
      CHECK(choice.index == (size_t)rows[i].index && choice.index == index &&
            memcmp(&choice.rules, &same, offsetof(sf_rules, is_public) + 1) == 0);
    else
      CHECK(memcmp(&choice, &unset, sizeof choice) == 0);
    CHECK(sf_choose_rules(&none, fields, 3, &choice) == SF_BAD_CALL);
  }
  sf_choice choice;
  CHECK(sf_choose_rules(&context, NULL, 0, &choice) == SF_EMPTY);
}

/* Cache-Control, Expires and Date line by line, with white space around each value. */
static void fallbacks(void) {
  sf_fallback fallback = sf_fallback_begin(), none = fallback;
  sf_response response = {0, 0, 0, 0};
  CHECK(fallback.is_refused == 0 && fallback.expires.lines == 0 && fallback.date.lines == 0);
  CHECK(fallback.rules.policy.has_max_age == 0 && fallback.rules.is_public == 0);
  CHECK(sf_fallback_lifetime(&fallback, 9, &response) == SF_EMPTY && response.has_lifetime == 0);
  CHECK(sf_add_fallback_line(&fallback, SF_FALLBACK_CACHE_CONTROL, sf_cstr("\tMax-Age=60, ")) ==
        SF_OK);
  CHECK(fallback.rules.policy.max_age == 60 && fallback.expires.lines == 0);
  CHECK(sf_add_fallback_line(&fallback, SF_FALLBACK_EXPIRES,
                             sf_cstr("\tSun, 06 Nov 1994 08:49:37 GMT ")) == SF_OK);
  CHECK(fallback.expires.lines == 1 && fallback.expires.seconds == 784111777);
  CHECK(sf_fallback_lifetime(&fallback, 784111770, &response) == SF_OK);
  CHECK(response.has_lifetime == 1 && response.lifetime == 7 && response.age == 0);
  CHECK(sf_add_fallback_line(&fallback, SF_FALLBACK_DATE,
                             sf_cstr(" Sun, 06 Nov 1994 08:49:36 GMT\t")) == SF_OK);
  CHECK(sf_fallback_lifetime(&fallback, 784111770, &response) == SF_OK && response.lifetime == 1);
  CHECK(sf_add_fallback_line(&fallback, SF_FALLBACK_CACHE_CONTROL, sf_cstr("a b")) == SF_REFUSED);
  CHECK(fallback.is_refused == 1 && fallback.rules.policy.no_store == 1);
  CHECK(fallback.rules.policy.has_max_age == 0 && fallback.expires.lines == 1);
  CHECK(sf_add_fallback_line(&fallback, (sf_fallback_field)70, sf_cstr("a")) == SF_BAD_CALL);
  CHECK(sf_add_fallback_line(&none, SF_FALLBACK_EXPIRES, sf_cstr(NULL)) == SF_OK);
  CHECK(none.expires.lines == 2);
}

/* What the fields of a row say if no targeted field decides. */
static sf_fallback fallback_of(const struct decision_row *row) {
  static const sf_fallback_field fields[] = {SF_FALLBACK_CACHE_CONTROL, SF_FALLBACK_EXPIRES,
                                             SF_FALLBACK_DATE};
  sf_fallback fallback = sf_fallback_begin();
  for (size_t i = 0; i < 3; ++i)
    for (const char *const *line = row->lines[i]; *line != NULL; ++line)
      sf_add_fallback_line(&fallback, fields[i], sf_cstr(*line));
  return fallback;
}

/* What may be stored. The crate sf has the same rows. */
static void what_may_be_stored(void) {
  static const struct {
    sf_decision decision;
    int may;
  } decisions_made[] = {
      {{0, SF_REUSE_NOT_STORED, SF_BY_NO_STORE, 0, 0}, 0},
      {{0, SF_REUSE_NOT_STORED, SF_BY_NO_STORE, 1, 0}, 0},
      {{0, SF_REUSE_NOT_STORED, SF_BY_PRIVATE, 1, 0}, 0},
      {{0, SF_REUSE_NOT_STORED, SF_BY_MUST_UNDERSTAND, 1, 0}, 0},
      {{60, SF_REUSE_FRESH, SF_BY_MAX_AGE, 1, 0}, 1},
      {{60, SF_REUSE_FRESH, SF_BY_EXPIRES, 0, 0}, 1},
      {{60, SF_REUSE_FRESH, SF_BY_S_MAXAGE, 1, 0}, 1},
      {{0, SF_REUSE_STALE, SF_BY_MAX_AGE, 1, 0}, 1},
      {{0, SF_REUSE_STALE, SF_BY_EXPIRES, 0, 0}, 1},
      {{0, SF_REUSE_STALE, SF_BY_INVALID_MAX_AGE, 0, 0}, 1},
      {{0, SF_REUSE_REVALIDATE, SF_BY_NO_CACHE, 0, 0}, 0},
      {{0, SF_REUSE_REVALIDATE, SF_BY_NO_CACHE, 1, 0}, 1},
      {{0, SF_REUSE_REVALIDATE, SF_BY_MUST_REVALIDATE, 0, 0}, 1},
      {{0, SF_REUSE_REVALIDATE, SF_BY_PROXY_REVALIDATE, 0, 0}, 1},
      {{0, SF_REUSE_REVALIDATE, SF_BY_S_MAXAGE, 1, 0}, 1},
      {{0, SF_REUSE_REVALIDATE, SF_BY_INVALID_S_MAXAGE, 0, 0}, 1},
      {{0, SF_REUSE_UNSPECIFIED, SF_BY_NOTHING, 0, 0}, 0},
      {{0, SF_REUSE_UNSPECIFIED, SF_BY_NOTHING, 1, 0}, 1},
      {{0, 0, SF_BY_NOTHING, 1, 0}, 0},
  };
  for (size_t i = 0; i < sizeof decisions_made / sizeof *decisions_made; ++i)
    CHECK(sf_may_store(&decisions_made[i].decision) == decisions_made[i].may);

  /* of the rows of tests/decisions.txt these may not be stored */
  static const int not_stored[] = {6,  7,  8,  10, 12, 14, 15, 23, 25, 27, 28, 43,
                                   47, 48, 50, 51, 56, 63, 64, 66, 72, 73, 74};
  sf_context context = sf_context_of(seed, SF_RFC8941);
  for (size_t i = 0; i < sizeof decision_rows / sizeof *decision_rows; ++i) {
    const struct decision_row *row = &decision_rows[i];
    sf_text targets[] = {sf_cstr(row->targets[0]), sf_cstr(row->targets[1])};
    sf_response response = row->response;
    sf_choice choice;
    sf_decision decision;
    int may = 1;
    for (size_t k = 0; k < sizeof not_stored / sizeof *not_stored; ++k)
      may = may && not_stored[k] != row->row;
    sf_status status = sf_choose_rules(&context, targets, 2, &choice);
    CHECK(status == (row->index == DECISION_FALLBACK ? SF_EMPTY : SF_OK));
    if (status == SF_EMPTY) {
      sf_fallback fallback = fallback_of(row);
      sf_fallback_lifetime(&fallback, 0, &response);
      choice.rules = fallback.rules;
    }
    CHECK(sf_decide(&choice.rules, row->cache, &response, &decision) == SF_OK);
    CHECK(decision.reuse == row->decision.reuse && decision.cause == row->decision.cause);
    CHECK(decision.seconds == row->decision.seconds && sf_may_store(&decision) == may);
  }
}

/* The lines of heads, their fields, and the places of refusals in them. */
static void heads(void) {
  sf_text rest = sf_cstr("a: 1\r\nb\n\nc");
  CHECK(is(sf_take_line(&rest), "a: 1\r\n") && is(sf_take_line(&rest), "b\n"));
  CHECK(is(sf_take_line(&rest), "\n") && is(sf_take_line(&rest), "c"));
  CHECK(rest.length == 0 && is(sf_take_line(&rest), ""));
  sf_text nothing = sf_text_of(NULL, 0);
  CHECK(sf_take_line(&nothing).length == 0 && nothing.at == NULL);

  sf_head_line few[7];
  char bytes[16];
  sf_head head = sf_head_in(SF_HEAD_LINES(few), SF_BUFFER(bytes));
  CHECK(head.number == 1 && head.lines.length == 0 && head.lines.capacity == 7);
  head.number = 12;
  CHECK(sf_add_head_line(&head, sf_cstr("HTTP/1.1 200 OK\r\n")) == SF_OK);
  CHECK(head.lines.length == 0 && head.is_incomplete == 0);
  CHECK(sf_add_head_line(&head, sf_cstr("Priority: \tu=5 \r\n")) == SF_OK);
  CHECK(sf_add_head_line(&head, sf_cstr("Server : a:b")) == SF_OK);
  CHECK(is(few[0].received, "Priority: \tu=5 ") && head.is_incomplete == 0);
  CHECK(sf_add_head_line(&head, sf_cstr(": a")) == SF_REFUSED && head.is_incomplete == 1);
  CHECK(sf_add_head_line(&head, sf_cstr(" x: folded")) == SF_REFUSED);
  CHECK(sf_add_head_line(&head, sf_cstr("\tx: folded")) == SF_REFUSED);
  CHECK(sf_add_head_line(&head, sf_cstr("PRIORITY:i;x, a=(1 2\n")) == SF_OK);
  CHECK(sf_add_head_line(&head, sf_cstr("!#$%&'*+-.^_`|~09azAZ: u=1")) == SF_OK);
  CHECK(sf_add_head_line(&head, sf_cstr("priority:")) == SF_OK);
  CHECK(sf_add_head_line(&head, sf_cstr("Date \t:now")) == SF_OK);
  CHECK(sf_add_head_line(&head, sf_cstr("\r\n")) == SF_EMPTY);
  CHECK(sf_add_head_line(&head, sf_cstr("")) == SF_EMPTY);
  CHECK(sf_add_head_line(&head, sf_text_of(NULL, 0)) == SF_EMPTY && head.number == 25);
  CHECK(head.lines.length == 6 && few[0].number == 13 && few[1].number == 14);
  CHECK(is(few[0].name, "Priority") && is(few[0].value, "u=5"));
  CHECK(is(few[1].name, "Server") && is(few[1].value, "a:b"));
  CHECK(sf_add_field_line(&head, sf_cstr("Age"), sf_cstr(" 20 ")) == SF_OK);
  CHECK(is(few[6].value, "20") && few[6].number == 25 && head.number == 26);
  /* three lines are no field lines, and two have white space before the colon */
  CHECK(is(few[6].received, " 20 ") && head.faults.length == 0 && head.faults.required == 5);
  CHECK(sf_add_head_line(&head, sf_cstr("a: b")) == SF_SHORT && head.lines.required == 8);
  CHECK(head.number == 26 && head.lines.length == 7);

  /* names that are no token (RFC 9110 section 5.1), and values with a CR, LF or NUL (section 5.5) */
  static const sf_text wrong[] = {
      {"Priority\0: u=1", 14}, {"Date\r:now", 9},       {"Cache Control: no-store", 23}, {"Age\v: 1", 7},
      {"\x80: 1", 4},          {"(a): 1", 6},           {"a\xc3\xa9: 1", 6},              {"a,b: 1", 6},
      {" : 1", 4},             {"Age: 20\r\r\n", 10},   {"Age: 2\r0", 8},                {"Age: 2\n0", 8},
      {"Age: 2\0" "0", 8},     {"Age: 20\n\n", 9},      {"Age: 20\0", 8},               {"Age:\r", 5}};
  sf_head_line one[1];
  sf_head strict = sf_head_in(SF_HEAD_LINES(one), SF_BUFFER(bytes));
  for (size_t i = 0; i + 1 < sizeof wrong / sizeof *wrong; ++i)
    CHECK(sf_add_head_line(&strict, wrong[i]) == SF_REFUSED && strict.number == i + 2);
  CHECK(strict.lines.length == 0 && sf_add_head_line(&strict, wrong[15]) == SF_OK);
  CHECK(is(one[0].name, "Age") && is(one[0].value, ""));

  CHECK(!sf_is_valid_status(99) && sf_is_valid_status(100) && sf_is_valid_status(599));
  CHECK(!sf_is_valid_status(600) && !sf_is_valid_status(999));
  CHECK(sf_has_field(&head, "pRIORITY") == 1 && sf_has_field(&head, "Via") == 0);
  CHECK(sf_has_field(&strict, "age") == 1 && sf_has_field(&strict, "") == 0);

  sf_text text = sf_cstr("before");
  CHECK(sf_find_field(&head, "Via", &text) == SF_OK && text.length == 0);
  CHECK(sf_find_field(&head, "server", &text) == SF_OK && text.at == few[1].value.at);
  CHECK(is(text, "a:b") && head.joined.length == 0);
  text = sf_cstr("before");
  /* `u=5, i;x, a=(1 2, ` has 18 bytes */
  CHECK(sf_find_field(&head, "Priority", &text) == SF_SHORT && head.joined.required == 18);
  CHECK(is(text, "before") && head.joined.length == 0);
  char more[22];
  head.joined = SF_BUFFER(more);
  CHECK(sf_find_field(&head, "pRIORITY", &text) == SF_OK && is(text, "u=5, i;x, a=(1 2, "));
  CHECK(head.joined.length == 18 && head.joined.required == 0);
  head.joined.length = 23; /* past its end */
  CHECK(sf_find_field(&head, "Priority", &text) == SF_SHORT);
  head.joined.length = 3; /* after what is there */
  more[2] = 'x';
  CHECK(sf_find_field(&head, "Priority", &text) == SF_OK && text.at == more + 3 && more[2] == 'x');

  /* 3 bytes are in the first line, 2 between two lines, 11 in the second, and none in the third; the
   * values begin at the places 11, 9 and 9 of the lines as they were received */
  static const struct {
    uint64_t offset, at, number;
    size_t index;
    int32_t found;
  } rows[] = {{0, 11, 13, 0, 'x'}, {2, 13, 13, 0, 'x'}, {3, 14, 13, 0, -1}, {4, 14, 13, 0, -1},
              {5, 9, 18, 2, 'x'},  {15, 19, 18, 2, 'x'}, {16, 20, 18, 2, -1}, {17, 20, 18, 2, -1},
              {18, 9, 20, 4, -1},  {99, 9, 20, 4, -1}};
  for (size_t i = 0; i < sizeof rows / sizeof *rows; ++i) {
    sf_refusal refusal;
    memset(&refusal, 0, sizeof refusal);
    refusal.offset = rows[i].offset;
    refusal.found = 'x';
    sf_location location = sf_locate_in_head(&refusal, &head, "priority");
    CHECK(location.refusal.offset == rows[i].at && location.number == rows[i].number);
    CHECK(location.index == rows[i].index && location.refusal.found == rows[i].found);
    CHECK(location.line.at == few[location.index].received.at);
    CHECK(location.line.length == few[location.index].received.length);
    location = sf_locate_in_head(&refusal, &head, "Via");
    CHECK(location.line.length == 0 && location.number == 1 && location.refusal.offset == 0);
  }
  /* a value that the program changed is no part of what was received */
  few[0].value = sf_cstr("u=5");
  sf_refusal refusal;
  memset(&refusal, 0, sizeof refusal);
  refusal.offset = 2;
  sf_location location = sf_locate_in_head(&refusal, &head, "priority");
  CHECK(location.refusal.offset == 2 && location.line.at == few[0].value.at);
}

/* A message of a fault in a file, compared with what is expected; NULL is without a file. */
static int says_in(const char *file, const sf_fault *fault, size_t most, const char *expected) {
  char message[SF_FAULT_IN_SIZE(32, 32, 80)], again[1024];
  size_t length = strlen(expected);
  sf_buffer out = SF_BUFFER(message), exact = sf_buffer_of(again, length);
  sf_buffer one_less = sf_buffer_of(again, length - 1);
  memset(again, 'z', sizeof again);
  return sf_show_fault_in(file, fault, most, &out) == SF_OK && is(sf_written(&out), expected) &&
         sf_show_fault_in(file, fault, most, &one_less) == SF_SHORT && one_less.length == 0 &&
         one_less.required == length && again[0] == 'z' &&
         sf_show_fault_in(file, fault, most, &exact) == SF_OK && is(sf_written(&exact), expected) &&
         again[length] == 'z';
}

/* A message of a fault, likewise. */
static int says(const sf_fault *fault, size_t most, const char *expected) {
  char message[SF_FAULT_SIZE(32, 80)];
  sf_buffer out = SF_BUFFER(message);
  return sf_show_fault(fault, most, &out) == SF_OK && is(sf_written(&out), expected) &&
         says_in(NULL, fault, most, expected) && says_in("", fault, most, expected);
}

/* The first lines of messages (RFC 9112 sections 2.1, 3 and 4), and whole heads. */
static void whole_heads(void) {
  static const struct {
    const char *line;
    uint32_t status, is_request; /* both are 0 if it is no start line */
    const char *start, *method;
  } first[] = {
      {"HTTP/1.1 200 OK", 200, 0, "HTTP/1.1 200 OK", ""},
      {"HTTP/1.1 404", 404, 0, "HTTP/1.1 404", ""},
      {"HTTP/1.0 100 \r\n", 100, 0, "HTTP/1.0 100 ", ""},
      {"HTTP/2 999 ", 999, 0, "HTTP/2 999 ", ""},
      {"HTTP/1.1 200 \xe9\t\1", 200, 0, "HTTP/1.1 200 \xe9\t\1", ""},
      {"GET / HTTP/1.1", 0, 1, "GET / HTTP/1.1", "GET"},
      {"GET http://a:80/ HTTP/1.1\n", 0, 1, "GET http://a:80/ HTTP/1.1", "GET"},
      {"OPTIONS * HTTP/1.1\r\n", 0, 1, "OPTIONS * HTTP/1.1", "OPTIONS"},
      {"GET / HTTP/3", 0, 1, "GET / HTTP/3", "GET"},
      {"m!~ \xe9 HTTP/1.1", 0, 1, "m!~ \xe9 HTTP/1.1", "m!~"},
      {"HTTP/2 200", 200, 0, "HTTP/2 200", ""}, /* as curl prints it */
      {"HTTP/1.1", 0, 0, "", ""},
      {"HTTP/1.1 ", 0, 0, "", ""},
      {"HTTP/1.1 20", 0, 0, "", ""},
      {"HTTP/1.1 2000 OK", 0, 0, "", ""},
      {"HTTP/1.1 2x0 OK", 0, 0, "", ""},
      {"HTTP/1.1 099 OK", 0, 0, "", ""},
      {"HTTP/1.1  200 OK", 0, 0, "", ""},
      {"HTTP/1.1x 200 OK", 0, 0, "", ""},
      {"HTTP/1. 200 OK", 0, 0, "", ""},
      {"HTTP/x.1 200 OK", 0, 0, "", ""},
      {"http/1.1 200 OK", 0, 0, "", ""},
      {"GET /", 0, 0, "", ""},
      {"GET /HTTP/1.1", 0, 0, "", ""},
      {"GET / HTTP/1.1 ", 0, 0, "", ""},
      {"GET / HTTP/1.1x", 0, 0, "", ""},
      {"GET  HTTP/1.1", 0, 0, "", ""},
      {"GET HTTP/1.1", 0, 0, "", ""},
      {"G\"T / HTTP/1.1", 0, 0, "", ""},
      {" / HTTP/1.1", 0, 0, "", ""},
      {"  HTTP/1.1", 0, 0, "", ""},
      {"ICY 200 OK", 0, 0, "", ""},
      /* "No whitespace is allowed in the request-target" (RFC 9112 section 3.2), and what is white
       * space for some recipients is "SP, HTAB, VT (%x0B), FF (%x0C), or bare CR" (section 3) */
      {"GET /a b HTTP/1.1", 0, 0, "", ""},
      {"GET /a\tb HTTP/1.1", 0, 0, "", ""},
      {"GET /a\vb HTTP/1.1", 0, 0, "", ""},
      {"GET /a\fb HTTP/1.1", 0, 0, "", ""},
      {"GET  / HTTP/1.1", 0, 0, "", ""},
      {"GET /  HTTP/1.1", 0, 0, "", ""},
      {"GET /\t HTTP/1.1", 0, 0, "", ""},
      {"GET  HTTP/1.1 HTTP/2", 0, 0, "", ""},
      /* "A recipient of such a bare CR MUST consider that element to be invalid" (RFC 9112 section
       * 2.2) */
      {"HTTP/1.1 200 OK\rCache-Control: no-store", 0, 0, "", ""},
      {"HTTP/1.1 200 OK\nCache-Control: no-store", 0, 0, "", ""},
      {"HTTP/1.1 200 \r\r\n", 0, 0, "", ""},
      {"GET /\r HTTP/1.1", 0, 0, "", ""},
      {"GET / \r\nHTTP/1.1", 0, 0, "", ""},
      {"\rGET / HTTP/1.1", 0, 0, "", ""},
  };
  sf_head_line lines[3];
  sf_fault faults[2];
  for (size_t i = 0; i < sizeof first / sizeof *first; ++i) {
    int is_start = first[i].status != 0 || first[i].is_request;
    sf_head head = sf_head_in(SF_HEAD_LINES(lines), sf_buffer_of(NULL, 0));
    CHECK(sf_add_head_line(&head, sf_cstr(first[i].line)) == (is_start ? SF_OK : SF_REFUSED));
    CHECK(head.status == first[i].status && head.is_request == first[i].is_request);
    CHECK(head.lines.length == 0 && head.is_incomplete == !is_start && head.number == 2);
    CHECK(is(head.start, first[i].start) && is(head.method, first[i].method));
    /* only the first line is a start line */
    CHECK(sf_add_head_line(&head, sf_cstr(first[i].line)) == SF_REFUSED && head.is_incomplete == 1);
    CHECK(head.status == first[i].status && head.is_request == first[i].is_request);
    CHECK(is(head.start, first[i].start) && is(head.method, first[i].method));
    for (int k = 0; k < 3; ++k) {
      static const char *const before[] = {"a: b", "a", "\r\n"};
      head = sf_head_in(SF_HEAD_LINES(lines), sf_buffer_of(NULL, 0));
      sf_status status = k == 2 ? SF_EMPTY : k == 1 ? SF_REFUSED : SF_OK;
      CHECK(sf_add_head_line(&head, sf_cstr(before[k])) == status);
      CHECK(sf_add_head_line(&head, sf_cstr(first[i].line)) ==
            (k == 2 && is_start ? SF_OK : SF_REFUSED));
      CHECK(is(head.start, k == 2 ? first[i].start : ""));
    }
  }
  /* likewise with a NUL */
  for (int k = 0; k < 2; ++k) {
    sf_text line = k == 0 ? sf_text_of("HTTP/1.1 200 OK\0", 16) : sf_text_of("GET /\0 HTTP/1.1", 15);
    sf_head head = sf_head_in(SF_HEAD_LINES(lines), sf_buffer_of(NULL, 0));
    CHECK(sf_add_head_line(&head, line) == SF_REFUSED && head.status == 0 && head.is_request == 0);
    CHECK(is(head.start, "") && is(head.method, "") && head.is_incomplete == 1 && head.is_begun == 1);
  }

  /* the places where lines are no field lines, and some of the bytes that are expected there */
  static const struct {
    const char *line;
    size_t length, at;
    int32_t found;
    uint32_t may_end;
    const char *expected, *barred;
  } rows[] = {
      {"Age", 3, 3, -1, 0, ":a! \t", "\"("},          {"Age 20", 6, 4, '2', 0, ": \t", "2a"},
      {" x", 2, 0, ' ', 0, "a0~", ": \t"},             {": x", 3, 0, ':', 0, "a0~", ": \t"},
      {"a\xe9: x", 5, 1, 0xe9, 0, ":a ", "("},          {"a: b\0" "c", 6, 4, 0, 1, "c \t~", "\r\n\1"},
      {"a:\r", 4, 2, '\r', 1, "c \t", "\r"},           {"a: b\n\n", 6, 4, '\n', 1, "c", "\n"},
      {"a b: c", 6, 2, 'b', 0, ":", "b"},
  };
  for (size_t i = 0; i < sizeof rows / sizeof *rows; ++i) {
    sf_head head = sf_head_in(SF_HEAD_LINES(lines), sf_buffer_of(NULL, 0));
    head.faults = SF_FAULTS(faults);
    CHECK(sf_add_head_line(&head, sf_cstr("HTTP/1.1 200")) == SF_OK);
    CHECK(sf_add_head_line(&head, sf_text_of(rows[i].line, rows[i].length)) == SF_REFUSED);
    const sf_refusal *refusal = &faults[0].location.refusal;
    CHECK(head.faults.length == 1 && faults[0].location.number == 2);
    CHECK(refusal->offset == rows[i].at && refusal->found == rows[i].found);
    CHECK(refusal->may_end == rows[i].may_end);
    for (const char *byte = rows[i].expected; *byte != 0; ++byte)
      CHECK((*byte < 64 ? refusal->expected_low >> *byte : refusal->expected_high >> (*byte - 64)) & 1);
    for (const char *byte = rows[i].barred; *byte != 0; ++byte)
      CHECK(!((*byte < 64 ? refusal->expected_low >> *byte : refusal->expected_high >> (*byte - 64)) & 1));
  }
  /* white space before the colon: "A server MUST reject .. any received request message", and "a
   * proxy MUST remove any such whitespace from a response message" (RFC 9112 section 5.1) */
  for (int is_request = 0; is_request < 2; ++is_request) {
    sf_head head = sf_head_in(SF_HEAD_LINES(lines), sf_buffer_of(NULL, 0));
    head.faults = SF_FAULTS(faults);
    CHECK(sf_add_head_line(&head, sf_cstr(is_request ? "GET / HTTP/1.1" : "HTTP/1.1 200")) == SF_OK);
    CHECK(sf_add_head_line(&head, sf_cstr("Age \t: 1")) == (is_request ? SF_REFUSED : SF_OK));
    CHECK(head.faults.length == 1 && faults[0].location.refusal.offset == 3);
    CHECK(is_request || (is(lines[0].name, "Age") && is(lines[0].value, "1")));
    CHECK(head.is_incomplete == (uint32_t)is_request);
    CHECK(sf_add_head_line(&head, sf_cstr("Age: 1")) == SF_OK && head.faults.required == 1);
  }

  /* a request line whose target has a colon is no field line */
  {
    sf_head head = sf_head_in(SF_HEAD_LINES(lines), sf_buffer_of(NULL, 0));
    CHECK(sf_add_head_line(&head, sf_cstr("CONNECT :443 HTTP/1.1")) == SF_OK);
    CHECK(head.is_request == 1 && head.lines.length == 0 && head.number == 2);
    CHECK(sf_add_head_line(&head, sf_cstr("Authorization : x")) == SF_REFUSED);
  }
  /* an empty line whose LF is missing does not end a head */
  {
    sf_text rest = sf_cstr("HTTP/1.1 200\r\na: b\r\n\r"), more = sf_cstr("\nrest");
    sf_head head = sf_head_in(SF_HEAD_LINES(lines), sf_buffer_of(NULL, 0));
    head.faults = SF_FAULTS(faults);
    CHECK(sf_take_head(&head, &rest) == SF_REFUSED && head.is_truncated == 1 && rest.length == 0);
    CHECK(says(&faults[0], 40, "line 3, place 1: the head is cut off: its last line has no line end\n?\n ^"));
    CHECK(sf_take_head(&head, &more) == SF_OK && head.is_truncated == 0 && is(more, "rest"));
  }

  sf_text rest = sf_cstr("\r\n\nHTTP/1.1 200 OK\r\nAge: 1\r\nVia\r\n\tx\r\nVia: a\r\n\r\nDate: x\r\n");
  sf_head head = sf_head_in(SF_HEAD_LINES(lines), sf_buffer_of(NULL, 0));
  head.faults = SF_FAULTS(faults);
  CHECK(sf_take_head(&head, &rest) == SF_OK && is(rest, "Date: x\r\n"));
  CHECK(head.lines.length == 2 && is(lines[1].value, "a") && lines[1].number == 7);
  CHECK(head.is_incomplete == 1 && head.is_truncated == 0 && head.number == 9);
  CHECK(head.faults.length == 2 && head.faults.required == 2 && head.status == 200);
  CHECK(faults[0].reason == SF_FAULT_NOT_A_LINE && *faults[0].field == 0);
  CHECK(faults[0].location.number == 5 && is(faults[0].location.line, "Via"));
  CHECK(faults[1].location.number == 6 && is(faults[1].location.line, "\tx"));
  CHECK(sf_take_head(&head, &rest) == SF_REFUSED && rest.length == 0 && head.lines.length == 3);
  CHECK(head.is_truncated == 1 && head.faults.length == 2 && head.faults.required == 3);
  rest = sf_cstr("b: c\n\n");
  CHECK(sf_take_head(&head, &rest) == SF_SHORT && is(rest, "b: c\n\n"));
  CHECK(head.lines.required == 4 && head.number == 10);
  head = sf_head_in(SF_HEAD_LINES(lines), sf_buffer_of(NULL, 0));
  rest = sf_text_of(NULL, 0);
  CHECK(sf_take_head(&head, &rest) == SF_REFUSED && rest.at == NULL && head.is_truncated == 1);
  rest = sf_cstr("\r\n");
  CHECK(sf_take_head(&head, &rest) == SF_REFUSED && rest.length == 0);
  head = sf_head_in(SF_HEAD_LINES(lines), sf_buffer_of(NULL, 0));
  head.faults = SF_FAULTS(faults);
  rest = sf_cstr("HTTP/1.1 2x0\na: b\n");
  CHECK(sf_take_head(&head, &rest) == SF_REFUSED && head.faults.length == 2);
  CHECK(says(&faults[0], 40, "line 1, place 9: neither a start line (no status code of three digits) "
                             "nor a field line (no colon after the name)\nHTTP/1.1 2x0\n         ^"));
  CHECK(says(&faults[1], 40, "line 3, place 0: the head does not end with an empty line"));
  head = sf_head_in(SF_HEAD_LINES(lines), sf_buffer_of(NULL, 0));
  rest = sf_cstr("a: b\n\r\nc");
  CHECK(sf_take_head(&head, &rest) == SF_OK && is(rest, "c") && head.is_truncated == 0);

  /* a head that is cut off may have had another directive (RFC 9111 section 3.3), and the status code
   * of the start line counts if the exchange has none */
  static const struct {
    const char *head;
    uint32_t status, obstacle;
  } stored[] = {
      {"HTTP/1.1 200 OK\n\n", 0, SF_NO_OBSTACLE},
      {"HTTP/1.1 200 OK\nAge: 1\n", 0, SF_BARRED_HEAD},
      {"HTTP/1.1 200 OK\nCache-Control: no-store\n", 0, SF_BARRED_DIRECTIVE},
      {"HTTP/1.1 500 No\n\n", 0, SF_BARRED_UNPERMITTED},
      {"HTTP/1.1 103 Early\nCache-Control: max-age=1\n\n", 0, SF_BARRED_STATUS},
      {"HTTP/1.1 500 No\n\n", 200, SF_NO_OBSTACLE},
      {"HTTP/1.1 2x0 OK\n\n", 200, SF_BARRED_HEAD},
      {"HTTP/1.1 200 OK\rCache-Control: no-store\n\n", 200, SF_BARRED_HEAD},
      {"GET / HTTP/1.1\nCache-Control: max-age=1\n\n", 200, SF_BARRED_NO_RESPONSE},
      {"GET / HTTP/1.1\nCache-Control: max-age=1\n", 200, SF_BARRED_NO_RESPONSE},
      {"GET / HTTP/1.1\nCache-Control: private\n\n", 200, SF_BARRED_DIRECTIVE},
      {"Cache-Control: max-age=1\n\n", 0, SF_NO_OBSTACLE},
  };
  sf_context context = sf_context_of(seed, SF_RFC8941);
  for (size_t i = 0; i < sizeof stored / sizeof *stored; ++i) {
    sf_exchange exchange = sf_exchange_of(SF_SHARED_CACHE, 0);
    sf_verdict verdict;
    exchange.status = stored[i].status;
    head = sf_head_in(SF_HEAD_LINES(lines), sf_buffer_of(NULL, 0));
    rest = sf_cstr(stored[i].head);
    (void)!sf_take_head(&head, &rest);
    CHECK(sf_decide_response(&context, &head, NULL, 0, &exchange, &verdict) == SF_OK);
    CHECK(verdict.obstacle == stored[i].obstacle);
  }

  /* what the request has counts, and what it may have had */
  enum { AUTHORIZED = 1, INCOMPLETE = 2, OTHER_METHOD = 4, NO_STORE = 8 };
  static const struct {
    const char *head;
    unsigned flags;
    const char *fault; /* of Cache-Control */
  } requests[] = {
      {"GET / HTTP/1.1\r\nAge: 1\r\n\r\n", 0, NULL},
      {"GET / HTTP/1.1\r\nauthorization: a\r\n\r\n", AUTHORIZED, NULL},
      {"GET / HTTP/1.1\r\nAuthorization : a\r\n\r\n", INCOMPLETE, NULL},
      {"GET / HTTP/1.1\r\nAge: 1\r\n", INCOMPLETE, NULL},
      {"GET / HTTP/1.1\r\nb\r\nAuthorization: a\r\n", AUTHORIZED | INCOMPLETE, NULL},
      {"GET /\r\n\r\n", INCOMPLETE, NULL},
      {"HTTP/1.1 200 OK\r\n\r\n", INCOMPLETE, NULL},
      {"Age: 1\r\n\r\n", 0, NULL}, /* a head without a start line, as of HTTP/2 */
      /* "the request method is understood by the cache" (RFC 9111 section 3); most "only support
       * GET and HEAD" (RFC 9110 section 9.2.3) */
      {"HEAD / HTTP/1.1\n\n", 0, NULL},
      {"POST / HTTP/1.1\n\n", OTHER_METHOD, NULL},
      {"get / HTTP/1.1\n\n", OTHER_METHOD, NULL},
      {"GETS / HTTP/1.1\n\n", OTHER_METHOD, NULL},
      {"GE / HTTP/1.1\n\n", OTHER_METHOD, NULL},
      {"GEM / HTTP/1.1\n\n", OTHER_METHOD, NULL},
      {"HEAT / HTTP/1.1\n\n", OTHER_METHOD, NULL},
      {"HEADS / HTTP/1.1\n\n", OTHER_METHOD, NULL},
      {"PUT / HTTP/1.1\nAuthorization: a\nCache-Control: no-store\n",
       OTHER_METHOD | AUTHORIZED | INCOMPLETE | NO_STORE, NULL},
      /* "a cache MUST NOT store any part of either this request or any response to it" (RFC 9111
       * section 5.2.1.5) */
      {"GET / HTTP/1.1\ncache-control: max-age=0, No-Store\n\n", NO_STORE, NULL},
      {"GET / HTTP/1.1\nCache-Control: no-cache\nCache-Control: no-store\n\n", NO_STORE, NULL},
      {"GET / HTTP/1.1\nCache-Control: no-store, must-understand\n\n", NO_STORE, NULL},
      {"GET / HTTP/1.1\nCache-Control: no-cache, x=\"no-store\"\n\n", 0, NULL},
      {"GET / HTTP/1.1\nCache-Control:\nPragma: no-store\nExpires: x\nDate: x\n\n", 0, NULL},
      {"GET / HTTP/1.1\nCDN-Cache-Control: no-store\n\n", 0, NULL},
      {"GET / HTTP/1.1\nCache-Control: a\nCache-Control: b c\nCache-Control: d e\n\n", NO_STORE,
       "line 3, place 17: Cache-Control: byte 0x63 'c', expected `,` or the end\n"
       "Cache-Control: b c\n                 ^"},
  };
  for (size_t i = 0; i < sizeof requests / sizeof *requests; ++i) {
    sf_exchange exchange = sf_exchange_of(SF_SHARED_CACHE, 0);
    sf_fault more_faults[4];
    head = sf_head_in(SF_HEAD_LINES(lines), sf_buffer_of(NULL, 0));
    head.faults = SF_FAULTS(more_faults);
    rest = sf_cstr(requests[i].head);
    (void)!sf_take_head(&head, &rest);
    size_t before = head.faults.length;
    CHECK(exchange.is_authorized == 0 && exchange.is_request_incomplete == 0);
    CHECK(exchange.is_other_method == 0 && exchange.is_request_no_store == 0);
    for (int twice = 0; twice < 2; ++twice) {
      sf_set_request(&exchange, &head);
      CHECK(exchange.is_authorized == (requests[i].flags & AUTHORIZED) / AUTHORIZED);
      CHECK(exchange.is_request_incomplete == (requests[i].flags & INCOMPLETE) / INCOMPLETE);
      CHECK(exchange.is_other_method == (requests[i].flags & OTHER_METHOD) / OTHER_METHOD);
      CHECK(exchange.is_request_no_store == (requests[i].flags & NO_STORE) / NO_STORE);
      CHECK(head.faults.length == before + (requests[i].fault != NULL));
      CHECK(requests[i].fault == NULL || says(&more_faults[before], 40, requests[i].fault));
      /* what was there before */
      exchange.is_authorized = exchange.is_request_incomplete = 7;
      exchange.is_other_method = exchange.is_request_no_store = 7;
    }
  }

  /* why lines are no field lines, in words: the second of a response, or its first that is not empty */
  static const struct {
    const char *line;
    size_t length;
    const char *second, *first;
  } whys[] = {
      {" x: y", 5,
       "line 2, place 0: not a field line: it continues the line before\n x: y\n^",
       "line 2, place 0: neither a start line (no method, target and version) nor a field line (it "
       "begins with white space)\n x: y\n^"},
      {"\t", 1,
       "line 2, place 0: not a field line: it continues the line before\n?\n^",
       "line 2, place 0: neither a start line (no method, target and version) nor a field line (it "
       "begins with white space)\n?\n^"},
      {": y", 3,
       "line 2, place 0: not a field line: no name\n: y\n^",
       "line 2, place 0: neither a start line (no method, target and version) nor a field line (no "
       "name)\n: y\n^"},
      {"\xe9", 1,
       "line 2, place 0: not a field line: no name\n?\n^",
       "line 2, place 0: neither a start line (no method, target and version) nor a field line (no "
       "name)\n?\n^"},
      {"a b: c", 6,
       "line 2, place 2: not a field line: no colon after the name\na b: c\n  ^",
       "line 2, place 5: neither a start line (no method, target and version) nor a field line (no "
       "colon after the name)\na b: c\n     ^"},
      {"a", 1,
       "line 2, place 1: not a field line: no colon after the name\na\n ^",
       "line 2, place 1: neither a start line (no method, target and version) nor a field line (no "
       "colon after the name)\na\n ^"},
      {"GET /", 5,
       "line 2, place 4: not a field line: no colon after the name\nGET /\n    ^",
       "line 2, place 5: neither a start line (no method, target and version) nor a field line (no "
       "colon after the name)\nGET /\n     ^"},
      {"GET / HTTP/1.1x", 15,
       "line 2, place 4: not a field line: no colon after the name\nGET / HTTP/1.1x\n    ^",
       "line 2, place 14: neither a start line (no method, target and version) nor a field line (no "
       "colon after the name)\nGET / HTTP/1.1x\n              ^"},
      {"GET / HTTP/x", 12,
       "line 2, place 4: not a field line: no colon after the name\nGET / HTTP/x\n    ^",
       "line 2, place 6: neither a start line (no method, target and version) nor a field line (no "
       "colon after the name)\nGET / HTTP/x\n      ^"},
      {"GET / HTTP/1.1 ", 15,
       "line 2, place 4: not a field line: no colon after the name\nGET / HTTP/1.1 \n    ^",
       "line 2, place 14: neither a start line (no method, target and version) nor a field line (no "
       "colon after the name)\nGET / HTTP/1.1 \n              ^"},
      {"GET /\tHTTP/1.1", 14,
       "line 2, place 4: not a field line: no colon after the name\nGET /?HTTP/1.1\n    ^",
       "line 2, place 5: neither a start line (no method, target and version) nor a field line (no "
       "colon after the name)\nGET /?HTTP/1.1\n     ^"},
      {"GET  HTTP/1.1", 13,
       "line 2, place 5: not a field line: no colon after the name\nGET  HTTP/1.1\n     ^",
       "line 2, place 4: neither a start line (no method, target and version) nor a field line (no "
       "colon after the name)\nGET  HTTP/1.1\n    ^"},
      {"GET ", 4,
       "line 2, place 4: not a field line: no colon after the name\nGET \n    ^",
       "line 2, place 4: neither a start line (no method, target and version) nor a field line (no "
       "colon after the name)\nGET \n    ^"},
      {"GET /a b HTTP/1.1", 17,
       "line 2, place 4: not a field line: no colon after the name\nGET /a b HTTP/1.1\n    ^",
       "line 2, place 6: neither a start line (white space in the target) nor a field line (no colon "
       "after the name)\nGET /a b HTTP/1.1\n      ^"},
      {"GET /a\tb HTTP/1.1", 17,
       "line 2, place 4: not a field line: no colon after the name\nGET /a?b HTTP/1.1\n    ^",
       "line 2, place 6: neither a start line (white space in the target) nor a field line (no colon "
       "after the name)\nGET /a?b HTTP/1.1\n      ^"},
      {"GET  / HTTP/2", 13,
       "line 2, place 5: not a field line: no colon after the name\nGET  / HTTP/2\n     ^",
       "line 2, place 4: neither a start line (white space in the target) nor a field line (no colon "
       "after the name)\nGET  / HTTP/2\n    ^"},
      {"GET /  HTTP/1.1", 15,
       "line 2, place 4: not a field line: no colon after the name\nGET /  HTTP/1.1\n    ^",
       "line 2, place 5: neither a start line (white space in the target) nor a field line (no colon "
       "after the name)\nGET /  HTTP/1.1\n     ^"},
      {"ICY 200 OK", 10,
       "line 2, place 4: not a field line: no colon after the name\nICY 200 OK\n    ^",
       "line 2, place 8: neither a start line (no method, target and version) nor a field line (no "
       "colon after the name)\nICY 200 OK\n        ^"},
      {"HTTP", 4,
       "line 2, place 4: not a field line: no colon after the name\nHTTP\n    ^",
       "line 2, place 4: neither a start line (no method, target and version) nor a field line (no "
       "colon after the name)\nHTTP\n    ^"},
      {"HTTP 1.1", 8,
       "line 2, place 5: not a field line: no colon after the name\nHTTP 1.1\n     ^",
       "line 2, place 8: neither a start line (no method, target and version) nor a field line (no "
       "colon after the name)\nHTTP 1.1\n        ^"},
      {"http/1.1 200", 12,
       "line 2, place 4: not a field line: no colon after the name\nhttp/1.1 200\n    ^",
       "line 2, place 4: neither a start line (no method, target and version) nor a field line (no "
       "colon after the name)\nhttp/1.1 200\n    ^"},
      {"a: \0", 4,
       "line 2, place 3: not a field line: a CR, LF or NUL in the value\na: ?\n   ^",
       "line 2, place 3: neither a start line (a CR, LF or NUL in it) nor a field line (a CR, LF "
       "or NUL in the value)\na: ?\n   ^"},
      {"a\r: b", 5,
       "line 2, place 1: not a field line: no colon after the name\na?: b\n ^",
       "line 2, place 1: neither a start line (a CR, LF or NUL in it) nor a field line (no colon "
       "after the name)\na?: b\n ^"},
      {"a b: c\n\r", 8,
       "line 2, place 2: not a field line: no colon after the name\na b: c?\n  ^",
       "line 2, place 6: neither a start line (a CR, LF or NUL in it) nor a field line (no colon "
       "after the name)\na b: c?\n      ^"},
      {" \n\0", 3,
       "line 2, place 0: not a field line: it continues the line before\n ??\n^",
       "line 2, place 1: neither a start line (a CR, LF or NUL in it) nor a field line (it begins "
       "with white space)\n ??\n ^"},
      {"\0", 1,
       "line 2, place 0: not a field line: no name\n?\n^",
       "line 2, place 0: neither a start line (a CR, LF or NUL in it) nor a field line (no "
       "name)\n?\n^"},
      {"GET /\r HTTP/1.1", 15,
       "line 2, place 4: not a field line: no colon after the name\nGET /? HTTP/1.1\n    ^",
       "line 2, place 5: neither a start line (a CR, LF or NUL in it) nor a field line (no colon "
       "after the name)\nGET /? HTTP/1.1\n     ^"},
      {"HTTP/1.1 200 OK\rA: b", 20,
       "line 2, place 4: not a field line: no colon after the name\nHTTP/1.1 200 OK?A: b\n    ^",
       "line 2, place 15: neither a start line (a CR, LF or NUL in it) nor a field line (no colon "
       "after the name)\nHTTP/1.1 200 OK?A: b\n               ^"},
      {"HTTP/x\r1", 8,
       "line 2, place 4: not a field line: no colon after the name\nHTTP/x?1\n    ^",
       "line 2, place 6: neither a start line (a CR, LF or NUL in it) nor a field line (no colon "
       "after the name)\nHTTP/x?1\n      ^"},
      {"HTTP/", 5,
       "line 2, place 4: not a field line: no colon after the name\nHTTP/\n    ^",
       "line 2, place 5: neither a start line (no version) nor a field line (no colon after the "
       "name)\nHTTP/\n     ^"},
      {"HTTP/x.1 200 OK", 15,
       "line 2, place 4: not a field line: no colon after the name\nHTTP/x.1 200 OK\n    ^",
       "line 2, place 5: neither a start line (no version) nor a field line (no colon after the "
       "name)\nHTTP/x.1 200 OK\n     ^"},
      {"HTTP/ 200 OK", 12,
       "line 2, place 4: not a field line: no colon after the name\nHTTP/ 200 OK\n    ^",
       "line 2, place 5: neither a start line (no version) nor a field line (no colon after the "
       "name)\nHTTP/ 200 OK\n     ^"},
      {"HTTP/1.1 2x0", 12,
       "line 2, place 4: not a field line: no colon after the name\nHTTP/1.1 2x0\n    ^",
       "line 2, place 9: neither a start line (no status code of three digits) nor a field line "
       "(no colon after the name)\nHTTP/1.1 2x0\n         ^"},
      {"HTTP/1.1", 8,
       "line 2, place 4: not a field line: no colon after the name\nHTTP/1.1\n    ^",
       "line 2, place 8: neither a start line (no status code of three digits) nor a field line "
       "(no colon after the name)\nHTTP/1.1\n        ^"},
      {"HTTP/1.1 ", 9,
       "line 2, place 4: not a field line: no colon after the name\nHTTP/1.1 \n    ^",
       "line 2, place 9: neither a start line (no status code of three digits) nor a field line "
       "(no colon after the name)\nHTTP/1.1 \n         ^"},
      {"HTTP/1.1  200", 13,
       "line 2, place 4: not a field line: no colon after the name\nHTTP/1.1  200\n    ^",
       "line 2, place 9: neither a start line (no status code of three digits) nor a field line "
       "(no colon after the name)\nHTTP/1.1  200\n         ^"},
      {"HTTP/1.1x 200 OK", 16,
       "line 2, place 4: not a field line: no colon after the name\nHTTP/1.1x 200 OK\n    ^",
       "line 2, place 8: neither a start line (no status code of three digits) nor a field line "
       "(no colon after the name)\nHTTP/1.1x 200 OK\n        ^"},
      {"HTTP/1. 200", 11,
       "line 2, place 4: not a field line: no colon after the name\nHTTP/1. 200\n    ^",
       "line 2, place 6: neither a start line (no status code of three digits) nor a field line "
       "(no colon after the name)\nHTTP/1. 200\n      ^"},
      {"HTTP/2 2000", 11,
       "line 2, place 4: not a field line: no colon after the name\nHTTP/2 2000\n    ^",
       "line 2, place 7: neither a start line (no status code of three digits) nor a field line "
       "(no colon after the name)\nHTTP/2 2000\n       ^"},
      {"HTTP/1.1 099 \xe9", 14,
       "line 2, place 4: not a field line: no colon after the name\nHTTP/1.1 099 ?\n    ^",
       "line 2, place 9: neither a start line (no status code of three digits) nor a field line "
       "(no colon after the name)\nHTTP/1.1 099 ?\n         ^"},
  };
  for (size_t i = 0; i < sizeof whys / sizeof *whys; ++i)
    for (int is_first = 0; is_first < 2; ++is_first) {
      head = sf_head_in(SF_HEAD_LINES(lines), sf_buffer_of(NULL, 0));
      head.faults = SF_FAULTS(faults);
      CHECK(sf_add_head_line(&head, sf_cstr(is_first ? "\r\n" : "HTTP/1.1 200")) ==
            (is_first ? SF_EMPTY : SF_OK));
      CHECK(sf_add_head_line(&head, sf_text_of(whys[i].line, whys[i].length)) == SF_REFUSED);
      CHECK(faults[0].reason == (is_first ? SF_FAULT_NOT_A_START : SF_FAULT_NOT_A_LINE));
      CHECK(says(&faults[0], 40, is_first ? whys[i].first : whys[i].second));
      const sf_refusal *why = &faults[0].location.refusal;
      CHECK(why->found == (why->offset == whys[i].length
                               ? (int32_t)SF_ENDED
                               : (int32_t)(unsigned char)whys[i].line[why->offset]));
      CHECK(head.is_incomplete == 1 && head.is_begun == 1 && head.number == 3);
      /* only one line is the first */
      CHECK(sf_add_head_line(&head, sf_cstr("x")) == SF_REFUSED);
      CHECK(faults[1].reason == SF_FAULT_NOT_A_LINE && *faults[1].field == 0);
    }
  head = sf_head_in(SF_HEAD_LINES(lines), sf_buffer_of(NULL, 0));
  head.faults = SF_FAULTS(faults);
  CHECK(sf_add_head_line(&head, sf_cstr("GET / HTTP/1.1")) == SF_OK);
  CHECK(sf_add_head_line(&head, sf_cstr("a : b")) == SF_REFUSED);
  CHECK(says(&faults[0], 40, "line 2, place 1: not a field line: white space after the name\na : b\n ^"));
  head = sf_head_in(SF_HEAD_LINES(lines), sf_buffer_of(NULL, 0));
  head.faults = SF_FAULTS(faults);
  CHECK(sf_add_field_line(&head, sf_cstr("a"), sf_cstr("b")) == SF_OK); /* it is the first line */
  CHECK(sf_add_head_line(&head, sf_cstr("c")) == SF_REFUSED && faults[0].reason == SF_FAULT_NOT_A_LINE);

  /* a buffer of this many lines is large enough for each head, and for the shortest lines no less */
  for (size_t length = 0; length < 12; ++length) {
    static const char shortest[] = "a:\nb:\nc:\nd:";
    sf_head_line more[4];
    head = sf_head_in(sf_head_lines_of(more, SF_HEAD_LINES_SIZE(length)), sf_buffer_of(NULL, 0));
    rest = sf_text_of(shortest, length);
    CHECK(sf_take_head(&head, &rest) == SF_REFUSED);
    CHECK(length % 3 != 2 || head.lines.length == head.lines.capacity);
  }
}

/* Messages of faults with the name of a file, and of faults that hold nonsense. */
static void messages_of_faults(void) {
  sf_context context = sf_context_of(seed, SF_RFC8941);
  sf_head_line lines[4];
  sf_fault faults[4];
  sf_head head = sf_head_in(SF_HEAD_LINES(lines), sf_buffer_of(NULL, 0));
  head.faults = SF_FAULTS(faults);
  head.number = 13;
  sf_priority_flags client;
  CHECK(sf_add_head_line(&head, sf_cstr("Priority: u=,")) == SF_OK);
  CHECK(sf_add_head_line(&head, sf_cstr("b \xff\x01")) == SF_REFUSED);
  CHECK(sf_find_priority(&context, &head, &client) == SF_OK && head.faults.length == 2);
#define REFUSED                                                                                    \
  "line 13, place 12: Priority: byte 0x2c ',', expected a letter, a digit, a quote, `(`, `*`, "    \
  "`-`, `:` or `?`\n"
#define NO_LINE "line 14, place 2: not a field line: no colon after the name\nb ??\n  ^"
  CHECK(says_in("a", &faults[0], 40, "a, " REFUSED "Priority: u=,\n            ^"));
  CHECK(says_in("b/c d.txt", &faults[0], 0, "b/c d.txt, " REFUSED "......\n   ^"));
  CHECK(says_in("b/c d.txt", &faults[0], 1, "b/c d.txt, " REFUSED "...,\n   ^"));
  CHECK(says_in("~", &faults[1], 40, "~, " NO_LINE));
  CHECK(says_in("\xc3\xa9 \x7f\n\x1f", &faults[1], 40, "?? ???, " NO_LINE));
  CHECK(says_in(NULL, &faults[1], 40, NO_LINE) && says_in("", &faults[1], 40, NO_LINE));
  CHECK(says_in("a", &faults[1], SIZE_MAX, "a, " NO_LINE));

  /* " at place N" is left out once, where the message has it */
  sf_fault fault = faults[0];
  fault.field = " at place 7";
  CHECK(says_in("x at place 3", &fault, 1,
                "x at place 3, line 13, place 12:  at place 7: byte 0x2c ',', expected a letter, a "
                "digit, a quote, `(`, `*`, `-`, `:` or `?`\n...,\n   ^"));

  /* numbers that no fault has */
  memset(&fault, 0xff, sizeof fault);
  fault.field = NULL;
  fault.message = NULL;
  fault.location.line = sf_text_of(NULL, 0);
#define NUMBER "18446744073709551615"
  CHECK(says_in("file", &fault, 40,
                "file, line " NUMBER ", place " NUMBER ": the text ended, expected a printable "
                "character, 0x7f, 0x00, 0x01, 0x02, 0x03, 0x04, 0x05, 0x06, 0x07, 0x08, a tab, 0x0a, "
                "0x0b, 0x0c, 0x0d, 0x0e, 0x0f, 0x10, 0x11, 0x12, 0x13, 0x14, 0x15, 0x16, 0x17, 0x18, "
                "0x19, 0x1a, 0x1b, 0x1c, 0x1d, 0x1e, 0x1f or the end\n\n^"));
  fault.location.line = sf_text_of("ab\0", 3);
  fault.reason = SF_FAULT_NOT_A_LINE;
  CHECK(says_in("f", &fault, 2,
                "f, line " NUMBER ", place " NUMBER ": not a field line: a CR, LF or NUL in the "
                "value\n...b?\n     ^"));
  sf_buffer out = sf_buffer_of(NULL, 0);
  CHECK(sf_show_fault_in("f", &fault, 2, &out) == SF_SHORT && out.length == 0);
  fault.reason = SF_FAULT_NOT_A_START;
  for (int k = 0; k < 3; ++k) { /* of these lines, one is a field line, and one a start line */
    fault.location.line = k == 0 ? sf_text_of(NULL, 0) : sf_cstr(k == 1 ? "a:" : "HTTP/1.1 200");
    fault.location.refusal.offset = 0;
    CHECK(says_in("f", &fault, 2,
                  k == 0   ? "f, line " NUMBER ", place 0: neither a start line (no method, target and "
                             "version) nor a field line (no name)\n\n^"
                  : k == 1 ? "f, line " NUMBER ", place 0: neither a start line (no method, target and "
                             "version) nor a field line (no name)\na:\n^"
                           : "f, line " NUMBER ", place 0: neither a start line (no status code of three "
                             "digits) nor a field line (no colon after the name)\nHT...\n^"));
  }
  /* that of a missing end, and of a missing start line of a head without a line, is one line */
  static const struct {
    uint32_t reason;
    const char *words;
  } whole[] = {
      {SF_FAULT_NO_END, "the head does not end with an empty line"},
      {SF_FAULT_NO_REQUEST_LINE, "the head of a request begins with a request line"},
      {SF_FAULT_NO_STATUS_LINE, "the head of a response begins with a status line"},
  };
  for (size_t i = 0; i < sizeof whole / sizeof *whole; ++i) {
    char expected[128];
    memset(&fault, 0, sizeof fault);
    fault.field = "";
    fault.reason = whole[i].reason;
    fault.location.number = 7;
    snprintf(expected, sizeof expected, "line 7, place 0: %s", whole[i].words);
    CHECK(says(&fault, 40, expected) && says(&fault, 0, expected));
    snprintf(expected, sizeof expected, "a?, line 7, place 0: %s", whole[i].words);
    CHECK(says_in("a\n", &fault, 40, expected));
    fault.location.line = sf_cstr("b\tcd");
    snprintf(expected, sizeof expected, "line 7, place 0: %s\nb?c...\n^",
             i == 0 ? "the head is cut off: its last line has no line end" : whole[i].words);
    CHECK(says(&fault, 3, expected));
  }

  /* the longest names and messages fit */
  char names[2][301], longest[SF_FAULT_IN_SIZE(300, 300, 10)];
  memset(names, 'n', sizeof names);
  names[0][300] = names[1][300] = 0;
  char words[901];
  memset(words, 'w', sizeof words);
  words[900] = 0;
  for (uint32_t reason = 90; reason < 109; ++reason)
    for (int found = -1; found < 256; ++found) {
      memset(&fault, 0xff, sizeof fault);
      fault.field = names[0];
      fault.reason = reason;
      fault.location.line = sf_text_of(names[1], 300);
      fault.location.refusal.found = found;
      fault.location.refusal.expected_low = UINT64_C(0xaaaaaaaaaaaaaaaa);
      fault.location.refusal.expected_high = UINT64_C(0xaaaaaaaaaaaaaaaa);
      fault.message = reason == SF_FAULT_OWN ? words : reason % 2 == 0 ? NULL : "the part in ";
      out = sf_buffer_of(longest, sizeof longest);
      CHECK(sf_show_fault_in(names[1], &fault, 10, &out) == SF_OK);
      out.capacity = SF_FAULT_SIZE(300, 10);
      CHECK(sf_show_fault(&fault, 10, &out) == SF_OK);
    }
}

/* Heads that have to be those of a request or of a response (RFC 9112 section 2.1: "A message can
 * be either a request from client to server or a response from server to client"). */
static void kinds_of_heads(void) {
  enum { NONE = -1 }; /* no fault of a missing start line */
  static const struct {
    const char *head;
    int request, response;   /* the number of the line of which the fault is; 0 is in no line */
    uint32_t is_incomplete, lines;
    const char *line;        /* that of the fault */
    const char *first, *end; /* other faults: that of the first line, and that of the end */
  } rows[] = {
      {"GET / HTTP/1.1\r\na: b\r\n\r\n", NONE, 1, 0, 1, "GET / HTTP/1.1", NULL, NULL},
      {"HTTP/1.1 200 OK\r\na: b\r\n\r\n", 1, NONE, 0, 1, "HTTP/1.1 200 OK", NULL, NULL},
      {"\r\n\nGET / HTTP/1.1\n\n", NONE, 3, 0, 0, "GET / HTTP/1.1", NULL, NULL},
      {"\n\nHTTP/2 200 \n\n", 3, NONE, 0, 0, "HTTP/2 200 ", NULL, NULL},
      {"a: b\r\nc: d\r\n\r\n", 1, 1, 0, 2, "a: b", NULL, NULL},
      {"\r\na: \xe9 \r\nc: d\r\n\r\n", 2, 2, 0, 2, "a: \xe9 ", NULL, NULL},
      {"a: b\nGET / HTTP/1.1\n\n", 1, 1, 0, 1, "a: b",
       "line 2, place 4: not a field line: no colon after the name\nGET / HTTP/1.1\n    ^", NULL},
      {"GET /\na: b\n\n", NONE, NONE, 1, 1, NULL,
       "line 1, place 5: neither a start line (no method, target and version) nor a field line (no colon "
       "after the name)\nGET /\n     ^", NULL},
      {"HTTP/1.1 200\rx\na: b\n\n", NONE, NONE, 1, 1, NULL,
       "line 1, place 12: neither a start line (a CR, LF or NUL in it) nor a field line (no colon after "
       "the name)\nHTTP/1.1 200?x\n            ^", NULL},
      {"GET / HTTP/1.1\na: b", NONE, 1, 0, 1, "GET / HTTP/1.1", NULL,
       "line 2, place 4: the head is cut off: its last line has no line end\na: b\n    ^"},
      {"GET / HTTP/1.1\na: b\r", NONE, 1, 0, 1, "GET / HTTP/1.1", NULL,
       "line 2, place 5: the head is cut off: its last line has no line end\na: b?\n     ^"},
      {"GET / HTTP/1.1\na: b\r\n", NONE, 1, 0, 1, "GET / HTTP/1.1", NULL,
       "line 3, place 0: the head does not end with an empty line"},
      {"HTTP/1.1 200", 1, NONE, 0, 0, "HTTP/1.1 200", NULL,
       "line 1, place 12: the head is cut off: its last line has no line end\nHTTP/1.1 200\n            ^"},
      {"a: b", 1, 1, 0, 1, "a: b", NULL,
       "line 1, place 4: the head is cut off: its last line has no line end\na: b\n    ^"},
      {"", 0, 0, 0, 0, "", NULL, "line 1, place 0: the head does not end with an empty line"},
      {"\r\n", 0, 0, 0, 0, "", NULL, "line 2, place 0: the head does not end with an empty line"},
      {"\r\n\n\r", 0, 0, 0, 0, "", NULL,
       "line 3, place 1: the head is cut off: its last line has no line end\n?\n ^"},
  };
#define NO_REQUEST_LINE "the head of a request begins with a request line"
#define NO_STATUS_LINE "the head of a response begins with a status line"
  /* of the line GET / */
  static const char not_a_status_line[] =
      "line 1, place 0: neither a start line (a status line begins with HTTP/) nor a field line (no colon "
      "after the name)\nGET /\n^";
  sf_head_line lines[2];
  sf_fault faults[4];
  for (size_t i = 0; i < sizeof rows / sizeof *rows; ++i)
    for (int is_request = 0; is_request < 2; ++is_request) {
      int number = is_request ? rows[i].request : rows[i].response;
      sf_text rest = sf_cstr(rows[i].head);
      sf_head head = sf_head_in(SF_HEAD_LINES(lines), sf_buffer_of(NULL, 0));
      head.faults = SF_FAULTS(faults);
      sf_status status = is_request ? sf_take_request(&head, &rest) : sf_take_response(&head, &rest);
      CHECK(status == (rows[i].end == NULL ? SF_OK : SF_REFUSED) && rest.length == 0);
      CHECK(head.is_truncated == (rows[i].end != NULL) && head.lines.length == rows[i].lines);
      CHECK(head.is_incomplete == (number != NONE || rows[i].is_incomplete));
      size_t count = 0;
      if (number != NONE) {
        char expected[128], shown[32];
        size_t length = strlen(rows[i].line);
        for (size_t k = 0; k <= length; ++k)
          shown[k] = (char)((unsigned char)rows[i].line[k] > 126 ? '?' : rows[i].line[k]);
        snprintf(expected, sizeof expected, "line %d, place 0: %s%s%s%s",
                 number == 0 ? (int)head.number : number, is_request ? NO_REQUEST_LINE : NO_STATUS_LINE,
                 length == 0 ? "" : "\n", shown, length == 0 ? "" : "\n^");
        CHECK(says(&faults[0], 40, expected));
        CHECK(faults[0].reason == (is_request ? SF_FAULT_NO_REQUEST_LINE : SF_FAULT_NO_STATUS_LINE));
        CHECK(is(faults[0].location.line, rows[i].line) && *faults[0].field == 0);
        CHECK(faults[0].location.index == 0 && faults[0].location.refusal.offset == 0);
        ++count;
      }
      if (rows[i].first != NULL)
        CHECK(says(&faults[count++], 40,
                   !is_request && rows[i].first[14] == '5' ? not_a_status_line : rows[i].first));
      if (rows[i].end != NULL)
        CHECK(says(&faults[count++], 40, rows[i].end));
      CHECK(head.faults.length == count && head.faults.required == count);
    }

  /* a head of the other kind permits nothing: neither that it is stored, nor that it is one without
   * Authorization */
  sf_context context = sf_context_of(seed, SF_RFC8941);
  sf_exchange exchange = sf_exchange_of(SF_SHARED_CACHE, 0);
  sf_verdict verdict;
  sf_text rest = sf_cstr("Cache-Control: max-age=60\n\n");
  sf_head head = sf_head_in(SF_HEAD_LINES(lines), sf_buffer_of(NULL, 0));
  exchange.status = 200;
  CHECK(sf_take_response(&head, &rest) == SF_OK && head.is_incomplete == 1);
  CHECK(sf_decide_response(&context, &head, NULL, 0, &exchange, &verdict) == SF_OK);
  CHECK(verdict.obstacle == SF_BARRED_HEAD);
  rest = sf_cstr("Age: 1\n\n");
  head = sf_head_in(SF_HEAD_LINES(lines), sf_buffer_of(NULL, 0));
  CHECK(sf_take_request(&head, &rest) == SF_OK && head.faults.required == 1);
  sf_set_request(&exchange, &head);
  CHECK(exchange.is_request_incomplete == 1 && exchange.is_other_method == 0);

  /* lines that were added before count; a call that is repeated finds nothing more */
  for (int k = 0; k < 4; ++k) {
    static const char *const before[] = {"HTTP/1.1 200", "a: b", "GET / HTTP/1.1", "x"};
    head = sf_head_in(SF_HEAD_LINES(lines), sf_buffer_of(NULL, 0));
    head.faults = SF_FAULTS(faults);
    head.number = 7;
    rest = sf_cstr("c: d\n\n");
    CHECK(sf_add_head_line(&head, sf_cstr(before[k])) == (k == 3 ? SF_REFUSED : SF_OK));
    CHECK(sf_take_request(&head, &rest) == SF_OK && head.faults.length == (k != 2));
    CHECK(k > 1 || (faults[0].reason == SF_FAULT_NO_REQUEST_LINE && faults[0].location.number == 7));
    CHECK(k > 1 || is(faults[0].location.line, before[k]));
    CHECK(head.is_incomplete == (k != 2));
    rest = sf_cstr("\n");
    CHECK(sf_take_request(&head, &rest) == SF_OK && head.faults.required == (k != 2));
  }
  /* after a line that was too many, the first line is as before */
  head = sf_head_in(sf_head_lines_of(lines, 0), sf_buffer_of(NULL, 0));
  head.faults = SF_FAULTS(faults);
  rest = sf_cstr("a: b\nc: d\n\n");
  CHECK(sf_take_response(&head, &rest) == SF_SHORT && head.faults.required == 0);
  head.lines.capacity = 1;
  CHECK(sf_take_response(&head, &rest) == SF_SHORT && is(rest, "c: d\n\n"));
  head.lines.capacity = 2;
  CHECK(sf_take_response(&head, &rest) == SF_OK && head.faults.length == 1);
  CHECK(faults[0].location.number == 1 && is(faults[0].location.line, "a: b"));
  /* a head that says it has begun, but has no line */
  head = sf_head_in(SF_HEAD_LINES(lines), sf_buffer_of(NULL, 0));
  head.faults = SF_FAULTS(faults);
  head.is_begun = 1;
  rest = sf_cstr("\n");
  CHECK(sf_take_response(&head, &rest) == SF_OK && head.faults.length == 1);
  CHECK(says(&faults[0], 40, "line 1, place 0: " NO_STATUS_LINE));
  /* without a buffer for faults, they are counted */
  head = sf_head_in(SF_HEAD_LINES(lines), sf_buffer_of(NULL, 0));
  rest = sf_text_of(NULL, 0);
  CHECK(sf_take_response(&head, &rest) == SF_REFUSED && head.faults.required == 2);
}

/* Heads whose buffers are parts of one memory: enough for each of them, and one byte less. */
static void heads_in_memory(void) {
  static const struct {
    const char *head;
    size_t length, taken, lines, count, faults; /* lines that are not empty, field lines, faults */
    size_t more; /* faults that lines may have beside one */
  } rows[] = {
      {NULL, 0, 0, 0, 0, 1, 0},
      {"", 0, 0, 0, 0, 1, 0},
      {"\n", 1, 1, 0, 0, 1, 0},
      {"\r", 1, 1, 1, 0, 1, 0},
      {"\r\n\r\n", 4, 4, 0, 0, 1, 0},
      {"a:", 2, 2, 1, 1, 1, 0},
      {"a:\n", 3, 3, 1, 1, 1, 0},
      {"a:\n\n", 4, 4, 1, 1, 0, 0},
      {"a:\nb:\nc:\n\n", 10, 10, 3, 3, 0, 0},
      {"\n\r\na:\n\r\nb:\n\n", 12, 8, 1, 1, 0, 0},
      {"HTTP/1.1 200\r\na:1\r\na:2\r\n\r\nbody\n\n", 32, 26, 3, 2, 0, 0},
      {"x\ny\n:\n z\n\n", 10, 10, 4, 0, 4, 0},
      {"GET / HTTP/1.1\na :\0\na:\0\n", 24, 24, 3, 0, 3, 1},
      {"a:\xff\n\xff\n", 6, 6, 2, 1, 2, 0},
      {"a:\r\n\r", 5, 5, 2, 1, 1, 0},
      {"a\n\r\r\n", 5, 5, 2, 0, 3, 0},
      {"a :\n\n", 5, 5, 1, 1, 1, 1},
      {"a \t:", 4, 4, 1, 1, 2, 1},
      {"Cache-Status: 1,2, (a b),,3\nX:,,\ncACHE-sTATUS\t:1,\n\n", 51, 51, 3, 3, 1, 5},
      {"Age:x,5\na:x,5\nT\t:1,,2\n\n", 23, 23, 3, 3, 1, 3},
  };
  for (size_t i = 0; i < sizeof rows / sizeof *rows; ++i) {
    sf_text received = sf_text_of(rows[i].head, rows[i].length), rest = received;
    size_t size = sf_head_memory_size(received);
    size_t most = rows[i].lines + rows[i].more + 10;
    CHECK(size == rows[i].lines * sizeof(sf_head_line) + most * sizeof(sf_fault) + 2 * rows[i].taken);
    CHECK(size <= 74 * rows[i].taken + 1024);
    char *memory = (char *)malloc(size);
    CHECK(memory != NULL);
    sf_head head = sf_head_in_memory(memory, size, received);
    CHECK((char *)head.lines.at == memory && head.lines.length == 0 && head.number == 1);
    CHECK(head.lines.capacity == rows[i].lines && head.faults.capacity == most);
    CHECK(head.joined.capacity == 2 * rows[i].taken && head.joined.length == 0);
    CHECK((size_t)(head.joined.at - memory) + head.joined.capacity == size);
    CHECK(sf_take_head(&head, &rest) != SF_SHORT);
    CHECK(rest.length == rows[i].length - rows[i].taken && head.lines.length == rows[i].count);
    CHECK(head.faults.length == rows[i].faults && head.faults.required == rows[i].faults);
    for (int is_request = 0; is_request < 2; ++is_request) {
      rest = received;
      head = sf_head_in_memory(memory, size, received);
      CHECK((is_request ? sf_take_request(&head, &rest) : sf_take_response(&head, &rest)) != SF_SHORT);
      CHECK(head.faults.length >= rows[i].faults && head.faults.length <= rows[i].faults + 1);
      CHECK(head.faults.length == head.faults.required);
      CHECK(head.lines.length == rows[i].count || (is_request && rows[i].more > 0));
    }
    free(memory);
    /* one byte less, no memory, and memory that is not aligned */
    memory = (char *)malloc(size + 1);
    CHECK(memory != NULL);
    for (int k = 0; k < 3; ++k) {
      rest = received;
      head = sf_head_in_memory(k == 1 ? NULL : memory + k / 2, k == 0 ? size - 1 : size, received);
      CHECK(head.lines.capacity == 0 && head.faults.capacity == 0 && head.joined.capacity == 0);
      CHECK(head.lines.at == (k == 0 ? (void *)memory : NULL));
      sf_status status = sf_take_head(&head, &rest);
      CHECK((status == SF_SHORT) == (rows[i].count > 0));
      CHECK(status != SF_SHORT || head.lines.required == 1);
      CHECK(head.faults.length == 0);
    }
    head = sf_head_in_memory(memory, SIZE_MAX, received); /* as if it were there */
    CHECK(head.lines.capacity == rows[i].lines && head.joined.capacity == 2 * rows[i].taken);
    free(memory);
  }
  CHECK(sf_head_memory_size(sf_text_of(NULL, SIZE_MAX)) == 10 * sizeof(sf_fault));
  CHECK(sf_head_memory_of(SIZE_MAX, 0, 0) == SIZE_MAX && sf_head_memory_of(0, SIZE_MAX, 0) == SIZE_MAX);
  CHECK(sf_head_memory_of(0, 0, SIZE_MAX) == SIZE_MAX && sf_head_memory_of(0, 0, 0) == 0);
  CHECK(sf_head_memory_of(SIZE_MAX, SIZE_MAX, SIZE_MAX) == SIZE_MAX);
  CHECK(sf_head_memory_of(0, SIZE_MAX / sizeof(sf_fault), SIZE_MAX / 2) == SIZE_MAX);

  /* What it is enough for: many lines, two of each field, and each of them looked up by a call that
   * keeps what it joins, then by all of the others; and each line and field malformed. */
  enum { FIELDS = 400 };
  static char text[FIELDS * 64], names[FIELDS][16];
  static const char *const known[] = {"Priority",      "Cache-Status", "T",  "Expires",
                                      "Cache-Control", "Date",         "Age"};
  sf_text received = sf_text_of(text, 0), rest;
  for (int line = 0; line < 2; ++line)
    for (int i = 0; i < FIELDS; ++i) {
      snprintf(names[i], sizeof names[i], "f%d", i);
      received.length += (size_t)snprintf(text + received.length, sizeof text - received.length, "%s:,\n%s",
                                          i < 7 ? known[i] : names[i], i % 2 ? "\xff\n" : "");
    }
  sf_context context = sf_context_of(seed, SF_RFC8941);
  size_t size = sf_head_memory_size(received), joined = 0;
  void *memory = malloc(size);
  CHECK(memory != NULL);
  sf_head head = sf_head_in_memory(memory, size, received);
  rest = received;
  CHECK(sf_take_response(&head, &rest) == SF_REFUSED && head.lines.length == 2 * FIELDS);
  CHECK(head.faults.length == FIELDS + 2 && rest.length == 0);
  for (int i = 0; i < FIELDS; ++i) {
    sf_text found;
    CHECK(sf_find_field(&head, i < 7 ? known[i] : names[i], &found) == SF_OK && is(found, ",, ,"));
    joined += found.length;
  }
  CHECK(head.joined.length == joined);
  for (int twice = 0; twice < 2; ++twice) {
    sf_priority_flags client;
    sf_response_priority_flags server;
    sf_hop hops[1];
    char bytes[1], sent[32];
    sf_hop_list list = sf_hop_list_in(SF_HOPS(hops), SF_BUFFER(bytes));
    sf_buffer out = SF_BUFFER(sent);
    sf_own_hop own = sf_hop_named("a", SF_TOKEN);
    sf_target target = sf_target_of("T");
    sf_exchange exchange = sf_exchange_of(SF_SHARED_CACHE, 0);
    sf_verdict verdict;
    CHECK(sf_find_priority(&context, &head, &client) == SF_OK);
    CHECK(sf_find_response_priority(&context, &head, &server) == SF_OK);
    CHECK(sf_find_hops(&context, &head, &list) == SF_OK && list.hops.length == 0);
    CHECK(sf_add_hop(&context, &head, &own, &out) == SF_OK && is(sf_written(&out), "a"));
    CHECK(sf_decide_response(&context, &head, &target, 1, &exchange, &verdict) == SF_OK);
    CHECK(sf_check_head(&context, &head, &target, 1) == SF_OK);
    for (int i = 7; i < FIELDS; ++i)
      CHECK(sf_check_field(&context, SF_LIST, &head, names[i]) == SF_REFUSED);
    CHECK(head.joined.length == joined);
  }
  /* Cache-Control is a list of directives here, Expires, Date and Age have two faults each */
  CHECK(head.faults.length == head.faults.required);
  CHECK(head.faults.length == FIELDS + 2 + (FIELDS - 7) + 3 + 3 * 2);
  free(memory);

  /* a field that is nearly all of the head, which is kept and then joined again */
  received.length = (size_t)snprintf(text, sizeof text, "Priority:u=1,x=%0900d\nPriority:y=%0900d\n\n", 1, 1);
  size = sf_head_memory_size(received);
  memory = malloc(size);
  CHECK(memory != NULL);
  head = sf_head_in_memory(memory, size, received);
  rest = received;
  CHECK(sf_take_head(&head, &rest) == SF_OK);
  sf_priority_flags client;
  sf_text found;
  CHECK(sf_find_field(&head, "priority", &found) == SF_OK && found.length == 6 + 900 + 2 + 2 + 900);
  CHECK(sf_find_priority(&context, &head, &client) == SF_OK && client.has_urgency == 0);
  CHECK(head.faults.length == 1 && head.joined.length == found.length);
  free(memory);
}

/* Trees and paths whose buffers are parts of one memory: enough for each text of the length, and
 * one byte less. */
static void values_in_memory(void) {
  sf_context context = sf_context_of(seed, SF_RFC8941);
  for (size_t length = 0; length < 40; ++length) {
    char text[40];
    size_t size = sf_tree_memory_size(length), hops_size = sf_hops_memory_size(length);
    CHECK(size > 0 && size <= 28 * length + 40 && hops_size > 0 && hops_size <= 72 * length + 90);
    /* a text with as many members as there can be */
    for (size_t i = 0; i < length; ++i)
      text[i] = i % 2 == 0 ? 'a' : i + 1 == length ? 'b' : ',';
    void *memory = malloc(size), *hops_memory = malloc(hops_size);
    CHECK(memory != NULL && hops_memory != NULL);
    sf_tree tree = sf_tree_in_memory(memory, size, length);
    CHECK((void *)tree.nodes.at == memory && tree.nodes.length == 0 && tree.kind == 0);
    CHECK(tree.nodes.capacity == SF_NODES_SIZE(length) && tree.bytes.capacity == SF_BYTES_SIZE(length));
    CHECK(length == 0 || (size_t)(tree.bytes.at - (char *)memory) + tree.bytes.capacity == size);
    memset(memory, 0x5a, size); /* all of it is there */
    CHECK(sf_read_tree(&context, SF_LIST, sf_text_of(text, length), &tree) == SF_OK);
    CHECK(tree.nodes.length == length / 2 + length % 2);
    sf_hop_list list = sf_hop_list_in_memory(hops_memory, hops_size, length);
    CHECK((void *)list.hops.at == hops_memory && list.hops.length == 0 && list.served == NULL);
    CHECK(list.hops.capacity == SF_NODES_SIZE(length) && list.bytes.capacity == SF_BYTES_SIZE(length));
    CHECK(length == 0 ||
          (size_t)(list.bytes.at - (char *)hops_memory) + list.bytes.capacity == hops_size);
    memset(hops_memory, 0x5a, hops_size);
    CHECK(sf_read_hops(&context, sf_text_of(text, length), &list) == SF_OK);
    CHECK(list.hops.length == length / 2 + length % 2);
    free(memory);
    free(hops_memory);
    /* one byte less, no memory, and memory that is not aligned */
    memory = malloc(hops_size + 1);
    CHECK(memory != NULL);
    for (int k = 0; k < 3; ++k) {
      char *at = k == 1 ? NULL : (char *)memory + k / 2;
      tree = sf_tree_in_memory(at, k == 0 ? size - 1 : size, length);
      list = sf_hop_list_in_memory(at, k == 0 ? hops_size - 1 : hops_size, length);
      CHECK(tree.nodes.at == (k == 0 ? memory : NULL) && list.hops.at == (k == 0 ? memory : NULL));
      CHECK(tree.nodes.capacity == 0 && tree.bytes.capacity == 0 && tree.bytes.at == NULL);
      CHECK(list.hops.capacity == 0 && list.bytes.capacity == 0 && list.bytes.at == NULL);
      CHECK(sf_read_tree(&context, SF_LIST, sf_text_of(text, length), &tree) ==
            (length == 0 ? SF_OK : SF_TOO_MANY));
      CHECK(sf_read_hops(&context, sf_text_of(text, length), &list) ==
            (length == 0 ? SF_OK : SF_SHORT));
    }
    free(memory);
  }
  /* lengths for which there is no memory */
  static const size_t long_ones[] = {SIZE_MAX, SIZE_MAX - 1, SIZE_MAX / 2, SIZE_MAX / 8, SIZE_MAX / 24};
  sf_node node;
  sf_hop hop;
  for (size_t i = 0; i < sizeof long_ones / sizeof *long_ones; ++i) {
    sf_tree tree = sf_tree_in_memory(&node, SIZE_MAX, long_ones[i]);
    sf_hop_list list = sf_hop_list_in_memory(&hop, SIZE_MAX, long_ones[i]);
    CHECK(sf_tree_memory_size(long_ones[i]) == SIZE_MAX && sf_hops_memory_size(long_ones[i]) == SIZE_MAX);
    CHECK(tree.nodes.capacity == 0 && tree.bytes.capacity == 0 && tree.nodes.at == &node);
    CHECK(list.hops.capacity == 0 && list.bytes.capacity == 0 && list.hops.at == &hop);
  }
  CHECK(sf_tree_memory_size(SIZE_MAX / 64) < SIZE_MAX);

  /* the length of a head is enough for each of its fields, of one line and of several */
  static const char received[] = "HTTP/2 200\nA:a,a,a\nA:a\nA:a\nCache-Status:a,a\nCache-Status:a\n\n";
  size_t length = sizeof received - 1, size = sf_hops_memory_size(length);
  sf_head_line lines[8];
  char joined[64];
  sf_text rest = sf_cstr(received);
  sf_head head = sf_head_in(SF_HEAD_LINES(lines), SF_BUFFER(joined));
  void *memory = malloc(size);
  CHECK(memory != NULL && sf_take_response(&head, &rest) == SF_OK);
  sf_tree tree = sf_tree_in_memory(memory, size, length);
  CHECK(sf_find_tree(&context, SF_LIST, &head, "A", &tree) == SF_OK && tree.nodes.length == 5);
  CHECK((void *)tree.nodes.at == memory);
  sf_hop_list list = sf_hop_list_in_memory(memory, size, length);
  CHECK(sf_find_hops(&context, &head, &list) == SF_OK && list.hops.length == 3);
  CHECK((void *)list.hops.at == memory);
  free(memory);
}

/* Verdicts in words, and hops by them. */
static void verdicts_in_words(void) {
  static const struct {
    const char *head, *words, *hop;
  } rows[] = {
      {"HTTP/1.1 200\nCache-Control: max-age=60\n\n", "Cache-Control: fresh for 60 s (max-age); may be stored",
       "a;fwd=miss;ttl=60;stored"},
      {"HTTP/1.1 200\nT: no-store\n\n", "T: not stored (no-store)", "a;fwd=miss;stored=?0"},
      {"HTTP/1.1 200\nT: no-cache\n\n", "T: revalidate (no-cache); may be stored", "a;fwd=miss;stored"},
      {"HTTP/1.1 500\n\n", "no lifetime set; not stored: nothing permits it", "a;fwd=miss;stored=?0"},
      {"HTTP/1.1 200\n\n", "no lifetime set; may be stored", "a;fwd=miss;stored"},
      {"HTTP/1.1 200\ncache-control: public\n\n", "Cache-Control: no lifetime set; may be stored", "a;fwd=miss;stored"},
      {"HTTP/1.1 200\nCache-Control: a b\n\n", "Cache-Control: not stored (malformed)",
       "a;fwd=miss;stored=?0"},
      {"HTTP/1.1 206\nExpires: 0\n\n", "Expires: stale; not stored: the status code forbids it",
       "a;fwd=miss;ttl=0;stored=?0"},
      {"HTTP/1.1 200\nExpires: Sun, 06 Nov 1994 08:50:37 GMT\n\n", "Expires: fresh for 60 s; may be stored",
       "a;fwd=miss;ttl=60;stored"},
      {"HTTP/1.1 200\nExpires: 0\nCache-Control: must-revalidate\n\n",
       "Cache-Control: revalidate (must-revalidate); may be stored", "a;fwd=miss;ttl=0;stored"},
      {"HTTP/1.1 200\nT: max-age=99999999999\n", "T: fresh for 2147483648 s (max-age); not stored: the "
       "head is incomplete", "a;fwd=miss;ttl=2147483648;stored=?0"},
  };
  sf_context context = sf_context_of(seed, SF_RFC8941);
  sf_target target = sf_target_of("T");
  for (size_t i = 0; i < sizeof rows / sizeof *rows; ++i) {
    sf_head_line lines[2];
    sf_exchange exchange = sf_exchange_of(SF_SHARED_CACHE, 784111777);
    sf_verdict verdict;
    sf_text rest = sf_cstr(rows[i].head);
    char text[SF_VERDICT_SIZE(13)], field[128];
    sf_buffer out = SF_BUFFER(text), exact = sf_buffer_of(field, strlen(rows[i].words));
    sf_head head = sf_head_in(SF_HEAD_LINES(lines), sf_buffer_of(NULL, 0));
    (void)!sf_take_head(&head, &rest);
    CHECK(sf_decide_response(&context, &head, &target, 1, &exchange, &verdict) == SF_OK);
    CHECK(sf_write_verdict(&verdict, &out) == SF_OK && is(sf_written(&out), rows[i].words));
    CHECK(sf_write_verdict(&verdict, &exact) == SF_OK && exact.length == strlen(rows[i].words));
    --exact.capacity;
    CHECK(sf_write_verdict(&verdict, &exact) == SF_SHORT && exact.required == strlen(rows[i].words));
    exact = sf_buffer_of(NULL, 0);
    CHECK(sf_write_verdict(&verdict, &exact) == SF_SHORT && exact.length == 0);
    sf_own_hop own = sf_hop_of_verdict("a", SF_TOKEN, SF_MISS, &verdict);
    out = sf_buffer_of(field, sizeof field);
    CHECK(sf_write_hop(&context, &own, &out) == SF_OK && is(sf_written(&out), rows[i].hop));
  }
  /* a request that may have had Authorization, and the longest text */
  sf_verdict verdict;
  memset(&verdict, 0, sizeof verdict);
  verdict.decision.reuse = SF_REUSE_FRESH;
  verdict.decision.seconds = UINT64_MAX;
  verdict.decision.cause = SF_BY_INVALID_S_MAXAGE;
  verdict.obstacle = SF_BARRED_REQUEST_NO_STORE;
  verdict.field = "T";
  char text[SF_VERDICT_SIZE(1)];
  sf_buffer out = SF_BUFFER(text);
  CHECK(sf_write_verdict(&verdict, &out) == SF_OK);
  CHECK(is(sf_written(&out), "T: fresh for 18446744073709551615 s (invalid s-maxage); not stored: the "
                             "request has no-store or a malformed Cache-Control"));
}

/* The Items of Inner Lists, and the texts of parts of a tree. */
static void parts_of_trees(void) {
  sf_context context = sf_context_of(seed, SF_RFC9651);
  sf_node nodes[16];
  char bytes[64], text[64];
  sf_buffer out = SF_BUFFER(text);
  sf_tree tree = sf_tree_in(SF_NODES(nodes), SF_BUFFER(bytes));
  memset(nodes, 0, sizeof nodes);
  CHECK(sf_write_part(&context, &tree, nodes, &out) == SF_BAD_CALL);
  CHECK(sf_write_bare(&context, &tree, nodes, &out) == SF_BAD_CALL);
  CHECK(sf_read_tree(&context, SF_DICT, sf_cstr("a=(\"x\\\"y\";q=1 :YQ:  t);k=?0;l, b=1.50;m, c=()"), &tree) ==
        SF_OK);
  static const struct {
    const char *bare, *part; /* NULL: SF_INVALID */
  } rows[] = {
      {NULL, "(\"x\\\"y\";q=1 :YQ==: t);k=?0;l"}, {"\"x\\\"y\"", "\"x\\\"y\";q=1"}, {"1", NULL},
      {":YQ==:", ":YQ==:"}, {"t", "t"}, {"?0", NULL}, {"?1", NULL}, {"1.5", "1.5;m"}, {"?1", NULL}, {NULL, "()"},
  };
  CHECK(tree.nodes.length == sizeof rows / sizeof *rows);
  for (size_t i = 0; i < tree.nodes.length; ++i) {
    sf_node before = nodes[i];
    CHECK(sf_write_bare(&context, &tree, &nodes[i], &out) == (rows[i].bare ? SF_OK : SF_INVALID));
    CHECK(rows[i].bare == NULL ? out.length == 0 : is(sf_written(&out), rows[i].bare));
    CHECK(sf_write_part(&context, &tree, &nodes[i], &out) == (rows[i].part ? SF_OK : SF_INVALID));
    CHECK(rows[i].part == NULL ? out.length == 0 : is(sf_written(&out), rows[i].part));
    CHECK(memcmp(&before, &nodes[i], offsetof(sf_node, coded) + 1) == 0);
    if (rows[i].part != NULL) {
      sf_buffer less = sf_buffer_of(text, strlen(rows[i].part) - 1);
      CHECK(sf_write_part(&context, &tree, &nodes[i], &less) == SF_SHORT);
      CHECK(less.required == strlen(rows[i].part));
    }
  }
  const sf_node *items[4];
  size_t count = 0;
  for (const sf_node *item = NULL; (item = sf_next_item(&nodes[0], item)) != NULL;)
    items[count++] = item;
  CHECK(count == 3 && items[0] == &nodes[1] && items[1] == &nodes[3] && items[2] == &nodes[4]);
  CHECK(sf_next_item(&nodes[7], NULL) == NULL && sf_next_item(&nodes[9], NULL) == NULL);
}

/* Parts of trees are written as by all of the text and the bytes, and no node is changed, also with
 * offsets that are wrong. */
static void parts_by_their_ranges(void) {
  static const char *const texts[] = {
      "(\"\" \"\\\"\" :YQ==:;k=\"\\\\\";k2 t;u=\"\"), \"\", a;b=\"\\\"x\";c;d=\"\"",
      "\"x\";a;a=1, b;c=\"y\", (\"\" \"z\";q=\"\\\"\");e", /* a repeated key: all is in the bytes */
      "(), \"\\\"\", :YQ==:, 1;a=?0, %\"f%c3%bc\";b=@1, t",
  };
  static const uint32_t wrong[] = {0, 1, 2, 40, 41, 60, 80, 100, 4711, UINT32_MAX};
  sf_context context = sf_context_of(seed, SF_RFC9651);
  sf_node nodes[32], before[32], copy[32];
  char bytes[256], text[256], expected[256];
  for (size_t i = 0; i < sizeof texts / sizeof *texts; ++i) {
    sf_tree tree = sf_tree_in(SF_NODES(nodes), SF_BUFFER(bytes));
    CHECK(sf_read_tree(&context, SF_LIST, sf_cstr(texts[i]), &tree) == SF_OK);
    for (size_t part = 0; part < tree.nodes.length; ++part) {
      sf_node *node = &nodes[part], kept = *node;
      if (node->role == SF_PARAMETER || node->role == SF_INNER_PARAMETER)
        continue;
      for (size_t k = 0; k <= 4 * sizeof wrong / sizeof *wrong; ++k) {
        sf_buffer out = SF_BUFFER(text);
        size_t length = 0, invalid = 0;
        uint32_t at = k == 0 ? 0 : wrong[(k - 1) / 4], last = node->size - 1;
        if (k > 0 && k % 4 == 0)
          node->text_at = at;
        if (k > 0 && k % 4 == 1)
          node->text_length = at;
        if (k > 0 && k % 4 == 2)
          node[last].key_at = at;
        if (k > 0 && k % 4 == 3)
          node[last].text_at = at;
        memcpy(before, nodes, sizeof nodes);
        memcpy(copy, node, node->size * sizeof *node);
        copy[0].key_at = copy[0].key_length = 0;
        copy[0].role = SF_MEMBER;
        uint32_t status = sf_write(&seed, SF_RFC9651, SF_LIST, copy, copy[0].size, tree.text.at,
                                   tree.text.length, tree.bytes.at, tree.bytes.length, expected,
                                   sizeof expected, &length, &invalid);
        CHECK(sf_write_part(&context, &tree, node, &out) == status);
        CHECK(status != SF_OK || (out.length == length && memcmp(text, expected, length) == 0));
        CHECK(k > 0 || status == SF_OK);
        CHECK(memcmp(before, nodes, tree.nodes.length * sizeof *nodes) == 0);
        CHECK(sf_read_tree(&context, SF_LIST, sf_cstr(texts[i]), &tree) == SF_OK);
      }
      node->size = (uint32_t)(tree.nodes.length - part + 1); /* more nodes than there are */
      sf_buffer out = SF_BUFFER(text);
      CHECK(sf_write_part(&context, &tree, node, &out) == SF_INVALID && out.length == 0);
      node->size = kept.size;
    }
  }
}

/* What the fields of a head say, and what is malformed in it. */
static void fields_of_a_head(void) {
  static const char received[] = "GET / HTTP/1.1\r\n" /* line 7 */
                                 "Priority: u=5\r\n"
                                 "priority: i=,\r\n"
                                 "Example:\ta=1;b=?2\r\n"
                                 "Cache-Status: origin; fwd=miss\r\n"
                                 "cache-status: edge; hit, 7\r\n"
                                 "Folded\r\n"
                                 "Name: Value\r\n\r\n";
  sf_context context = sf_context_of(seed, SF_RFC8941), none = no_dialect();
  sf_head_line lines[8];
  sf_fault faults[8];
  char bytes[64], text[64];
  sf_text rest = sf_cstr(received);
  sf_head head = sf_head_in(SF_HEAD_LINES(lines), SF_BUFFER(bytes));
  head.faults = SF_FAULTS(faults);
  head.number = 7;
  CHECK(sf_take_head(&head, &rest) == SF_OK && head.faults.length == 1);
  CHECK(says(&faults[0], 40,
             "line 13, place 6: not a field line: no colon after the name\nFolded\n      ^"));
  CHECK(head.is_request == 1 && head.status == 0);

  sf_priority_flags client = {7, 7, 7, 7};
  CHECK(sf_find_priority(&context, &head, &client) == SF_OK && head.joined.length == 0);
  CHECK(client.urgency == 3 && !client.incremental && !client.has_urgency && !client.has_incremental);
  CHECK(says(&faults[0], 40,
             "line 9, place 12: Priority: byte 0x2c ',', expected a letter, a digit, a quote, `(`, `*`, "
             "`-`, `:` or `?`\npriority: i=,\n            ^"));
  CHECK(faults[0].reason == SF_FAULT_REFUSED && faults[0].location.refusal.offset == 12);
  CHECK(faults[0].location.number == 9 && faults[0].location.index == 1);
  CHECK(is(faults[0].location.line, "priority: i=,"));
  sf_response_priority_flags server = {7, 7, 7, 7};
  /* a fault is there once */
  CHECK(sf_find_response_priority(&context, &head, &server) == SF_OK && head.faults.length == 2);
  CHECK(!server.has_urgency && !server.has_incremental && server.urgency == 0);

  sf_node nodes[4];
  sf_tree tree = sf_tree_in(SF_NODES(nodes), SF_BUFFER(text));
  CHECK(sf_find_tree(&context, SF_DICT, &head, "Example", &tree) == SF_OK && tree.nodes.length == 0);
  CHECK(says(&faults[1], 6, "line 10, place 16: Example: byte 0x32 '2', expected `0` or `1`\n"
                            "...1;b=?2\n        ^"));
  CHECK(sf_check_field(&context, SF_DICT, &head, "Example") == SF_REFUSED);
  CHECK(head.faults.length == 3 && context.refusal.offset == 7);
  CHECK(sf_check_field(&context, SF_ITEM, &head, "name") == SF_OK && head.faults.length == 3);
  CHECK(sf_find_tree(&context, SF_ITEM, &head, "name", &tree) == SF_OK && tree.nodes.length == 1);
  CHECK(nodes[0].type == SF_TOKEN && is(sf_node_text(&tree, nodes), "Value"));
  /* what a call joined that failed is not kept */
  tree.nodes.capacity = 0;
  CHECK(sf_find_tree(&context, SF_LIST, &head, "Cache-Status", &tree) == SF_TOO_MANY);
  CHECK(tree.nodes.length == 0 && head.joined.length == 0);
  tree.nodes.capacity = 4;
  /* an absent Item is no empty text, which is malformed */
  CHECK(sf_check_field(&context, SF_ITEM, &head, "Absent") == SF_OK && head.faults.length == 3);
  CHECK(sf_find_tree(&context, SF_ITEM, &head, "Absent", &tree) == SF_OK && tree.nodes.length == 0);
  CHECK(sf_find_tree(&context, SF_LIST, &head, "Absent", &tree) == SF_OK && tree.nodes.length == 0);
  CHECK(head.faults.length == 3);

  sf_hop hops[4];
  sf_hop_list list = sf_hop_list_in(SF_HOPS(hops), SF_BUFFER(text));
  CHECK(sf_find_hops(&context, &head, &list) == SF_OK && list.hops.length == 0 && !list.served);
  CHECK(faults[2].location.number == 12 && faults[2].location.refusal.offset == 25);
  CHECK(faults[2].location.refusal.found == '7' && head.joined.length == 0);
  CHECK(faults[2].reason == SF_FAULT_NOT_A_CACHE && strcmp(faults[2].field, "Cache-Status") == 0);
  CHECK(says(&faults[2], 40, "line 12, place 25: Cache-Status: the member does not name a cache, expected a Token or a String\n"
                             "cache-status: edge; hit, 7\n                         ^"));
  CHECK(faults[3].reason == SF_FAULT_NOT_A_LINE && faults[3].location.number == 13);
  /* a member that names no cache stays where it is */
  sf_own_hop own = sf_hop_named("edge", SF_TOKEN);
  own.hop.outcome = SF_HIT;
  char sent[64];
  sf_buffer out = SF_BUFFER(sent);
  CHECK(sf_add_hop(&context, &head, &own, &out) == SF_OK && head.faults.length == 4);
  CHECK(is(sf_written(&out), "origin;fwd=miss, edge;hit, 7, edge;hit"));

  /* what another function refuses, of a text that sf_find_field returned */
  sf_text found;
  CHECK(sf_find_field(&head, "example", &found) == SF_OK);
  CHECK(sf_check_text(&context, SF_LIST, found) == SF_REFUSED && context.refusal.offset == 1);
  sf_note_refusal(&head, "example", &context.refusal);
  CHECK(head.faults.length == 5 && faults[2].location.refusal.offset == 10);
  CHECK(strcmp(faults[1].field, "Example") == 0 && strcmp(faults[2].field, "example") == 0);
  CHECK(sf_is_named(&lines[2], "EXAMPLE") && !sf_is_named(&lines[2], "Exampl"));
  CHECK(!sf_is_named(&lines[2], "Examples") && !sf_is_named(&lines[2], ""));

  /* faults at the same place of two lines of a field, which is read as two kinds */
  {
    sf_head_line two_lines[2];
    char joined[16];
    sf_fault two[3];
    sf_head both = sf_head_in(SF_HEAD_LINES(two_lines), SF_BUFFER(joined));
    both.faults = SF_FAULTS(two);
    CHECK(sf_add_head_line(&both, sf_cstr("A: (1)")) == SF_OK);
    CHECK(sf_add_head_line(&both, sf_cstr("A: )")) == SF_OK);
    for (int twice = 0; twice < 2; ++twice) {
      CHECK(sf_check_field(&context, SF_LIST, &both, "A") == SF_REFUSED);
      CHECK(sf_check_field(&context, SF_DICT, &both, "A") == SF_REFUSED);
    }
    CHECK(both.faults.length == 2 && both.faults.required == 2);
    CHECK(two[0].location.number == 1 && two[0].location.refusal.offset == 3);
    CHECK(two[1].location.number == 2 && two[1].location.refusal.offset == 3);
  }
  /* faults at the same place of one line, which is read as two kinds, and of lines with one number */
  {
    sf_head_line one_line[1];
    sf_fault four[5];
    sf_head one = sf_head_in(SF_HEAD_LINES(one_line), sf_buffer_of(NULL, 0));
    one.faults = SF_FAULTS(four);
    CHECK(sf_add_head_line(&one, sf_cstr("A: )")) == SF_OK);
    for (int twice = 0; twice < 2; ++twice) {
      one.number = 2;
      CHECK(sf_add_head_line(&one, sf_cstr(twice ? "c" : "b")) == SF_REFUSED);
      CHECK(sf_check_field(&context, SF_LIST, &one, "A") == SF_REFUSED);
      CHECK(sf_check_field(&context, SF_DICT, &one, "A") == SF_REFUSED);
    }
    CHECK(one.faults.length == 4 && one.faults.required == 4);
    CHECK(says(&four[0], 40, "line 1, place 3: A: byte 0x29 ')', expected a letter, a digit, a quote, "
                             "`(`, `*`, `-`, `:`, `?`, a space or the end\nA: )\n   ^"));
    CHECK(says(&four[1], 40, "line 1, place 3: A: byte 0x29 ')', expected a lower-case letter, `*`, a "
                             "space or the end\nA: )\n   ^"));
    CHECK(is(four[2].location.line, "b") && is(four[3].location.line, "c"));
  }
  {
    sf_head_line two_lines[2];
    char joined[32];
    sf_fault two[2];
    sf_target target = sf_target_of("T");
    sf_verdict verdict;
    sf_head both = sf_head_in(SF_HEAD_LINES(two_lines), SF_BUFFER(joined));
    both.faults = SF_FAULTS(two);
    CHECK(sf_add_head_line(&both, sf_cstr("T: max-age=x")) == SF_OK);
    both.number = 1;
    CHECK(sf_add_head_line(&both, sf_cstr("T:s-maxage=x")) == SF_OK);
    for (int i = 0; i < 4; ++i) {
      sf_exchange exchange = sf_exchange_of(i % 2 ? SF_SHARED_CACHE : SF_PRIVATE_CACHE, 0);
      CHECK(sf_decide_response(&context, &both, &target, 1, &exchange, &verdict) == SF_OK);
    }
    CHECK(both.faults.length == 2 && both.faults.required == 2);
    CHECK(says(&two[0], 40, "line 1, place 11: T: expected a number of seconds\nT: max-age=x\n"
                            "           ^"));
    CHECK(says(&two[1], 40, "line 1, place 11: T: expected a number of seconds\nT:s-maxage=x\n"
                            "           ^"));
  }

  /* when there is no capacity for faults, they are counted */
  head.faults = sf_faults_of(faults, 1);
  CHECK(sf_find_priority(&context, &head, &client) == SF_OK);
  CHECK(sf_find_hops(&context, &head, &list) == SF_OK);
  CHECK(head.faults.length == 1 && head.faults.required == 2);
  head.faults = sf_faults_of(NULL, 0);
  CHECK(sf_find_priority(&context, &head, &client) == SF_OK && head.faults.required == 1);

  /* buffers that are too small, and calls that fail, find nothing */
  head = sf_head_in(SF_HEAD_LINES(lines), sf_buffer_of(bytes, 7));
  head.faults = SF_FAULTS(faults);
  CHECK(sf_add_head_line(&head, sf_cstr("Priority: u=1")) == SF_OK);
  CHECK(sf_add_head_line(&head, sf_cstr("Priority: i")) == SF_OK);
  CHECK(sf_add_head_line(&head, sf_cstr("Cache-Status: edge;hit,")) == SF_OK);
  CHECK(sf_find_priority(&none, &head, &client) == SF_BAD_CALL && head.faults.required == 0);
  CHECK(sf_find_priority(&context, &head, &client) == SF_OK && client.urgency == 1);
  CHECK(client.incremental == 1 && head.joined.length == 0);
  head.joined.capacity = 5;
  memset(&client, 7, sizeof client);
  memset(&server, 7, sizeof server);
  CHECK(sf_find_priority(&context, &head, &client) == SF_SHORT && head.joined.required == 6);
  CHECK(sf_find_response_priority(&context, &head, &server) == SF_SHORT && server.urgency == 7);
  CHECK(client.urgency == 7 && sf_check_field(&context, SF_DICT, &head, "priority") == SF_SHORT);
  CHECK(sf_find_tree(&context, SF_DICT, &head, "priority", &tree) == SF_SHORT);
  CHECK(tree.nodes.length == 0 && tree.bytes.required == 0 && head.joined.required == 6);
  CHECK(sf_add_hop(&context, &head, &own, &out) == SF_OK && is(sf_written(&out), "edge;hit"));
  CHECK(head.faults.length == 1 && faults[0].location.refusal.offset == 23);
  CHECK(faults[0].location.refusal.found == SF_ENDED);
  out.capacity = 7;
  CHECK(sf_add_hop(&context, &head, &own, &out) == SF_SHORT && out.required == 8);
  out.capacity = sizeof sent;
  own.hop.outcome = SF_CONFLICT;
  own.hop.why = SF_MISS;
  CHECK(sf_add_hop(&context, &head, &own, &out) == SF_INVALID && out.length == 0);
  CHECK(sf_add_head_line(&head, sf_cstr("Cache-Status: b")) == SF_OK);
  head.joined.length = 0;
  CHECK(sf_find_hops(&context, &head, &list) == SF_SHORT && head.joined.required == 12);
  CHECK(list.hops.required == 0 && list.bytes.required == 0);
  CHECK(sf_add_hop(&context, &head, &own, &out) == SF_SHORT && out.required == 0);
}

/* Where nodes begin in the text, and the faults that a program finds at them. */
static void faults_of_programs(void) {
  enum { MOST = 12 };
  static const struct {
    sf_kind kind;
    const char *text;
    size_t length;
    size_t offsets[MOST]; /* of the nodes, in order */
  } rows[] = {
      {SF_ITEM, "  7;a;b=1", 3, {2, 4, 6}},
      {SF_LIST, "a;x,(b  \"),;\\\"(\";y;z=\":\" 1.5);w ,\t:YQ==:, ?0;  k", 12,
       {0, 2, 4, 5, 8, 17, 19, 25, 30, 34, 42, 47}},
      {SF_LIST, "%\"\\%22,\", (%\"(\" @7);a, -1", 6, {0, 10, 11, 16, 20, 23}},
      {SF_DICT, "a=1, b;x;y=2,c=(d e;f);g", 9, {0, 5, 7, 9, 13, 16, 18, 20, 23}},
      {SF_DICT, "b1=(a;q=*:/),b", 4, {0, 4, 6, 13}},
      /* the last of a key that is repeated counts */
      {SF_DICT, "a=1, b=2;x;x=3, a=(1 2);q, a=(\"b\" c;y=1;y);z;z", 7,
       {27, 30, 34, 40, 45, 5, 11}},
      {SF_DICT, "sig=(\"a\" \"b\";p);q, sig=(\"a\";p \"b\";p);q;q", 6, {19, 24, 28, 30, 34, 39}},
      {SF_ITEM, "(", 0, {0}},
  };
  sf_context context = sf_context_of(seed, SF_RFC9651);
  sf_node nodes[MOST];
  char bytes[64];
  for (size_t i = 0; i < sizeof rows / sizeof *rows; ++i) {
    sf_tree tree = sf_tree_in(SF_NODES(nodes), SF_BUFFER(bytes));
    sf_status status = sf_read_tree(&context, rows[i].kind, sf_cstr(rows[i].text), &tree);
    CHECK(status == (rows[i].length == 0 ? SF_REFUSED : SF_OK) && tree.nodes.length == rows[i].length);
    for (size_t k = 0; k < tree.nodes.length; ++k)
      CHECK(sf_node_offset(&tree, &nodes[k]) == rows[i].offsets[k]);
  }

  /* the lines of a field, and the place in the line as it was received */
  static const char received[] = "GET / HTTP/1.1\r\n" /* line 7 */
                                 "Signature-Input:  a=(\"@path\");created=1, b=1\r\n"
                                 "Host: x\r\n"
                                 "signature-input: c;created=\"7\", d=()\r\n\r\n";
  sf_head_line lines[4];
  sf_fault faults[6];
  sf_text rest = sf_cstr(received);
  char joined[128];
  sf_head head = sf_head_in(SF_HEAD_LINES(lines), SF_BUFFER(joined));
  sf_tree tree = sf_tree_in(SF_NODES(nodes), SF_BUFFER(bytes));
  head.faults = SF_FAULTS(faults);
  head.number = 7;
  CHECK(sf_take_request(&head, &rest) == SF_OK && head.faults.length == 0);
  CHECK(sf_find_tree(&context, SF_DICT, &head, "Signature-Input", &tree) == SF_OK);
  const sf_node *c = sf_find_member(&tree, "c");
  const sf_node *created = sf_find_parameter(&tree, c, "created");
  sf_location location = sf_locate_offset(&head, "Signature-Input", sf_node_offset(&tree, created));
  CHECK(location.number == 10 && location.refusal.offset == 19 && location.index == 2);
  CHECK(location.refusal.found == 'c' && is(location.line, "signature-input: c;created=\"7\", d=()"));
  for (const sf_node *node = nodes; node < sf_tree_end(&tree); node += node->size)
    if (node->type != SF_INNER_LIST)
      sf_add_fault(&head, "Signature-Input", sf_node_offset(&tree, node), "not an Inner List");
  CHECK(head.faults.length == 2 && head.faults.required == 2);
  CHECK(says_in("a.txt", &faults[0], 80,
                "a.txt, line 8, place 41: Signature-Input: not an Inner List\n"
                "Signature-Input:  a=(\"@path\");created=1, b=1\n"
                "                                         ^"));
  CHECK(says(&faults[1], 8, "line 10, place 17: Signature-Input: not an Inner List\n"
                            "...ut: c;cr...\n       ^"));
  CHECK(faults[1].reason == SF_FAULT_OWN && strcmp(faults[1].message, "not an Inner List") == 0);
  /* another message at the same place, in the order of the lines; an offset after all lines */
  sf_add_fault(&head, "Signature-Input", sf_node_offset(&tree, c), "not signed");
  sf_add_fault(&head, "Host", 0, "an unknown host");
  sf_add_fault(&head, "host", SIZE_MAX, "no port");
  CHECK(head.faults.length == 5 && says(&faults[4], 80, "line 10, place 17: Signature-Input: not "
                                        "signed\nsignature-input: c;created=\"7\", d=()\n"
                                        "                 ^"));
  CHECK(says(&faults[1], 80, "line 9, place 6: Host: an unknown host\nHost: x\n      ^"));
  CHECK(says(&faults[2], 80, "line 9, place 7: host: no port\nHost: x\n       ^"));
  /* without a field, or without a name */
  sf_add_fault(&head, "Signature", 5, "it is missing");
  CHECK(says_in("a", &faults[5], 80, "a, line 11, place 0: Signature: it is missing"));
  location = sf_locate_offset(&head, "Signature", 5);
  CHECK(location.number == 11 && location.line.length == 0 && location.refusal.offset == 0);
  sf_add_fault(&head, "", 0, "one more");
  CHECK(head.faults.length == 6 && head.faults.required == 7);
  head.faults.length = 0;
  sf_add_fault(&head, "", 0, "the request is not signed");
  CHECK(says(&faults[0], 80, "line 11, place 0: the request is not signed"));
  head.lines.length = 0;
  CHECK(sf_locate_offset(&head, "Signature", 0).number == 12); /* that of the line to be added next */

  /* the memory for a head has place for eight */
  rest = sf_cstr("a: b\n\n");
  size_t size = sf_head_memory_size(rest);
  head = sf_head_in_memory(malloc(size), size, rest);
  CHECK(sf_take_request(&head, &rest) == SF_OK && head.faults.length == 1);
  static const char words[] = "abcdefgh"; /* eight messages */
  for (size_t i = 0; i < 8; ++i)
    sf_add_fault(&head, "a", i / 7, &words[i]);
  CHECK(head.faults.length == 9 && head.faults.required == 9 && head.faults.capacity == 11);
  /* the same once more is one more */
  sf_add_fault(&head, "a", 1, &words[7]);
  CHECK(head.faults.length == 10 && strcmp(head.faults.at[9].message, "h") == 0);
  free(head.lines.at);

  /* the parameters of a node */
  CHECK(sf_read_tree(&context, SF_LIST, sf_cstr("(a;x b);y;z, c;k=1, d"), &tree) == SF_OK);
  static const struct {
    size_t node, length, params[2];
  } of[] = {{0, 2, {4, 5}}, {1, 1, {2, 0}}, {3, 0, {0, 0}}, {6, 1, {7, 0}}, {8, 0, {0, 0}}};
  for (size_t i = 0; i < sizeof of / sizeof *of; ++i) {
    const sf_node *param = NULL;
    for (size_t k = 0; k < of[i].length; ++k) {
      param = sf_next_parameter(&nodes[of[i].node], param);
      CHECK(param == &nodes[of[i].params[k]]);
    }
    CHECK(sf_next_parameter(&nodes[of[i].node], param) == NULL);
  }

  /* what client and server ask for, of two heads */
  char others[32];
  sf_head_line more[2];
  sf_priority_flags merged = {7, 7, 7, 7};
  sf_head response = sf_head_in(SF_HEAD_LINES(more), sf_buffer_of(NULL, 0));
  head = sf_head_in(SF_HEAD_LINES(lines), SF_BUFFER(others));
  head.faults = SF_FAULTS(faults);
  CHECK(sf_add_field_line(&head, sf_cstr("priority"), sf_cstr("u=5, i")) == SF_OK);
  CHECK(sf_add_field_line(&response, sf_cstr("priority"), sf_cstr("u=1")) == SF_OK);
  CHECK(sf_find_merged_priority(&context, &head, &response, &merged) == SF_OK);
  CHECK(merged.urgency == 1 && merged.incremental == 1);
  CHECK(sf_add_field_line(&response, sf_cstr("priority"), sf_cstr("i=?0")) == SF_OK);
  merged.urgency = 7;
  CHECK(sf_find_merged_priority(&context, &head, &response, &merged) == SF_SHORT);
  CHECK(merged.urgency == 7 && response.joined.required == 9);
  CHECK(sf_find_merged_priority(&context, &response, &head, &merged) == SF_SHORT);
}

/* A line of a request without a colon has none after the name, whatever comes after it. */
static void lines_without_a_colon(void) {
  static const struct {
    const char *line, *message;
  } rows[] = {
      {"Foo bar", "line 2, place 4: not a field line: no colon after the name\nFoo bar\n    ^"},
      {"Foo \t ", "line 2, place 6: not a field line: no colon after the name\nFoo ? \n      ^"},
      {"Foo", "line 2, place 3: not a field line: no colon after the name\nFoo\n   ^"},
      {"Foo :", "line 2, place 3: not a field line: white space after the name\nFoo :\n   ^"},
      {"Foo bar: x",
       "line 2, place 3: not a field line: white space after the name\nFoo bar: x\n   ^"},
  };
  for (size_t i = 0; i < sizeof rows / sizeof *rows; ++i) {
    sf_head_line lines[2];
    sf_fault faults[2];
    sf_head head = sf_head_in(SF_HEAD_LINES(lines), sf_buffer_of(NULL, 0));
    head.faults = SF_FAULTS(faults);
    CHECK(sf_add_head_line(&head, sf_cstr("GET / HTTP/1.1")) == SF_OK);
    CHECK(sf_add_head_line(&head, sf_cstr(rows[i].line)) == SF_REFUSED);
    CHECK(head.faults.length == 1 && says(&faults[0], 40, rows[i].message));
  }
}

/* Where a date is malformed, in each of its formats (RFC 9110 section 5.6.7). */
static void parts_of_dates(void) {
  static const struct {
    const char *value;
    int at; /* -1: it is a date */
    const char *part;
  } rows[] = {
      {"Sun, 06 Nov 1994 08:49:37 GMT", -1, ""},
      {"Sunday, 06-Nov-94 08:49:37 GMT", -1, ""},
      {"Sun Nov  6 08:49:37 1994", -1, ""},
      {"Wed Nov 16 08:49:37 1994", -1, ""},
      {"0", 0, ""},
      {"-1", 0, ""},
      {"", 0, ""},
      {"sun, 06 Nov 1994 08:49:37 GMT", 0, ""},
      {"Son, 06 Nov 1994 08:49:37 GMT", 0, ""},
      {"Su", 0, ""},
      {"Sun", 3, "a comma in "},
      {"Sun 06 Nov 1994 08:49:37 GMT", 3, "a comma in "},
      {"Sun,06 Nov 1994 08:49:37 GMT", 4, "a space in "},
      {"Sun, 6 Nov 1994 08:49:37 GMT", 5, "the day in "},
      {"Sun, 00 Nov 1994 08:49:37 GMT", 5, "the day in "},
      {"Sun, 32 Nov 1994 08:49:37 GMT", 5, "the day in "},
      {"Sun, 06-Nov-1994 08:49:37 GMT", 7, "a space in "},
      {"Sun, 06 November 1994 08:49:37 GMT", 11, "a space in "},
      {"Sun, 06 nov 1994 08:49:37 GMT", 8, "the month in "},
      {"Sun, 06 11 1994 08:49:37 GMT", 8, "the month in "},
      {"Sun, 06 Nov 94 08:49:37 GMT", 12, "the year in "},
      {"Sun, 06 Nov 199", 12, "the year in "},
      {"Sun, 06 Nov 1994 8:49:37 GMT", 17, "the time in "},
      {"Sun, 06 Nov 1994 24:00:00 GMT", 17, "the time in "},
      {"Sun, 06 Nov 1994 08:60:00 GMT", 17, "the time in "},
      {"Sun, 06 Nov 1994 08:49:60 GMT", 17, "the time in "},
      {"Sun, 06 Nov 1994 08:49 GMT", 17, "the time in "},
      {"Sun, 06 Nov 1994 08:49:3", 17, "the time in "},
      {"Sun, 06 Nov 1994 08:49:37", 25, "a space in "},
      {"Sun, 06 Nov 1994 08:49:37 UTC", 26, "GMT in "},
      {"Sun, 06 Nov 1994 08:49:37 +0000", 26, "GMT in "},
      {"Sun, 06 Nov 1994 08:49:37 gmt", 26, "GMT in "},
      {"Sun, 06 Nov 1994 08:49:37 GMT+1", 29, "the end of "},
      {"Mon, 06 Nov 1994 08:49:37 GMT", 0, "the weekday of that day in "},
      {"Fri, 31 Feb 1995 08:49:37 GMT", 5, "a day of that month in "},
      {"Wed, 31 Dec 1969 23:59:59 GMT", 12, "a year from 1970 on in "},
      {"Thu, 29 Feb 1900 08:49:37 GMT", 5, "a day of that month in "},
      {"Tue, 29 Feb 2000 08:49:37 GMT", -1, ""},
      {"Wed, 29 Feb 2023 08:49:37 GMT", 5, "a day of that month in "},
      {"Thu, 29 Feb 2024 08:49:37 GMT", -1, ""},
      {"Fri, 31 Apr 2026 08:49:37 GMT", 5, "a day of that month in "},
      {"Sun, 31 May 2026 08:49:37 GMT", -1, ""},
      {"Monday, 29-Feb-99 08:49:37 GMT", 8, "a day of that month in "},
      {"Tuesday, 29-Feb-00 08:49:37 GMT", -1, ""},
      {"Friday, 29-Feb-00 08:49:37 GMT", 0, "the weekday of that day in "},
      {"Monday, 06-Nov-94 08:49:37 GMT", 0, "the weekday of that day in "},
      {"Sun Sep 31 08:49:37 1994", 8, "a day of that month in "},
      {"Sat Nov  6 08:49:37 1994", 0, "the weekday of that day in "},
      {"Wed Dec 31 23:59:59 1969", 20, "a year from 1970 on in "},
      {"Sunday 06-Nov-94 08:49:37 GMT", 6, "a comma in "},
      {"Sunday, 06 Nov 1994 08:49:37 GMT", 10, "a hyphen in "},
      {"Sunday, 06-Nov-1994 08:49:37 GMT", 17, "a space in "},
      {"Sunday, 06-Nov-9 08:49:37 GMT", 15, "the year in "},
      {"Sun Nov 6 08:49:37 1994", 8, "the day in "},
      {"Sun Nov 06 08:49:37 1994", -1, ""},
      {"Sun Nov 00 08:49:37 1994", 8, "the day in "},
      {"Sun Nov  6 08:49:37 94", 20, "the year in "},
      {"Sun Nov  6 08:49:37 1994 GMT", 24, "the end of "},
      {"Sun Nov  6 1994 08:49:37", 11, "the time in "},
      {"Sun \xff", 4, "the month in "},
  };
  sf_context context = sf_context_of(seed, SF_RFC8941);
  sf_exchange exchange = sf_exchange_of(SF_SHARED_CACHE, 784111777);
  for (size_t i = 0; i < sizeof rows / sizeof *rows; ++i)
    for (int k = 0; k < 2; ++k) {
      char line[64], expected[256];
      sf_head_line lines[2];
      sf_fault faults[2];
      sf_verdict verdict;
      const char *name = k == 0 ? "Expires" : "Date";
      sf_head head = sf_head_in(SF_HEAD_LINES(lines), sf_buffer_of(NULL, 0));
      head.faults = SF_FAULTS(faults);
      snprintf(line, sizeof line, "%s:\t %s", name, rows[i].value);
      if (k == 1)
        CHECK(sf_add_field_line(&head, sf_cstr("Expires"), sf_cstr(rows[0].value)) == SF_OK);
      CHECK(sf_add_head_line(&head, sf_cstr(line)) == SF_OK);
      CHECK(sf_decide_response(&context, &head, NULL, 0, &exchange, &verdict) == SF_OK);
      CHECK(head.faults.length == (rows[i].at >= 0));
      if (rows[i].at < 0 || head.faults.length == 0)
        continue;
      snprintf(expected, sizeof expected,
               "line %d, place %d: %s: expected %san HTTP-date, such as Sun, 06 Nov 1994 08:49:37 GMT\n",
               k + 1, (int)strlen(name) + 3 + rows[i].at, name, rows[i].part);
      char message[SF_FAULT_SIZE(8, 0)];
      sf_buffer out = SF_BUFFER(message);
      size_t words = strlen(expected);
      CHECK(sf_show_fault(&faults[0], 0, &out) == SF_OK);
      CHECK(out.length > words && memcmp(message, expected, words) == 0);
    }
}

/* Lifetimes that are no numbers of seconds, and where (RFC 9111 sections 1.2.2, 4.2.1 and 5.2.2.1). */
static void numbers_of_seconds(void) {
  static const struct {
    const char *head;     /* lines of T, which is a target, and others */
    int shared, private_; /* the places of the fault in both kinds of caches, -1 without one */
    int line, is_other; /* 2 is another s-maxage */
  } rows[] = {
      {"Cache-Control: max-age=60, s-maxage=\"6\\0\"", -1, -1, 0, 0},
      {"Cache-Control: max-age=6o", 23, 23, 1, 0},
      {"Cache-Control: a=\"max-age=x\", Max-Age", 37, 37, 1, 0},
      {"Cache-Control: max-age=\"\"", 23, 23, 1, 0},
      {"Cache-Control: max-age=\"6\\o\"", 23, 23, 1, 0},
      {"Cache-Control: max-age=-1 , public", 23, 23, 1, 0},
      {"Cache-Control: max-age=60\nX: y\ncache-control: public,, max-age=\"60\", max-age=061", 46, 46, 3, 1},
      {"Cache-Control: max-age=99999999999, max-age=99999999998", -1, -1, 0, 0},
      {"Cache-Control: max-age=5, s-maxage=6\nCache-Control: S-Maxage=7", 24, -1, 2, 2},
      {"Cache-Control: s-maxage=x, max-age=60", 24, -1, 1, 0},
      {"Cache-Control: s-maxage=60, max-age=x", -1, 36, 1, 0},
      {"Cache-Control: max-age=x, must-revalidate", 23, 23, 1, 0},
      {"Cache-Control: max-age=x, no-store", -1, -1, 0, 0},
      {"Cache-Control: max-age=x, no-cache", -1, -1, 0, 0},
      {"Cache-Control: max-age=x, private", -1, 23, 1, 0},
      {"Cache-Control: max-age=x, a b", 28, 28, 1, -1}, /* the line is refused */
      {"T: max-age=1.5", 11, 11, 1, 0},
      {"T: a=\"max-age=1\", max-age", 25, 25, 1, 0},
      {"T: a=(max-age)\nT: b;max-age=1, max-age=\"60\"", 24, 24, 2, 0},
      {"T: max-age=5\nT: max-age=-5", 11, 11, 2, 0}, /* the last counts */
      {"T: max-age=-5\nT: max-age=5", -1, -1, 0, 0},
      {"T: s-maxage=?0, max-age=6", 12, -1, 1, 0},
      {"T: max-age=a, no-cache", -1, -1, 0, 0},
      {"T: x\nCache-Control: max-age=x", -1, -1, 0, 0}, /* it is not read */
  };
  sf_context context = sf_context_of(seed, SF_RFC8941);
  sf_target target = sf_target_of("T");
  for (size_t i = 0; i < sizeof rows / sizeof *rows; ++i)
    for (int is_shared = 0; is_shared < 2; ++is_shared) {
      sf_exchange exchange =
          sf_exchange_of(is_shared ? SF_SHARED_CACHE : SF_PRIVATE_CACHE, 784111777);
      int place = is_shared ? rows[i].shared : rows[i].private_;
      sf_head_line lines[4];
      sf_fault faults[4];
      sf_verdict verdict;
      char joined[64];
      sf_text rest = sf_cstr(rows[i].head);
      sf_head head = sf_head_in(SF_HEAD_LINES(lines), SF_BUFFER(joined));
      head.faults = SF_FAULTS(faults);
      while (rest.length > 0)
        CHECK(sf_add_head_line(&head, sf_take_line(&rest)) == SF_OK);
      for (int twice = 0; twice < 2; ++twice)
        CHECK(sf_decide_response(&context, &head, &target, 1, &exchange, &verdict) == SF_OK);
      CHECK(head.joined.length == 0 && head.faults.length == (place >= 0));
      if (place < 0 || head.faults.length == 0)
        continue;
      CHECK(faults[0].location.number == (uint64_t)rows[i].line);
      CHECK(faults[0].location.refusal.offset == (uint64_t)place);
      CHECK(faults[0].reason == (rows[i].is_other < 0 ? (uint32_t)SF_FAULT_REFUSED
                                 : rows[i].is_other   ? (uint32_t)SF_FAULT_OTHER_SECONDS
                                                      : (uint32_t)SF_FAULT_NOT_SECONDS));
      char message[SF_FAULT_SIZE(13, 60)];
      sf_buffer out = SF_BUFFER(message);
      CHECK(sf_show_fault(&faults[0], 60, &out) == SF_OK);
      message[out.length - 1] = 0;
      CHECK(strstr(message, rows[i].is_other < 0 ? "expected `,` or the end\n"
                            : rows[i].is_other == 2 ? "Cache-Control: s-maxage had another value before\n"
                            : rows[i].is_other   ? "Cache-Control: max-age had another value before\n"
                                                 : ": expected a number of seconds\n") != NULL);
    }
}

/* What is malformed in whole heads: "A server MUST reject .. any received request message that
 * contains whitespace between a header field name and colon", and "A proxy MUST remove any such
 * whitespace from a response message" (RFC 9112 section 5.1); "No whitespace is allowed in the
 * request-target" (section 3.2). c/rust/sf/tests/head.rs has the same rows. */
static void faults_of_whole_heads(void) {
  enum { HEAD, REQUEST, RESPONSE, MOST = 3 };
  static const struct {
    int kind;
    const char *head;
    size_t lines; /* field lines */
    int is_incomplete;
    const char *messages[MOST];
  } rows[] = {
      {REQUEST, "GET /a b HTTP/1.1\r\nHost : x\r\nPriority: u=1\r\n\r\n", 1, 1,
       {"line 1, place 6: neither a start line (white space in the target) nor a field line (no colon "
        "after the name)\nGET /a b HTTP/1.1\n      ^",
        "line 2, place 4: not a field line: white space after the name\nHost : x\n    ^"}},
      {HEAD, "GET /a b HTTP/1.1\r\nHost : x\r\nPriority: u=1\r\n\r\n", 2, 1,
       {"line 1, place 6: neither a start line (white space in the target) nor a field line (no colon "
        "after the name)\nGET /a b HTTP/1.1\n      ^",
        "line 2, place 4: white space before the colon\nHost : x\n    ^"}},
      {RESPONSE, "GET /a b HTTP/1.1\r\nHost : x\r\nPriority: u=1\r\n\r\n", 2, 1,
       {"line 1, place 0: neither a start line (a status line begins with HTTP/) nor a field line (no "
        "colon after the name)\nGET /a b HTTP/1.1\n^",
        "line 2, place 4: white space before the colon\nHost : x\n    ^"}},
      {REQUEST, "\r\nGET /\nA : b\nC: d\n\n", 1, 1,
       {"line 2, place 5: neither a start line (no method, target and version) nor a field line (no "
        "colon after the name)\nGET /\n     ^",
        "line 3, place 1: not a field line: white space after the name\nA : b\n ^"}},
      {RESPONSE, "HTTP/1.1 2x0 OK\r\nAge \t: 1\r\n\r\n", 1, 1,
       {"line 1, place 9: neither a start line (no status code of three digits) nor a field line (no "
        "colon after the name)\nHTTP/1.1 2x0 OK\n         ^",
        "line 2, place 3: white space before the colon\nAge ?: 1\n   ^"}},
      {RESPONSE, "HTTP/1.1 200 OK\r\nAge\t : 1\r\nVia: a\r\n\r\n", 2, 0,
       {"line 2, place 3: white space before the colon\nAge? : 1\n   ^"}},
      {REQUEST, "HTTP/1.1 200 OK\r\nAge\t : 1\r\nVia: a\r\n\r\n", 1, 1,
       {"line 1, place 0: the head of a request begins with a request line\nHTTP/1.1 200 OK\n^",
        "line 2, place 3: not a field line: white space after the name\nAge? : 1\n   ^"}},
      {RESPONSE, "GET / HTTP/1.1\nAge : 1\n\n", 0, 1,
       {"line 1, place 0: the head of a response begins with a status line\nGET / HTTP/1.1\n^",
        "line 2, place 3: not a field line: white space after the name\nAge : 1\n   ^"}},
      {REQUEST, "Age : 1\n\n", 0, 1,
       {"line 1, place 6: neither a start line (no method, target and version) nor a field line (white "
        "space after the name)\nAge : 1\n      ^"}},
      {REQUEST, "Age\t: 1\n\n", 0, 1,
       {"line 1, place 3: neither a start line (no method, target and version) nor a field line (white "
        "space after the name)\nAge?: 1\n   ^"}},
      {RESPONSE, "Age : 1\n\n", 1, 1,
       {"line 1, place 3: white space before the colon\nAge : 1\n   ^",
        "line 1, place 0: the head of a response begins with a status line\nAge : 1\n^"}},
      {HEAD, "Age : 1\n\n", 1, 0, {"line 1, place 3: white space before the colon\nAge : 1\n   ^"}},
      {RESPONSE, "HTTP/2 200\n\n", 0, 0, {NULL}},
      /* "HTTP-name is case-sensitive" (RFC 9112 section 2.3) */
      {RESPONSE, "http/1.1 200 OK\nAge: 1\n\n", 1, 1,
       {"line 1, place 0: neither a start line (a status line begins with HTTP/) nor a field line (no "
        "colon after the name)\nhttp/1.1 200 OK\n^"}},
      {HEAD, "http/1.1 200 OK\nAge: 1\n\n", 1, 1,
       {"line 1, place 4: neither a start line (no method, target and version) nor a field line (no "
        "colon after the name)\nhttp/1.1 200 OK\n    ^"}},
      {REQUEST, "http/1.1 200 OK\n\n", 0, 1,
       {"line 1, place 4: neither a start line (no method, target and version) nor a field line (no "
        "colon after the name)\nhttp/1.1 200 OK\n    ^"}},
      {RESPONSE, "HTTP\n\n", 0, 1,
       {"line 1, place 4: neither a start line (a status line begins with HTTP/) nor a field line (no "
        "colon after the name)\nHTTP\n    ^"}},
      {RESPONSE, "HTTP/x\n\n", 0, 1,
       {"line 1, place 5: neither a start line (no version) nor a field line (no colon after the "
        "name)\nHTTP/x\n     ^"}},
      {RESPONSE, "200\rOK\n\n", 0, 1,
       {"line 1, place 3: neither a start line (a CR, LF or NUL in it) nor a field line (no colon after "
        "the name)\n200?OK\n   ^"}},
      {REQUEST, "GET / HTTP/1.1\nHost: x", 1, 1,
       {"line 2, place 7: the head is cut off: its last line has no line end\nHost: x\n       ^"}},
      {REQUEST, "GET / HTTP/1.1\nHost", 0, 1,
       {"line 2, place 4: not a field line: no colon after the name\nHost\n    ^",
        "line 2, place 4: the head is cut off: its last line has no line end\nHost\n    ^"}},
      {REQUEST, "GET / HTTP/1.1\nHost: x\r", 1, 1,
       {"line 2, place 8: the head is cut off: its last line has no line end\nHost: x?\n        ^"}},
      {REQUEST, "GET / HTTP/1.1", 0, 1,
       {"line 1, place 14: the head is cut off: its last line has no line end\nGET / HTTP/1.1\n"
        "              ^"}},
      {RESPONSE, "HTTP/1.1 20", 0, 1,
       {"line 1, place 9: neither a start line (no status code of three digits) nor a field line (no "
        "colon after the name)\nHTTP/1.1 20\n         ^",
        "line 1, place 11: the head is cut off: its last line has no line end\nHTTP/1.1 20\n"
        "           ^"}},
      {REQUEST, "GET / HTTP/1.1\r\n", 0, 1,
       {"line 2, place 0: the head does not end with an empty line"}},
      {HEAD, "Host: x\r\n\r", 1, 1,
       {"line 2, place 1: the head is cut off: its last line has no line end\n?\n ^"}},
      {RESPONSE, "", 0, 1,
       {"line 1, place 0: the head of a response begins with a status line",
        "line 1, place 0: the head does not end with an empty line"}},
  };
  for (size_t i = 0; i < sizeof rows / sizeof *rows; ++i) {
    sf_text rest = sf_cstr(rows[i].head);
    size_t size = sf_head_memory_size(rest), count = 0;
    void *memory = malloc(size);
    CHECK(memory != NULL);
    sf_head head = sf_head_in_memory(memory, size, rest);
    sf_status status = rows[i].kind == REQUEST    ? sf_take_request(&head, &rest)
                       : rows[i].kind == RESPONSE ? sf_take_response(&head, &rest)
                                                  : sf_take_head(&head, &rest);
    CHECK(status == (head.is_truncated ? SF_REFUSED : SF_OK) && rest.length == 0);
    CHECK(head.lines.length == rows[i].lines);
    CHECK((head.is_incomplete || head.is_truncated) == rows[i].is_incomplete);
    for (; count < MOST && rows[i].messages[count] != NULL; ++count)
      CHECK(count < head.faults.length && says(&head.faults.at[count], 60, rows[i].messages[count]));
    CHECK(head.faults.length == count && head.faults.required == count);
    free(memory);
  }
}

/* Each member of Cache-Status that names no cache is a fault: "Each List member identifies the cache
 * that inserted it, and this identifier MUST be a String or Token" (RFC 9211 section 2).
 * c/rust/sf/tests/head.rs has the same rows. */
static void members_that_name_no_cache(void) {
  enum { MOST = 5 };
  static const struct {
    const char *head;
    const char *messages[MOST];
  } rows[] = {
      {"Cache-Status: 7, a, (b c), \"d, 1\"; x=\", 2\", ?1,*e\n\n",
       {"line 1, place 14: Cache-Status: the member does not name a cache, expected a Token or a String\n"
        "Cache-Status: 7, a, (b c), \"d, 1\"; x=\", 2\", ?1,*e\n"
        "              ^",
        "line 1, place 20: Cache-Status: the member does not name a cache, expected a Token or a String\n"
        "Cache-Status: 7, a, (b c), \"d, 1\"; x=\", 2\", ?1,*e\n"
        "                    ^",
        "line 1, place 44: Cache-Status: the member does not name a cache, expected a Token or a String\n"
        "Cache-Status: 7, a, (b c), \"d, 1\"; x=\", 2\", ?1,*e\n"
        "                                            ^"}},
      {"Cache-Status: a; hit, 1.5\nAge: 1\ncache-status:\t:YQ==:, *b;hit\n\n",
       {"line 1, place 22: Cache-Status: the member does not name a cache, expected a Token or a String\n"
        "Cache-Status: a; hit, 1.5\n"
        "                      ^",
        "line 3, place 14: Cache-Status: the member does not name a cache, expected a Token or a String\n"
        "cache-status:?:YQ==:, *b;hit\n"
        "              ^"}},
      /* a String that goes on in the next line */
      {"Cache-Status: \"c\nCache-Status: 1\", 2\nCache-Status: -3\n\n",
       {"line 2, place 18: Cache-Status: the member does not name a cache, expected a Token or a String\n"
        "Cache-Status: 1\", 2\n"
        "                  ^",
        "line 3, place 14: Cache-Status: the member does not name a cache, expected a Token or a String\n"
        "Cache-Status: -3\n"
        "              ^"}},
      /* between the faults of other lines */
      {"HTTP/2 200\nCache-Status : 1, 2\nx\nCache-Status: 3\n\n",
       {"line 2, place 12: white space before the colon\n"
        "Cache-Status : 1, 2\n"
        "            ^",
        "line 2, place 15: Cache-Status: the member does not name a cache, expected a Token or a String\n"
        "Cache-Status : 1, 2\n"
        "               ^",
        "line 2, place 18: Cache-Status: the member does not name a cache, expected a Token or a String\n"
        "Cache-Status : 1, 2\n"
        "                  ^",
        "line 3, place 1: not a field line: no colon after the name\n"
        "x\n"
        " ^",
        "line 4, place 14: Cache-Status: the member does not name a cache, expected a Token or a String\n"
        "Cache-Status: 3\n"
        "              ^"}},
      {"Cache-Status: a, \"b\", *c\n\n", {NULL}},
      /* what is no List is refused once */
      {"Cache-Status: 1, 2,\n\n",
       {"line 1, place 19: Cache-Status: the text ended, expected a letter, a digit, a quote, "
        "`(`, `*`, `-`, `:`, `?`, a tab or a space\n"
        "Cache-Status: 1, 2,\n"
        "                   ^"}},
  };
  sf_context context = sf_context_of(seed, SF_RFC8941);
  for (size_t i = 0; i < sizeof rows / sizeof *rows; ++i) {
    sf_text rest = sf_cstr(rows[i].head);
    size_t size = sf_head_memory_size(rest), count = 0;
    void *memory = malloc(size);
    sf_hop hops[8];
    char bytes[64];
    sf_hop_list list = sf_hop_list_in(SF_HOPS(hops), SF_BUFFER(bytes));
    CHECK(memory != NULL);
    sf_head head = sf_head_in_memory(memory, size, rest);
    CHECK(sf_take_head(&head, &rest) == SF_OK);
    for (int twice = 0; twice < 2; ++twice) {
      CHECK(sf_find_hops(&context, &head, &list) == SF_OK);
      CHECK(list.hops.length == (rows[i].messages[0] == NULL ? 3 : 0) && head.joined.length == 0);
    }
    while (count < MOST && rows[i].messages[count] != NULL)
      ++count;
    CHECK(head.faults.length == count && head.faults.required == count);
    for (size_t k = 0; k < count && k < head.faults.length; ++k)
      CHECK(says(&head.faults.at[k], 60, rows[i].messages[k]));
    free(memory);
  }

  /* a line that is added later, and buffers that are too small: those that were found first are kept */
  for (size_t capacity = 0; capacity < 8; ++capacity) {
    sf_head_line lines[3];
    sf_fault faults[8];
    char joined[32];
    sf_hop_list list = sf_hop_list_in(sf_hops_of(NULL, 0), sf_buffer_of(NULL, 0));
    sf_head head = sf_head_in(SF_HEAD_LINES(lines), SF_BUFFER(joined));
    head.faults = sf_faults_of(faults, capacity);
    head.is_begun = 1;
    CHECK(sf_add_head_line(&head, sf_cstr("Cache-Status: 1, 2")) == SF_OK);
    CHECK(sf_add_head_line(&head, sf_cstr("x")) == SF_REFUSED && head.faults.required == 1);
    CHECK(sf_find_hops(&context, &head, &list) == SF_OK && head.faults.required == 3);
    CHECK(sf_add_head_line(&head, sf_cstr("cache-status: a, 3, 4")) == SF_OK);
    CHECK(sf_find_hops(&context, &head, &list) == SF_OK && list.nameless == 0);
    size_t kept = capacity < 5 ? capacity : 5;
    CHECK(head.faults.length == kept && (capacity < 5 || head.faults.required == 5));
    static const struct {
      uint64_t number, offset;
    } places[] = {{1, 14}, {1, 17}, {2, 1}, {3, 17}, {3, 20}};
    /* of a small buffer, the fault of line 2 takes the first place */
    for (size_t k = 0; k < kept; ++k) {
      size_t at = capacity == 1 ? 2 : capacity == 2 && k == 1 ? 2 : k;
      CHECK(faults[k].location.number == places[at].number);
      CHECK(faults[k].location.refusal.offset == places[at].offset);
      CHECK(faults[k].location.index == (at < 2 ? 0 : 1));
    }
  }

  /* very many members, each between the lines, and very many faults of other lines after them: this
   * would take minutes if each moved all others */
  enum { MANY = 100000 };
  char *text = (char *)malloc(4 * MANY + 32);
  CHECK(text != NULL);
  size_t length = (size_t)sprintf(text, "Cache-Status:1");
  for (size_t i = 1; i < MANY; ++i, length += 2)
    memcpy(text + length, ",1", 2);
  text[length++] = '\n';
  for (size_t i = 0; i < MANY; ++i, length += 2)
    memcpy(text + length, "x\n", 2);
  text[length++] = '\n';
  sf_text rest = sf_text_of(text, length);
  size_t size = sf_head_memory_size(rest);
  void *memory = malloc(size);
  CHECK(memory != NULL && size <= 74 * length + 1024);
  sf_head head = sf_head_in_memory(memory, size, rest);
  sf_hop_list list = sf_hop_list_in(sf_hops_of(NULL, 0), sf_buffer_of(NULL, 0));
  CHECK(sf_take_head(&head, &rest) == SF_OK && head.faults.length == MANY);
  for (int twice = 0; twice < 2; ++twice) {
    CHECK(sf_check_head(&context, &head, NULL, 0) == SF_OK && head.faults.length == 2 * MANY);
    CHECK(sf_find_hops(&context, &head, &list) == SF_OK && head.faults.length == 2 * MANY);
  }
  CHECK(head.faults.required == 2 * MANY && head.faults.at[MANY].location.number == 2);
  CHECK(head.faults.at[MANY - 1].location.refusal.offset == 13 + 2 * (MANY - 1));
  free(memory);
  free(text);
}

/* Numbers with too many digits (RFC 9651 sections 3.3.1, 3.3.2 and 3.3.7), and what is like them.
 * c/rust/sf/tests/head.rs has the same rows. */
static void numbers_with_too_many_digits(void) {
  static const struct {
    const char *value;
    int place, is_long;
  } rows[] = {
      {"1234567890123456", 15, 1},   {"-1234567890123456", 16, 1}, {"a;q=1234567890123456", 19, 1},
      {"a, 1234567890123.5", 16, 1}, {"-1234567890123.5", 14, 1},  {"123456789012345.", 15, 1},
      {"1.2345", 5, 1},              {"-123456789012.1234", 17, 1}, {"@1234567890123456", 16, 1},
      {"@-1234567890123456", 17, 1}, {"@1234567890123.5", 14, 0},  {"@-1234567890123.5", 15, 0},
      {"?11", 2, 0},                 {":1234567890123.:", 14, 0},  {"1.2.3", 3, 0},
      {"1..2", 2, 0},                {"%\"%c31\"", 5, 0},          {"123456789012345a", 15, 0},
      {"1.234.", 5, 0},
  };
  sf_context context = sf_context_of(seed, SF_RFC9651);
  for (size_t i = 0; i < sizeof rows / sizeof *rows; ++i)
    for (int k = 0; k < 2; ++k) {
      char line[64], expected[64], message[SF_FAULT_SIZE(1, 0)];
      sf_head_line lines[1];
      sf_fault faults[1];
      sf_buffer out = SF_BUFFER(message);
      sf_head head = sf_head_in(SF_HEAD_LINES(lines), sf_buffer_of(NULL, 0));
      head.faults = SF_FAULTS(faults);
      snprintf(line, sizeof line, "A:%s", rows[i].value);
      CHECK((k == 0 ? sf_add_head_line(&head, sf_cstr(line))
                    : sf_add_field_line(&head, sf_cstr("A"), sf_cstr(rows[i].value))) == SF_OK);
      CHECK(sf_check_field(&context, SF_LIST, &head, "A") == SF_REFUSED);
      CHECK(sf_show_fault(&faults[0], 0, &out) == SF_OK);
      snprintf(expected, sizeof expected, "line 1, place %d: A: %sbyte 0x",
               rows[i].place + (k == 0 ? 2 : 0), rows[i].is_long ? "too many digits: " : "");
      CHECK(out.length > strlen(expected) && memcmp(message, expected, strlen(expected)) == 0);
    }
}

/* Lines to which the program gives one number are several lines all the same. */
static void lines_of_one_number(void) {
  sf_context context = sf_context_of(seed, SF_RFC8941);
  sf_head_line lines[3];
  sf_fault faults[6];
  char joined[16];
  sf_head head = sf_head_in(SF_HEAD_LINES(lines), SF_BUFFER(joined));
  head.faults = SF_FAULTS(faults);
  static const char *const received[] = {"A: (1)", "A: )", "B: x y", "?", "?"};
  for (size_t i = 0; i < 5; ++i) {
    head.number = 7;
    CHECK(sf_add_head_line(&head, sf_cstr(received[i])) == (i < 3 ? SF_OK : SF_REFUSED));
  }
  CHECK(head.faults.length == 2 && faults[1].location.number == 7);
  for (int twice = 0; twice < 2; ++twice) {
    CHECK(sf_check_field(&context, SF_LIST, &head, "A") == SF_REFUSED);
    CHECK(sf_check_field(&context, SF_DICT, &head, "A") == SF_REFUSED);
  }
  CHECK(head.faults.length == 4 && faults[2].location.index == 1 && faults[3].location.index == 0);
  CHECK(faults[2].location.refusal.offset == 3 && faults[3].location.refusal.offset == 3);
  sf_location location = sf_locate_offset(&head, "B", 2);
  CHECK(location.index == 2 && is(location.line, "B: x y") && location.refusal.offset == 5);
  location = sf_locate_offset(&head, "A", 5);
  CHECK(location.index == 1 && is(location.line, "A: )") && location.refusal.offset == 3);
}

/* What a decision finds malformed, and where (RFC 9111 sections 4.2.1, 5.1 and 5.2; RFC 9110 sections
 * 5.6.1 to 5.6.4 and 5.6.7; RFC 9213 section 2.1). */
static void faults_of_decisions(void) {
  enum { MOST = 3 };
  static const struct {
    const char *head;
    const char *messages[MOST];
  } rows[] = {
      {"Age: 5\nCache-Control: max-age=60, a=\"b\\\"c\" , ,d\t,\nDate: Sun, 06 Nov 1994 08:49:37 GMT\n",
       {NULL}},
      {"T: max-age=60,\nAge: \t90x \n",
       {"line 1, place 14: T: the text ended, expected a lower-case letter, `*`, a tab or a space\n"
        "T: max-age=60,\n              ^",
        "line 2, place 8: Age: expected a number of seconds\nAge: ?90x \n        ^"}},
      {"Age:\nAge: 5\n",
       {"line 1, place 4: Age: expected a number of seconds\nAge:\n    ^",
        "line 2, place 5: Age: there are several values\nAge: 5\n     ^"}},
      {"Age: \t \n", {"line 1, place 7: Age: expected a number of seconds\nAge: ? \n       ^"}},
      {"Age: , 20\n", {"line 1, place 5: Age: expected a number of seconds\nAge: , 20\n     ^"}},
      {"Age:\t12 3 ,4\n",
       {"line 1, place 7: Age: expected a number of seconds\nAge:?12 3 ,4\n       ^",
        "line 1, place 11: Age: there are several values\nAge:?12 3 ,4\n           ^"}},
      {"Age: \xe9\n", {"line 1, place 5: Age: expected a number of seconds\nAge: ?\n     ^"}},
      {"Age: -5, x\n",
       {"line 1, place 5: Age: expected a number of seconds\nAge: -5, x\n     ^",
        "line 1, place 9: Age: there are several values\nAge: -5, x\n         ^"}},
      {"Age: 1.5\n", {"line 1, place 6: Age: expected a number of seconds\nAge: 1.5\n      ^"}},
      /* "a cache encountering a message with a list-based Age field value SHOULD use the first member of
       * the field value, discarding subsequent ones" (RFC 9111 section 5.1) */
      {"Age: 20\t, x\n", {"line 1, place 10: Age: there are several values\nAge: 20?, x\n          ^"}},
      {"Age: 5\nAge: x\n", {"line 2, place 5: Age: there are several values\nAge: x\n     ^"}},
      {"Age: 5, 6\nAge: 7\n", {"line 1, place 8: Age: there are several values\nAge: 5, 6\n        ^"}},
      {"Age: 5 ,\t,\n", {NULL}}, /* empty members are none (RFC 9110 section 5.6.1.2) */
      {"Age: 5,,\nVia: a\nage:\n", {"line 3, place 4: Age: there are several values\nage:\n    ^"}},
      {"Age: , 20,30\n",
       {"line 1, place 5: Age: expected a number of seconds\nAge: , 20,30\n     ^",
        "line 1, place 10: Age: there are several values\nAge: , 20,30\n          ^"}},
      {"T: max-age=1\nCache-Control: a b\nExpires: 0\nDate: x\n", {NULL}}, /* they are not read */
      {"Expires:  0 \nDate: Sun\n",
       {"line 1, place 10: Expires: expected an HTTP-date, such as Sun, 06 Nov 1994 08:49:37 "
        "GMT\nExpires:  0 \n          ^",
        "line 2, place 9: Date: expected a comma in an HTTP-date, such as Sun, 06 Nov 1994 08:49:37 "
        "GMT\nDate: Sun\n         ^"}},
      {"Expires: Sun, 06 Nov 1994 08:49:37 GMT\nExpires: Sun, 06 Nov 1994 08:49:37 GMT\nexpires: x\n",
       {"line 2, place 9: Expires: there are several lines\nExpires: Sun, 06 Nov 1994 ...\n         "
        "^"}},
      {"Expires: Sun, 06 Nov 1994 08:49:37 GMT\nDate: x\nDate: Sun, 06 Nov 1994 08:49:37 GMT\nDate: x\n",
       {"line 2, place 6: Date: expected an HTTP-date, such as Sun, 06 Nov 1994 08:49:37 "
        "GMT\nDate: x\n      ^",
        "line 3, place 6: Date: there are several lines\nDate: Sun, 06 Nov 1994 08:...\n      ^"}},
      /* dates by which nothing is decided, as of the Expires: 0 that is everywhere */
      {"Date: x\nDate: Sun, 06 Nov 1994 08:49:37 GMT\nDate: x\n", {NULL}},
      {"Expires: 0\nCache-Control: no-store\nDate: x\n", {NULL}},
      {"Expires: 0\nExpires: 0\nCache-Control: private\n", {NULL}},
      {"Expires: 0\nCache-Control: No-Cache\nDate: x\n", {NULL}},
      {"Expires: 0\nCache-Control: max-age=1\nDate: x\n", {NULL}},
      {"Expires: 0\nCache-Control: max-age=x, must-revalidate\n",
       {"line 2, place 23: Cache-Control: expected a number of seconds\n"
        "...rol: max-age=x, must-reval...\n                ^"}},
      {"Expires: 0\nCache-Control: s-maxage=1\n", {NULL}},
      {"Expires: 0\nCache-Control: s-maxage\n",
       {"line 2, place 23: Cache-Control: expected a number of seconds\n"
        "Cache-Control: s-maxage\n                       ^"}},
      {"Expires: 0\nCache-Control: must-understand\n", {NULL}},
      {"Expires: 0\nT: x\n", {NULL}},
      {"Expires: 0\nT: \nCache-Control: no-transform, must-revalidate\n",
       {"line 1, place 9: Expires: expected an HTTP-date, such as Sun, 06 Nov 1994 08:49:37 "
        "GMT\nExpires: 0\n         ^"}},
      {"Expires: 0\nCache-Control: public\nDate: Sun, 06 Nov 1994 08:49:37 GMT\n",
       {"line 1, place 9: Expires: expected an HTTP-date, such as Sun, 06 Nov 1994 08:49:37 "
        "GMT\nExpires: 0\n         ^"}},
      {"Cache-Control: a b\nExpires: 0\nDate: x\n",
       {"line 1, place 17: Cache-Control: byte 0x62 'b', expected `,` or the end\n"
        "Cache-Control: a b\n                 ^"}},
      {"Cache-Control: a b\nCache-Control: c d\n",
       {"line 1, place 17: Cache-Control: byte 0x62 'b', expected `,` or the end\n"
        "Cache-Control: a b\n                 ^"}},
      {"Cache-Control:a=\n",
       {"line 1, place 16: Cache-Control: the text ended, expected a token or a quoted-string\n"
        "Cache-Control:a=\n                ^"}},
  };
  static const struct {
    const char *line;
    uint64_t offset;
    int32_t found;
    uint32_t may_end;
    const char *allowed, *barred;
  } places[] = {
      {"a b", 2, 'b', 1, ", \t", "b=\"a"},     {"a=", 2, -1, 0, "\"a!", ", \t="},
      {"a==", 2, '=', 0, "\"a", ", ="},        {"a=\"b", 4, -1, 0, "a \t\"\\", "\n\x7f"},
      {"a=\"b\\", 5, -1, 0, "a \"\\", "\n"},  {"a=\"b\"c", 5, 'c', 1, ", \t", "c\"="},
      {"a=b\"", 3, '"', 1, "c, \t", "\"="},    {"=a", 0, '=', 1, "a, \t", "=\""},
      {"a, =", 3, '=', 1, "a, \t", "=\""},     {"a=\"\x01\"", 3, 1, 0, "a\"\\", "\x01"},
      {"a\xe9", 1, 0xe9, 1, "a=, \t", "\""},   {"a = b", 2, '=', 1, ", \t", "=a"},
  };
  sf_context context = sf_context_of(seed, SF_RFC8941);
  sf_target target = sf_target_of("T");
  sf_exchange exchange = sf_exchange_of(SF_SHARED_CACHE, 784111777);
  sf_head_line lines[4];
  sf_fault faults[MOST];
  sf_verdict verdict;
  for (size_t i = 0; i < sizeof rows / sizeof *rows; ++i) {
    sf_text rest = sf_cstr(rows[i].head);
    sf_head head = sf_head_in(SF_HEAD_LINES(lines), sf_buffer_of(NULL, 0));
    head.faults = SF_FAULTS(faults);
    while (rest.length > 0)
      CHECK(sf_add_head_line(&head, sf_take_line(&rest)) == SF_OK);
    CHECK(sf_decide_response(&context, &head, &target, 1, &exchange, &verdict) == SF_OK);
    CHECK(sf_decide_response(&context, &head, &target, 1, &exchange, &verdict) == SF_OK); /* once */
    size_t count = 0;
    for (; count < MOST && rows[i].messages[count] != NULL; ++count)
      CHECK(count < head.faults.length && says(&faults[count], 26, rows[i].messages[count]));
    CHECK(head.faults.length == count && head.faults.required == count);
    /* a call that fails finds nothing more */
    exchange.cache = 0;
    CHECK(sf_decide_response(&context, &head, &target, 1, &exchange, &verdict) == SF_BAD_CALL);
    CHECK(head.faults.length == count && head.faults.required == count);
    exchange.cache = SF_SHARED_CACHE;
  }
  for (size_t i = 0; i < sizeof places / sizeof *places; ++i) {
    sf_head head = sf_head_in(SF_HEAD_LINES(lines), sf_buffer_of(NULL, 0));
    head.faults = SF_FAULTS(faults);
    CHECK(sf_add_field_line(&head, sf_cstr("cache-control"), sf_cstr(places[i].line)) == SF_OK);
    CHECK(sf_decide_response(&context, &head, NULL, 0, &exchange, &verdict) == SF_OK);
    CHECK(head.faults.length == 1 && strcmp(faults[0].field, "Cache-Control") == 0);
    const sf_refusal *refusal = &faults[0].location.refusal;
    CHECK(refusal->offset == places[i].offset && refusal->found == places[i].found);
    CHECK(refusal->may_end == places[i].may_end);
    for (const char *byte = places[i].allowed; *byte != 0; ++byte)
      CHECK((*byte < 64 ? refusal->expected_low >> *byte : refusal->expected_high >> (*byte - 64)) & 1);
    for (const char *byte = places[i].barred; *byte != 0; ++byte)
      CHECK(!((*byte < 64 ? refusal->expected_low >> *byte : refusal->expected_high >> (*byte - 64)) & 1));
  }
  /* s-maxage sets no lifetime in a private cache, and private does not forbid it to store; no-store
   * does not forbid a cache that understands the status code, beside must-understand */
  {
    static const struct {
      const char *line;
      uint32_t cache, is_understood;
      size_t faults;
    } dated[] = {
        {"Cache-Control: s-maxage=1", SF_PRIVATE_CACHE, 0, 1},
        {"Cache-Control: s-maxage=1", SF_SHARED_CACHE, 0, 0},
        {"Cache-Control: private", SF_PRIVATE_CACHE, 0, 1},
        {"Cache-Control: no-store, must-understand", SF_SHARED_CACHE, 0, 0},
        {"Cache-Control: no-store, must-understand", SF_SHARED_CACHE, 1, 1},
        {"Cache-Control: no-cache, must-understand", SF_SHARED_CACHE, 1, 0},
    };
    for (size_t i = 0; i < sizeof dated / sizeof *dated; ++i) {
      sf_head head = sf_head_in(SF_HEAD_LINES(lines), sf_buffer_of(NULL, 0));
      sf_exchange now = sf_exchange_of((sf_cache)dated[i].cache, 784111777);
      now.is_understood = dated[i].is_understood;
      head.faults = SF_FAULTS(faults);
      CHECK(sf_add_head_line(&head, sf_cstr("Expires: 0")) == SF_OK);
      CHECK(sf_add_head_line(&head, sf_cstr(dated[i].line)) == SF_OK);
      CHECK(sf_decide_response(&context, &head, NULL, 0, &now, &verdict) == SF_OK);
      CHECK(head.faults.length == dated[i].faults && verdict.is_expires_malformed == 1);
      CHECK(dated[i].faults == 0 || faults[0].reason == SF_FAULT_NOT_A_DATE);
    }
  }
  /* the place in an Age whose value the program did not trim */
  {
    sf_head age = sf_head_in(SF_HEAD_LINES(lines), sf_buffer_of(NULL, 0));
    age.faults = SF_FAULTS(faults);
    CHECK(sf_add_head_line(&age, sf_cstr("Age: \t7x")) == SF_OK);
    lines[0].value = sf_text_of(lines[0].received.at + 4, 4);
    CHECK(sf_decide_response(&context, &age, NULL, 0, &exchange, &verdict) == SF_OK);
    CHECK(says(&faults[0], 26, "line 1, place 7: Age: expected a number of seconds\nAge: ?7x\n       ^"));
  }
  /* a call that fails loses no fault of a later line */
  sf_head head = sf_head_in(SF_HEAD_LINES(lines), sf_buffer_of(NULL, 0));
  head.faults = SF_FAULTS(faults);
  CHECK(sf_add_field_line(&head, sf_cstr(target.name), sf_cstr("a,")) == SF_OK);
  CHECK(sf_add_field_line(&head, sf_cstr("Example"), sf_cstr("b,")) == SF_OK);
  CHECK(sf_check_field(&context, SF_LIST, &head, "Example") == SF_REFUSED);
  exchange.cache = 0;
  CHECK(sf_decide_response(&context, &head, &target, 1, &exchange, &verdict) == SF_BAD_CALL);
  CHECK(head.faults.length == 2 && strcmp(faults[0].field, target.name) == 0);
  CHECK(strcmp(faults[1].field, "Example") == 0 && faults[1].location.number == 2);
}

/* What sf_check_head finds, before and after the other calls, whose results it does not change.
 * c/rust/sf/tests/head.rs has the same rows. */
static void checked_heads(void) {
  enum { MOST = 10 };
  static const struct {
    const char *head;
    const char *messages[MOST];
  } rows[] = {
      {"HTTP/1.1 200 OK\nPriority: u=1\nCache-Status: a;hit\nT: max-age=1\nU: max-age=1\n"
       "Cache-Control: max-age=1, s-maxage=2\nExpires: Sun, 06 Nov 1994 08:49:37 GMT\n"
       "Date: Sun, 06 Nov 1994 08:49:37 GMT\nAge: 1\n\n",
       {NULL}},
      {"HTTP/1.1 200 OK\n\n", {NULL}},
      /* a target decides, and all else is malformed */
      {"HTTP/1.1 200 OK\nPriority: u=\nCache-Status: a, 7\nT: max-age=60\nU: a,\nCache-Control: a b\n"
       "Expires: 0\nDate: x\nDate: Sun, 06 Nov 1994 08:49:37 GMT\nAge: x, 5\nAge: 6\n\n",
       {"line 2, place 12: Priority: the text ended, expected a letter, a digit, a quote, `(`, `*`, `-`, "
        "`:` or `?`\nPriority: u=\n            ^",
        "line 3, place 17: Cache-Status: the member does not name a cache, expected a Token or a String\n"
        "Cache-Status: a, 7\n                 ^",
        "line 5, place 5: U: the text ended, expected a lower-case letter, `*`, a tab or a space\n"
        "U: a,\n     ^",
        "line 6, place 17: Cache-Control: byte 0x62 'b', expected `,` or the end\n"
        "Cache-Control: a b\n                 ^",
        "line 7, place 9: Expires: expected an HTTP-date, such as Sun, 06 Nov 1994 08:49:37 GMT\n"
        "Expires: 0\n         ^",
        "line 8, place 6: Date: expected an HTTP-date, such as Sun, 06 Nov 1994 08:49:37 GMT\n"
        "Date: x\n      ^",
        "line 9, place 6: Date: there are several lines\n"
        "Date: Sun, 06 Nov 1994 08:49:37 GMT\n      ^",
        "line 10, place 5: Age: expected a number of seconds\nAge: x, 5\n     ^",
        "line 10, place 8: Age: there are several values\nAge: x, 5\n        ^"}},
      /* each max-age and s-maxage, also of a target after the one that decides */
      {"HTTP/1.1 200 OK\nT: s-maxage=1, max-age=x\nU: max-age=-1, s-maxage\nCache-Control: max-age=1.5\n"
       "Cache-Control: a b, max-age=c\nCache-Control: S-Maxage=1, max-age=2, s-maxage=3\n\n",
       {"line 2, place 23: T: expected a number of seconds\nT: s-maxage=1, max-age=x\n"
        "                       ^",
        "line 3, place 11: U: expected a number of seconds\nU: max-age=-1, s-maxage\n           ^",
        "line 3, place 23: U: expected a number of seconds\nU: max-age=-1, s-maxage\n"
        "                       ^",
        "line 4, place 23: Cache-Control: expected a number of seconds\nCache-Control: max-age=1.5\n"
        "                       ^",
        "line 5, place 17: Cache-Control: byte 0x62 'b', expected `,` or the end\n"
        "Cache-Control: a b, max-age=c\n                 ^",
        "line 6, place 47: Cache-Control: s-maxage had another value before\n"
        "Cache-Control: S-Maxage=1, max-age=2, s-maxage=3\n"
        "                                               ^"}},
      /* what does not count beside no-store and no-cache */
      {"HTTP/1.1 200 OK\nCache-Control: no-store, max-age=x\nExpires: 0\nDate: x\n\n",
       {"line 2, place 33: Cache-Control: expected a number of seconds\n"
        "Cache-Control: no-store, max-age=x\n                                 ^",
        "line 3, place 9: Expires: expected an HTTP-date, such as Sun, 06 Nov 1994 08:49:37 GMT\n"
        "Expires: 0\n         ^",
        "line 4, place 6: Date: expected an HTTP-date, such as Sun, 06 Nov 1994 08:49:37 GMT\n"
        "Date: x\n      ^"}},
      {"HTTP/1.1 200 OK\nU: no-cache, s-maxage=()\nDate: x\n\n",
       {"line 2, place 22: U: expected a number of seconds\nU: no-cache, s-maxage=()\n"
        "                      ^",
        "line 3, place 6: Date: expected an HTTP-date, such as Sun, 06 Nov 1994 08:49:37 GMT\n"
        "Date: x\n      ^"}},
      /* a List that is malformed has one fault; a Dictionary that is empty has none */
      {"HTTP/1.1 200 OK\nCache-Status: 7,\nT:\nU:\nPriority:\nAge: 5\n\n",
       {"line 2, place 16: Cache-Status: the text ended, expected a letter, a digit, a quote, "
        "`(`, `*`, `-`, `:`, `?`, a tab or a space\n"
        "Cache-Status: 7,\n                ^"}},
      /* several lines of a field */
      {"HTTP/1.1 200 OK\nCache-Status: 1\nU: max-age=1\nU: max-age=x\ncache-status: 2\n\n",
       {"line 2, place 14: Cache-Status: the member does not name a cache, expected a Token or a String\n"
        "Cache-Status: 1\n              ^",
        "line 4, place 11: U: expected a number of seconds\nU: max-age=x\n           ^",
        "line 5, place 14: Cache-Status: the member does not name a cache, expected a Token or a String\n"
        "cache-status: 2\n              ^"}},
      /* of a request, Priority and Cache-Control */
      {"GET / HTTP/1.1\nPriority: u=\nCache-Status: 7\nT: ,\nCache-Control: max-age=x\n"
       "Cache-Control: a=\nExpires: 0\nDate: x\nAge: x\n\n",
       {"line 2, place 12: Priority: the text ended, expected a letter, a digit, a quote, `(`, `*`, `-`, "
        "`:` or `?`\nPriority: u=\n            ^",
        "line 6, place 17: Cache-Control: the text ended, expected a token or a quoted-string\n"
        "Cache-Control: a=\n                 ^"}},
  };
  sf_context context = sf_context_of(seed, SF_RFC8941);
  sf_target targets[] = {sf_target_of("T"), sf_target_of("U")};
  for (size_t i = 0; i < sizeof rows / sizeof *rows; ++i)
    for (int order = 0; order < 4; ++order) { /* the other calls before, after, and how often */
      sf_text received = sf_cstr(rows[i].head), rest = received, found;
      size_t size = sf_head_memory_size(rest), count = 0;
      void *memory = malloc(size), *other = malloc(size);
      CHECK(memory != NULL && other != NULL);
      sf_head head = sf_head_in_memory(memory, size, rest);
      CHECK(sf_take_head(&head, &rest) == SF_OK && head.faults.length == 0);
      if (order == 3)
        CHECK(sf_find_field(&head, "Cache-Status", &found) == SF_OK);
      for (int call = 0; call < 4; ++call) {
        size_t joined = head.joined.length;
        if (call % 2 == order % 2) {
          CHECK(sf_check_head(&context, &head, targets, 2) == SF_OK && head.joined.length == joined);
          if (order == 2)
            break; /* it alone, once */
          continue;
        }
        /* what the other calls say of a head that is not checked */
        sf_exchange exchanges[2];
        sf_verdict verdicts[2];
        sf_hop hops[8];
        char bytes[64], words[2][SF_VERDICT_SIZE(16)];
        rest = received;
        sf_head head_alone = sf_head_in_memory(other, size, rest);
        CHECK(sf_take_head(&head_alone, &rest) == SF_OK);
        for (int k = 0; k < 2; ++k) {
          sf_head *one = k == 0 ? &head : &head_alone;
          sf_hop_list list = sf_hop_list_in(SF_HOPS(hops), SF_BUFFER(bytes));
          sf_buffer out = SF_BUFFER(words[k]);
          sf_priority_flags client;
          exchanges[k] = sf_exchange_of(SF_PRIVATE_CACHE, 784111777);
          CHECK(sf_decide_response(&context, one, targets, 2, &exchanges[k], &verdicts[k]) == SF_OK);
          exchanges[k] = sf_exchange_of(SF_SHARED_CACHE, 784111777);
          sf_set_request(&exchanges[k], one);
          CHECK(sf_decide_response(&context, one, targets, 2, &exchanges[k], &verdicts[k]) == SF_OK);
          CHECK(sf_write_verdict(&verdicts[k], &out) == SF_OK);
          words[k][out.length] = 0;
          CHECK(sf_find_hops(&context, one, &list) == SF_OK);
          CHECK(sf_find_priority(&context, one, &client) == SF_OK && client.incremental == 0);
        }
        CHECK(strcmp(words[0], words[1]) == 0 && verdicts[0].age == verdicts[1].age);
        CHECK(verdicts[0].obstacle == verdicts[1].obstacle && verdicts[0].ttl == verdicts[1].ttl);
        CHECK(memcmp(&exchanges[0], &exchanges[1], sizeof *exchanges) == 0);
      }
      if (head.is_request && order != 2) /* it was decided as a response */
        CHECK(head.faults.length >= 2);
      else {
        for (; count < MOST && rows[i].messages[count] != NULL; ++count)
          CHECK(count < head.faults.length && says(&head.faults.at[count], 80, rows[i].messages[count]));
        CHECK(head.faults.length == count && head.faults.required == count);
      }
      free(memory);
      free(other);
    }

  /* as many faults as a head can have by these calls, before those that the program finds */
  sf_text received = sf_cstr("x\nCache-Control:max-age=a,s-maxage=b\nT:max-age=a,s-maxage=b\nAge:x,5\nPriority:=\n"
                             "Cache-Status:1,2\nExpires:0\nDate:0\n");
  sf_text rest = received;
  size_t size = sf_head_memory_size(received);
  void *memory = malloc(size);
  CHECK(memory != NULL);
  sf_head head = sf_head_in_memory(memory, size, received);
  CHECK(sf_take_head(&head, &rest) == SF_REFUSED && head.faults.length == 2);
  CHECK(sf_check_head(&context, &head, targets, 1) == SF_OK);
  CHECK(head.faults.length == 13 && head.faults.required == 13 && head.faults.capacity == 13 + 1 + 8);
  for (int k = 0; k < 2; ++k) {
    sf_exchange exchange = sf_exchange_of(k == 0 ? SF_SHARED_CACHE : SF_PRIVATE_CACHE, 784111777);
    sf_verdict verdict;
    CHECK(sf_decide_response(&context, &head, targets, 1, &exchange, &verdict) == SF_OK);
    CHECK(head.faults.length == 13 && head.faults.required == 13);
  }
  free(memory);

  /* calls that fail, and no buffer for faults */
  sf_head_line lines[2];
  char joined[16];
  for (size_t capacity = 0; capacity <= sizeof joined; ++capacity) {
    static const char *const names[] = {"Priority", "Cache-Status", "T"};
    head = sf_head_in(SF_HEAD_LINES(lines), sf_buffer_of(joined, capacity));
    for (int k = 0; k < 2; ++k)
      CHECK(sf_add_field_line(&head, sf_cstr(names[capacity % 3]), sf_cstr("7 a")) == SF_OK);
    sf_status status = sf_check_head(&context, &head, targets, 1);
    CHECK(status == (capacity < 8 ? SF_SHORT : SF_OK) && head.joined.length == 0);
    CHECK(head.joined.required == (capacity < 8 ? 8 : 0));
    CHECK(head.faults.length == 0 && head.faults.required == (capacity < 8 ? 0 : 1));
  }
  sf_context other = no_dialect();
  CHECK(sf_check_head(&other, &head, targets, 1) == SF_BAD_CALL && head.faults.required == 1);
  CHECK(sf_check_head(&context, &head, NULL, 0) == SF_OK);
}

/* A head with these lines of the fields of a row, and with an Age unless it is NULL. */
static sf_head head_of(const struct decision_row *row, const char *age, sf_head_lines lines,
                       sf_buffer joined) {
  static const char *const targets[] = {"examplecdn-cache-control", "CDN-CACHE-CONTROL"};
  static const char *const fields[] = {"Cache-Control", "Expires", "Date"};
  sf_head head = sf_head_in(lines, joined);
  for (size_t i = 0; i < 2; ++i)
    if (*row->targets[i] != 0)
      CHECK(sf_add_field_line(&head, sf_cstr(targets[i]), sf_cstr(row->targets[i])) == SF_OK);
  for (size_t i = 0; i < 3; ++i)
    for (const char *const *line = row->lines[i]; *line != NULL; ++line)
      CHECK(sf_add_field_line(&head, sf_cstr(fields[i]), sf_cstr(*line)) == SF_OK);
  if (age != NULL) {
    CHECK(sf_add_field_line(&head, sf_cstr("Age"), sf_cstr(age)) == SF_OK);
    CHECK(sf_add_field_line(&head, sf_cstr("Age"), sf_cstr("7")) == SF_OK); /* only the first counts */
  }
  return head;
}

/* The rows of tests/decisions.txt by one call each, with the age in the field or by the clock. */
static void responses(void) {
  sf_context context = sf_context_of(seed, SF_RFC8941), none = no_dialect();
  const uint64_t then = 784111777;
  for (size_t i = 0; i < sizeof decision_rows / sizeof *decision_rows; ++i) {
    const struct decision_row *row = &decision_rows[i];
    sf_head_line lines[12];
    char bytes[8], age[24];
    int is_fallback = row->index == DECISION_FALLBACK;
    snprintf(age, sizeof age, "%llu", (unsigned long long)row->response.age);
    for (int by_clock = 0; by_clock < 2; ++by_clock) {
      sf_head head = head_of(row, by_clock ? NULL : age, SF_HEAD_LINES(lines), SF_BUFFER(bytes));
      sf_target targets[] = {sf_target_of("ExampleCDN-Cache-Control"),
                             sf_target_of("CDN-Cache-Control")};
      sf_exchange exchange = sf_exchange_of((sf_cache)row->cache, then);
      exchange.is_understood = row->response.is_understood;
      exchange.status = 200;
      if (by_clock)
        exchange.now = row->response.age < UINT64_MAX - then ? then + row->response.age : UINT64_MAX;
      sf_verdict verdict;
      memset(&verdict, 0, sizeof verdict);
      CHECK(sf_decide_response(&context, &head, targets, 2, &exchange, &verdict) == SF_OK);
      CHECK(verdict.decision.reuse == row->decision.reuse);
      CHECK(verdict.decision.cause == row->decision.cause);
      CHECK(verdict.decision.seconds == row->decision.seconds);
      if (row->decision.reuse == SF_REUSE_FRESH)
        CHECK(verdict.has_ttl == 1 && verdict.ttl == (int64_t)row->decision.seconds);
      else
        CHECK(verdict.ttl <= 0 && verdict.has_ttl <= (row->decision.reuse != SF_REUSE_NOT_STORED));
      CHECK(verdict.target == (is_fallback ? 2 : (size_t)row->index));
      const char *fallback = row->decision.cause == SF_BY_EXPIRES ? "Expires"
                             : row->lines[0][0] != NULL           ? "Cache-Control"
                                                                  : NULL;
      const char *field = is_fallback ? fallback : targets[row->index].name;
      CHECK((verdict.field == NULL) == (field == NULL));
      CHECK(field == NULL || strcmp(verdict.field, field) == 0);
      /* 200 is heuristically cacheable, so that only a directive can forbid it */
      CHECK(verdict.may_store == (row->decision.reuse != SF_REUSE_NOT_STORED));
      CHECK(verdict.obstacle == (uint32_t)(verdict.may_store  ? SF_NO_OBSTACLE
                                           : row->row == 73   ? SF_BARRED_MALFORMED
                                                              : SF_BARRED_DIRECTIVE));
      CHECK(verdict.age == (row->response.age < UINT64_C(2147483648) ? row->response.age
                                                                     : UINT64_C(2147483648)));
      for (size_t k = 0; k < 2; ++k) {
        uint32_t alone = sf_check_text(&context, SF_DICT, sf_cstr(row->targets[k]));
        CHECK(targets[k].status == (k > verdict.target           ? (uint32_t)SF_ABSENT
                                    : *row->targets[k] == 0      ? (uint32_t)SF_EMPTY
                                                                 : alone));
        CHECK(targets[k].status != SF_REFUSED ||
              (alone == SF_REFUSED && targets[k].refusal.offset == context.refusal.offset));
      }
    }
  }

  /* Several lines of a targeted field are one Dictionary, the last value of a key counts, and their
   * buffer is free again. */
  sf_head_line lines[4];
  char bytes[19];
  sf_head head = sf_head_in(SF_HEAD_LINES(lines), sf_buffer_of(bytes, 18));
  sf_target targets[] = {sf_target_of("A"), sf_target_of("CDN-Cache-Control")};
  sf_exchange exchange = sf_exchange_of(SF_SHARED_CACHE, then);
  sf_verdict verdict, before;
  memset(&verdict, 0x5a, sizeof verdict);
  before = verdict;
  CHECK(sf_add_head_line(&head, sf_cstr("cdn-cache-control: max-age=6")) == SF_OK);
  CHECK(sf_add_head_line(&head, sf_cstr("Cdn-Cache-Control: max-age")) == SF_OK);
  lines[1].value = sf_cstr("s-maxage");
  CHECK(sf_decide_response(&context, &head, targets, 2, &exchange, &verdict) == SF_SHORT);
  CHECK(head.joined.required == 19 && targets[0].status == SF_EMPTY);
  CHECK(targets[1].status == SF_SHORT && memcmp(&verdict, &before, sizeof verdict) == 0);
  head.joined = SF_BUFFER(bytes);
  CHECK(sf_decide_response(&context, &head, targets, 2, &exchange, &verdict) == SF_OK);
  CHECK(verdict.decision.cause == SF_BY_INVALID_S_MAXAGE && head.joined.length == 0);
  lines[1].value = sf_cstr("s-maxage=");
  CHECK(sf_decide_response(&context, &head, targets, 1, &exchange, &verdict) == SF_OK);
  CHECK(verdict.decision.reuse == SF_REUSE_UNSPECIFIED && verdict.target == 1);

  /* targets that are used again: the second is not read */
  targets[0].name = targets[1].name;
  lines[1].value = sf_cstr("s-maxag=");
  CHECK(sf_decide_response(&context, &head, targets, 2, &exchange, &verdict) == SF_OK);
  CHECK(targets[0].status == SF_REFUSED && targets[1].status == SF_REFUSED);
  lines[1].value = sf_cstr("s-maxage");
  CHECK(sf_decide_response(&context, &head, targets, 2, &exchange, &verdict) == SF_OK);
  CHECK(targets[0].status == SF_OK && targets[1].status == SF_ABSENT && verdict.target == 0);
  targets[0].name = "A";

  /* no such dialect or cache */
  lines[1].value = sf_cstr("a=1");
  before = verdict;
  CHECK(sf_decide_response(&none, &head, targets, 2, &exchange, &verdict) == SF_BAD_CALL);
  CHECK(sf_decide_response(&none, &head, NULL, 0, &exchange, &verdict) == SF_BAD_CALL);
  exchange.cache = SF_OK;
  CHECK(sf_decide_response(&context, &head, targets, 2, &exchange, &verdict) == SF_BAD_CALL);
  CHECK(memcmp(&verdict, &before, sizeof verdict) == 0);

  /* a line of Cache-Control that is malformed, and an age that is */
  exchange = sf_exchange_of(SF_SHARED_CACHE, then);
  head = sf_head_in(SF_HEAD_LINES(lines), SF_BUFFER(bytes));
  CHECK(sf_add_head_line(&head, sf_cstr("Cache-Control: max-age=60")) == SF_OK);
  CHECK(sf_add_head_line(&head, sf_cstr("Age: -5")) == SF_OK);
  CHECK(sf_decide_response(&context, &head, NULL, 0, &exchange, &verdict) == SF_OK);
  CHECK(verdict.decision.seconds == 60 && verdict.age == 0 && verdict.is_refused == 0);
  CHECK(verdict.refused_line == 0);
  CHECK(sf_add_head_line(&head, sf_cstr("Cache-Control: a b")) == SF_OK);
  CHECK(sf_decide_response(&context, &head, NULL, 0, &exchange, &verdict) == SF_OK);
  CHECK(verdict.decision.cause == SF_BY_NO_STORE && verdict.is_refused == 1 && !verdict.may_store);
  CHECK(verdict.refused_line == 2 && lines[verdict.refused_line].number == 3);
  CHECK(sf_add_head_line(&head, sf_cstr("Cache-Control: c d")) == SF_OK);
  CHECK(sf_decide_response(&context, &head, NULL, 0, &exchange, &verdict) == SF_OK);
  CHECK(verdict.refused_line == 2); /* the first */
}

/* What is left of the lifetime that decided (RFC 9211 section 2.4: "May be negative, to indicate
 * staleness"; RFC 9111 section 4.2.1: s-maxage in a shared cache, max-age, Expires less Date; section
 * 1.2.2: 2147483648 at most), and what counts as malformed. */
static void lifetimes(void) {
  enum { NONE = -99 };
  static const struct {
    const char *lines[2];
    uint32_t cache;
    uint64_t age;
    int64_t ttl;
  } rows[] = {
      {{"Cache-Control: max-age=60"}, SF_SHARED_CACHE, 100, -40},
      {{"Cache-Control: max-age=60"}, SF_SHARED_CACHE, 60, 0},
      {{"Cache-Control: max-age=60, s-maxage=10"}, SF_SHARED_CACHE, 30, -20},
      {{"Cache-Control: max-age=60, s-maxage=10"}, SF_PRIVATE_CACHE, 30, 30},
      {{"T: s-maxage=10, max-age=60", "Expires: 0"}, SF_SHARED_CACHE, 9, 1},
      {{"Cache-Control: max-age=60, must-revalidate"}, SF_SHARED_CACHE, 61, -1},
      {{"Cache-Control: max-age=60, proxy-revalidate"}, SF_SHARED_CACHE, 62, -2},
      {{"Cache-Control: max-age=60, proxy-revalidate"}, SF_PRIVATE_CACHE, 62, -2},
      {{"Cache-Control: s-maxage=60"}, SF_SHARED_CACHE, 62, -2},
      {{"Cache-Control: s-maxage=60"}, SF_PRIVATE_CACHE, 62, NONE},
      {{"Cache-Control: max-age=60, no-cache"}, SF_SHARED_CACHE, 5, NONE},
      {{"Cache-Control: max-age=60, no-store"}, SF_SHARED_CACHE, 5, NONE},
      {{"Cache-Control: max-age=60, private"}, SF_SHARED_CACHE, 5, NONE},
      {{"Cache-Control: max-age=60, private"}, SF_PRIVATE_CACHE, 5, 55},
      {{"Cache-Control: max-age=60, must-understand"}, SF_SHARED_CACHE, 5, NONE},
      {{"Cache-Control: max-age=-1"}, SF_SHARED_CACHE, 5, NONE},
      {{"Cache-Control: max-age=-1, must-revalidate"}, SF_SHARED_CACHE, 5, NONE},
      {{"Cache-Control: max-age=60, s-maxage=1.5"}, SF_SHARED_CACHE, 5, NONE},
      {{"Cache-Control: max-age=60, s-maxage=1.5"}, SF_PRIVATE_CACHE, 5, 55},
      {{"Cache-Control: max-age=60, s-maxage=1.5, must-revalidate"}, SF_SHARED_CACHE, 5, NONE},
      {{"Cache-Control: max-age=60, s-maxage=1.5, must-revalidate"}, SF_PRIVATE_CACHE, 62, -2},
      {{"Cache-Control: max-age=x, must-revalidate", "Expires: Sun, 06 Nov 1994 08:50:37 GMT"},
       SF_SHARED_CACHE, 5, NONE},
      {{"Cache-Control: s-maxage=60, max-age=x, must-revalidate"}, SF_SHARED_CACHE, 62, -2},
      {{"Cache-Control: s-maxage=60, max-age=x"}, SF_SHARED_CACHE, 5, 55},
      {{"Cache-Control: max-age=99999999999"}, SF_SHARED_CACHE, 8, 2147483640},
      {{"Cache-Control: max-age=99999999999"}, SF_SHARED_CACHE, 99999999999, 0},
      {{"Cache-Control: public"}, SF_SHARED_CACHE, 5, NONE},
      {{"Expires: 0"}, SF_SHARED_CACHE, 5, -5},
      {{"Expires: Sun, 06 Nov 1994 08:50:37 GMT", "Date: Sun, 06 Nov 1994 08:49:37 GMT"},
       SF_SHARED_CACHE, 70, -10},
      {{"Server: x"}, SF_SHARED_CACHE, 5, NONE},
  };
  sf_context context = sf_context_of(seed, SF_RFC8941);
  sf_target target = sf_target_of("T");
  sf_head_line lines[4];
  sf_verdict verdict;
  for (size_t i = 0; i < sizeof rows / sizeof *rows; ++i) {
    sf_head head = sf_head_in(SF_HEAD_LINES(lines), sf_buffer_of(NULL, 0));
    sf_exchange exchange = sf_exchange_of((sf_cache)rows[i].cache, 784111777);
    exchange.now += rows[i].age;
    for (size_t k = 0; k < 2 && rows[i].lines[k] != NULL; ++k)
      CHECK(sf_add_head_line(&head, sf_cstr(rows[i].lines[k])) == SF_OK);
    CHECK(sf_decide_response(&context, &head, &target, 1, &exchange, &verdict) == SF_OK);
    CHECK(verdict.has_ttl == (rows[i].ttl != NONE));
    CHECK(verdict.ttl == (rows[i].ttl == NONE ? 0 : rows[i].ttl));
    CHECK(verdict.is_age_malformed == 0 && verdict.is_date_malformed == 0);
    CHECK(verdict.is_expires_malformed == (strcmp(rows[i].lines[0], "Expires: 0") == 0));
  }
  /* "If an Expires field is invalid or has several lines, it is in the past"; Date, Age likewise */
  static const struct {
    const char *lines[3];
    uint32_t age, expires, date;
  } malformed[] = {
      {{"Age: 5", "Age: x", "T:"}, 0, 0, 0},
      {{"Age: x", "Age: 5", "T:"}, 1, 0, 0},
      {{"Age:", "Expires: x", "Date: x"}, 1, 1, 1},
      {{"Expires: Sun, 06 Nov 1994 08:50:37 GMT", "Expires: Sun, 06 Nov 1994 08:50:37 GMT",
        "Date: Sun, 06 Nov 1994 08:49:37 GMT"}, 0, 1, 0},
      {{"Age: -5", "Expires: 0", "T: max-age=1"}, 1, 0, 0}, /* Expires is not read */
  };
  for (size_t i = 0; i < sizeof malformed / sizeof *malformed; ++i) {
    sf_head head = sf_head_in(SF_HEAD_LINES(lines), sf_buffer_of(NULL, 0));
    sf_exchange exchange = sf_exchange_of(SF_SHARED_CACHE, 784111777);
    for (size_t k = 0; k < 3; ++k)
      CHECK(sf_add_head_line(&head, sf_cstr(malformed[i].lines[k])) == SF_OK);
    CHECK(sf_decide_response(&context, &head, &target, 1, &exchange, &verdict) == SF_OK);
    CHECK(verdict.is_age_malformed == malformed[i].age);
    CHECK(verdict.is_expires_malformed == malformed[i].expires);
    CHECK(verdict.is_date_malformed == malformed[i].date);
  }
}

/* What RFC 9111 section 3 asks for beside the directives: "the response status code is final", "if
 * the response status code is 206 or 304 .. the cache understands the response status code", "if the
 * cache is shared: the Authorization header field is not present in the request .. or a response
 * directive is present that explicitly allows shared caching", and one of a directive, Expires and
 * "a status code that is defined as heuristically cacheable". Those of RFC 9110 section 15.1 are
 * "200, 203, 204, 206, 300, 301, 308, 404, 405, 410, 414, and 501". */
static void storing(void) {
  enum { HAS = 1, MAY_HAVE = 2, OTHER_METHOD = 4, NO_STORE = 8 }; /* the first two: Authorization */
  static const struct {
    const char *line;
    uint32_t cache, status, is_understood, request, obstacle;
  } rows[] = {
      {"Cache-Control: max-age=60", SF_SHARED_CACHE, 200, 0, 0, SF_NO_OBSTACLE},
      {"Cache-Control: max-age=60", SF_SHARED_CACHE, 500, 0, 0, SF_NO_OBSTACLE},
      {"Cache-Control: max-age=60", SF_SHARED_CACHE, 0, 0, 0, SF_NO_OBSTACLE},
      {"Cache-Control: max-age=60", SF_SHARED_CACHE, 103, 0, 0, SF_BARRED_STATUS},
      {"Cache-Control: max-age=60", SF_SHARED_CACHE, 199, 1, 0, SF_BARRED_STATUS},
      {"Cache-Control: max-age=60", SF_SHARED_CACHE, 206, 0, 0, SF_BARRED_STATUS},
      {"Cache-Control: max-age=60", SF_SHARED_CACHE, 206, 1, 0, SF_NO_OBSTACLE},
      {"Cache-Control: max-age=60", SF_SHARED_CACHE, 304, 0, 0, SF_BARRED_STATUS},
      {"Cache-Control: max-age=60", SF_SHARED_CACHE, 304, 1, 0, SF_NO_OBSTACLE},
      {"Cache-Control: max-age=60", SF_SHARED_CACHE, 200, 0, 1, SF_BARRED_REQUEST},
      {"Cache-Control: max-age=60", SF_PRIVATE_CACHE, 200, 0, 1, SF_NO_OBSTACLE},
      {"Cache-Control: max-age=60, must-revalidate", SF_SHARED_CACHE, 200, 0, 1, SF_NO_OBSTACLE},
      {"Cache-Control: public", SF_SHARED_CACHE, 500, 0, 1, SF_NO_OBSTACLE},
      {"Cache-Control: s-maxage=60", SF_SHARED_CACHE, 500, 0, 1, SF_NO_OBSTACLE},
      {"Cache-Control: s-maxage=60", SF_PRIVATE_CACHE, 500, 0, 0, SF_BARRED_UNPERMITTED},
      {"Cache-Control: private", SF_SHARED_CACHE, 200, 0, 0, SF_BARRED_DIRECTIVE},
      {"Cache-Control: private", SF_PRIVATE_CACHE, 500, 0, 0, SF_NO_OBSTACLE},
      {"Cache-Control: no-store", SF_PRIVATE_CACHE, 103, 0, 1, SF_BARRED_DIRECTIVE},
      {"Cache-Control: must-understand", SF_SHARED_CACHE, 200, 0, 0, SF_BARRED_DIRECTIVE},
      {"Cache-Control: must-understand, no-store", SF_SHARED_CACHE, 200, 1, 0, SF_NO_OBSTACLE},
      {"Cache-Control: no-cache", SF_SHARED_CACHE, 200, 0, 0, SF_NO_OBSTACLE},
      {"Cache-Control: no-cache", SF_SHARED_CACHE, 500, 0, 0, SF_BARRED_UNPERMITTED},
      {"Cache-Control: no-cache", SF_SHARED_CACHE, 0, 0, 0, SF_BARRED_UNPERMITTED},
      {"Expires: 0", SF_SHARED_CACHE, 500, 0, 0, SF_NO_OBSTACLE},
      {"T: x", SF_SHARED_CACHE, 500, 0, 0, SF_BARRED_UNPERMITTED},
      {"T: max-age=60", SF_SHARED_CACHE, 500, 0, 0, SF_NO_OBSTACLE},
      {"T: max-age=60", SF_SHARED_CACHE, 200, 0, MAY_HAVE, SF_BARRED_REQUEST_HEAD},
      {"T: max-age=60", SF_SHARED_CACHE, 200, 0, HAS | MAY_HAVE, SF_BARRED_REQUEST_HEAD},
      {"T: max-age=60", SF_PRIVATE_CACHE, 200, 0, HAS | MAY_HAVE, SF_BARRED_REQUEST_HEAD},
      {"T: max-age=60, must-revalidate", SF_SHARED_CACHE, 200, 0, MAY_HAVE, SF_BARRED_REQUEST_HEAD},
      {"Cache-Control: public", SF_SHARED_CACHE, 500, 0, MAY_HAVE, SF_BARRED_REQUEST_HEAD},
      {"Cache-Control: no-store", SF_SHARED_CACHE, 200, 0, MAY_HAVE, SF_BARRED_DIRECTIVE},
      {"Cache-Control: max-age=60", SF_SHARED_CACHE, 103, 0, MAY_HAVE, SF_BARRED_REQUEST_HEAD},
      {"X: y", SF_SHARED_CACHE, 500, 0, MAY_HAVE, SF_BARRED_REQUEST_HEAD},
      {"Cache-Control: a b", SF_SHARED_CACHE, 200, 0, 0, SF_BARRED_MALFORMED},
      {"Cache-Control: a b", SF_PRIVATE_CACHE, 103, 1, HAS | MAY_HAVE, SF_BARRED_MALFORMED},
      {"Cache-Control: no-store, a b", SF_SHARED_CACHE, 200, 0, 0, SF_BARRED_MALFORMED},
      {"T: a b", SF_SHARED_CACHE, 200, 0, 0, SF_NO_OBSTACLE}, /* a target that is ignored */
      {"T: max-age=60, s-maxage=1", SF_PRIVATE_CACHE, 200, 0, OTHER_METHOD, SF_BARRED_METHOD},
      {"Cache-Control: public", SF_SHARED_CACHE, 200, 1, OTHER_METHOD, SF_BARRED_METHOD},
      {"T: max-age=60", SF_PRIVATE_CACHE, 200, 0, NO_STORE, SF_BARRED_REQUEST_NO_STORE},
      {"Cache-Control: must-understand, public", SF_SHARED_CACHE, 200, 1, NO_STORE,
       SF_BARRED_REQUEST_NO_STORE},
      {"T: max-age=60", SF_SHARED_CACHE, 200, 0, OTHER_METHOD | NO_STORE, SF_BARRED_METHOD},
      {"T: max-age=60", SF_SHARED_CACHE, 200, 0, HAS | MAY_HAVE | OTHER_METHOD | NO_STORE,
       SF_BARRED_METHOD},
      {"T: max-age=60", SF_SHARED_CACHE, 200, 0, HAS | MAY_HAVE | NO_STORE, SF_BARRED_REQUEST_NO_STORE},
      {"T: max-age=60", SF_SHARED_CACHE, 103, 0, OTHER_METHOD, SF_BARRED_METHOD},
      {"T: max-age=60", SF_SHARED_CACHE, 103, 0, NO_STORE, SF_BARRED_REQUEST_NO_STORE},
      {"T: no-store", SF_SHARED_CACHE, 200, 0, OTHER_METHOD | NO_STORE, SF_BARRED_DIRECTIVE},
      {"Cache-Control: a b", SF_SHARED_CACHE, 200, 0, OTHER_METHOD | NO_STORE, SF_BARRED_MALFORMED},
      {"X: y", SF_SHARED_CACHE, 500, 0, NO_STORE, SF_BARRED_REQUEST_NO_STORE},
  };
  static const uint32_t heuristic[] = {200, 203, 204, 206, 300, 301, 308, 404, 405, 410, 414, 501};
  sf_context context = sf_context_of(seed, SF_RFC8941);
  sf_target target = sf_target_of("t");
  sf_head_line lines[2];
  sf_verdict verdict;
  for (size_t i = 0; i < sizeof rows / sizeof *rows; ++i) {
    sf_head head = sf_head_in(SF_HEAD_LINES(lines), sf_buffer_of(NULL, 0));
    sf_exchange exchange = sf_exchange_of((sf_cache)rows[i].cache, 0);
    exchange.status = rows[i].status;
    exchange.is_understood = rows[i].is_understood;
    exchange.is_authorized = rows[i].request & HAS;
    exchange.is_request_incomplete = rows[i].request & MAY_HAVE;
    exchange.is_other_method = rows[i].request & OTHER_METHOD;
    exchange.is_request_no_store = rows[i].request & NO_STORE;
    CHECK(sf_add_head_line(&head, sf_cstr(rows[i].line)) == SF_OK);
    CHECK(sf_decide_response(&context, &head, &target, 1, &exchange, &verdict) == SF_OK);
    CHECK(verdict.obstacle == rows[i].obstacle);
    CHECK(verdict.may_store == (rows[i].obstacle == SF_NO_OBSTACLE));
    /* a line that is no field line may have had a directive */
    head.is_incomplete = 1;
    CHECK(sf_decide_response(&context, &head, &target, 1, &exchange, &verdict) == SF_OK);
    int is_before =
        rows[i].obstacle == SF_BARRED_DIRECTIVE || rows[i].obstacle == SF_BARRED_MALFORMED ||
        rows[i].obstacle == SF_BARRED_METHOD || rows[i].obstacle == SF_BARRED_REQUEST_NO_STORE;
    CHECK(verdict.obstacle == (is_before ? rows[i].obstacle : (uint32_t)SF_BARRED_HEAD));
    CHECK(verdict.may_store == 0);
  }
  /* a target that decides before a Cache-Control that is malformed, which is not read */
  {
    sf_head both = sf_head_in(SF_HEAD_LINES(lines), sf_buffer_of(NULL, 0));
    sf_exchange at = sf_exchange_of(SF_SHARED_CACHE, 0);
    CHECK(sf_add_head_line(&both, sf_cstr("T: private")) == SF_OK);
    CHECK(sf_add_head_line(&both, sf_cstr("Cache-Control: a b")) == SF_OK);
    CHECK(sf_decide_response(&context, &both, &target, 1, &at, &verdict) == SF_OK);
    CHECK(verdict.obstacle == SF_BARRED_DIRECTIVE && verdict.is_refused == 0);
  }
  /* beside a targeted field Expires does not count (RFC 9213 section 2.2) */
  sf_head head = sf_head_in(SF_HEAD_LINES(lines), sf_buffer_of(NULL, 0));
  sf_exchange exchange = sf_exchange_of(SF_SHARED_CACHE, 0);
  exchange.status = 500;
  CHECK(sf_add_head_line(&head, sf_cstr("Expires: 0")) == SF_OK);
  CHECK(sf_add_head_line(&head, sf_cstr("T: no-cache")) == SF_OK);
  CHECK(sf_decide_response(&context, &head, &target, 1, &exchange, &verdict) == SF_OK);
  CHECK(verdict.obstacle == SF_BARRED_UNPERMITTED);
  CHECK(sf_decide_response(&context, &head, &target, 0, &exchange, &verdict) == SF_OK);
  CHECK(verdict.obstacle == SF_NO_OBSTACLE);
  /* each status code without a field */
  head.lines.length = 0;
  for (exchange.status = 0; exchange.status < 1000; ++exchange.status) {
    int is_heuristic = 0;
    for (size_t i = 0; i < sizeof heuristic / sizeof *heuristic; ++i)
      is_heuristic = is_heuristic || heuristic[i] == exchange.status;
    exchange.is_understood = 1;
    CHECK(sf_decide_response(&context, &head, &target, 1, &exchange, &verdict) == SF_OK);
    CHECK(verdict.may_store == (uint32_t)is_heuristic);
  }
  /* RFC 9111 section 4.2.3: age_value + (response_time - request_time) + (now - response_time) */
  exchange = sf_exchange_of(SF_SHARED_CACHE, 1000);
  exchange.received = 1003;
  exchange.now = 1010;
  CHECK(sf_add_head_line(&head, sf_cstr("Age: 20")) == SF_OK);
  CHECK(sf_decide_response(&context, &head, &target, 1, &exchange, &verdict) == SF_OK);
  CHECK(verdict.age == 30);
  exchange.now = 900; /* a clock that was set back */
  CHECK(sf_decide_response(&context, &head, &target, 1, &exchange, &verdict) == SF_OK);
  CHECK(verdict.age == 20);
  /* of Expires without a Date the time of receipt counts: 1994-11-06T08:49:37Z is 784111777 */
  CHECK(sf_add_head_line(&head, sf_cstr("Expires: Sun, 06 Nov 1994 08:49:37 GMT")) == SF_OK);
  exchange = sf_exchange_of(SF_SHARED_CACHE, 784111700);
  exchange.received = 784111717;
  CHECK(sf_decide_response(&context, &head, NULL, 0, &exchange, &verdict) == SF_OK);
  CHECK(verdict.decision.reuse == SF_REUSE_FRESH && verdict.decision.seconds == 60 - 20);
  CHECK(strcmp(sf_obstacle_name(SF_BARRED_DIRECTIVE), "a directive forbids it") == 0);
  CHECK(strcmp(sf_obstacle_name(SF_BARRED_STATUS), "the status code forbids it") == 0);
  CHECK(strcmp(sf_obstacle_name(SF_BARRED_REQUEST), "the request had Authorization") == 0);
  CHECK(strcmp(sf_obstacle_name(SF_BARRED_UNPERMITTED), "nothing permits it") == 0);
  CHECK(strcmp(sf_obstacle_name(SF_BARRED_NO_RESPONSE), "the head is that of a request") == 0);
  CHECK(strcmp(sf_obstacle_name(SF_BARRED_HEAD), "the head is incomplete") == 0);
  CHECK(strcmp(sf_obstacle_name(SF_BARRED_MALFORMED), "Cache-Control is malformed") == 0);
  CHECK(strcmp(sf_obstacle_name(SF_BARRED_REQUEST_HEAD),
               "the head of the request is incomplete") == 0);
  CHECK(strcmp(sf_obstacle_name(SF_BARRED_METHOD),
               "the method of the request is neither GET nor HEAD") == 0);
  CHECK(strcmp(sf_obstacle_name(SF_BARRED_REQUEST_NO_STORE), "the request has no-store or a malformed Cache-Control") == 0);
  CHECK(strcmp(sf_obstacle_name(SF_NO_OBSTACLE), "") == 0 && strcmp(sf_obstacle_name(0), "") == 0);
  CHECK(strcmp(sf_obstacle_name(91), "") == 0 && strcmp(sf_obstacle_name(104), "") == 0);
}

/* The Age field (RFC 9111 sections 5.1 and 1.2.2). */
static void ages(void) {
  static const struct {
    const char *text;
    sf_status status;
    uint64_t seconds; /* 7 is what was there before */
  } rows[] = {
      {"20", SF_OK, 20},
      {"0", SF_OK, 0},
      {"00020", SF_OK, 20},
      {" \t20\t ", SF_OK, 20},
      {"20, 70", SF_OK, 20},
      {"20\t,x", SF_OK, 20},
      {"20,", SF_OK, 20},
      {"2147483647", SF_OK, 2147483647},
      {"2147483648", SF_OK, UINT64_C(2147483648)},
      {"2147483649", SF_OK, UINT64_C(2147483648)},
      {"18446744073709551616", SF_OK, UINT64_C(2147483648)},
      {"99999999999999999999999999999999", SF_OK, UINT64_C(2147483648)},
      {"99999999999999999999x", SF_REFUSED, 7},
      {"", SF_EMPTY, 7},
      {" \t", SF_EMPTY, 7},
      {"-5", SF_REFUSED, 7},
      {"+5", SF_REFUSED, 7},
      {"90x", SF_REFUSED, 7},
      {"1.5", SF_REFUSED, 7},
      {"2 0", SF_REFUSED, 7},
      {", 20", SF_REFUSED, 7},
      {"x, 20", SF_REFUSED, 7},
      {"\"20\"", SF_REFUSED, 7},
  };
  for (size_t i = 0; i < sizeof rows / sizeof *rows; ++i) {
    uint64_t seconds = 7;
    CHECK(sf_read_age(sf_cstr(rows[i].text), &seconds) == rows[i].status);
    CHECK(seconds == rows[i].seconds);
  }
  uint64_t seconds = 7;
  CHECK(sf_read_age(sf_text_of("20\0", 3), &seconds) == SF_REFUSED && seconds == 7);
  CHECK(sf_read_age(sf_text_of(NULL, 0), &seconds) == SF_EMPTY && seconds == 7);
}

static void paths(void) {
  sf_context context = sf_context_of(seed, SF_RFC8941), none = no_dialect();
  sf_hop hops[4];
  char bytes[64], text[SF_APPENDED_SIZE(64, 16)];
  sf_hop_list list = sf_hop_list_in(SF_HOPS(hops), SF_BUFFER(bytes));
  sf_buffer out = SF_BUFFER(text), empty = sf_buffer_of(NULL, 0);
  /* RFC 9211 section 3 */
  sf_text came = sf_cstr("OriginCache; hit; ttl=1100, \"CDN Company Here\"; hit; ttl=545");
  CHECK(sf_read_hops(&context, came, &list) == SF_OK && list.hops.length == 2);
  CHECK(is(sf_hop_part(&list, hops[0].name), "OriginCache") && hops[0].ttl == 1100);
  CHECK(is(sf_hop_part(&list, hops[1].name), "CDN Company Here") && hops[1].ttl == 545);
  CHECK(list.served == hops + 1 && is(sf_hop_part(&list, hops[0].key), ""));
  CHECK(list.hops.required == 0 && list.bytes.length == 27);
  CHECK(sf_read_hops(&context,
                     sf_cstr("ReverseProxyCache; hit, ForwardProxyCache; fwd=uri-miss; collapsed; "
                             "stored, BrowserCache; fwd=uri-miss"),
                     &list) == SF_OK);
  CHECK(list.hops.length == 3 && list.served == hops && hops[1].stored == 1);
  CHECK(is(sf_hop_part(&list, hops[2].why_token), "uri-miss") && hops[2].why == SF_URI_MISS);
  CHECK(sf_read_hops(&context, sf_cstr("ExampleCache; fwd=uri-miss"), &list) == SF_OK);
  CHECK(list.served == NULL);
  sf_hop_list small = sf_hop_list_in(sf_hops_of(hops, 1), SF_BUFFER(bytes));
  CHECK(sf_read_hops(&context, came, &small) == SF_SHORT && small.hops.required == 2);
  CHECK(small.bytes.required == 27 && small.hops.length == 0 && small.served == NULL);
  CHECK(sf_read_hops(&context, sf_cstr("a, (b)"), &list) == SF_NOT_A_CACHE);
  CHECK(list.nameless == 1 && list.hops.length == 0);
  CHECK(context.refusal.offset == 3 && context.refusal.found == '(' && !context.refusal.may_end);
  for (unsigned char byte = 0; byte < 128; ++byte) {
    int is_letter = (byte >= 'A' && byte <= 'Z') || (byte >= 'a' && byte <= 'z');
    uint64_t half = byte < 64 ? context.refusal.expected_low : context.refusal.expected_high;
    CHECK((half >> byte % 64 & 1) == (is_letter || byte == '"' || byte == '*'));
  }
  /* the place, after Strings with commas, quotes and escapes, and after a Display String */
  static const struct {
    const char *text;
    uint64_t offset;
    size_t index;
  } nameless[] = {{"  7", 2, 0},
                  {"a;x=\",\\\",\";y=b%, \t?1", 18, 1},
                  {"\"a\\\\\", 1", 7, 1},
                  {"a;b=%\",\\\",@1, c, 2", 10, 1},
                  {"a , b,\t:YQ==:", 7, 2},
                  {"a;b=c%, %\"d,\"", 8, 1}};
  sf_context newest = sf_context_of(seed, SF_RFC9651);
  for (size_t i = 0; i < sizeof nameless / sizeof *nameless; ++i) {
    CHECK(sf_read_hops(&newest, sf_cstr(nameless[i].text), &list) == SF_NOT_A_CACHE);
    CHECK(list.nameless == nameless[i].index && newest.refusal.offset == nameless[i].offset);
    CHECK(newest.refusal.found == nameless[i].text[nameless[i].offset]);
  }
  CHECK(sf_read_hops(&context, sf_cstr("a,"), &list) == SF_REFUSED && list.nameless == 0);
  CHECK(context.refusal.offset == 2);
  CHECK(sf_read_hops(&none, came, &list) == SF_BAD_CALL && list.hops.length == 0);
  CHECK(sf_read_hops(&context, sf_text_of(NULL, 0), &list) == SF_OK && list.hops.length == 0);

  /* RFC 9211 section 3: `ExampleCache; hit; ttl=376`, and its negative one */
  sf_own_hop own = sf_hop_named("ExampleCache", SF_TOKEN);
  CHECK(own.hop.name_is_token == 1 && own.hop.name.at == 0 && own.hop.name.length == 12);
  own.hop.outcome = SF_HIT;
  own.hop.ttl = 376;
  own.hop.has_ttl = 1;
  CHECK(sf_write_hop(&context, &own, &out) == SF_OK);
  CHECK(is(sf_written(&out), "ExampleCache;hit;ttl=376"));
  CHECK(sf_write_hop(&context, &own, &empty) == SF_SHORT && empty.required == 24);
  own.hop.ttl = -412;
  CHECK(sf_append_hop(&context, sf_cstr("\"CDN Company Here\"; hit;  ttl=545"), &own, &out) == SF_OK);
  CHECK(is(sf_written(&out), "\"CDN Company Here\";hit;ttl=545, ExampleCache;hit;ttl=-412"));
  CHECK(sf_append_hop(&context, sf_cstr("a"), &own, &empty) == SF_SHORT && empty.required == 28);
  CHECK(sf_append_hop(&context, sf_cstr("a,"), &own, &out) == SF_REFUSED && out.length == 0);
  CHECK(context.refusal.offset == 2);
  CHECK(sf_append_hop(&none, sf_cstr("a"), &own, &out) == SF_BAD_CALL);
  sf_own_hop string = sf_hop_named("CDN Company Here", SF_STRING);
  string.hop.outcome = SF_FORWARDED;
  string.hop.why = SF_STALE;
  string.hop.status = 304;
  string.hop.has_status = 1;
  CHECK(sf_append_hop(&context, sf_text_of(NULL, 0), &string, &out) == SF_OK);
  CHECK(is(sf_written(&out), "\"CDN Company Here\";fwd=stale;fwd-status=304"));
  string.hop.name_is_token = 1;
  CHECK(sf_write_hop(&context, &string, &out) == SF_INVALID && out.length == 0);
  CHECK(sf_append_hop(&context, sf_cstr("a"), &string, &out) == SF_INVALID && out.length == 0);
  own = sf_hop_named("ExampleCacheMEMORY", SF_TOKEN); /* section 2.8: detail=MEMORY */
  own.hop.name.length = 12;
  own.hop.detail.at = 12;
  own.hop.detail.length = 6;
  own.hop.has_detail = own.hop.detail_is_token = 1;
  own.hop.outcome = SF_HIT;
  CHECK(sf_write_hop(&context, &own, &out) == SF_OK);
  CHECK(is(sf_written(&out), "ExampleCache;hit;detail=MEMORY"));

  /* a hop of a list as the canonical text of its member */
  static const struct {
    const char *member, *text;
  } members[] = {
      {"edge; ttl=30; hit", "edge;hit;ttl=30"},
      {"\"a, \\\"b\"", "\"a, \\\"b\""},
      {"a;fwd=stale;fwd-status=304;collapsed;stored=?0;ttl=-1;key=\"k\";detail=D",
       "a;fwd=stale;fwd-status=304;ttl=-1;stored=?0;collapsed;key=\"k\";detail=D"},
      {"a;fwd=x-y;detail=\"d e\"", "a;fwd=x-y;detail=\"d e\""},
      {"a;hit;fwd=miss", "a;hit;fwd=miss"},
      {"a;x=1;hit=?0;y", "a"},                                      /* not kept */
      {"a;hit=1;ttl=1.5;key=k;detail=(", NULL},                      /* malformed */
      {"a;hit=1;ttl=1.5;key=k;detail=1;fwd-status=304;stored", "a"}, /* count as absent */
      {"a;fwd=\"miss\"", "a"},
      {"a;fwd=miss;fwd-status=99", "a;fwd=miss"},
      {"*/:", "*/:"},
  };
  for (size_t i = 0; i < sizeof members / sizeof *members; ++i) {
    char both[128];
    size_t length = (size_t)snprintf(both, sizeof both, "before;hit;key=\"0\", %s", members[i].member);
    sf_status status = sf_read_hops(&context, sf_text_of(both, length), &list);
    CHECK(status == (members[i].text == NULL ? SF_REFUSED : SF_OK));
    CHECK(list.hops.length == (members[i].text == NULL ? 0 : 2));
    if (members[i].text == NULL)
      continue;
    length = strlen(members[i].text);
    CHECK(sf_write_hop_in(&list, &hops[1], &out) == SF_OK && is(sf_written(&out), members[i].text));
    CHECK(out.length <= SF_HOP_SIZE(list.bytes.length));
    sf_buffer less = sf_buffer_of(text, length - 1);
    CHECK(sf_write_hop_in(&list, &hops[1], &less) == SF_SHORT && less.required == length);
    CHECK(sf_write_hop_in(&list, &hops[1], &empty) == SF_SHORT && empty.length == 0);
    CHECK(sf_write_hop_in(&list, &hops[0], &out) == SF_OK);
    CHECK(is(sf_written(&out), "before;hit;key=\"0\""));
  }
  memset(bytes, 'a', sizeof bytes);
  hops[1].name.at = 1;
  hops[1].name.length = list.bytes.length - 1;
  CHECK(sf_write_hop_in(&list, &hops[1], &out) == SF_OK && out.length == list.bytes.length - 1);
  ++hops[1].name.length; /* past the bytes of the list, but not past their buffer */
  CHECK(sf_write_hop_in(&list, &hops[1], &out) == SF_INVALID && out.length == 0);
  memset(&hops[1], 0xff, sizeof hops[1]);
  CHECK(sf_write_hop_in(&list, &hops[1], &out) == SF_INVALID);
  list = sf_hop_list_in(sf_hops_of(NULL, 0), sf_buffer_of(NULL, 0));
  CHECK(sf_write_hop_in(&list, &hops[0], &out) == SF_INVALID);

  /* what came with the own hop, or that alone, and which of the two */
  uint32_t is_appended = 7;
  own = sf_hop_named("ExampleCache", SF_TOKEN);
  own.hop.outcome = SF_HIT;
  CHECK(sf_append_or_write_hop(&context, sf_cstr("a;hit,  b"), &own, &out, &is_appended) == SF_OK);
  CHECK(is(sf_written(&out), "a;hit, b, ExampleCache;hit") && is_appended == 1);
  CHECK(sf_append_or_write_hop(&context, sf_cstr("a;hit, b="), &own, &out, &is_appended) == SF_OK);
  CHECK(is(sf_written(&out), "ExampleCache;hit") && is_appended == 0);
  CHECK(context.refusal.offset == 8 && context.refusal.found == '=');
  is_appended = 7;
  CHECK(sf_append_or_write_hop(&context, sf_text_of(NULL, 0), &own, &out, &is_appended) == SF_OK);
  CHECK(is(sf_written(&out), "ExampleCache;hit") && is_appended == 1);
  is_appended = 7;
  CHECK(sf_append_or_write_hop(&context, sf_cstr("a,"), &own, &empty, &is_appended) == SF_SHORT);
  CHECK(empty.required == 16 && is_appended == 7);
  CHECK(sf_append_or_write_hop(&context, sf_cstr("a"), &own, &empty, &is_appended) == SF_SHORT);
  CHECK(empty.required == 19);
  CHECK(sf_append_or_write_hop(&none, sf_cstr("a,"), &own, &out, &is_appended) == SF_BAD_CALL);
  own.hop.outcome = SF_CONFLICT;
  own.hop.why = SF_MISS;
  CHECK(sf_append_or_write_hop(&context, sf_cstr("a,"), &own, &out, &is_appended) == SF_INVALID);
  CHECK(out.length == 0 && is_appended == 7);
}

int main(void) {
  seeds();
  texts_and_buffers();
  lines();
  checking();
  canonical_texts();
  trees();
  builders();
  priorities();
  decisions();
  fallbacks();
  what_may_be_stored();
  ages();
  heads();
  whole_heads();
  messages_of_faults();
  kinds_of_heads();
  heads_in_memory();
  values_in_memory();
  verdicts_in_words();
  parts_of_trees();
  parts_by_their_ranges();
  fields_of_a_head();
  faults_of_programs();
  lines_without_a_colon();
  parts_of_dates();
  numbers_of_seconds();
  faults_of_whole_heads();
  members_that_name_no_cache();
  numbers_with_too_many_digits();
  lines_of_one_number();
  faults_of_decisions();
  checked_heads();
  responses();
  lifetimes();
  storing();
  paths();
  printf("%ld passed, %ld failed\n", passed, failed);
  return failed != 0;
}
