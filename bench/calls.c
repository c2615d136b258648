/* Times the calls of the library for C, and tells how much memory each allocates.
 *
 * usage: calls [FILE..]
 *
 * Each table is of one set of texts: those below, and those of each FILE, which has records of a
 * kind ('i', 'l' or 'd'), a length of four bytes, little endian, and a text of that length. The line
 * above it has the time of the scanner alone, and that of sfparse for a walk.
 *
 *   ns       of a text, the least of five rounds over the set
 *   to scan  that time over the time of the scanner alone, sf_bench_view of crates/sf_bench
 *   to walk  that time over the time of sfparse for a walk that decodes nothing, if the program is
 *            built with it: see Makefile
 *   floor    of a call that is measured against another one: that call, on the same text, and the
 *            time over its time. sf_check* is sf_check on the longest prefix that is well-formed
 *   peak     the most bytes that one call had allocated at a time, over the bytes of its text, for
 *            the text of the set with the greatest ratio
 *   blocks   the most calls of malloc and realloc that one call made
 *
 * Rows of 16 nodes or 8 hops are of buffers that are too small for most texts: then the call only
 * counts. A row of a writer is of its text beside the walk of that text.
 *
 * Linked with --wrap=malloc, --wrap=realloc and --wrap=free, which count what calls allocate.
 */
#define _POSIX_C_SOURCE 200809L
#include "../include/sf.h"
#include <malloc.h>
#include <stdio.h>
#include <stdlib.h>
#include <time.h>

#ifdef WITH_SFPARSE
#include "sfparse.h"
#endif

/* Of crates/sf_bench. */
size_t sf_bench_view(uint8_t kind, const uint8_t *text, size_t len, size_t times);

enum { ROUNDS = 5, SCANS = 64, KIB = 1024, MOST_TEXTS = 4096 };

/* A round lasts about as long as this. */
static const double ROUND_NS = 2e7;

struct text {
  char letter;
  size_t length;
  size_t whole; /* of the longest prefix that is well-formed */
  unsigned char *bytes;
};

struct set {
  const char *name;
  size_t count;
  size_t longest;
  struct text texts[MOST_TEXTS];
};

/* Memory of the library, in bytes: now, and the most so far. */

void *__real_malloc(size_t size);
void *__real_realloc(void *block, size_t size);
void __real_free(void *block);
void *__wrap_malloc(size_t size);
void *__wrap_realloc(void *block, size_t size);
void __wrap_free(void *block);

static int counting;
static size_t held, peak, taken;

static void took(void *block) {
  if (!counting || block == NULL)
    return;
  ++taken;
  held += malloc_usable_size(block);
  if (held > peak)
    peak = held;
}

static void gave(void *block) {
  if (counting && block != NULL)
    held -= malloc_usable_size(block);
}

void *__wrap_malloc(size_t size) {
  void *block = __real_malloc(size);
  took(block);
  return block;
}

void *__wrap_realloc(void *block, size_t size) {
  gave(block);
  void *moved = __real_realloc(block, size);
  took(moved != NULL ? moved : block);
  return moved;
}

void __wrap_free(void *block) {
  gave(block);
  __real_free(block);
}

/* The calls. Each works on one text, in buffers that are large enough for the longest of the set. */

static sf_seed seed = {{7}};
static uint32_t status; /* of the last call */
static sf_node *nodes;
static sf_hop *hops;
static unsigned char *bytes;
static size_t nodes_capacity, bytes_capacity;

/* Buffers that are too small for most texts. */
enum { FEW_NODES = 16, FEW_HOPS = 8 };

static uint32_t kind_of(const struct text *t) {
  return t->letter == 'i' ? SF_ITEM : t->letter == 'l' ? SF_LIST : SF_DICT;
}

/* So many times, since it allocates its buffer first. */
static void scan(const struct text *t) {
  sf_bench_view((uint8_t)t->letter, t->bytes, t->length, SCANS);
}

static void check(const struct text *t) {
  sf_refusal refusal;
  status = sf_check(&seed, SF_RFC9651, kind_of(t), t->bytes, t->length, &refusal);
}

/* Of the longest prefix that is well-formed. */
static void check_prefix(const struct text *t) {
  sf_refusal refusal;
  status = sf_check(&seed, SF_RFC9651, kind_of(t), t->bytes, t->whole, &refusal);
}

static void parse(const struct text *t) {
  sf_sizes sizes;
  sf_refusal refusal;
  status = sf_parse(&seed, SF_RFC9651, kind_of(t), t->bytes, t->length, nodes, nodes_capacity, bytes,
                    bytes_capacity, &sizes, &refusal);
}

static void parse_few(const struct text *t) {
  sf_sizes sizes;
  sf_refusal refusal;
  status = sf_parse(&seed, SF_RFC9651, kind_of(t), t->bytes, t->length, nodes, FEW_NODES, bytes, 0,
                    &sizes, &refusal);
}

static void normalise(const struct text *t) {
  size_t required;
  sf_refusal refusal;
  status = sf_normalise(&seed, SF_RFC9651, kind_of(t), t->bytes, t->length, bytes, bytes_capacity,
                        &required, &refusal);
}

static void equal(const struct text *t) {
  uint32_t equal_out;
  sf_refusal refusal;
  status = sf_equal(&seed, SF_RFC9651, kind_of(t), t->bytes, t->length, t->bytes, t->length,
                    &equal_out, &refusal);
}

/* The nodes of the text, written. */
static void write_nodes(const struct text *t) {
  static const void *last;
  static sf_sizes sizes;
  static sf_node own[64];
  static unsigned char decoded[256];
  if (last != t->bytes) {
    sf_refusal refusal;
    status = sf_parse(&seed, SF_RFC9651, kind_of(t), t->bytes, t->length, own, 64, decoded,
                      sizeof decoded, &sizes, &refusal);
    if (status != SF_OK)
      abort();
    last = t->bytes;
  }
  size_t required, invalid;
  status = sf_write(&seed, SF_RFC9651, kind_of(t), own, sizes.nodes, t->bytes, t->length, decoded,
                    sizes.bytes, bytes, bytes_capacity, &required, &invalid);
}

static void join(const struct text *t) {
  sf_joined joined = {0, 0, 0};
  status = sf_join(t->bytes, t->length, bytes, bytes_capacity, &joined);
}

static void priority(const struct text *t) {
  sf_priority_flags flags;
  sf_refusal refusal;
  status = sf_priority(&seed, t->bytes, t->length, &flags, &refusal);
}

static void response_priority(const struct text *t) {
  sf_response_priority_flags flags;
  sf_refusal refusal;
  status = sf_response_priority(&seed, SF_RFC9651, t->bytes, t->length, &flags, &refusal);
}

static void priority_text(const struct text *t) {
  static const sf_priority_flags flags = {.urgency = 2, .incremental = 1, .has_urgency = 1,
                                          .has_incremental = 1};
  size_t required;
  (void)t;
  status = sf_priority_text(&flags, bytes, bytes_capacity, &required);
}

static void cache_rules(const struct text *t) {
  sf_rules rules;
  sf_refusal refusal;
  status = sf_cache_rules(&seed, SF_RFC9651, t->bytes, t->length, &rules, &refusal);
}

static void cache_control(const struct text *t) {
  sf_policy policy;
  sf_refusal refusal;
  status = sf_cache_control(&seed, t->bytes, t->length, &policy, &refusal);
}

static void cache_status(const struct text *t) {
  sf_path path;
  sf_refusal refusal;
  status = sf_cache_status(&seed, t->bytes, t->length, hops, nodes_capacity, bytes, bytes_capacity,
                           &path, &refusal);
}

static void cache_status_few(const struct text *t) {
  sf_path path;
  sf_refusal refusal;
  status = sf_cache_status(&seed, t->bytes, t->length, hops, FEW_HOPS, bytes, 0, &path, &refusal);
}

static void priority_change(const struct text *t) {
  static const sf_priority_flags to = {.urgency = 2, .has_urgency = 1};
  size_t required;
  sf_refusal refusal;
  status = sf_priority_change(&seed, t->bytes, t->length, &to, bytes, bytes_capacity, &required,
                              &refusal);
}

/* The first hop of a text, and the bytes of all of them. */
static const void *hop_of;
static sf_hop first_hop;
static unsigned char hop_bytes[256];

static void read_hop(const struct text *t) {
  if (hop_of == t->bytes)
    return;
  sf_path path;
  sf_refusal refusal;
  status = sf_cache_status(&seed, t->bytes, t->length, hops, nodes_capacity, bytes, bytes_capacity,
                           &path, &refusal);
  if (status != SF_OK || path.bytes > sizeof hop_bytes)
    abort();
  first_hop = hops[0];
  memcpy(hop_bytes, bytes, path.bytes);
  hop_of = t->bytes;
}

static void hop_text(const struct text *t) {
  read_hop(t);
  size_t required;
  status = sf_hop_text(&seed, &first_hop, hop_bytes, sizeof hop_bytes, bytes, bytes_capacity,
                       &required);
}

static void append_hop(const struct text *t) {
  read_hop(t);
  size_t required;
  sf_refusal refusal;
  status = sf_cache_status_append(&seed, SF_RFC9651, t->bytes, t->length, &first_hop, hop_bytes,
                                  sizeof hop_bytes, bytes, bytes_capacity, &required, &refusal);
}

#ifdef WITH_SFPARSE
static uint64_t seen; /* so that no reading is optimised away */

static int walk_params(sfparse_parser *parser) {
  sfparse_vec key;
  sfparse_value value;
  int result;
  while ((result = sfparse_parser_param(parser, &key, &value)) == 0)
    seen += key.len + (uint64_t)value.type;
  return result == SFPARSE_ERR_EOF;
}

static int walk_items(sfparse_parser *parser) {
  sfparse_value value;
  int result;
  while ((result = sfparse_parser_inner_list(parser, &value)) == 0) {
    seen += (uint64_t)value.type;
    if (!walk_params(parser))
      return 0;
  }
  return result == SFPARSE_ERR_EOF;
}

static void walk(const struct text *t) {
  sfparse_parser parser;
  sfparse_value value;
  sfparse_vec key = {0};
  sfparse_parser_init(&parser, t->bytes, t->length);
  while ((t->letter == 'i'   ? sfparse_parser_item(&parser, &value)
          : t->letter == 'l' ? sfparse_parser_list(&parser, &value)
                             : sfparse_parser_dict(&parser, &key, &value)) == 0) {
    seen += key.len + (uint64_t)value.type;
    if (value.type == SFPARSE_TYPE_INNER_LIST && !walk_items(&parser))
      return;
    if (!walk_params(&parser) || t->letter == 'i')
      return;
  }
}
#endif

typedef void (*call)(const struct text *);

static double now(void) {
  struct timespec t;
  clock_gettime(CLOCK_MONOTONIC, &t);
  return (double)t.tv_sec * 1e9 + (double)t.tv_nsec;
}

static double round_ns(const struct set *set, call f, size_t times) {
  double start = now();
  for (size_t n = 0; n < times; ++n)
    for (size_t i = 0; i < set->count; ++i)
      f(&set->texts[i]);
  return (now() - start) / ((double)times * (double)set->count);
}

/* ns a text. */
static double time_of(const struct set *set, call f) {
  size_t times = 1;
  double ns = round_ns(set, f, times);
  while (ns * (double)(times * set->count) < ROUND_NS / 4)
    ns = round_ns(set, f, times *= 2);
  times = (size_t)(ROUND_NS / (ns * (double)set->count)) + 1;
  for (int i = 0; i < ROUNDS; ++i) {
    double again = round_ns(set, f, times);
    if (again < ns)
      ns = again;
  }
  return ns;
}

/* The greatest ratio of what a call allocates to the length of its text, and the most blocks. */
static double memory_of(const struct set *set, call f, size_t *blocks) {
  double greatest = 0;
  *blocks = 0;
  for (size_t i = 0; i < set->count; ++i) {
    held = peak = taken = 0;
    counting = 1;
    f(&set->texts[i]);
    counting = 0;
    if (taken > *blocks)
      *blocks = taken;
    double ratio = (double)peak / (double)(set->texts[i].length + !set->texts[i].length);
    if (ratio > greatest)
      greatest = ratio;
  }
  return greatest;
}

/* A call, and the one that it is measured against, if there is one. */
struct own {
  const char *name;
  call call;
  const char *floor;
  call floor_call;
};

static void row(const struct set *set, const struct own *own, double scanned, double walked) {
  double ns = time_of(set, own->call);
  printf("| %s | %.0f | %.2f | ", own->name, ns, ns / scanned);
  if (walked > 0)
    printf("%.2f | ", ns / walked);
  else
    printf("- | ");
  if (own->floor != NULL)
    printf("%s %.2f | ", own->floor, ns / time_of(set, own->floor_call));
  else
    printf("- | ");
  size_t blocks;
  double memory = memory_of(set, own->call, &blocks);
  printf("%.1f | %zu |\n", memory, blocks);
}

/* The calls for texts of each kind. */
static const struct own of_all[] = {{"sf_check", check, NULL, NULL},
                                    {"sf_parse", parse, NULL, NULL},
                                    {"sf_parse, 16 nodes", parse_few, "sf_check", check},
                                    {"sf_normalise", normalise, NULL, NULL},
                                    {NULL, NULL, NULL, NULL}};

/* The same for malformed ones. */
static const struct own of_malformed[] = {{"sf_check", check, "sf_check*", check_prefix},
                                          {"sf_parse", parse, "sf_check*", check_prefix},
                                          {"sf_parse, 16 nodes", parse_few, "sf_check*",
                                           check_prefix},
                                          {"sf_normalise", normalise, NULL, NULL},
                                          {NULL, NULL, NULL, NULL}};

/* Finds the longest prefix of each text that is well-formed, and returns whether one is shorter. */
static int find_prefixes(struct set *set) {
  int malformed = 0;
  for (size_t i = 0; i < set->count; ++i) {
    struct text *t = &set->texts[i];
    t->whole = t->length;
    check_prefix(t);
    malformed |= status == SF_REFUSED;
    while (status == SF_REFUSED && t->whole > 0) {
      --t->whole;
      check_prefix(t);
    }
  }
  return malformed;
}

/* A table of the calls, with those that the texts of the set are for, up to one without a name. */
static void table(struct set *set, const struct own *own) {
  nodes_capacity = SF_NODES_SIZE(set->longest) + 1;
  bytes_capacity = SF_BYTES_SIZE(set->longest) + 1;
  nodes = malloc(nodes_capacity * sizeof *nodes);
  hops = malloc(nodes_capacity * sizeof *hops);
  bytes = malloc(bytes_capacity);
  if (nodes == NULL || hops == NULL || bytes == NULL)
    abort();
  double scanned = time_of(set, scan) / SCANS, walked = 0;
#ifdef WITH_SFPARSE
  walked = time_of(set, walk);
#endif
  printf("\n%s: %zu texts, %zu bytes at most; scan %.0f ns", set->name, set->count, set->longest,
         scanned);
  if (walked > 0)
    printf(", walk %.0f ns, scan to walk %.2f", walked, scanned / walked);
  printf("\n\n| call | ns | to scan | to walk | floor | peak | blocks |\n"
         "|---|---|---|---|---|---|---|\n");
  for (const struct own *all = find_prefixes(set) ? of_malformed : of_all; all->name != NULL; ++all)
    row(set, all, scanned, walked);
  for (; own->name != NULL; ++own)
    row(set, own, scanned, walked);
  free(nodes);
  free(hops);
  free(bytes);
}

static struct set the_set;

static struct set *begin(const char *name) {
  for (size_t i = 0; i < the_set.count; ++i)
    free(the_set.texts[i].bytes);
  the_set.name = name;
  the_set.count = the_set.longest = 0;
  return &the_set;
}

static unsigned char *add(struct set *set, char letter, size_t length) {
  if (set->count == MOST_TEXTS)
    abort();
  struct text *t = &set->texts[set->count++];
  t->letter = letter;
  t->length = length;
  t->bytes = malloc(length + !length);
  if (t->bytes == NULL)
    abort();
  if (length > set->longest)
    set->longest = length;
  return t->bytes;
}

static void add_all(struct set *set, char letter, const char *const *texts) {
  for (; *texts != NULL; ++texts)
    memcpy(add(set, letter, strlen(*texts)), *texts, strlen(*texts));
}

/* The piece again and again, so many bytes in all, without the last comma. */
static void add_repeated(struct set *set, char letter, const char *piece, size_t length) {
  unsigned char *to = add(set, letter, length - 1);
  for (size_t i = 0; i < length - 1; ++i)
    to[i] = (unsigned char)piece[i % strlen(piece)];
}

/* So many members with keys of seven bytes; if repeats is set, every eighth key is the first one. */
static void add_keys(struct set *set, size_t count, int repeats) {
  char *to = (char *)add(set, 'd', count * 8 - 1);
  for (size_t i = 0; i < count; ++i) {
    char member[16];
    snprintf(member, sizeof member, "k%06zu,", repeats && i % 8 == 0 ? (size_t)0 : i % 1000000);
    memcpy(to + i * 8, member, i + 1 < count ? 8 : 7);
  }
}

static void add_file(struct set *set, const char *path) {
  FILE *file = fopen(path, "rb");
  if (file == NULL) {
    perror(path);
    exit(2);
  }
  for (int letter; (letter = fgetc(file)) != EOF;) {
    unsigned char l[4];
    if (fread(l, 1, 4, file) != 4)
      abort();
    size_t length = l[0] | (size_t)l[1] << 8 | (size_t)l[2] << 16 | (size_t)l[3] << 24;
    unsigned char *to = add(set, (char)letter, length);
    if (length != 0 && fread(to, 1, length, file) != length)
      abort();
  }
  fclose(file);
}

static const char *const priorities[] = {"u=5, i", "u=0", "i", "u=3", "u=7, i=?0", "u=1, i;x=1",
                                         NULL};

static const char *const policies[] = {"max-age=600", "max-age=60, s-maxage=3600",
                                       "no-store, private", "max-age=86400, must-revalidate",
                                       "public, max-age=31536000, stale-while-revalidate=60",
                                       NULL};

static const char *const paths[] = {
    "OriginCache; hit; ttl=1100, \"CDN Company Here\"; hit; ttl=545",
    "ExampleCache; hit; ttl=376",
    "ExampleCache; fwd=uri-miss; stored",
    "ExampleCache; fwd=stale; fwd-status=304",
    "\"edge.example\"; fwd=vary-miss; stored; key=\"/a?b=c\"; detail=pool-7",
    "ReverseProxyCache; hit, ForwardProxyCache; fwd=uri-miss; collapsed; stored",
    NULL};

static const char *const hop[] = {
    "\"edge.example\"; fwd=vary-miss; stored; key=\"/a?b=c\"; detail=pool-7", NULL};

static const char *const inputs[] = {
    "sig1=(\"@method\" \"@authority\" \"@path\" \"content-digest\" \"content-type\")"
    ";created=1700000000;keyid=\"key-ed25519-7\"",
    "sig-a=();created=1700000001;keyid=\"rsa-pss-1\";nonce=\"q5kWmVtd7Zb0-3xLr.hY\"",
    "sig-b=(\"@authority\" \"content-digest\" \"@query-param\";name=\"page\")"
    ";created=1700000002;keyid=\"rsa-pss-1\";tag=\"example-app\"",
    "proxy_sig=(\"@method\" \"@authority\" \"@path\" \"content-length\" \"forwarded\")"
    ";created=1700000480;keyid=\"proxy-key\";alg=\"rsa-v1_5-sha256\";expires=1700000540",
    "sig1=(\"@status\" \"content-type\" \"content-digest\" \"@authority\";req \"@path\";req)"
    ";created=1700000479;keyid=\"key-ecc-p256\"",
    "sig1=(\"date\" \"@target-uri\" \"host\");keyid=\"k1\", "
    "sig2=(\"signature\";key=\"sig1\" \"via\");created=1700000600;keyid=\"k2\"",
    NULL};

/* A List of so many Inner Lists, with parameters of the Items and of the Inner Lists. */
static void add_inner_lists(struct set *set, size_t count) {
  static const char member[] = "(sea tide;m=1.5 \"two words\" 1200);at=7, ";
  add_repeated(set, 'l', member, count * (sizeof member - 1) - 1);
}

/* A Dictionary of so many Strings. */
static void add_strings(struct set *set, size_t count) {
  char *all = malloc(count * 64), *to = all;
  if (all == NULL)
    abort();
  for (size_t i = 0; i < count; ++i)
    to += sprintf(to, "%skey-%zu=\"the text of number %zu\"", i > 0 ? ", " : "", i, i);
  memcpy(add(set, 'd', (size_t)(to - all)), all, (size_t)(to - all));
  free(all);
}

#define NO_MORE {NULL, NULL, NULL, NULL}
#define OF_SMALL                                                                                   \
  {"sf_equal", equal, NULL, NULL}, {"sf_write", write_nodes, NULL, NULL}, {                        \
    "sf_join", join, NULL, NULL                                                                    \
  }

static const struct own none[] = {NO_MORE};
static const struct own of_inputs[] = {OF_SMALL, NO_MORE};
static const struct own of_priorities[] = {
    OF_SMALL,
    {"sf_priority", priority, NULL, NULL},
    {"sf_response_priority", response_priority, NULL, NULL},
    {"sf_priority_text", priority_text, NULL, NULL},
    {"sf_priority_change", priority_change, "sf_priority", priority},
    NO_MORE};
static const struct own of_policies[] = {{"sf_cache_control", cache_control, NULL, NULL},
                                         {"sf_cache_rules", cache_rules, NULL, NULL},
                                         NO_MORE};
static const struct own of_paths[] = {OF_SMALL,
                                      {"sf_cache_status", cache_status, NULL, NULL},
                                      {"sf_cache_status, 8 hops", cache_status_few, "sf_check",
                                       check},
                                      {"sf_cache_status_append", append_hop, NULL, NULL},
                                      NO_MORE};
static const struct own of_hops[] = {{"sf_cache_status", cache_status, NULL, NULL},
                                     {"sf_hop_text", hop_text, "sf_cache_status", cache_status},
                                     NO_MORE};
static const struct own of_long_paths[] = {{"sf_cache_status", cache_status, NULL, NULL},
                                           {"sf_cache_status, 8 hops", cache_status_few, "sf_check",
                                            check},
                                           NO_MORE};
static const struct own of_malformed_paths[] = {
    {"sf_cache_status", cache_status, "sf_check*", check_prefix},
    {"sf_cache_status, 8 hops", cache_status_few, "sf_check*", check_prefix},
    NO_MORE};
static const struct own of_malformed_dicts[] = {
    {"sf_priority", priority, "sf_check*", check_prefix},
    {"sf_cache_control", cache_control, "sf_check*", check_prefix},
    {"sf_priority_change", priority_change, "sf_check*", check_prefix},
    NO_MORE};

int main(int argc, char **argv) {
  struct set *set = begin("Priority fields");
  add_all(set, 'd', priorities);
  table(set, of_priorities);
  set = begin("Targeted fields");
  add_all(set, 'd', policies);
  table(set, of_policies);
  set = begin("Cache-Status fields");
  add_all(set, 'l', paths);
  table(set, of_paths);
  set = begin("A hop");
  add_all(set, 'l', hop);
  table(set, of_hops);
  set = begin("Signature-Input fields");
  add_all(set, 'd', inputs);
  table(set, of_inputs);
  set = begin("A List of 512 Inner Lists");
  add_inner_lists(set, 512);
  table(set, none);
  set = begin("A Dictionary of 256 Strings");
  add_strings(set, 256);
  table(set, none);
  set = begin("A List of 64 KiB of a;b,");
  add_repeated(set, 'l', "a;b,", 64 * KIB);
  table(set, of_long_paths);
  set = begin("A Dictionary of 8,192 keys");
  add_keys(set, 8 * KIB, 0);
  table(set, none);
  set = begin("A Dictionary of 8,192 keys, every eighth the first one");
  add_keys(set, 8 * KIB, 1);
  table(set, none);
  set = begin("A malformed List of 64 KiB");
  add_repeated(set, 'l', "a;b,", 64 * KIB);
  set->texts[0].bytes[set->longest - 1] = '=';
  table(set, of_malformed_paths);
  set = begin("A malformed Dictionary of 8 KiB of a,");
  add_repeated(set, 'd', "a,", 8 * KIB + 1);
  table(set, of_malformed_dicts);
  for (int i = 1; i < argc; ++i) {
    set = begin(argv[i]);
    add_file(set, argv[i]);
    table(set, none);
  }
  return 0;
}
