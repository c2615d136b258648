/* Times parsing and writing on texts of every shape, and prints a table.
 *
 * usage: bench [SHAPE..]     all shapes, or those named
 *
 * For each shape and size n the time of a text of about n bytes and of one of about 2n, ns a text,
 * and the second over the first. A ratio near 2 says that the time grows with the length alone.
 *
 * Each text is timed twice, each time in processes of its own, so that no figure depends on what
 * malloc kept of the texts before:
 *
 *   loop   parsed again and again, the least of five rounds. Small texts find the memory that the
 *          one before gave back; where malloc gives it back to the system, each takes it anew.
 *   fresh  parsed once in a process that has parsed only a short text of the shape, the least of
 *          15 processes. Each text takes all its memory from the system.
 */
#define _POSIX_C_SOURCE 200809L
#include <stdint.h>
#include <stdio.h>
#include <stdlib.h>
#include <string.h>
#include <sys/wait.h>
#include <time.h>
#include <unistd.h>

/* Of crates/sf_bench. The kind is 'i', 'l' or 'd'. */
size_t sf_bench_parse(uint8_t kind, const uint8_t *text, size_t len, size_t times);
size_t sf_bench_normalise(uint8_t kind, const uint8_t *text, size_t len, size_t times);
size_t sf_bench_view(uint8_t kind, const uint8_t *text, size_t len, size_t times);
size_t sf_bench_check(uint8_t kind, const uint8_t *text, size_t len, size_t times);
size_t sf_bench_priority(uint8_t kind, const uint8_t *text, size_t len, size_t times);

enum { ROUNDS = 5, PROCESSES = 15, KIB = 1024, SHORT = 256, LARGEST = 512 * KIB };

/* A round lasts about as long as this. */
static const double ROUND_NS = 5e6;

struct text {
  char *bytes;
  size_t len;
};

/* Room for twice the largest size, and for the last piece. */
static struct text text_new(void) {
  struct text t = {malloc(2 * LARGEST + 64), 0};
  if (!t.bytes) abort();
  return t;
}

static void add(struct text *t, const char *piece) {
  size_t n = strlen(piece);
  memcpy(t->bytes + t->len, piece, n);
  t->len += n;
}

static void add_number(struct text *t, const char *format, unsigned n) {
  t->len += (size_t)sprintf(t->bytes + t->len, format, n);
}

/* Repeats the pieces in turn up to the size. */
static void fill(struct text *t, size_t size, const char *const *pieces, size_t count) {
  for (size_t i = 0; t->len + 1 < size; ++i) add(t, pieces[i % count]);
}

#define FILL(t, size, ...)                                              \
  do {                                                                  \
    static const char *const pieces[] = {__VA_ARGS__};                  \
    fill(t, size, pieces, sizeof pieces / sizeof *pieces);              \
  } while (0)

/* Repeats a piece with a number in it, behind a separator from the second on. */
static void count_up(struct text *t, size_t size, const char *separator, const char *format) {
  for (unsigned i = 0; t->len + 1 < size; ++i) {
    if (i) add(t, separator);
    add_number(t, format, i);
  }
}

static void string(struct text *t, size_t size) {
  add(t, "\"");
  FILL(t, size, "the quick brown fox, ", "jumps; over = ", "the (lazy) dog. ");
  add(t, "\"");
}

static void escapes(struct text *t, size_t size) {
  add(t, "\"");
  FILL(t, size, "a\\\"b", "C:\\\\d", "\\\"\\\\");
  add(t, "\"");
}

static void token(struct text *t, size_t size) { FILL(t, size, "text/", "x:y.", "a-b_c*"); }

static void base64(struct text *t, size_t size) {
  add(t, ":");
  FILL(t, size, "AAEC", "z9/+", "Zm9v", "YmFy");
  add(t, "Zg==:");
}

static void display(struct text *t, size_t size) {
  add(t, "%\"");
  FILL(t, size, "plain text ", "%c3%bc", "of every sort ", "%e2%82%ac", "%f0%9f%98%80");
  add(t, "\"");
}

static void display_escaped(struct text *t, size_t size) {
  add(t, "%\"");
  FILL(t, size, "%c3%bc", "%e2%82%ac", "%25%22");
  add(t, "\"");
}

static void integers(struct text *t, size_t size) { count_up(t, size, ", ", "%u"); }

static void decimals(struct text *t, size_t size) { count_up(t, size, ", ", "-%u.125"); }

static void dates(struct text *t, size_t size) { count_up(t, size, ", ", "@%u"); }

static void tokens(struct text *t, size_t size) { count_up(t, size, ", ", "token%u;q=0.5"); }

static void keys(struct text *t, size_t size) { count_up(t, size, ", ", "key%u=10;x"); }

static void one_key(struct text *t, size_t size) { count_up(t, size, ", ", "key=%u"); }

static void params(struct text *t, size_t size) {
  add(t, "item;");
  count_up(t, size, ";", "p%u=\"v\"");
}

static void one_param(struct text *t, size_t size) {
  add(t, "item;");
  count_up(t, size, ";", "p=%u");
}

static void params_in_items(struct text *t, size_t size) {
  count_up(t, size, ", ", "a;b=%u;c;d=\"e\";f=?0");
}

static void inner(struct text *t, size_t size) {
  add(t, "(");
  count_up(t, size, " ", "i%u;a");
  add(t, ");b");
}

static void inners(struct text *t, size_t size) { count_up(t, size, ", ", "(a \"b\" %u);c"); }

static void dict_of_inners(struct text *t, size_t size) { count_up(t, size, ", ", "k%u=(1 2 3)"); }

static void flags(struct text *t, size_t size) { count_up(t, size, ", ", "flag%u"); }

static void refused_at_end(struct text *t, size_t size) {
  integers(t, size);
  add(t, ",");
}

static void refused_in_string(struct text *t, size_t size) {
  string(t, size);
  t->bytes[t->len - 1] = '\n';
}

struct shape {
  const char *name;
  uint8_t kind;
  void (*make)(struct text *, size_t);
};

static const struct shape shapes[] = {
    {"string", 'i', string},
    {"escapes", 'i', escapes},
    {"token", 'i', token},
    {"base64", 'i', base64},
    {"display", 'i', display},
    {"display_escaped", 'i', display_escaped},
    {"integers", 'l', integers},
    {"decimals", 'l', decimals},
    {"dates", 'l', dates},
    {"tokens", 'l', tokens},
    {"keys", 'd', keys},
    {"one_key", 'd', one_key},
    {"flags", 'd', flags},
    {"params", 'i', params},
    {"one_param", 'i', one_param},
    {"params_in_items", 'l', params_in_items},
    {"inner", 'l', inner},
    {"inners", 'l', inners},
    {"dict_of_inners", 'd', dict_of_inners},
    {"refused_at_end", 'l', refused_at_end},
    {"refused_in_string", 'i', refused_in_string},
};

/* Texts as they stand in messages, each for itself. */
static const struct {
  uint8_t kind;
  const char *text;
} messages[] = {
    {'d', "u=2, i"},
    {'d', "max-age=600, stale-if-error=86400"},
    {'l', "edge.example; hit; ttl=1100, origin.example; fwd=uri-miss; stored"},
    {'i', "?1"},
    {'i', "1730000000"},
    {'i', "\"a short string\""},
    {'d', "sha-256=:AAECAwQFBgcICQoLDA0ODxAREhMUFRYXGBkaGxwdHh8=:"},
    {'l', "gzip;q=1.0, br;q=0.9, *;q=0.1"},
    {'d', "sig=(\"@method\" \"@path\" \"date\");created=1730000000;keyid=\"k1\""},
    {'i', "@1730000000"},
    {'i', "%\"caf%c3%a9\""},
    {'d', "a=1,"},
    {'i', "1.0000"},
    {'l', "(a b"},
};

static double now(void) {
  struct timespec t;
  clock_gettime(CLOCK_MONOTONIC, &t);
  return (double)t.tv_sec * 1e9 + (double)t.tv_nsec;
}

typedef size_t (*call)(uint8_t, const uint8_t *, size_t, size_t);

static double ns_of(call f, uint8_t kind, const struct text *t, size_t times) {
  double start = now();
  f(kind, (const uint8_t *)t->bytes, t->len, times);
  return (now() - start) / (double)times;
}

static void require(const char *name, size_t result, size_t expected) {
  if (result == expected) return;
  fprintf(stderr, "%s returned %zu, not %zu\n", name, result, expected);
  exit(1);
}

/* Stops if a call doesn't accept a text of the kind, since no clause says that one does. */
static void try_calls(void) {
  const uint8_t *text = (const uint8_t *)"u=1,i";
  require("sf_bench_parse", sf_bench_parse('d', text, 5, 2), 1);
  require("sf_bench_normalise", sf_bench_normalise('d', text, 5, 2), 6);
  require("sf_bench_view", sf_bench_view('d', text, 5, 2), 1);
  require("sf_bench_check", sf_bench_check('d', text, 5, 2), 1);
  require("sf_bench_priority", sf_bench_priority('d', text, 5, 2), 1);
}

/* ns of a call, the least of the rounds. */
static double in_a_loop(call f, uint8_t kind, const struct text *t) {
  double best = ns_of(f, kind, t, 3);
  size_t times = (size_t)(ROUND_NS / (best + 1)) + 1;
  for (int i = 0; i < ROUNDS; ++i) {
    double spent = ns_of(f, kind, t, times);
    if (spent < best) best = spent;
  }
  return best;
}

static double once(call f, uint8_t kind, const struct text *t) { return ns_of(f, kind, t, 1); }

/* Not a time: what the call answers. */
static double answer(call f, uint8_t kind, const struct text *t) {
  return (double)f(kind, (const uint8_t *)t->bytes, t->len, 1);
}

/* What is measured in a process of its own, behind a call for the short text. */
static double apart(double (*measure)(call, uint8_t, const struct text *), call f, uint8_t kind,
                    const struct text *before, const struct text *t) {
  double measured = 0;
  int ends[2];
  if (pipe(ends)) abort();
  pid_t child = fork();
  if (child < 0) abort();
  if (child == 0) {
    once(f, kind, before);
    measured = measure(f, kind, t);
    _exit(write(ends[1], &measured, sizeof measured) != sizeof measured);
  }
  close(ends[1]);
  if (read(ends[0], &measured, sizeof measured) != sizeof measured) abort();
  close(ends[0]);
  waitpid(child, NULL, 0);
  return measured;
}

/* ns of a call that takes all its memory anew, the least of the processes. */
static double fresh(call f, uint8_t kind, const struct text *before, const struct text *t) {
  double best = apart(once, f, kind, before, t);
  for (int i = 1; i < PROCESSES; ++i) {
    double spent = apart(once, f, kind, before, t);
    if (spent < best) best = spent;
  }
  return best;
}

static int is_chosen(const char *name, int argc, char **argv) {
  for (int a = 1; a < argc; ++a)
    if (!strcmp(argv[a], name)) return 1;
  return argc < 2;
}

/* The largest ratio of 2n to n so far. */
struct largest {
  double loop, fresh;
};

static void note(double *largest, double ratio) {
  if (ratio > *largest) *largest = ratio;
}

static void figures(call f, uint8_t kind, const struct text *before, const struct text *one,
                    const struct text *two, struct largest *largest) {
  double first = apart(in_a_loop, f, kind, before, one);
  double second = apart(in_a_loop, f, kind, before, two);
  double ratio = fresh(f, kind, before, two) / fresh(f, kind, before, one);
  printf(" %11.0f %11.0f %5.2f %5.2f", first, second, second / first, ratio);
  note(&largest->loop, second / first);
  note(&largest->fresh, ratio);
}

static void row(const struct shape *shape, size_t size, struct largest *largest) {
  struct text before = text_new(), one = text_new(), two = text_new();
  shape->make(&before, SHORT);
  shape->make(&one, size);
  shape->make(&two, 2 * size);
  double accepted = apart(answer, sf_bench_parse, shape->kind, &before, &two);
  printf("%-18s %6zu %-8s", shape->name, size / KIB, accepted > 0 ? "accepted" : "refused");
  figures(sf_bench_parse, shape->kind, &before, &one, &two, largest);
  figures(sf_bench_normalise, shape->kind, &before, &one, &two, largest);
  printf("\n");
  free(before.bytes);
  free(one.bytes);
  free(two.bytes);
}

int main(int argc, char **argv) {
  static const size_t sizes[] = {4 * KIB,  8 * KIB,   16 * KIB,  32 * KIB,
                                 64 * KIB, 128 * KIB, 256 * KIB, LARGEST};
  struct largest largest = {0, 0};

  try_calls();
  printf("%-18s %6s %-8s %11s %11s %5s %5s %11s %11s %5s %5s\n", "ns a text", "n KiB", "answer",
         "parse n", "2n", "loop", "fresh", "normalise n", "2n", "loop", "fresh");
  for (size_t s = 0; s < sizeof shapes / sizeof *shapes; ++s) {
    if (!is_chosen(shapes[s].name, argc, argv)) continue;
    for (size_t i = 0; i < sizeof sizes / sizeof *sizes; ++i) row(&shapes[s], sizes[i], &largest);
  }
  if (largest.loop > 0)
    printf("the largest ratio of 2n to n: %.2f in a loop, %.2f in fresh processes\n", largest.loop,
           largest.fresh);

  if (is_chosen("messages", argc, argv)) {
    printf("\n%-18s %8s %9s  %s\n", "messages: ns a text", "parse", "normalise", "text");
    for (size_t m = 0; m < sizeof messages / sizeof *messages; ++m) {
      struct text text = {(char *)messages[m].text, strlen(messages[m].text)};
      double parse = in_a_loop(sf_bench_parse, messages[m].kind, &text);
      double normalise = in_a_loop(sf_bench_normalise, messages[m].kind, &text);
      printf("%19c %8.0f %9.0f  %s\n", messages[m].kind, parse, normalise, messages[m].text);
    }
  }
  return 0;
}
