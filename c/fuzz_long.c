/* The long run of the fuzzer, without coverage: inputs at random by the grammar (tests/grammar.h),
 * on which is compared what the library and the command say.
 *
 *   fuzz-long STATE SEED BYTES [SF]     goes on until so many bytes were tried, or a signal ends it
 *   fuzz-long SEED NUMBER [SF]          tries one input again
 *
 * The seed and the number of an input determine it. STATE is a file of one line: how far the run of
 * this seed is; it is read at the start and written every minute and at the end.
 *
 * - A text as it was made: the library accepts it, its canonical text is the one that was made, and
 *   its nodes are those that a builder made. Then what tests/comparisons.h compares, all of it for
 *   one input in eight; and its members on some lines, joined.
 * - A text after some changes at random: what tests/comparisons.h compares, likewise.
 * - Lines of fields, at times after such changes, that are written to the command SF by a pipe, in
 *   chunks of random sizes: it answers what follows from what the library says of the joined text
 *   (docs/COMMAND.md).
 *
 * At a disagreement, a fault or 64 inputs that take a minute of the processor the run ends, and the
 * input is written to a file beside STATE, as one of the fuzz target. */
#define _DEFAULT_SOURCE
#define _POSIX_C_SOURCE 200809L
#include "tests/comparisons.h"
#include "tests/grammar.h"
#include <errno.h>
#include <fcntl.h>
#include <inttypes.h>
#include <signal.h>
#include <spawn.h>
#include <sys/time.h>
#include <sys/wait.h>
#include <time.h>

extern char **environ;

enum {
  LONG_EVERY = 128,         /* about one input in so many has 4 to 64 KiB, most others 20 to 500 bytes */
  THOROUGH_EVERY = 8,       /* on one of so many inputs all is compared */
  COMMAND_EVERY = 512,      /* after so many inputs the command is run once */
  INPUT_LIMIT = 1048576,    /* the longest input of the command */
  LONGEST = 2 * INPUT_LIMIT /* longer than each that is written to it */
};

/* How far a run is. */
typedef struct state {
  uint64_t seed;
  uint64_t inputs;   /* number of the next */
  uint64_t bytes;    /* of these inputs */
  uint64_t accepted; /* how many of them */
  uint64_t longs;    /* how many had 4 KiB or more */
  uint64_t runs;     /* of the command */
  uint64_t lines;    /* written to it */
  uint64_t command_bytes;
} state;

#define STATE_FORMAT(number)                                                                       \
  "seed %" number " inputs %" number " bytes %" number " accepted %" number " long %" number       \
  " runs %" number " lines %" number " command-bytes %" number "\n"

/* The input that is tried, for the handler of signals. */
static struct {
  uint64_t seed, number;
  const char *folder; /* with a slash at its end, or empty */
  uint8_t selector;
  const uint8_t *text;
  size_t length;
} current;

static volatile sig_atomic_t ends;

static void on_end(int number) {
  (void)number;
  ends = 1;
}

/* Writes the input to a file, and ends as the signal does by default. */
static void on_failure(int number) {
  char path[1024], message[1200];
  snprintf(path, sizeof path, "%sfailed-%" PRIu64 "-%" PRIu64, current.folder, current.seed,
           current.number);
  int length =
      snprintf(message, sizeof message,
               "fuzz-long: seed %" PRIu64 " input %" PRIu64 " failed by signal %d: see %s\n",
               current.seed, current.number, number, path);
  int file = open(path, O_WRONLY | O_CREAT | O_TRUNC, 0666);
  if (file < 0 || write(file, &current.selector, 1) != 1 ||
      write(file, current.text, current.length) != (ssize_t)current.length ||
      write(STDERR_FILENO, message, (size_t)length) != length)
    _exit(3);
  signal(number, SIG_DFL);
  raise(number);
  _exit(3);
}

static void handle_signals(void) {
  static const int failures[] = {SIGABRT, SIGSEGV, SIGBUS, SIGFPE, SIGILL, SIGVTALRM};
  static uint8_t stack_bytes[1 << 16];
  stack_t stack = {.ss_sp = stack_bytes, .ss_size = sizeof stack_bytes};
  struct sigaction action;
  sigaltstack(&stack, NULL);
  memset(&action, 0, sizeof action);
  action.sa_handler = on_failure;
  action.sa_flags = SA_ONSTACK | SA_NODEFER;
  for (size_t i = 0; i < sizeof failures / sizeof *failures; ++i)
    sigaction(failures[i], &action, NULL);
  action.sa_handler = on_end;
  sigaction(SIGINT, &action, NULL);
  sigaction(SIGTERM, &action, NULL);
  signal(SIGPIPE, SIG_IGN);
}

/* Names the input, for the handler of signals. */
static void begin_input(uint32_t dialect, uint32_t kind, const uint8_t *text, size_t length) {
  current.selector =
      (uint8_t)(kind - SF_ITEM + (dialect == SF_RFC8941 ? 3 : 0) + (none_is_a_place ? 6 : 0));
  current.text = text;
  current.length = length;
}

/* What is known of a field that is made. */
static known known_of(const made *m) {
  known k = {m->canonical.at,
             m->canonical.length,
             {NULL,
              0,
              m->tree.nodes.at,
              (uint8_t *)m->tree.bytes.at,
              {m->tree.nodes.length, m->tree.bytes.length}}};
  CHECK(m->tree.status == SF_OK);
  return k;
}

/* Puts some members of a text on lines: it goes from member to member, and ends with none left. */
static void put_line(rng *r, const made *m, size_t *next_member, sink *line) {
  size_t from = *next_member, left = m->members - from;
  size_t count = one_in(r, 2) ? 1 : 1 + below(r, (uint32_t)left);
  put_blanks(r, line);
  put(line, m->text.at + m->starts[from], m->ends[from + count - 1] - m->starts[from]);
  put_blanks(r, line);
  *next_member = from + count;
}

/* The members of the text on some lines, joined, are the same value. */
static void compare_lines(rng *r, const made *m, sink *line) {
  size_t capacity = m->text.length + 2 * m->members, required = 0;
  uint8_t *buffer = take_buffer(NULL, capacity);
  uint8_t *canonical = take_buffer(NULL, m->canonical.length);
  sf_lines lines = sf_lines_in(sf_buffer_of(buffer, capacity));
  sf_refusal refusal;
  for (size_t i = 0; i < m->members;) {
    line->length = 0;
    put_line(r, m, &i, line);
    uint8_t *given = take_buffer(line->at, line->length);
    CHECK(sf_add_line(&lines, sf_trim(given, line->length)) == SF_OK);
    give_buffer(given);
  }
  sf_text joined = sf_joined_text(&lines);
  CHECK(sf_normalise(&seed, m->dialect, m->kind, joined.at, joined.length, canonical,
                     m->canonical.length, &required, &refusal) == SF_OK);
  CHECK(required == m->canonical.length);
  CHECK(same_bytes(canonical, 0, m->canonical.at, 0, required));
  give_buffer(canonical);
  give_buffer(buffer);
}

/* What inputs are made in. */
typedef struct maker {
  made field, other;
  sink input, line, joined, answer, output;
} maker;

static maker new_maker(void) {
  maker k = {new_made(),
             new_made(),
             new_sink(LONGEST),
             new_sink(LONGEST),
             new_sink(2 * LONGEST),
             new_sink(4 * LONGEST),
             new_sink(4 * LONGEST)};
  return k;
}

/* One input of the library. */
static void try_input(maker *k, state *s) {
  rng r = rng_of(s->seed, s->inputs);
  uint32_t kind = SF_ITEM + below(&r, 3), dialect = one_in(&r, 4) ? SF_RFC8941 : SF_RFC9651;
  size_t size = one_in(&r, LONG_EVERY) ? pick_long(&r, 4) : 20 + below(&r, 481);
  int is_made = one_in(&r, 2);
  none_is_a_place = (int)below(&r, 2);
  is_thorough = one_in(&r, THOROUGH_EVERY);
  make_field(&r, &k->field, dialect, kind, size);
  k->input.length = 0;
  put(&k->input, k->field.text.at, k->field.text.length);
  if (!is_made) {
    uint32_t other_kind = SF_ITEM + below(&r, 3);
    make_field(&r, &k->other, SF_RFC9651, other_kind, 20 + below(&r, 200));
    mutate(&r, &k->input, &k->other.text);
    if (one_in(&r, 8))
      dialect = SF_RFC9651 + SF_RFC8941 - dialect;
  }
  uint8_t *text = take_buffer(k->input.at, k->input.length);
  begin_input(dialect, kind, text, k->input.length);
  known facts = known_of(&k->field);
  s->accepted += compare(dialect, kind, text, k->input.length, is_made ? &facts : NULL) != 0;
  if (is_made)
    compare_lines(&r, &k->field, &k->line);
  give_buffer(text);
  s->bytes += k->input.length;
  s->longs += k->input.length >= 4096;
}

/* The text of a field whose lines are an input of the command (docs/COMMAND.md, Input). */
static uint64_t join_lines(const sink *input, sink *joined) {
  uint64_t lines = 0;
  joined->length = 0;
  for (size_t from = 0; from < input->length; ++lines) {
    const uint8_t *end = memchr(input->at + from, '\n', input->length - from);
    size_t to = end == NULL ? input->length : (size_t)(end - input->at);
    int is_crlf = end != NULL && to > from && input->at[to - 1] == '\r';
    sf_text line = sf_trim(input->at + from, to - from - (is_crlf ? 1 : 0));
    if (lines > 0)
      put_string(joined, ", ");
    put(joined, line.at, line.length);
    from = to + 1;
  }
  return lines;
}

/* The line of a refusal (docs/COMMAND.md, Refusals). */
static void put_refusal(sink *to, const sf_refusal *refusal) {
  char word[64];
  snprintf(word, sizeof word, "refused at %" PRIu64, refusal->offset);
  put_string(to, word);
  snprintf(word, sizeof word, " found 0x%02x", (unsigned)refusal->found);
  put_string(to, refusal->found == SF_ENDED ? " ended" : word);
  put_string(to, " expected");
  for (unsigned byte = 0, first; byte < 128; ++byte) {
    if (!is_expected(refusal, byte))
      continue;
    for (first = byte; is_expected(refusal, byte + 1); ++byte)
      ;
    snprintf(word, sizeof word, first == byte ? " %02x" : " %02x-%02x", first, byte);
    put_string(to, word);
  }
  put_string(to, refusal->may_end ? " end\n" : "\n");
}

/* The line of a node below the lines of others (docs/COMMAND.md, sf show). */
static void put_node(sink *to, const sf_tree *tree, const sf_node *node, size_t depth) {
  static const char *const names[] = {"integer", "decimal", "string", "token",
                                      "bytes",   "boolean", "date",   "display"};
  sf_text key = sf_node_key(tree, node), text = sf_node_text(tree, node);
  int is_param = node->role == SF_PARAMETER || node->role == SF_INNER_PARAMETER;
  while (depth-- > 0)
    put_string(to, "  ");
  put_string(to, is_param ? "; " : "");
  put(to, key.at, key.length);
  put_string(to, is_param ? " " : key.length > 0 ? " = " : "");
  if (node->type == SF_INNER_LIST) {
    uint64_t items = 0;
    for (uint32_t i = 1; i < node->size; ++i)
      items += node[i].role == SF_INNER_ITEM;
    put_string(to, "inner ");
    put_digits(to, items, 1);
  } else {
    bare item = {(sf_type)node->type, node->number, {(uint8_t *)text.at, text.length, text.length}};
    put_string(to, names[node->type - SF_INTEGER]);
    put_byte(to, ' ');
    put_bare(NULL, to, &item);
  }
  put_byte(to, '\n');
}

/* A value as a tree. */
static void put_tree(sink *to, const sf_tree *tree) {
  static const char *const names[] = {"item", "list ", "dict "};
  uint64_t members = 0;
  for (const sf_node *node = tree->nodes.at; node < sf_tree_end(tree); node += node->size)
    ++members;
  put_string(to, names[tree->kind - SF_ITEM]);
  if (tree->kind != SF_ITEM)
    put_digits(to, members, 1);
  put_byte(to, '\n');
  int in_inner_list = 0;
  for (const sf_node *node = tree->nodes.at; node < sf_tree_end(tree); ++node) {
    if (node->role == SF_MEMBER)
      in_inner_list = 0;
    in_inner_list |= node->role == SF_INNER_ITEM;
    put_node(to, tree, node,
             node->role == SF_MEMBER                       ? 1
             : node->role == SF_PARAMETER && in_inner_list ? 3
                                                           : 2);
  }
}

/* What the command is to do. */
enum { CHECKS, NORMALISES, SHOWS };

/* What the library answers to the joined text, as the command writes it; and its status. */
static int answer_of(int verb, uint32_t dialect, uint32_t kind, const sink *joined, sf_tree *tree,
                     sink *answer) {
  sf_context context = sf_context_of(seed, (sf_dialect)dialect);
  sf_text text = sf_text_of(joined->at, joined->length);
  sf_buffer out = sf_buffer_of(answer->at, answer->capacity);
  sf_status status = verb == CHECKS       ? sf_check_text(&context, (sf_kind)kind, text)
                     : verb == NORMALISES ? sf_write_canonical(&context, (sf_kind)kind, text, &out)
                                          : sf_read_tree(&context, (sf_kind)kind, text, tree);
  CHECK(status == SF_OK || status == SF_REFUSED);
  answer->length = out.length;
  if (status == SF_REFUSED)
    put_refusal(answer, &context.refusal);
  else if (verb == SHOWS)
    put_tree(answer, tree);
  else
    put_string(answer, verb == CHECKS ? "accepted\n" : "\n");
  return status == SF_REFUSED;
}

/* Writes an input in chunks of random sizes. The command may end before it is written. */
static void write_chunks(rng *r, int file, const sink *input) {
  static const uint32_t sizes[] = {509, 4095, 4096, 8191, 65537, 1, 3, 61};
  uint32_t most = sizes[below(r, input->length < 8192 ? 8 : 5)];
  for (size_t at = 0; at < input->length;) {
    size_t left = input->length - at, size = 1 + below(r, 2 * most);
    ssize_t count = write(file, input->at + at, size < left ? size : left);
    if (count < 0 && errno == EPIPE)
      return;
    CHECK(count > 0 || errno == EINTR);
    at += count > 0 ? (size_t)count : 0;
  }
}

/* Runs the command on an input, and reads its output; returns its status. */
static int run_command(rng *r, char *const *words, const sink *input, sink *output) {
  int in[2], out[2], status = 0;
  pid_t child;
  posix_spawn_file_actions_t actions;
  CHECK(pipe(in) == 0 && pipe(out) == 0);
  CHECK(fcntl(in[1], F_SETFD, FD_CLOEXEC) == 0 && fcntl(out[0], F_SETFD, FD_CLOEXEC) == 0);
  posix_spawn_file_actions_init(&actions);
  posix_spawn_file_actions_adddup2(&actions, in[0], STDIN_FILENO);
  posix_spawn_file_actions_adddup2(&actions, out[1], STDOUT_FILENO);
  posix_spawn_file_actions_addclose(&actions, in[0]);
  posix_spawn_file_actions_addclose(&actions, out[1]);
  CHECK(posix_spawn(&child, words[0], &actions, NULL, words, environ) == 0);
  posix_spawn_file_actions_destroy(&actions);
  close(in[0]);
  close(out[1]);
  write_chunks(r, in[1], input);
  close(in[1]);
  output->length = 0;
  for (;;) {
    ssize_t count = read(out[0], output->at + output->length, output->capacity - output->length);
    CHECK(count >= 0 || errno == EINTR);
    if (count == 0)
      break;
    output->length += count > 0 ? (size_t)count : 0;
  }
  close(out[0]);
  while (waitpid(child, &status, 0) < 0)
    CHECK(errno == EINTR);
  return WIFEXITED(status) ? WEXITSTATUS(status) : -1;
}

/* One input of the command: lines of a List or a Dictionary, or one of an Item. */
static void try_command(maker *k, state *s, char *command) {
  static char *const kinds[] = {"item", "list", "dict"};
  static char *const verbs[] = {"check", "normalise", "show"};
  rng r = rng_of(~s->seed, s->inputs);
  uint32_t kind = SF_ITEM + below(&r, 3), dialect = one_in(&r, 4) ? SF_RFC8941 : SF_RFC9651;
  int verb = (int)below(&r, 3);
  size_t size = one_in(&r, 2)    ? 20 + below(&r, 2000)
                : verb == SHOWS  ? pick_long(&r, 5)
                : one_in(&r, 32) ? INPUT_LIMIT - below(&r, 600)
                                 : pick_long(&r, 8);
  k->input.length = 0;
  do {
    size_t line_size = one_in(&r, 32) ? 20 + below(&r, 8192) : 20 + below(&r, 481);
    make_field(&r, &k->field, dialect, kind, line_size);
    for (size_t i = 0; i < k->field.members;) {
      put_line(&r, &k->field, &i, &k->input);
      put_string(&k->input, one_in(&r, 8) ? "\r\n" : "\n");
    }
  } while (kind != SF_ITEM && k->input.length < size);
  if (one_in(&r, 2))
    mutate(&r, &k->input, &k->field.text);
  else if (one_in(&r, 2) && k->input.length > 0)
    --k->input.length;
  begin_input(dialect, kind, k->input.at, k->input.length);

  uint64_t lines = join_lines(&k->input, &k->joined);
  sf_tree tree = sf_tree_in(k->other.tree.nodes, k->other.tree.bytes);
  int status = answer_of(verb, dialect, kind, &k->joined, &tree, &k->answer);
  if (k->input.length > INPUT_LIMIT) {
    k->answer.length = 0;
    put_string(&k->answer, "refused too long 1048576\n");
    status = 1;
  }
  char *words[] = {command, verbs[verb], "--kind", kinds[kind - SF_ITEM], NULL, NULL, NULL};
  if (dialect == SF_RFC8941 || one_in(&r, 2)) {
    words[4] = "--dialect";
    words[5] = dialect == SF_RFC8941 ? "rfc8941" : "rfc9651";
  }
  CHECK(run_command(&r, words, &k->input, &k->output) == status);
  CHECK(k->output.length == k->answer.length);
  CHECK(same_bytes(k->output.at, 0, k->answer.at, 0, k->answer.length));
  ++s->runs;
  s->lines += lines;
  s->command_bytes += k->input.length;
}

/* Reads how far the run of a seed is; it begins if there is no such file. */
static int read_state(const char *path, state *s) {
  state kept = {0, 0, 0, 0, 0, 0, 0, 0};
  FILE *file = fopen(path, "r");
  if (file == NULL)
    return errno == ENOENT;
  int count = fscanf(file, STATE_FORMAT(SCNu64), &kept.seed, &kept.inputs, &kept.bytes,
                     &kept.accepted, &kept.longs, &kept.runs, &kept.lines, &kept.command_bytes);
  fclose(file);
  if (count != 8 || kept.seed != s->seed)
    return 0;
  *s = kept;
  return 1;
}

static void print_state(FILE *file, const state *s) {
  fprintf(file, STATE_FORMAT(PRIu64), s->seed, s->inputs, s->bytes, s->accepted, s->longs, s->runs,
          s->lines, s->command_bytes);
}

static void write_state(const char *path, const state *s) {
  char next_path[1024];
  snprintf(next_path, sizeof next_path, "%s.new", path);
  FILE *file = fopen(next_path, "w");
  CHECK(file != NULL);
  print_state(file, s);
  CHECK(fclose(file) == 0);
  CHECK(rename(next_path, path) == 0);
}

static double seconds_of(clockid_t clock) {
  struct timespec now;
  clock_gettime(clock, &now);
  return (double)now.tv_sec + (double)now.tv_nsec / 1e9;
}

/* An input, and after some of them the command. */
static void try_next(maker *k, state *s, char *command) {
  static const struct itimerval minute = {{0, 0}, {60, 0}};
  if (s->inputs % 64 == 0)
    setitimer(ITIMER_VIRTUAL, &minute, NULL);
  current.number = s->inputs;
  try_input(k, s);
  if (command != NULL && s->inputs % COMMAND_EVERY == 0)
    try_command(k, s, command);
  ++s->inputs;
}

/* Tries inputs until so many bytes were tried, and says every minute how far it is. */
static void run(maker *k, state *s, const char *path, uint64_t bytes, char *command) {
  double said = seconds_of(CLOCK_MONOTONIC), used = seconds_of(CLOCK_PROCESS_CPUTIME_ID);
  uint64_t bytes_said = s->bytes + s->command_bytes;
  while (!ends && s->bytes + s->command_bytes < bytes) {
    try_next(k, s, command);
    if (s->inputs % 64 != 0 || seconds_of(CLOCK_MONOTONIC) - said < 60)
      continue;
    double now = seconds_of(CLOCK_MONOTONIC), used_now = seconds_of(CLOCK_PROCESS_CPUTIME_ID);
    double done = (double)(s->bytes + s->command_bytes - bytes_said);
    write_state(path, s);
    print_state(stdout, s);
    printf("  %.0f bytes a second, %.0f a second of the processor\n", done / (now - said),
           done / (used_now - used));
    fflush(stdout);
    said = now;
    used = used_now;
    bytes_said = s->bytes + s->command_bytes;
  }
  write_state(path, s);
  print_state(stdout, s);
}

int main(int argc, char **argv) {
  state s = {0, 0, 0, 0, 0, 0, 0, 0};
  int is_one = argc > 1 && argv[1][strspn(argv[1], "0123456789")] == '\0';
  if (is_one ? argc != 3 && argc != 4 : argc != 4 && argc != 5) {
    fprintf(stderr, "usage: fuzz-long STATE SEED BYTES [SF], or fuzz-long SEED NUMBER [SF]\n");
    return 2;
  }
  static maker k;
  k = new_maker();
  handle_signals();
  current.folder = "";
  if (is_one) {
    current.seed = s.seed = strtoull(argv[1], NULL, 10);
    s.inputs = strtoull(argv[2], NULL, 10);
    try_next(&k, &s, argv[3]);
    print_state(stdout, &s);
    return 0;
  }
  current.seed = s.seed = strtoull(argv[2], NULL, 10);
  if (!read_state(argv[1], &s)) {
    fprintf(stderr, "fuzz-long: %s can't be read, or is the state of another seed\n", argv[1]);
    return 2;
  }
  char *folder = strdup(argv[1]), *slash = strrchr(folder, '/');
  folder[slash == NULL ? 0 : slash - folder + 1] = '\0';
  current.folder = folder;
  run(&k, &s, argv[1], strtoull(argv[3], NULL, 10), argv[4]);
  return 0;
}
