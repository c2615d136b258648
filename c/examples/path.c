/* The path of a response by its Cache-Status field (RFC 9211), the cache nearest the origin first.
 *
 *   path 'origin; fwd=stale; fwd-status=304; collapsed, "edge"; hit; ttl=30'
 *
 * prints
 *
 *   origin forwarded: stale, status 304, collapsed
 *   "edge" hit, ttl 30
 *   served by "edge"
 *
 * Ends with status 0, or 1 where the field is refused or a member names no cache, 2 for other
 * words, and 3 where memory or the output fails.
 */
#include <sf.h>
#include <stdio.h>
#include <stdlib.h>
#include <string.h>

static void print_text(const char *before, sf_text text) {
  printf("%s", before);
  fwrite(text.at, 1, text.length, stdout);
}

/* A name or a detail: in quotes where it is a String. */
static void print_name(const char *before, sf_text name, int is_token) {
  const char *quote = is_token ? "" : "\"";
  printf("%s", before);
  print_text(quote, name);
  printf("%s", quote);
}

static void print_flag(const char *word, int says, int set) {
  if (says)
    printf(set ? ", %s" : ", not %s", word);
}

static void print_hop(const sf_hop_list *path, const sf_hop *hop) {
  static const char *const outcomes[] = {"says nothing", "hit", "forwarded", "hit and forwarded"};
  print_name("", sf_hop_part(path, hop->name), hop->name_is_token);
  printf(" %s", outcomes[hop->outcome]);
  if (hop->why != SF_NO_FORWARD)
    print_text(": ", sf_hop_part(path, hop->why_token));
  if (hop->has_status)
    printf(", status %u", (unsigned)hop->status);
  print_flag("stored", hop->has_stored, hop->stored);
  print_flag("collapsed", hop->has_collapsed, hop->collapsed);
  if (hop->has_ttl)
    printf(", ttl %lld", (long long)hop->ttl);
  if (hop->has_key)
    print_text(", key ", sf_hop_part(path, hop->key));
  if (hop->has_detail)
    print_name(", detail ", sf_hop_part(path, hop->detail), hop->detail_is_token);
  printf("\n");
}

/* The path, once a first call with empty buffers has returned how long it is. */
static uint32_t print_path(sf_context *context, sf_text text, size_t *nameless) {
  sf_hop_list path = sf_hop_list_in(sf_hops_of(NULL, 0), sf_buffer_of(NULL, 0));
  sf_status status = sf_read_hops(context, text, &path);
  *nameless = path.nameless;
  if (status != SF_SHORT)
    return status;
  path.hops.capacity = path.hops.required;
  path.hops.at = malloc(path.hops.capacity * sizeof *path.hops.at);
  path.bytes.capacity = path.bytes.required;
  path.bytes.at = malloc(path.bytes.capacity + 1);
  status = SF_NO_MEMORY;
  if (path.hops.at != NULL && path.bytes.at != NULL)
    status = sf_read_hops(context, text, &path);
  for (size_t i = 0; i < path.hops.length; ++i)
    print_hop(&path, &path.hops.at[i]);
  if (path.served != NULL) {
    print_name("served by ", sf_hop_part(&path, path.served->name), path.served->name_is_token);
    printf("\n");
  }
  free(path.hops.at);
  free(path.bytes.at);
  return status;
}

int main(int argc, char **argv) {
  if (argc != 2) {
    fprintf(stderr, "usage: path CACHE-STATUS\n");
    return 2;
  }
  sf_seed seed;
  if (!sf_random_seed(&seed))
    return 3;

  sf_context context = sf_context_of(seed, SF_RFC8941);
  size_t nameless;
  int answer = 1;
  switch (print_path(&context, sf_trim(argv[1], strlen(argv[1])), &nameless)) {
  case SF_OK:
    answer = 0;
    break;
  case SF_NOT_A_CACHE:
    printf("member %llu names no cache\n", (unsigned long long)nameless);
    break;
  case SF_REFUSED:
    printf("refused at %llu\n", (unsigned long long)context.refusal.offset);
    break;
  default:
    answer = 3;
  }
  return fflush(stdout) != 0 || ferror(stdout) ? 3 : answer;
}
