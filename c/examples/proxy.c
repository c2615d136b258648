/* A caching proxy's decisions on a request that it forwards, and on the response, by their fields
 * on standard input: a line "> Name: value" is of the request, and "< Name: value" of the response.
 *   printf '> Priority: u=5, i\n< Priority: u=1\n< CDN-Cache-Control: max-age=600\n' | proxy
 * prints the priority, "CDN-Cache-Control: fresh for 600 s (max-age); may be stored", and the line
 * to send on in the place of those of Cache-Status. With the word private it is a private cache;
 * with understood it understands the status code. What is malformed is told on standard error, with
 * the number of its line. Left out: method, status code, Authorization, Vary (RFC 9111 sections 3
 * and 4). Status 3 if memory, the input or the output fails, or the input is too long. */
#include <sf.h>
#include <stdio.h>
#include <stdlib.h>
#include <string.h>
#include <time.h>

enum { MOST = 65536 };

static void give_up(const char *why) {
  fprintf(stderr, "proxy: %s\n", why);
  exit(3);
}

/* Ends the program if a call failed. */
static void must(sf_status status) {
  if (status != SF_OK)
    give_up(sf_status_name(status));
}

/* Tells what is malformed in a head. */
static void tell(const sf_faults *faults) {
  char message[SF_FAULT_SIZE(32, 60)];
  sf_buffer out = SF_BUFFER(message);
  for (size_t i = 0; i < faults->length; ++i)
    if (sf_show_fault(&faults->at[i], 60, &out) == SF_OK)
      fprintf(stderr, "%.*s\n", SF_ARGS(out));
}

int main(int count, char **words) {
  static char input[MOST], joined[2][MOST], path[SF_APPENDED_SIZE(MOST, 16)];
  static sf_head_line lines[2][1024];
  static sf_fault faults[2][16];
  sf_head asked = sf_head_in(SF_HEAD_LINES(lines[0]), SF_BUFFER(joined[0]));
  sf_head answered = sf_head_in(SF_HEAD_LINES(lines[1]), SF_BUFFER(joined[1]));
  asked.faults = SF_FAULTS(faults[0]);
  answered.faults = SF_FAULTS(faults[1]);
  sf_text rest = sf_text_of(input, fread(input, 1, sizeof input, stdin));
  if (ferror(stdin) || rest.length == sizeof input)
    give_up("the input can't be read, or is too long");
  for (uint64_t number = 1; rest.length > 0; ++number) {
    sf_text line = sf_take_line(&rest);
    sf_head *head = line.at[0] == '>' ? &asked : &answered;
    head->number = number;
    if ((line.at[0] == '>' || line.at[0] == '<') &&
        sf_add_head_line(head, sf_trim(line.at + 1, line.length - 1)) == SF_SHORT)
      give_up("too many lines");
  }

  /* The priority. A field that is malformed or absent sets nothing (RFC 9218 section 8). */
  sf_seed seed;
  if (!sf_random_seed(&seed))
    give_up("no random bytes");
  sf_context context = sf_context_of(seed, SF_RFC8941); /* that the RFCs of these fields cite */
  sf_priority_flags both = SF_PRIORITY_UNSET;
  must(sf_find_merged_priority(&context, &asked, &answered, &both));
  printf("urgency %d%s\n", both.urgency, both.incremental ? ", incremental" : "");

  /* What the cache does, by its own field, that of all CDNs, or Cache-Control and Expires. */
  sf_target targets[] = {sf_target_of("ExampleCDN-Cache-Control"),
                         sf_target_of("CDN-Cache-Control")};
  sf_exchange exchange = sf_exchange_of(SF_SHARED_CACHE, (uint64_t)time(NULL));
  for (int i = 1; i < count; ++i) {
    exchange.cache = strcmp(words[i], "private") == 0 ? SF_PRIVATE_CACHE : exchange.cache;
    exchange.is_understood |= strcmp(words[i], "understood") == 0;
  }
  sf_verdict verdict = {0};
  must(sf_decide_response(&context, &answered, targets, 2, &exchange, &verdict));
  char verdict_text[SF_VERDICT_SIZE(32)];
  sf_buffer said = SF_BUFFER(verdict_text), out = SF_BUFFER(path);
  must(sf_write_verdict(&verdict, &said));
  printf("%.*s\n", SF_ARGS(said));

  /* This cache's hop is the last of Cache-Status, or alone if what came is malformed. */
  sf_own_hop own = sf_hop_of_verdict("ExampleCDN", SF_TOKEN, SF_URI_MISS, &verdict);
  must(sf_add_hop(&context, &answered, &own, &out));
  printf("Cache-Status: %.*s\n", SF_ARGS(out));
  tell(&asked.faults);
  tell(&answered.faults);
  return fflush(stdout) != 0 || ferror(stdout) ? 3 : 0;
}
