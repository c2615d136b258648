/* The priority of a response (RFC 9218): what the request asks for, and what the response says.
 *
 *   priority 'u=5, i' 'u=1'        urgency 1 incremental 1
 *
 * Ends with status 0, or 2 for other words, and 3 where memory or the output fails.
 */
#include <sf.h>
#include <stdio.h>
#include <string.h>

int main(int argc, char **argv) {
  if (argc != 3) {
    fprintf(stderr, "usage: priority REQUEST RESPONSE\n");
    return 2;
  }
  sf_seed seed;
  if (!sf_random_seed(&seed))
    return 3;

  /* a field that is refused sets nothing */
  sf_context context = sf_context_of(seed, SF_RFC8941);
  sf_priority_flags client = SF_PRIORITY_UNSET;
  sf_response_priority_flags server = {0, 0, 0, 0};
  if (sf_read_priority(&context, sf_trim(argv[1], strlen(argv[1])), &client) == SF_NO_MEMORY ||
      sf_read_response_priority(&context, sf_trim(argv[2], strlen(argv[2])), &server) ==
          SF_NO_MEMORY)
    return 3;
  sf_priority_flags both = sf_merge_priority(client, server);
  printf("urgency %d incremental %d\n", both.urgency, both.incremental);
  return fflush(stdout) != 0 || ferror(stdout) ? 3 : 0;
}
