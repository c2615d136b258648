/* What a caching proxy concludes from the heads of a request and its response, which are in two
 * files as they were received: `heads request.txt response.txt`. Standard error shows what is
 * malformed in them. Status 2 is for other words, 3 if memory, a file or an output fails. */
#include <sf.h>
#include <stdio.h>
#include <stdlib.h>
#include <time.h>

enum { MOST = 65536 }; /* bytes of a file, and so of a field */
static char bytes[SF_BYTES_SIZE(MOST)], written[SF_APPENDED_SIZE(MOST, 16)];
static sf_buffer out = {written, sizeof written, 0, 0}; /* for each call that writes a text */

/* Ends the program if a call failed. */
static void must(sf_status status) {
  if (status != SF_OK) {
    fprintf(stderr, "heads: a call failed: %s\n", sf_status_name(status));
    exit(3);
  }
}

/* Reads a head from a file, by sf_take_request or sf_take_response. It points into the text. */
static sf_head read_head(const char *name, char *text, sf_status (*take)(sf_head *, sf_text *)) {
  FILE *file = fopen(name, "rb");
  sf_text received = sf_text_of(text, file == NULL ? 0 : fread(text, 1, MOST + 1, file));
  if (file == NULL || ferror(file) || received.length > MOST) {
    fprintf(stderr, "heads: %s: it can't be read, or is too long\n", name);
    exit(3);
  }
  fclose(file);
  size_t size = sf_head_memory_size(received);
  sf_head head = sf_head_in_memory(malloc(size), size, received);
  must(head.lines.at == NULL || take(&head, &received) == SF_SHORT ? SF_NO_MEMORY : SF_OK);
  return head; /* what is malformed is one of its faults, also if it does not end */
}

/* Prints the caches that the response came through, that nearest the origin first, without what RFC
 * 9211 does not define: the i-th member of the tree of sf_find_tree is hop i with all of it. */
static void print_path(sf_context *context, sf_head *response) {
  static sf_hop hops[SF_NODES_SIZE(MOST)];
  sf_hop_list path = sf_hop_list_in(SF_HOPS(hops), SF_BUFFER(bytes));
  must(sf_find_hops(context, response, &path));
  for (size_t i = 0; i < path.hops.length; ++i) {
    must(sf_write_hop_in(&path, &hops[i], &out));
    printf("came through %.*s\n", SF_ARGS(out));
  }
  if (path.served != NULL)
    printf("served by %.*s\n", SF_ARGS(sf_hop_part(&path, path.served->name)));
}

/* Prints what each signature covers, and its parameters (RFC 9421 section 4.1). */
static void print_signatures(sf_context *context, sf_head *request) {
  static sf_node nodes[SF_NODES_SIZE(MOST)];
  sf_tree tree = sf_tree_in(SF_NODES(nodes), SF_BUFFER(bytes));
  must(sf_find_tree(context, SF_DICT, request, "Signature-Input", &tree));
  for (const sf_node *label = nodes; label < sf_tree_end(&tree); label += label->size) {
    if (label->type != SF_INNER_LIST) {
      sf_add_fault(request, "Signature-Input", sf_node_offset(&tree, label), "not an Inner List");
      return; /* what comes after it does not count */
    }
    printf("%.*s covers", SF_ARGS(sf_node_key(&tree, label)));
    for (const sf_node *item = NULL; (item = sf_next_item(label, item)) != NULL;) {
      must(sf_write_part(context, &tree, item, &out));
      printf(" %.*s", SF_ARGS(out));
    }
    for (const sf_node *param = NULL; (param = sf_next_parameter(label, param)) != NULL;) {
      must(sf_write_bare(context, &tree, param, &out));
      printf(", %.*s %.*s", SF_ARGS(sf_node_key(&tree, param)), SF_ARGS(out));
    }
    printf("\n");
  }
}

/* Prints what is malformed in a head, also if it did not count above. */
static void print_faults(const char *name, sf_context *context, sf_head *head, sf_target *targets) {
  must(sf_check_head(context, head, targets, 2));
  for (size_t i = 0; i < head->faults.length; ++i) {
    must(sf_show_fault_in(name, &head->faults.at[i], 60, &out));
    fprintf(stderr, "%.*s\n", SF_ARGS(out));
  }
}

int main(int count, char **words) {
  static char texts[2][MOST + 1];
  sf_seed seed;
  if (count != 3) {
    fprintf(stderr, "usage: heads REQUEST RESPONSE\n");
    return 2;
  }
  if (!sf_random_seed(&seed))
    return 3;
  sf_context context = sf_context_of(seed, SF_RFC8941); /* that the RFCs of these fields cite */
  sf_head request = read_head(words[1], texts[0], sf_take_request);
  sf_head response = read_head(words[2], texts[1], sf_take_response);
  sf_priority_flags merged = SF_PRIORITY_UNSET; /* by client and server (RFC 9218 section 8) */
  must(sf_find_merged_priority(&context, &request, &response, &merged));
  printf("urgency %d%s\n", merged.urgency, merged.incremental ? ", incremental" : "");
  print_path(&context, &response);

  /* By this cache's own field, that of all CDNs, or Cache-Control and Expires (RFC 9213). */
  sf_target targets[] = {sf_target_of("ExampleCDN-Cache-Control"),
                         sf_target_of("CDN-Cache-Control")};
  sf_exchange exchange = sf_exchange_of(SF_SHARED_CACHE, (uint64_t)time(NULL));
  sf_verdict verdict = {0};
  exchange.is_understood = 1; /* if it does what each status code requires, 206 and 304 too */
  sf_set_request(&exchange, &request);
  must(sf_decide_response(&context, &response, targets, 2, &exchange, &verdict));
  must(sf_write_verdict(&verdict, &out));
  printf("%.*s\n", SF_ARGS(out));
  print_signatures(&context, &request);

  /* The field to send on, in the place of the lines that were received (RFC 9211 section 2). */
  sf_own_hop own = sf_hop_of_verdict("ExampleCDN", SF_TOKEN, SF_URI_MISS, &verdict);
  must(sf_add_hop(&context, &response, &own, &out));
  printf("Cache-Status: %.*s\n", SF_ARGS(out));
  print_faults(words[1], &context, &request, targets);
  print_faults(words[2], &context, &response, targets);
  free(request.lines.at); /* where its memory begins */
  free(response.lines.at);
  return fflush(stdout) != 0 || ferror(stdout) || ferror(stderr) ? 3 : 0;
}
