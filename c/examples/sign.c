/* Adds a signature's parameters to a Signature-Input field (RFC 9421 section 4.1), and prints the field:
 * what it had, but for a member of the same label, then the new member.
 *
 *   sign 'old=();created=1' sig1 @method @path
 *
 * prints
 *
 *   old=();created=1, sig1=("@method" "@path");created=1618884473;keyid="test-key"
 *
 * The new member is put by a builder, after copies of those that were parsed. Ends with status 0, or 1 if
 * the field is malformed or what is put is no value, 2 for other words, and 3 if memory or the output
 * fails.
 */
#include <sf.h>
#include <stdio.h>
#include <stdlib.h>
#include <string.h>

/* Allocates, or ends the program. */
static void *allocated(size_t size) {
  void *block = malloc(size + 1);
  if (block == NULL)
    exit(3);
  return block;
}

/* Puts what the field has, but for the member of this label. */
static uint32_t put_others(sf_context *context, sf_text text, const char *label,
                           sf_builder *field) {
  size_t nodes = SF_NODES_SIZE(text.length), bytes = SF_BYTES_SIZE(text.length); /* large enough */
  sf_tree tree = sf_tree_in(sf_nodes_of(allocated(nodes * sizeof(sf_node)), nodes),
                            sf_buffer_of(allocated(bytes), bytes));
  sf_status status = sf_read_tree(context, SF_DICT, text, &tree);
  if (status == SF_REFUSED)
    printf("refused at %llu\n", (unsigned long long)context->refusal.offset);
  const sf_node *old = sf_find_member(&tree, label); /* NULL if there is none */
  for (const sf_node *node = tree.nodes.at; node < sf_tree_end(&tree); node += node->size)
    if (node != old)
      sf_put_copy(field, &tree, node);
  free(tree.nodes.at);
  free(tree.bytes.at);
  return status;
}

int main(int argc, char **argv) {
  if (argc < 3) {
    fprintf(stderr, "usage: sign SIGNATURE-INPUT LABEL [COMPONENT ..]\n");
    return 2;
  }
  sf_seed seed;
  if (!sf_random_seed(&seed))
    return 3;

  /* As many nodes and bytes as all words can have, and as the parameters below have. */
  size_t size = 64;
  for (int i = 1; i < argc; ++i)
    size += strlen(argv[i]) * 2 + 2;
  sf_nodes nodes = sf_nodes_of(allocated(size * sizeof(sf_node)), size);
  sf_buffer bytes = sf_buffer_of(allocated(size), size);
  sf_buffer out = sf_buffer_of(allocated(size * 2), size * 2);
  sf_builder field = sf_build(nodes, bytes);
  /* What RFC 8941 accepts, which RFC 9421 cites, has the same value by RFC 9651. */
  sf_context context = sf_context_of(seed, SF_RFC9651);
  sf_text text = sf_trim(argv[1], strlen(argv[1]));
  uint32_t status = put_others(&context, text, argv[2], &field);
  if (status != SF_OK)
    return status == SF_REFUSED && fflush(stdout) == 0 ? 1 : 3;

  sf_begin_inner_list(&field, argv[2]);
  for (int i = 3; i < argc; ++i)
    sf_put_string(&field, NULL, argv[i]);
  sf_end_inner_list(&field);
  sf_param_integer(&field, "created", 1618884473);
  sf_param_string(&field, "keyid", "test-key");

  status = sf_write_built(&context, SF_DICT, &field, &out);
  if (status == SF_INVALID)
    printf("part %llu is no value\n", (unsigned long long)context.invalid);
  else if (status != SF_OK)
    return 3;
  else
    printf("%.*s\n", (int)out.length, out.at);
  free(nodes.at);
  free(bytes.at);
  free(out.at);
  if (fflush(stdout) != 0 || ferror(stdout))
    return 3;
  return status == SF_OK ? 0 : 1;
}
