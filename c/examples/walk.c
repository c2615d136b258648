/* The value of a text as a tree, a part a line. Of its bytes a backslash, and those that are no
 * character, stand as a backslash with two digits, as \0a for the end of a line.
 *
 *   walk list 'a;q=1, ("b" 1.5)'
 *
 * prints
 *
 *   token a
 *     ;q integer 1
 *   inner list
 *     string b
 *     decimal 1.500
 *
 * Ends with status 0, or 1 where the text is refused, 2 for other words, and 3 where memory or the
 * output fails.
 */
#include <sf.h>
#include <stdio.h>
#include <stdlib.h>
#include <string.h>

static const char *const types[] = {"inner list", "integer", "decimal", "string", "token",
                                    "bytes",      "boolean", "date",    "display"};

/* A String, a Token or a Display String on one line: each of them may be long, and the last may
 * hold any character. */
static void print_text(sf_text text) {
  for (size_t i = 0; i < text.length; ++i) {
    unsigned char byte = (unsigned char)text.at[i];
    if (byte < 0x20 || byte == 0x7f || byte == '\\')
      printf("\\%02x", byte);
    else
      putchar(byte);
  }
}

/* What a node itself says: its key, its type, and its number or its bytes. */
static void print(const sf_tree *tree, const sf_node *node, int depth) {
  sf_text text = sf_node_text(tree, node);
  printf("%*s", 2 * depth, "");
  if (node->role == SF_PARAMETER || node->role == SF_INNER_PARAMETER)
    printf(";");
  if (node->key_length > 0) {
    print_text(sf_node_key(tree, node));
    printf(" ");
  }
  printf("%s", types[node->type - SF_INNER_LIST]);
  switch (node->type) {
  case SF_INTEGER:
  case SF_BOOLEAN:
  case SF_DATE:
    printf(" %lld", (long long)node->number);
    break;
  case SF_DECIMAL: {
    long long number = node->number;
    printf(" %s%lld.%03lld", number < 0 ? "-" : "", llabs(number) / 1000, llabs(number) % 1000);
    break;
  }
  case SF_BYTE_SEQUENCE:
    for (size_t i = 0; i < text.length; ++i)
      printf(" %02x", (unsigned char)text.at[i]);
    break;
  case SF_INNER_LIST:
    break;
  default:
    printf(" ");
    print_text(text);
  }
  printf("\n");
}

/* The siblings from a node to an end, and below each what it has. */
static void walk(const sf_tree *tree, const sf_node *node, const sf_node *end, int depth) {
  for (; node < end; node += node->size) {
    print(tree, node, depth);
    walk(tree, node + 1, node + node->size, depth + 1);
  }
}

int main(int argc, char **argv) {
  uint32_t kind = argc == 3 ? sf_kind_of(argv[1]) : 0;
  if (kind == 0) {
    fprintf(stderr, "usage: walk item|list|dict TEXT\n");
    return 2;
  }
  sf_seed seed;
  if (!sf_random_seed(&seed))
    return 3;

  sf_context context = sf_context_of(seed, SF_RFC9651);
  sf_text text = sf_trim(argv[2], strlen(argv[2]));
  size_t nodes = SF_NODES_SIZE(text.length), bytes = SF_BYTES_SIZE(text.length); /* large enough */
  sf_tree tree = sf_tree_in(sf_nodes_of(malloc(nodes * sizeof(sf_node) + 1), nodes),
                            sf_buffer_of(malloc(bytes + 1), bytes));
  if (tree.nodes.at == NULL || tree.bytes.at == NULL)
    return 3;
  sf_status status = sf_read_tree(&context, (sf_kind)kind, text, &tree);
  if (status == SF_OK)
    walk(&tree, tree.nodes.at, sf_tree_end(&tree), 0);
  else if (status == SF_REFUSED)
    printf("refused at %llu\n", (unsigned long long)context.refusal.offset);
  free(tree.nodes.at);
  free(tree.bytes.at);
  if (fflush(stdout) != 0 || ferror(stdout))
    return 3;
  return status == SF_OK ? 0 : status == SF_REFUSED ? 1 : 3;
}
