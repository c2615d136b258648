/* Inline calls of sf.h with pointers and lengths, as the tests of the functions of the library have them.
 * Unless a call returns SF_OK or SF_SHORT, *required is unchanged. */
#ifndef POINTERS_H
#define POINTERS_H

#include <sf.h>

/* A tree of nodes that are elsewhere. */
static inline sf_tree tree_over(const void *text, size_t text_length, void *bytes,
                                size_t bytes_length, size_t bytes_capacity) {
  sf_tree tree = sf_tree_in(sf_nodes_of(NULL, 0), sf_buffer_of(bytes, bytes_capacity));
  tree.text = sf_text_of(text, text_length);
  tree.bytes.length = bytes_length;
  return tree;
}

static inline const char *node_key(const sf_node *node, const void *text, size_t text_length,
                                   void *bytes) {
  sf_tree tree = tree_over(text, text_length, bytes, 0, 0);
  return sf_node_key(&tree, node).at;
}

static inline const char *node_text(const sf_node *node, const void *text, size_t text_length,
                                    void *bytes) {
  sf_tree tree = tree_over(text, text_length, bytes, 0, 0);
  return sf_node_text(&tree, node).at;
}

static inline void put_copy(sf_builder *builder, const sf_node *node, const void *text,
                            size_t text_length, void *bytes) {
  sf_tree tree = tree_over(text, text_length, bytes, 0, 0);
  sf_put_copy(builder, &tree, node);
}

static inline uint32_t set_text(sf_node *node, sf_type type, const void *value, size_t length,
                                size_t text_length, void *bytes, size_t bytes_capacity,
                                sf_sizes *sizes) {
  sf_tree tree = tree_over(NULL, text_length, bytes, sizes->bytes, bytes_capacity);
  uint32_t status = sf_set_text(&tree, node, type, sf_text_of(value, length));
  sizes->bytes = tree.bytes.length;
  return status;
}

static inline uint32_t result_of(uint32_t status, const sf_buffer *out, size_t *required) {
  if (status == SF_OK || status == SF_SHORT)
    *required = status == SF_OK ? out->length : out->required;
  return status;
}

static inline uint32_t write_built(const sf_seed *seed, uint32_t dialect, uint32_t kind,
                                   const sf_builder *builder, void *buffer, size_t buffer_length,
                                   size_t *required, size_t *invalid) {
  sf_context context = sf_context_of(*seed, (sf_dialect)dialect);
  sf_buffer out = sf_buffer_of(buffer, buffer_length);
  context.invalid = *invalid;
  uint32_t status = sf_write_built(&context, (sf_kind)kind, builder, &out);
  *invalid = context.invalid;
  return result_of(status, &out, required);
}

static inline uint32_t show_excerpt(const sf_refusal *refusal, const void *text, size_t text_length,
                                    size_t most, void *buffer, size_t buffer_length,
                                    size_t *required) {
  sf_buffer out = sf_buffer_of(buffer, buffer_length);
  uint32_t status = sf_show_excerpt(refusal, sf_text_of(text, text_length), most, &out);
  return result_of(status, &out, required);
}

#endif
