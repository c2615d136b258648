/* The bodies of the inline functions, a part of sf.h, which declares and documents them. */

#ifndef SF_INLINE_H
#define SF_INLINE_H

#ifndef SF_H
#error "include <sf.h>, of which this is a part"
#endif

static inline const char *sf_status_name(uint32_t status) {
  switch (status) {
  case SF_OK:
    return "SF_OK";
  case SF_REFUSED:
    return "SF_REFUSED";
  case SF_SECOND_REFUSED:
    return "SF_SECOND_REFUSED";
  case SF_SHORT:
    return "SF_SHORT";
  case SF_NO_MEMORY:
    return "SF_NO_MEMORY";
  case SF_EMPTY:
    return "SF_EMPTY";
  case SF_BAD_CALL:
    return "SF_BAD_CALL";
  case SF_NOT_A_CACHE:
    return "SF_NOT_A_CACHE";
  case SF_INVALID:
    return "SF_INVALID";
  case SF_ABSENT:
    return "SF_ABSENT";
  case SF_TOO_LONG:
    return "SF_TOO_LONG";
  case SF_TOO_MANY:
    return "SF_TOO_MANY";
  default:
    return "SF_?";
  }
}

static inline const char *sf_kind_name(uint32_t kind) {
  switch (kind) {
  case SF_ITEM:
    return "Item";
  case SF_LIST:
    return "List";
  case SF_DICT:
    return "Dictionary";
  default:
    return "?";
  }
}

static inline uint32_t sf_kind_of(const char *word) {
  return strcmp(word, "item") == 0   ? (uint32_t)SF_ITEM
         : strcmp(word, "list") == 0 ? (uint32_t)SF_LIST
         : strcmp(word, "dict") == 0 ? (uint32_t)SF_DICT
                                     : 0;
}

static inline sf_text sf_trim(const void *text, size_t length) {
  sf_text rest;
  rest.at = (const char *)text;
  rest.length = length;
  while (rest.length > 0 && (rest.at[0] == ' ' || rest.at[0] == '\t')) {
    ++rest.at;
    --rest.length;
  }
  while (rest.length > 0 &&
         (rest.at[rest.length - 1] == ' ' || rest.at[rest.length - 1] == '\t'))
    --rest.length;
  return rest;
}

static inline const char *sf_role_name(uint32_t role) {
  switch (role) {
  case SF_MEMBER:
    return "member";
  case SF_INNER_ITEM:
    return "Item of an Inner List";
  case SF_PARAMETER:
    return "parameter";
  case SF_INNER_PARAMETER:
    return "parameter of an Inner List";
  default:
    return "?";
  }
}

static inline const char *sf_type_name(uint32_t type) {
  switch (type) {
  case SF_INNER_LIST:
    return "Inner List";
  case SF_INTEGER:
    return "Integer";
  case SF_DECIMAL:
    return "Decimal";
  case SF_STRING:
    return "String";
  case SF_TOKEN:
    return "Token";
  case SF_BYTE_SEQUENCE:
    return "Byte Sequence";
  case SF_BOOLEAN:
    return "Boolean";
  case SF_DATE:
    return "Date";
  case SF_DISPLAY_STRING:
    return "Display String";
  default:
    return "?";
  }
}

static inline const char *sf_reuse_name(uint32_t reuse) {
  switch (reuse) {
  case SF_REUSE_NOT_STORED:
    return "not stored";
  case SF_REUSE_FRESH:
    return "fresh";
  case SF_REUSE_STALE:
    return "stale";
  case SF_REUSE_REVALIDATE:
    return "revalidate";
  case SF_REUSE_UNSPECIFIED:
    return "unspecified";
  default:
    return "?";
  }
}

static inline const char *sf_cause_name(uint32_t cause) {
  switch (cause) {
  case SF_BY_NO_STORE:
    return "no-store";
  case SF_BY_PRIVATE:
    return "private";
  case SF_BY_MUST_UNDERSTAND:
    return "must-understand";
  case SF_BY_NO_CACHE:
    return "no-cache";
  case SF_BY_MAX_AGE:
    return "max-age";
  case SF_BY_S_MAXAGE:
    return "s-maxage";
  case SF_BY_INVALID_MAX_AGE:
    return "invalid max-age";
  case SF_BY_INVALID_S_MAXAGE:
    return "invalid s-maxage";
  case SF_BY_EXPIRES:
    return "expires";
  case SF_BY_MUST_REVALIDATE:
    return "must-revalidate";
  case SF_BY_PROXY_REVALIDATE:
    return "proxy-revalidate";
  default:
    return "";
  }
}

static inline int sf_is_valid_status(uint32_t status) {
  return status >= 100 && status <= 599;
}

static inline const char *sf_outcome_name(uint32_t outcome) {
  switch (outcome) {
  case SF_UNSAID:
    return "unsaid";
  case SF_HIT:
    return "hit";
  case SF_FORWARDED:
    return "forwarded";
  case SF_CONFLICT:
    return "hit and forwarded";
  default:
    return "?";
  }
}

static inline const char *sf_forward_name(uint32_t why) {
  switch (why) {
  case SF_BYPASS:
    return "bypass";
  case SF_METHOD:
    return "method";
  case SF_URI_MISS:
    return "uri-miss";
  case SF_VARY_MISS:
    return "vary-miss";
  case SF_MISS:
    return "miss";
  case SF_REQUEST:
    return "request";
  case SF_STALE:
    return "stale";
  case SF_PARTIAL:
    return "partial";
  default:
    return "";
  }
}

static inline sf_text sf_text_of(const void *at, size_t length) {
  sf_text text;
  text.at = (const char *)at;
  text.length = length;
  return text;
}

static inline sf_text sf_cstr(const char *string) {
  return string == NULL ? sf_text_of("", 0) : sf_text_of(string, strlen(string));
}

#if defined(SF_HAS_RANDOM_SEED)
static inline int sf_random_seed(sf_seed *seed) {
  sf_seed filled;
  size_t length = 0;
  while (length < sizeof filled.bytes) {
    ssize_t got = getrandom(filled.bytes + length, sizeof filled.bytes - length, 0);
    if (got > 0)
      length += (size_t)got;
    else if (got == 0 || errno != EINTR)
      return 0;
  }
  *seed = filled;
  return 1;
}
#endif

static inline sf_context sf_context_of(sf_seed seed, sf_dialect dialect) {
  sf_context context;
  memset(&context, 0, sizeof context);
  context.seed = seed;
  context.dialect = (uint32_t)dialect;
  return context;
}

static inline sf_buffer sf_buffer_of(void *at, size_t capacity) {
  sf_buffer buffer;
  buffer.at = (char *)at;
  buffer.capacity = capacity;
  buffer.length = 0;
  buffer.required = 0;
  return buffer;
}

static inline sf_nodes sf_nodes_of(sf_node *at, size_t capacity) {
  sf_nodes nodes;
  nodes.at = at;
  nodes.capacity = capacity;
  nodes.length = 0;
  nodes.required = 0;
  return nodes;
}

static inline sf_hops sf_hops_of(sf_hop *at, size_t capacity) {
  sf_hops hops;
  hops.at = at;
  hops.capacity = capacity;
  hops.length = 0;
  hops.required = 0;
  return hops;
}

static inline sf_text sf_written(const sf_buffer *buffer) {
  return sf_text_of(buffer->at, buffer->length);
}

/* Sets what the struct of a buffer says after a call with this status: for the functions below. */
static inline sf_status sf_wrote(sf_buffer *buffer, uint32_t status, size_t required) {
  buffer->length = status == SF_OK ? required : 0;
  buffer->required = status == SF_SHORT ? required : 0;
  return (sf_status)status;
}

static inline sf_lines sf_lines_in(sf_buffer buffer) {
  sf_lines lines;
  lines.buffer = buffer;
  lines.buffer.length = 0;
  lines.begun = 0;
  return lines;
}

static inline sf_status sf_add_line(sf_lines *lines, sf_text line) {
  uint32_t status;
  sf_joined joined;
  joined.length = lines->buffer.length;
  joined.required = 0;
  joined.begun = lines->begun;
  status = sf_join(line.at, line.length, lines->buffer.at, lines->buffer.capacity, &joined);
  lines->buffer.length = joined.length;
  lines->buffer.required = joined.required;
  lines->begun = joined.begun;
  return (sf_status)status;
}

static inline sf_text sf_joined_text(const sf_lines *lines) {
  return sf_text_of(lines->buffer.at, lines->buffer.length);
}

static inline sf_status sf_check_text(sf_context *context, sf_kind kind, sf_text text) {
  uint32_t status = sf_check(&context->seed, context->dialect, (uint32_t)kind, text.at, text.length,
                             &context->refusal);
  return (sf_status)status;
}

static inline sf_status sf_write_refusal(const sf_refusal *refusal, sf_buffer *out) {
  size_t required = 0;
  uint32_t status = sf_refusal_text(refusal, out->at, out->capacity, &required);
  return sf_wrote(out, status, required);
}

static inline sf_status sf_show_refusal(const sf_refusal *refusal, sf_text text, sf_buffer *out) {
  size_t required = 0;
  uint32_t status =
      sf_refusal_in_text(refusal, text.at, text.length, out->at, out->capacity, &required);
  return sf_wrote(out, status, required);
}

/* Copies a text, and returns the place after it: for the functions below. */
static inline char *sf_put_text(char *to, sf_text text) {
  if (text.length > 0)
    memcpy(to, text.at, text.length);
  return to + text.length;
}

/* Replaces bytes that can't be printed by question marks: for the functions below. */
static inline void sf_hide_bytes(char *at, size_t length) {
  size_t i;
  for (i = 0; i < length; ++i)
    if (at[i] < ' ' || at[i] > '~')
      at[i] = '?';
}

/* Writes these texts, and leaves so many bytes after them free: for the functions below. */
SF_USE_RESULT
static inline sf_status sf_write_parts(const sf_text *parts, size_t parts_length, size_t more,
                                      sf_buffer *out) {
  size_t required = more, i;
  char *to = out->at;
  for (i = 0; i < parts_length; ++i)
    required += parts[i].length;
  if (required > out->capacity)
    return sf_wrote(out, SF_SHORT, required);
  for (i = 0; i < parts_length; ++i)
    to = sf_put_text(to, parts[i]);
  return sf_wrote(out, SF_OK, required);
}

/* Writes these texts, then the lines of sf_show_excerpt: at most so many bytes of a line around a
 * place, with `...` where it is cut off, and a caret below the place. For the functions below. */
SF_USE_RESULT
static inline sf_status sf_show_excerpt_below(const sf_text *parts, size_t parts_length,
                                             uint64_t place, sf_text line, size_t most,
                                             sf_buffer *out) {
  size_t at = place < line.length ? (size_t)place : line.length;
  size_t from = at > most / 2 ? at - most / 2 : 0, length, indent, more;
  sf_text before, after;
  char *to;
  sf_status status;
  if (line.length - from < most)
    from = line.length > most ? line.length - most : 0;
  length = line.length - from < most ? line.length - from : most;
  before = sf_text_of("...", from > 0 ? 3 : 0);
  after = sf_text_of("...", from + length < line.length ? 3 : 0);
  indent = before.length + (at - from);
  more = before.length + length + after.length + indent + 3;
  status = sf_write_parts(parts, parts_length, more, out);
  if (status != SF_OK)
    return status;
  to = out->at + (out->length - more);
  *to++ = '\n';
  to = sf_put_text(to, before);
  (void)sf_put_text(to, sf_text_of(length == 0 ? "" : line.at + from, length));
  sf_hide_bytes(to, length);
  to = sf_put_text(to + length, after);
  *to++ = '\n';
  memset(to, ' ', indent);
  to[indent] = '^';
  return SF_OK;
}

static inline sf_status sf_show_excerpt(const sf_refusal *refusal, sf_text text, size_t most,
                                       sf_buffer *out) {
  char message[SF_REFUSAL_SIZE];
  sf_buffer words = SF_BUFFER(message);
  sf_status status = sf_write_refusal(refusal, &words);
  sf_text part = sf_written(&words);
  if (status != SF_OK)
    return sf_wrote(out, status, 0);
  return sf_show_excerpt_below(&part, 1, refusal->offset, text, most, out);
}

/* Writes these bytes and a number, and returns the place after them: for the functions below. */
static inline char *sf_put_number(char *to, const char *before, uint64_t number) {
  size_t length = strlen(before);
  uint64_t unit = 1;
  memcpy(to, before, length);
  to += length;
  while (number / unit >= 10)
    unit *= 10;
  for (; unit > 0; unit /= 10)
    *to++ = (char)('0' + number / unit % 10);
  return to;
}

/* Moves a location to the next line of a field, with this offset from its beginning, and returns
 * whether the offset is in it: for the functions below. */
static inline int sf_locate_in_line(sf_location *location, const sf_refusal *refusal,
                                    uint64_t *offset, sf_text line, size_t index,
                                    uint64_t number) {
  int is_within = *offset < line.length;
  location->index = index;
  location->number = number;
  location->line = line;
  location->refusal = *refusal;
  location->refusal.offset = is_within ? *offset : line.length;
  /* The comma after a line is no byte of it. After a whole Item, which has one line, it is told. */
  if (!is_within && (!refusal->may_end || line.length == 0)) {
    location->refusal.found = SF_ENDED;
    location->refusal.may_end = 0;
  }
  if (*offset < line.length + 2)
    return 1;
  *offset -= line.length + 2;
  return 0;
}

static inline sf_location sf_locate_in_lines(const sf_refusal *refusal, const sf_text *lines,
                                             size_t lines_length) {
  sf_location location;
  uint64_t offset = refusal->offset;
  size_t i;
  (void)sf_locate_in_line(&location, refusal, &offset, sf_text_of("", 0), 0, 1);
  offset = refusal->offset;
  for (i = 0; i < lines_length; ++i)
    if (sf_locate_in_line(&location, refusal, &offset, lines[i], i, (uint64_t)i + 1))
      break;
  return location;
}

static inline sf_status sf_show_excerpt_of_line(const sf_location *location, size_t most,
                                               sf_buffer *out) {
  char message[SF_REFUSAL_SIZE], place[64], *end;
  sf_buffer words = SF_BUFFER(message);
  sf_status status = sf_write_refusal(&location->refusal, &words);
  sf_text parts[2];
  if (status != SF_OK)
    return sf_wrote(out, status, 0);
  end = sf_put_number(place, "\nline ", location->number);
  end = sf_put_number(end, ", place ", location->refusal.offset);
  *end++ = ':';
  parts[0] = sf_written(&words);
  parts[1] = sf_text_of(place, (size_t)(end - place));
  return sf_show_excerpt_below(parts, 2, location->refusal.offset, location->line, most, out);
}

static inline sf_status sf_write_canonical(sf_context *context, sf_kind kind, sf_text text,
                                          sf_buffer *out) {
  size_t required = 0;
  uint32_t status = sf_normalise(&context->seed, context->dialect, (uint32_t)kind, text.at,
                                 text.length, out->at, out->capacity, &required, &context->refusal);
  return sf_wrote(out, status, required);
}

static inline sf_status sf_equal_texts(sf_context *context, sf_kind kind, sf_text first,
                                      sf_text second, uint32_t *are_equal) {
  uint32_t equal = 0;
  uint32_t status = sf_equal(&context->seed, context->dialect, (uint32_t)kind, first.at,
                             first.length, second.at, second.length, &equal, &context->refusal);
  *are_equal = equal;
  return (sf_status)status;
}

static inline sf_tree sf_tree_in(sf_nodes nodes, sf_buffer bytes) {
  sf_tree tree;
  tree.text = sf_text_of(NULL, 0);
  tree.nodes = nodes;
  tree.nodes.length = 0;
  tree.bytes = bytes;
  tree.bytes.length = 0;
  tree.kind = 0;
  return tree;
}

/* Returns so many bytes, and a number of elements of a size; SIZE_MAX if that is more: for the
 * functions below. */
static inline size_t sf_add_size(size_t bytes, size_t count, size_t size) {
  return count > (SIZE_MAX - bytes) / size ? SIZE_MAX : bytes + count * size;
}

/* Returns the bytes that are enough for the nodes or hops, each of so many bytes, of a text of this
 * length, and for SF_BYTES_SIZE of it; never 0, so that a malloc that returns NULL failed. For the
 * functions below. */
static inline size_t sf_memory_for(size_t text_length, size_t size) {
  size_t length = text_length > 0 ? text_length : 1;
  return sf_add_size(sf_add_size(length % 5 * 8 / 5, length / 5, 8), SF_NODES_SIZE(length), size);
}

/* Returns memory that is aligned; otherwise NULL. For the functions below. */
static inline void *sf_aligned(void *memory) {
  return (uintptr_t)memory % sizeof(uint64_t) == 0 ? memory : NULL;
}

/* Returns whether there is memory, and of enough bytes: for the functions below. */
static inline int sf_fits(const void *memory, size_t size, size_t enough) {
  return memory != NULL && size >= enough && enough < SIZE_MAX;
}

static inline size_t sf_tree_memory_size(size_t text_length) {
  return sf_memory_for(text_length, sizeof(sf_node));
}

static inline sf_tree sf_tree_in_memory(void *memory, size_t size, size_t text_length) {
  sf_node *at = (sf_node *)sf_aligned(memory);
  int fits = sf_fits(at, size, sf_tree_memory_size(text_length));
  sf_nodes nodes = sf_nodes_of(at, fits ? SF_NODES_SIZE(text_length) : 0);
  sf_buffer bytes = sf_buffer_of(NULL, 0);
  if (fits)
    bytes = sf_buffer_of(nodes.at + nodes.capacity, SF_BYTES_SIZE(text_length));
  return sf_tree_in(nodes, bytes);
}

static inline sf_status sf_read_tree(sf_context *context, sf_kind kind, sf_text text,
                                    sf_tree *tree) {
  sf_sizes sizes = {0, 0};
  uint32_t status = sf_parse(&context->seed, context->dialect, (uint32_t)kind, text.at,
                             text.length, tree->nodes.at, tree->nodes.capacity, tree->bytes.at,
                             tree->bytes.capacity, &sizes, &context->refusal);
  int is_read = status == SF_OK;
  tree->text = is_read ? text : sf_text_of(NULL, 0);
  tree->kind = is_read ? (uint32_t)kind : 0;
  tree->nodes.length = is_read ? sizes.nodes : 0;
  tree->nodes.required = is_read ? 0 : sizes.nodes;
  tree->bytes.length = is_read ? sizes.bytes : 0;
  tree->bytes.required = is_read ? 0 : sizes.bytes;
  return (sf_status)status;
}

static inline const sf_node *sf_tree_end(const sf_tree *tree) {
  return tree->nodes.length == 0 ? tree->nodes.at : tree->nodes.at + tree->nodes.length;
}

/* Returns the text at an offset of a node: for the functions below. */
static inline sf_text sf_text_at(const sf_tree *tree, uint32_t at, uint32_t length) {
  if (length == 0)
    return sf_text_of("", 0);
  return sf_text_of(at < tree->text.length ? tree->text.at + at
                                           : tree->bytes.at + (at - tree->text.length),
                    length);
}

static inline sf_text sf_node_key(const sf_tree *tree, const sf_node *node) {
  return sf_text_at(tree, node->key_at, node->key_length);
}

static inline sf_text sf_node_text(const sf_tree *tree, const sf_node *node) {
  return sf_text_at(tree, node->text_at, node->text_length);
}

/* Returns whether two texts have the same bytes: for the functions below. */
static inline int sf_is_same(sf_text a, sf_text b) {
  return a.length == b.length && (a.length == 0 || memcmp(a.at, b.at, a.length) == 0);
}

/* Returns the place after bytes that are white space: for the functions below. */
static inline size_t sf_after_space(sf_text text, size_t at) {
  while (at < text.length && (text.at[at] == ' ' || text.at[at] == '\t'))
    ++at;
  return at;
}

/* Returns the place after the bare item or the key that begins at a place of a well-formed text, in
 * any other text after at least one byte: for the functions below. */
static inline size_t sf_after_bare(sf_text text, size_t at) {
  int is_display = at < text.length && text.at[at] == '%';
  char first;
  at += (size_t)is_display;
  first = at < text.length ? text.at[at] : 0;
  do {
    at += first == '"' && !is_display && at < text.length && text.at[at] == '\\';
    ++at;
  } while (at < text.length && (first == '"' || first == ':'
                                    ? text.at[at] != first
                                    : strchr(",;() \t=", text.at[at]) == NULL));
  at += first == '"' || first == ':';
  return at < text.length ? at : text.length;
}

/* Returns the place after the parameters from a place on, and sets another one to that of the last
 * of them that has this key: for the functions below. */
static inline size_t sf_after_params(sf_text text, size_t at, sf_text key, size_t *place) {
  while (at < text.length && text.at[at] == ';') {
    size_t begin = sf_after_space(text, at + 1);
    at = sf_after_bare(text, begin);
    if (key.length > 0 && sf_is_same(sf_text_of(text.at + begin, at - begin), key))
      *place = begin;
    if (at < text.length && text.at[at] == '=')
      at = sf_after_bare(text, at + 1);
  }
  return at;
}

/* Returns the place after an Item or Inner List, and sets another one to that of its Item of this
 * number, from 1, or of the parameter of that Item that has this key; with the number 0, of its own
 * parameter. For the function below. */
static inline size_t sf_after_member(sf_text text, size_t at, size_t item, sf_text key,
                                     size_t *place) {
  const sf_text none = {"", 0};
  size_t index = 0;
  if (at < text.length && text.at[at] == '(') {
    at = sf_after_space(text, at + 1);
    while (at < text.length && text.at[at] != ')') {
      if (++index == item)
        *place = at;
      at = sf_after_params(text, sf_after_bare(text, at), index == item ? key : none, place);
      at = sf_after_space(text, at);
    }
    at += at < text.length;
  } else {
    at = sf_after_bare(text, at);
  }
  return sf_after_params(text, at, item == 0 ? key : none, place);
}

/* Returns the place of the member after the one that ends at a place: for the functions below. */
static inline size_t sf_after_comma(sf_text text, size_t at) {
  at = sf_after_space(text, at);
  return sf_after_space(text, at + (at < text.length));
}

/* Returns the place in a well-formed text of a member, by its key in a Dictionary, otherwise by its
 * index; or of its part: see sf_after_member. If a key is repeated, the last one counts. */
static inline size_t sf_place_of(sf_text text, int is_dict, sf_text key, size_t index, size_t item,
                                 sf_text param) {
  const sf_text none = {"", 0};
  size_t at = sf_after_space(text, 0), place = 0, count = 0, ignored;
  while (at < text.length) {
    size_t begin = at, end = is_dict ? sf_after_bare(text, at) : at;
    int is_it =
        is_dict ? sf_is_same(sf_text_of(text.at + begin, end - begin), key) : count == index;
    if (is_it)
      place = begin;
    if (is_dict && (end == text.length || text.at[end] != '='))
      at = sf_after_params(text, end, is_it && item == 0 ? param : none, is_it ? &place : &ignored);
    else
      at = sf_after_member(text, end + (size_t)is_dict, is_it ? item : 0, is_it ? param : none,
                           is_it ? &place : &ignored);
    at = sf_after_comma(text, at);
    ++count;
  }
  return place;
}

static inline size_t sf_node_offset(const sf_tree *tree, const sf_node *node) {
  const sf_node *member = tree->nodes.at, *one;
  int is_param = node->role == SF_PARAMETER || node->role == SF_INNER_PARAMETER;
  size_t index = 0, item = 0;
  if (node->key_length > 0 && (uint64_t)node->key_at + node->key_length <= tree->text.length)
    return node->key_at;
  for (; node >= member + member->size; member += member->size)
    ++index;
  for (one = member; one < node && node->role != SF_INNER_PARAMETER; ++one)
    item += one[1].role == SF_INNER_ITEM;
  return sf_place_of(tree->text, tree->kind == SF_DICT, sf_node_key(tree, member), index, item,
                     is_param ? sf_node_key(tree, node) : sf_text_of("", 0));
}

/* Returns the first of so many nodes from an index on that has this role and this key, or NULL: for
 * the functions below. */
static inline sf_node *sf_find_node(const sf_tree *tree, size_t from, size_t length, sf_role role,
                                    sf_text key) {
  size_t index = 0;
  if (length == 0 || sf_find(tree->nodes.at + from, length, tree->text.at, tree->text.length,
                             tree->bytes.at, tree->bytes.length, (uint32_t)role, key.at, key.length,
                             &index) != SF_OK)
    return NULL;
  return tree->nodes.at + from + index;
}

static inline const sf_node *sf_next_item(const sf_node *list, const sf_node *item) {
  const sf_node *next = item == NULL ? list + 1 : item + item->size;
  return list->type == SF_INNER_LIST && next < list + list->size && next->role == SF_INNER_ITEM
             ? next
             : NULL;
}

static inline const sf_node *sf_next_parameter(const sf_node *node, const sf_node *param) {
  const sf_node *next = param == NULL ? node + 1 : param + 1;
  while (next < node + node->size && next->role == SF_INNER_ITEM)
    next += next->size;
  return next < node + node->size ? next : NULL;
}

static inline sf_node *sf_find_member(const sf_tree *tree, const char *key) {
  return sf_find_node(tree, 0, tree->nodes.length, SF_MEMBER, sf_cstr(key));
}

/* Returns a node, or NULL if it is of another type or NULL: for the functions below. */
static inline sf_node *sf_of_type(sf_node *node, sf_type type) {
  return node != NULL && node->type == (uint32_t)type ? node : NULL;
}

static inline sf_node *sf_find_member_of(const sf_tree *tree, const char *key, sf_type type) {
  return sf_of_type(sf_find_member(tree, key), type);
}

static inline sf_node *sf_find_parameter(const sf_tree *tree, const sf_node *node,
                                         const char *key) {
  if (node == NULL || node->size == 0)
    return NULL;
  return sf_find_node(tree, (size_t)(node - tree->nodes.at) + 1, node->size - 1,
                      node->type == SF_INNER_LIST ? SF_INNER_PARAMETER : SF_PARAMETER,
                      sf_cstr(key));
}

static inline sf_node *sf_find_parameter_of(const sf_tree *tree, const sf_node *node,
                                            const char *key, sf_type type) {
  return sf_of_type(sf_find_parameter(tree, node, key), type);
}

static inline void sf_set_number(sf_node *node, sf_type type, int64_t number) {
  node->number = number;
  node->text_length = 0;
  node->type = (uint8_t)type;
  node->coded = 0;
}

static inline sf_status sf_set_text(sf_tree *tree, sf_node *node, sf_type type, sf_text value) {
  size_t at = tree->bytes.length;
  tree->bytes.required = 0;
  if (at > tree->bytes.capacity || value.length > tree->bytes.capacity - at) {
    tree->bytes.required = at + value.length;
    return SF_SHORT;
  }
  if (tree->text.length > UINT32_MAX || at > UINT32_MAX - tree->text.length ||
      value.length > UINT32_MAX)
    return SF_TOO_LONG;
  if (value.length > 0)
    memcpy(tree->bytes.at + at, value.at, value.length);
  node->number = 0;
  node->text_at = (uint32_t)(tree->text.length + at);
  node->text_length = (uint32_t)value.length;
  node->type = (uint8_t)type;
  node->coded = 0;
  tree->bytes.length = at + value.length;
  return SF_OK;
}

/* A part of the text of a tree and one of its bytes, which offsets of nodes count as one: for the
 * functions below. */
typedef struct sf_extent {
  size_t text_at, text_length, bytes_at, bytes_length;
} sf_extent;

/* Returns an offset of one extent as an offset of another one. That of what is absent stays 0. */
static inline uint32_t sf_moved(uint32_t at, uint32_t length, const sf_extent *from,
                                const sf_extent *to) {
  if (at == 0 && length == 0)
    return 0;
  if ((uint64_t)at + length <= from->text_length)
    return (uint32_t)(at + from->text_at - to->text_at);
  return (uint32_t)(at - from->text_length + from->bytes_at - to->bytes_at + to->text_length);
}

/* Moves the offsets of nodes from one extent to another one. */
static inline void sf_move_nodes(sf_node *nodes, size_t count, const sf_extent *from,
                                 const sf_extent *to) {
  size_t i;
  for (i = 0; i < count; ++i) {
    nodes[i].key_at = sf_moved(nodes[i].key_at, nodes[i].key_length, from, to);
    nodes[i].text_at = sf_moved(nodes[i].text_at, nodes[i].text_length, from, to);
  }
}

/* Returns the extent of all of a tree. */
static inline sf_extent sf_whole_of(const sf_tree *tree) {
  sf_extent whole;
  whole.text_at = 0;
  whole.text_length = tree->text.length;
  whole.bytes_at = 0;
  whole.bytes_length = tree->bytes.length;
  return whole;
}

/* Widens a range by another one, which is not empty at 0. */
static inline void sf_widen(size_t *from, size_t *to, size_t at, size_t end) {
  *from = at < *from ? at : *from;
  *to = end > *to ? end : *to;
}

/* Returns the extent of what these nodes of a tree refer to; that of all of it if one of them refers
 * to bytes that are not in one of the two. It begins a byte earlier, if there is one, so that only
 * what is absent has the offset 0. */
static inline sf_extent sf_extent_of(const sf_tree *tree, const sf_node *nodes, size_t count) {
  size_t begin[2] = {SIZE_MAX, SIZE_MAX}, end[2] = {0, 0}, i;
  uint64_t length = tree->text.length;
  sf_extent part;
  for (i = 0; i < 2 * count; ++i) {
    const sf_node *node = &nodes[i / 2];
    uint64_t at = i % 2 == 0 ? node->key_at : node->text_at;
    uint64_t to = at + (i % 2 == 0 ? node->key_length : node->text_length);
    if (to == 0)
      continue;
    if (to <= length)
      sf_widen(&begin[0], &end[0], (size_t)at, (size_t)to);
    else if (at >= length && to - length <= tree->bytes.length)
      sf_widen(&begin[1], &end[1], (size_t)(at - length), (size_t)(to - length));
    else
      return sf_whole_of(tree);
  }
  part.text_at = end[0] == 0 || begin[0] == 0 ? 0 : begin[0] - 1;
  part.text_length = end[0] - part.text_at;
  part.bytes_at = end[1] == 0 || begin[1] == 0 ? 0 : begin[1] - 1;
  part.bytes_length = end[1] - part.bytes_at;
  return part;
}

/* Writes nodes whose offsets are those of an extent of a tree. */
static inline sf_status sf_write_extent(sf_context *context, sf_kind kind, const sf_node *nodes,
                                       size_t count, const sf_tree *tree, const sf_extent *part,
                                       sf_buffer *out) {
  const char *text = part->text_at == 0 ? tree->text.at : tree->text.at + part->text_at;
  const char *bytes = part->bytes_at == 0 ? tree->bytes.at : tree->bytes.at + part->bytes_at;
  size_t required = 0, invalid = 0;
  uint32_t status = sf_write(&context->seed, context->dialect, kind, nodes, count, text,
                             part->text_length, bytes, part->bytes_length, out->at, out->capacity,
                             &required, &invalid);
  return sf_wrote(out, status, required);
}

static inline sf_status sf_write_bare(sf_context *context, const sf_tree *tree, const sf_node *node,
                                     sf_buffer *out) {
  sf_extent whole = sf_whole_of(tree), part;
  sf_node item;
  if (tree->kind == 0)
    return sf_wrote(out, SF_BAD_CALL, 0);
  item = *node;
  item.key_at = 0;
  item.key_length = 0;
  item.size = 1;
  item.role = SF_MEMBER;
  part = sf_extent_of(tree, &item, 1);
  sf_move_nodes(&item, 1, &whole, &part);
  return sf_write_extent(context, SF_ITEM, &item, 1, tree, &part, out);
}

static inline sf_status sf_write_part(sf_context *context, sf_tree *tree, const sf_node *node,
                                     sf_buffer *out) {
  sf_extent whole = sf_whole_of(tree), part;
  sf_node *first, before;
  size_t index;
  sf_status status;
  if (tree->kind == 0)
    return sf_wrote(out, SF_BAD_CALL, 0);
  if (node->role == SF_PARAMETER || node->role == SF_INNER_PARAMETER)
    return sf_wrote(out, SF_INVALID, 0);
  index = (size_t)(node - tree->nodes.at);
  if (index >= tree->nodes.length || node->size > tree->nodes.length - index)
    return sf_wrote(out, SF_INVALID, 0);
  first = tree->nodes.at + index;
  before = *first;
  first->key_at = 0;
  first->key_length = 0;
  first->role = SF_MEMBER;
  part = sf_extent_of(tree, first, before.size);
  sf_move_nodes(first, before.size, &whole, &part);
  status = sf_write_extent(context, SF_LIST, first, before.size, tree, &part, out);
  sf_move_nodes(first, before.size, &part, &whole);
  *first = before;
  return status;
}

static inline sf_status sf_write_tree(sf_context *context, const sf_tree *tree, sf_buffer *out) {
  size_t required = 0;
  uint32_t status =
      sf_write(&context->seed, context->dialect, tree->kind, tree->nodes.at, tree->nodes.length,
               tree->text.at, tree->text.length, tree->bytes.at, tree->bytes.length, out->at,
               out->capacity, &required, &context->invalid);
  return sf_wrote(out, status, required);
}

static inline sf_builder sf_build(sf_nodes nodes, sf_buffer bytes) {
  sf_builder builder;
  builder.nodes = nodes;
  builder.nodes.length = 0;
  builder.bytes = bytes;
  builder.bytes.length = 0;
  builder.last = 0;
  builder.inner_list = 0;
  builder.is_open = 0;
  builder.status = SF_OK;
  return builder;
}

/* Puts one node: for the functions below. */
static inline void sf_put_node(sf_builder *builder, sf_role role, sf_type type, int64_t number,
                               sf_text key, sf_text text) {
  size_t at = builder->bytes.length, left = builder->bytes.capacity - at;
  sf_node *node;
  if (builder->status != SF_OK)
    return;
  if (builder->nodes.length >= builder->nodes.capacity || key.length > left ||
      text.length > left - key.length) {
    builder->status = SF_SHORT;
    return;
  }
  if (builder->nodes.length >= UINT32_MAX || at + key.length + text.length > UINT32_MAX) {
    builder->status = SF_TOO_LONG;
    return;
  }
  node = builder->nodes.at + builder->nodes.length;
  memset(node, 0, sizeof *node);
  node->number = number;
  node->key_at = (uint32_t)at;
  node->key_length = (uint32_t)key.length;
  node->text_at = (uint32_t)(at + key.length);
  node->text_length = (uint32_t)text.length;
  node->size = 1;
  node->type = (uint8_t)type;
  node->role = (uint8_t)role;
  if (key.length > 0)
    memcpy(builder->bytes.at + at, key.at, key.length);
  if (text.length > 0)
    memcpy(builder->bytes.at + at + key.length, text.at, text.length);
  if (role == SF_PARAMETER || role == SF_INNER_PARAMETER)
    ++builder->nodes.at[builder->last].size;
  else
    builder->last = builder->nodes.length;
  if (builder->is_open)
    ++builder->nodes.at[builder->inner_list].size;
  ++builder->nodes.length;
  builder->bytes.length = at + key.length + text.length;
}

static inline void sf_put(sf_builder *builder, sf_text key, sf_type type, int64_t number,
                          sf_text text) {
  sf_put_node(builder, builder->is_open ? SF_INNER_ITEM : SF_MEMBER, type, number, key, text);
}

static inline void sf_param(sf_builder *builder, sf_text key, sf_type type, int64_t number,
                            sf_text text) {
  sf_role role = SF_PARAMETER;
  if (builder->status != SF_OK)
    return;
  if (builder->nodes.length == 0 || (builder->is_open && builder->last == builder->inner_list)) {
    builder->status = SF_BAD_CALL;
    return;
  }
  if (builder->nodes.at[builder->last].type == SF_INNER_LIST)
    role = SF_INNER_PARAMETER;
  sf_put_node(builder, role, type, number, key, text);
}

static inline void sf_begin(sf_builder *builder, sf_text key) {
  if (builder->status != SF_OK)
    return;
  if (builder->is_open) {
    builder->status = SF_BAD_CALL;
    return;
  }
  sf_put(builder, key, SF_INNER_LIST, 0, sf_cstr(NULL));
  builder->inner_list = builder->last;
  builder->is_open = builder->status == SF_OK;
}

static inline void sf_begin_inner_list(sf_builder *builder, const char *key) {
  sf_begin(builder, sf_cstr(key));
}

static inline void sf_end_inner_list(sf_builder *builder) {
  if (builder->status != SF_OK)
    return;
  if (!builder->is_open)
    builder->status = SF_BAD_CALL;
  builder->last = builder->inner_list;
  builder->is_open = 0;
}

static inline void sf_put_integer(sf_builder *builder, const char *key, int64_t number) {
  sf_put(builder, sf_cstr(key), SF_INTEGER, number, sf_cstr(NULL));
}

static inline void sf_put_decimal(sf_builder *builder, const char *key, int64_t thousandths) {
  sf_put(builder, sf_cstr(key), SF_DECIMAL, thousandths, sf_cstr(NULL));
}

static inline void sf_put_string(sf_builder *builder, const char *key, const char *text) {
  sf_put(builder, sf_cstr(key), SF_STRING, 0, sf_cstr(text));
}

static inline void sf_put_token(sf_builder *builder, const char *key, const char *text) {
  sf_put(builder, sf_cstr(key), SF_TOKEN, 0, sf_cstr(text));
}

static inline void sf_put_byte_sequence(sf_builder *builder, const char *key, sf_text bytes) {
  sf_put(builder, sf_cstr(key), SF_BYTE_SEQUENCE, 0, bytes);
}

static inline void sf_put_boolean(sf_builder *builder, const char *key, int is_true) {
  sf_put(builder, sf_cstr(key), SF_BOOLEAN, is_true != 0, sf_cstr(NULL));
}

static inline void sf_put_date(sf_builder *builder, const char *key, int64_t seconds) {
  sf_put(builder, sf_cstr(key), SF_DATE, seconds, sf_cstr(NULL));
}

static inline void sf_put_display_string(sf_builder *builder, const char *key, const char *text) {
  sf_put(builder, sf_cstr(key), SF_DISPLAY_STRING, 0, sf_cstr(text));
}

static inline void sf_param_integer(sf_builder *builder, const char *key, int64_t number) {
  sf_param(builder, sf_cstr(key), SF_INTEGER, number, sf_cstr(NULL));
}

static inline void sf_param_decimal(sf_builder *builder, const char *key, int64_t thousandths) {
  sf_param(builder, sf_cstr(key), SF_DECIMAL, thousandths, sf_cstr(NULL));
}

static inline void sf_param_string(sf_builder *builder, const char *key, const char *text) {
  sf_param(builder, sf_cstr(key), SF_STRING, 0, sf_cstr(text));
}

static inline void sf_param_token(sf_builder *builder, const char *key, const char *text) {
  sf_param(builder, sf_cstr(key), SF_TOKEN, 0, sf_cstr(text));
}

static inline void sf_param_byte_sequence(sf_builder *builder, const char *key, sf_text bytes) {
  sf_param(builder, sf_cstr(key), SF_BYTE_SEQUENCE, 0, bytes);
}

static inline void sf_param_boolean(sf_builder *builder, const char *key, int is_true) {
  sf_param(builder, sf_cstr(key), SF_BOOLEAN, is_true != 0, sf_cstr(NULL));
}

static inline void sf_param_date(sf_builder *builder, const char *key, int64_t seconds) {
  sf_param(builder, sf_cstr(key), SF_DATE, seconds, sf_cstr(NULL));
}

static inline void sf_param_display_string(sf_builder *builder, const char *key,
                                           const char *text) {
  sf_param(builder, sf_cstr(key), SF_DISPLAY_STRING, 0, sf_cstr(text));
}

static inline void sf_put_copy(sf_builder *builder, const sf_tree *tree, const sf_node *node) {
  uint32_t was_open = builder->is_open, i;
  for (i = 0; i < node->size && builder->status == SF_OK; ++i) {
    const sf_node *one = node + i;
    sf_text key = sf_node_key(tree, one), text = sf_node_text(tree, one);
    sf_type type = (sf_type)one->type;
    int is_param = one->role == SF_PARAMETER || one->role == SF_INNER_PARAMETER;
    if (was_open && !is_param)
      key = sf_cstr(NULL);
    if (one->role == SF_INNER_PARAMETER && builder->is_open && !was_open)
      sf_end_inner_list(builder);
    if (is_param)
      sf_param(builder, key, type, one->number, text);
    else if (type == SF_INNER_LIST)
      sf_begin(builder, key);
    else
      sf_put(builder, key, type, one->number, text);
    if (builder->status == SF_OK)
      builder->nodes.at[builder->nodes.length - 1].coded = one->coded;
  }
  if (builder->is_open && !was_open)
    sf_end_inner_list(builder);
}

static inline sf_status sf_write_built(sf_context *context, sf_kind kind,
                                      const sf_builder *builder, sf_buffer *out) {
  size_t required = 0;
  uint32_t status = SF_BAD_CALL;
  if (builder->status == SF_OK)
    status = sf_write(&context->seed, context->dialect, (uint32_t)kind, builder->nodes.at,
                      builder->nodes.length, NULL, 0, builder->bytes.at, builder->bytes.length,
                      out->at, out->capacity, &required, &context->invalid);
  return sf_wrote(out, status, required);
}

static inline sf_status sf_read_priority(sf_context *context, sf_text text,
                                        sf_priority_flags *client) {
  uint32_t status = sf_priority_in(&context->seed, context->dialect, text.at, text.length, client,
                                   &context->refusal);
  return (sf_status)status;
}

static inline sf_status sf_read_response_priority(sf_context *context, sf_text text,
                                                 sf_response_priority_flags *server) {
  uint32_t status = sf_response_priority(&context->seed, context->dialect, text.at, text.length,
                                         server, &context->refusal);
  return (sf_status)status;
}

static inline sf_priority_flags sf_merge_priority(sf_priority_flags client,
                                                  sf_response_priority_flags server) {
  return sf_priority_merge(&client, &server);
}

static inline sf_status sf_write_priority(sf_priority_flags client, sf_buffer *out) {
  size_t required = 0;
  uint32_t status = sf_priority_text(&client, out->at, out->capacity, &required);
  return sf_wrote(out, status, required);
}

static inline sf_status sf_write_response_priority(sf_response_priority_flags server,
                                                  sf_buffer *out) {
  size_t required = 0;
  uint32_t status = sf_response_priority_text(&server, out->at, out->capacity, &required);
  return sf_wrote(out, status, required);
}

static inline sf_status sf_change_priority(sf_context *context, sf_text text,
                                          sf_priority_flags client, sf_buffer *out) {
  size_t required = 0;
  uint32_t status = SF_OK;
  /* What is well-formed in a dialect has the same meaning in SF_RFC9651. SF_INVALID comes first. */
  if (context->dialect != SF_RFC9651) {
    status = sf_priority_text(&client, NULL, 0, &required);
    if (status != SF_INVALID)
      status = sf_check(&context->seed, context->dialect, SF_DICT, text.at, text.length,
                        &context->refusal);
  }
  if (status == SF_OK)
    status = sf_priority_change(&context->seed, text.at, text.length, &client, out->at,
                                out->capacity, &required, &context->refusal);
  return sf_wrote(out, status, required);
}

static inline sf_status sf_read_rules(sf_context *context, sf_text text, sf_rules *rules) {
  uint32_t status = sf_cache_rules(&context->seed, context->dialect, text.at, text.length, rules,
                                   &context->refusal);
  return (sf_status)status;
}

static inline sf_status sf_choose_rules(sf_context *context, const sf_text *fields,
                                       size_t fields_length, sf_choice *choice) {
  size_t i;
  if (context->dialect != SF_RFC9651 && context->dialect != SF_RFC8941)
    return SF_BAD_CALL;
  for (i = 0; i < fields_length; ++i) {
    uint32_t status = sf_read_rules(context, fields[i], &choice->rules);
    if (status == SF_OK)
      choice->index = i;
    if (status != SF_EMPTY && status != SF_REFUSED)
      return (sf_status)status;
  }
  return SF_EMPTY;
}

static inline sf_fallback sf_fallback_begin(void) {
  sf_fallback fallback;
  memset(&fallback, 0, sizeof fallback);
  return fallback;
}

static inline sf_status sf_add_fallback_line(sf_fallback *fallback, sf_fallback_field field,
                                             sf_text line) {
  sf_text value = sf_trim(line.at, line.length);
  uint32_t status = sf_fallback_line((uint32_t)field, value.at, value.length, fallback);
  return (sf_status)status;
}

static inline int sf_may_store(const sf_decision *decision) {
  switch (decision->reuse) {
  case SF_REUSE_FRESH:
  case SF_REUSE_STALE:
    return 1;
  case SF_REUSE_REVALIDATE:
    return decision->allows_storing != 0 || decision->cause != SF_BY_NO_CACHE;
  case SF_REUSE_UNSPECIFIED:
    return decision->allows_storing != 0;
  default:
    return 0;
  }
}

static inline sf_status sf_read_age(sf_text text, uint64_t *seconds) {
  const uint64_t most = UINT64_C(2147483648);
  uint64_t age = 0;
  size_t length = 0, i;
  text = sf_trim(text.at, text.length);
  if (text.length == 0)
    return SF_EMPTY;
  while (length < text.length && text.at[length] != ',')
    ++length;
  text = sf_trim(text.at, length);
  for (i = 0; i < text.length; ++i) {
    if (text.at[i] < '0' || text.at[i] > '9')
      return SF_REFUSED;
    age = 10 * age + (uint64_t)(text.at[i] - '0');
    age = age < most ? age : most;
  }
  if (text.length == 0)
    return SF_REFUSED;
  *seconds = age;
  return SF_OK;
}

/* Returns where the first member of a malformed Age has its first byte that is no digit: for the
 * functions below. */
static inline size_t sf_place_in_age(sf_text value) {
  size_t at = 0;
  while (at < value.length && (value.at[at] == ' ' || value.at[at] == '\t'))
    ++at;
  while (at < value.length && value.at[at] >= '0' && value.at[at] <= '9')
    ++at;
  return at;
}

static inline sf_hop_list sf_hop_list_in(sf_hops hops, sf_buffer bytes) {
  sf_hop_list list;
  list.hops = hops;
  list.hops.length = 0;
  list.bytes = bytes;
  list.bytes.length = 0;
  list.served = NULL;
  list.nameless = 0;
  return list;
}

static inline size_t sf_hops_memory_size(size_t text_length) {
  return sf_memory_for(text_length, sizeof(sf_hop));
}

static inline sf_hop_list sf_hop_list_in_memory(void *memory, size_t size, size_t text_length) {
  sf_hop *at = (sf_hop *)sf_aligned(memory);
  int fits = sf_fits(at, size, sf_hops_memory_size(text_length));
  sf_hops hops = sf_hops_of(at, fits ? SF_NODES_SIZE(text_length) : 0);
  sf_buffer bytes = sf_buffer_of(NULL, 0);
  if (fits)
    bytes = sf_buffer_of(hops.at + hops.capacity, SF_BYTES_SIZE(text_length));
  return sf_hop_list_in(hops, bytes);
}

/* Returns the place of the member of a List after the one at a place: for the functions below. */
static inline size_t sf_next_member(sf_text list, size_t at) {
  const sf_text none = {"", 0};
  size_t ignored;
  return sf_after_comma(list, sf_after_member(list, at, 0, none, &ignored));
}

/* Returns the place of the first member of a well-formed List, from the one at a place on, that is
 * no Item of a String or a Token; the length of the text if there is none. For the functions below.
 */
static inline size_t sf_nameless_from(sf_text list, size_t at) {
  while (at < list.length &&
         (list.at[at] == '"' || list.at[at] == '*' || (list.at[at] >= 'a' && list.at[at] <= 'z') ||
          (list.at[at] >= 'A' && list.at[at] <= 'Z')))
    at = sf_next_member(list, at);
  return at;
}

/* Returns the refusal of such a member at a place: for the functions below. */
static inline sf_refusal sf_refusal_of_nameless(sf_text list, size_t at) {
  const uint64_t letters = UINT64_C(0x07fffffe07fffffe); /* the bytes from 64 on */
  sf_refusal refusal;
  memset(&refusal, 0, sizeof refusal);
  refusal.offset = at;
  refusal.expected_low = UINT64_C(1) << '"' | UINT64_C(1) << '*';
  refusal.expected_high = letters;
  refusal.found = at < list.length ? (unsigned char)list.at[at] : -1;
  return refusal;
}

static inline sf_status sf_read_hops(sf_context *context, sf_text text, sf_hop_list *list) {
  sf_path path = {0, 0, 0, 0, 0};
  uint32_t status = sf_cache_status_in(&context->seed, context->dialect, text.at, text.length,
                                       list->hops.at, list->hops.capacity, list->bytes.at,
                                       list->bytes.capacity, &path, &context->refusal);
  int is_read = status == SF_OK;
  list->hops.length = is_read ? path.hops : 0;
  list->hops.required = is_read ? 0 : path.hops;
  list->bytes.length = is_read ? path.bytes : 0;
  list->bytes.required = is_read ? 0 : path.bytes;
  list->served = is_read && path.is_served ? list->hops.at + path.served : NULL;
  list->nameless = status == SF_NOT_A_CACHE ? path.nameless : 0;
  if (status == SF_NOT_A_CACHE)
    context->refusal =
        sf_refusal_of_nameless(text, sf_nameless_from(text, sf_after_space(text, 0)));
  return (sf_status)status;
}

static inline sf_text sf_hop_part(const sf_hop_list *list, sf_span part) {
  return part.length == 0 ? sf_text_of("", 0)
                          : sf_text_of(list->bytes.at + part.at, part.length);
}

static inline sf_own_hop sf_hop_named(const char *name, sf_type type) {
  sf_own_hop own;
  memset(&own, 0, sizeof own);
  own.bytes = sf_cstr(name);
  own.hop.name.length = own.bytes.length;
  own.hop.name_is_token = type == SF_TOKEN;
  return own;
}

static inline sf_status sf_write_hop(sf_context *context, const sf_own_hop *own, sf_buffer *out) {
  size_t required = 0;
  uint32_t status = sf_hop_text(&context->seed, &own->hop, own->bytes.at, own->bytes.length,
                                out->at, out->capacity, &required);
  return sf_wrote(out, status, required);
}

static inline sf_status sf_write_hop_in(const sf_hop_list *list, const sf_hop *hop,
                                       sf_buffer *out) {
  static const sf_seed seed = {{0}}; /* a hop has few parameters, and no result depends on it */
  size_t required = 0;
  uint32_t status = sf_hop_text(&seed, hop, list->bytes.at, list->bytes.length, out->at,
                                out->capacity, &required);
  return sf_wrote(out, status, required);
}

static inline sf_status sf_append_hop(sf_context *context, sf_text text, const sf_own_hop *own,
                                     sf_buffer *out) {
  size_t required = 0;
  uint32_t status = sf_cache_status_append(
      &context->seed, context->dialect, text.at, text.length, &own->hop, own->bytes.at,
      own->bytes.length, out->at, out->capacity, &required, &context->refusal);
  return sf_wrote(out, status, required);
}

static inline sf_status sf_append_or_write_hop(sf_context *context, sf_text text,
                                              const sf_own_hop *own, sf_buffer *out,
                                              uint32_t *is_appended) {
  sf_status status = sf_append_hop(context, text, own, out);
  uint32_t appended = status != SF_REFUSED;
  if (!appended)
    status = sf_write_hop(context, own, out);
  if (status == SF_OK)
    *is_appended = appended;
  return status;
}

static inline sf_head_lines sf_head_lines_of(sf_head_line *at, size_t capacity) {
  sf_head_lines lines;
  lines.at = at;
  lines.capacity = capacity;
  lines.length = 0;
  lines.required = 0;
  return lines;
}

static inline sf_faults sf_faults_of(sf_fault *at, size_t capacity) {
  sf_faults faults;
  faults.at = at;
  faults.capacity = capacity;
  faults.length = 0;
  faults.required = 0;
  return faults;
}

static inline sf_head sf_head_in(sf_head_lines lines, sf_buffer joined) {
  sf_head head;
  head.lines = lines;
  head.lines.length = 0;
  head.joined = joined;
  head.joined.length = 0;
  head.start = sf_text_of("", 0);
  head.method = sf_text_of("", 0);
  head.number = 1;
  head.status = 0;
  head.is_request = 0;
  head.is_begun = 0;
  head.is_incomplete = 0;
  head.is_truncated = 0;
  head.faults = sf_faults_of(NULL, 0);
  return head;
}

static inline sf_text sf_take_line(sf_text *rest) {
  sf_text line = *rest;
  const char *end = rest->length == 0 ? NULL : (const char *)memchr(rest->at, '\n', rest->length);
  if (end != NULL)
    line.length = (size_t)(end - rest->at) + 1;
  rest->at = rest->length == 0 ? rest->at : rest->at + line.length;
  rest->length -= line.length;
  return line;
}

/* Returns whether a byte is one of a token (RFC 9110 section 5.6.2): for the functions below. */
static inline int sf_is_tchar(char c) {
  return (c >= 'a' && c <= 'z') || (c >= 'A' && c <= 'Z') || (c >= '0' && c <= '9') ||
         (c != 0 && strchr("!#$%&'*+-.^_`|~", c) != NULL);
}

/* Returns how many faults a line of a head may have beside one: white space before its colon; a
 * member of Cache-Status that names no cache after each comma; and, if another line has a comma, an
 * s-maxage beside a max-age, or a second member of Age, of which the shortest line is Age:x,5. For
 * the function below. */
static inline size_t sf_more_faults_of(sf_text line) {
  sf_head_line field;
  size_t at = 0, count, i;
  while (at < line.length && sf_is_tchar(line.at[at]))
    ++at;
  field.name = sf_text_of(line.at, at);
  count = at > 0 && at < line.length && line.at[at] != ':';
  at = sf_after_space(line, at);
  if (at == line.length || line.at[at] != ':')
    return 0;
  if (sf_is_named(&field, "Cache-Status"))
    for (i = at + 1; i < line.length; ++i)
      count += line.at[i] == ',' && line.at[i - 1] != ',';
  else
    count += line.length >= 7 && memchr(line.at + at, ',', line.length - at) != NULL;
  return count;
}

/* Returns the length of a head up to the empty line that ends it, and counts its other lines, and
 * the faults for which sf_head_in_memory has a buffer: one for each of these lines, those above,
 * and ten for a missing start line, a missing end and eight that the program finds. For the
 * functions below. */
static inline size_t sf_head_length(sf_text received, size_t *lines, size_t *faults) {
  sf_text rest = sf_text_of(received.at, received.at == NULL ? 0 : received.length);
  size_t length = rest.length;
  *lines = 0;
  *faults = 10;
  while (rest.length > 0) {
    sf_text line = sf_take_line(&rest);
    int is_empty = *line.at == '\n' || (line.length == 2 && memcmp(line.at, "\r\n", 2) == 0);
    if (is_empty && *lines > 0)
      break;
    *lines += !is_empty;
    *faults += is_empty ? 0 : 1 + sf_more_faults_of(line);
  }
  return length - rest.length;
}

/* Returns the bytes that are enough for a head of so many lines, faults and bytes: for the
 * functions below. A line that is no field line has one fault, and a field has at most as many as
 * it has lines, or members that name no cache, or one more if a line has two directives or members
 * of Age. All fields, joined, have fewer bytes than the head, and each of them has when it is
 * joined again while all are kept. */
static inline size_t sf_head_memory_of(size_t lines, size_t faults, size_t length) {
  size_t bytes = sf_add_size(0, lines, sizeof(sf_head_line));
  return sf_add_size(sf_add_size(bytes, faults, sizeof(sf_fault)), length, 2);
}

static inline size_t sf_head_memory_size(sf_text received) {
  size_t lines, faults, length = sf_head_length(received, &lines, &faults);
  return sf_head_memory_of(lines, faults, length);
}

static inline sf_head sf_head_in_memory(void *memory, size_t size, sf_text received) {
  size_t lines, count, length = sf_head_length(received, &lines, &count);
  sf_head_line *at = (sf_head_line *)sf_aligned(memory);
  int fits = sf_fits(at, size, sf_head_memory_of(lines, count, length));
  sf_fault *faults = fits ? (sf_fault *)(void *)(at + lines) : NULL;
  sf_head head = sf_head_in(sf_head_lines_of(at, fits ? lines : 0), sf_buffer_of(NULL, 0));
  if (fits) {
    head.faults = sf_faults_of(faults, count);
    head.joined = sf_buffer_of(faults + count, 2 * length);
  }
  return head;
}

/* Adds a field line that was received so: for the functions below. */
SF_USE_RESULT
static inline sf_status sf_add_received(sf_head *head, sf_text name, sf_text value,
                                       sf_text received) {
  sf_head_line *line;
  head->lines.required = 0;
  if (head->lines.length >= head->lines.capacity) {
    head->lines.required = head->lines.length + 1;
    return SF_SHORT;
  }
  line = head->lines.at + head->lines.length++;
  line->name = sf_trim(name.at, name.length);
  line->value = sf_trim(value.at, value.length);
  line->received = received;
  line->number = head->number++;
  head->is_begun = 1;
  return SF_OK;
}

static inline sf_status sf_add_field_line(sf_head *head, sf_text name, sf_text value) {
  return sf_add_received(head, name, value, value);
}

/* Adds a byte to those that a refusal expects: for the functions below. */
static inline void sf_expect(sf_refusal *refusal, unsigned byte) {
  uint64_t *half = byte < 64 ? &refusal->expected_low : &refusal->expected_high;
  *half |= UINT64_C(1) << byte % 64;
}

/* Returns whether a byte is one that no line may have within (RFC 9112 section 2.2, RFC 9110
 * section 5.5): for the functions below. */
static inline int sf_is_break(char c) {
  return c == '\r' || c == '\n' || c == 0;
}

/* Splits a line at its colon, or says where it is no field line (RFC 9112 section 5): the place,
 * and the bytes that may be there by the grammar. White space before the colon is skipped, but not
 * in a request (section 5.1) that has a colon after it; in a value only CR, LF and NUL are refused
 * (RFC 9110 section 5.5). For the functions below. */
static inline int sf_split_line(sf_text line, int is_request, sf_text *name, sf_text *value,
                                sf_refusal *refusal) {
  size_t at = 0;
  unsigned byte;
  memset(refusal, 0, sizeof *refusal);
  while (at < line.length && sf_is_tchar(line.at[at]))
    ++at;
  *name = sf_text_of(line.at, at);
  if (at > 0 && (!is_request || memchr(line.at + at, ':', line.length - at) == NULL))
    at = sf_after_space(line, at);
  if (at > 0 && at < line.length && line.at[at] == ':') {
    *value = sf_text_of(line.at + at + 1, line.length - at - 1);
    do
      ++at;
    while (at < line.length && !sf_is_break(line.at[at]));
    if (at == line.length)
      return 1;
    for (byte = ' '; byte <= '~'; ++byte)
      sf_expect(refusal, byte);
    sf_expect(refusal, '\t');
    refusal->may_end = 1;
  } else {
    if (at > 0)
      sf_expect(refusal, ':');
    if (at > 0 && !is_request) {
      sf_expect(refusal, ' ');
      sf_expect(refusal, '\t');
    }
    for (byte = 0; byte < 128; ++byte)
      if (at == name->length && sf_is_tchar((char)byte))
        sf_expect(refusal, byte);
  }
  refusal->offset = at;
  refusal->found = at < line.length ? (int32_t)(unsigned char)line.at[at] : (int32_t)SF_ENDED;
  return 0;
}

/* Returns the length of the HTTP version that a text begins with, such as HTTP/1.1 or HTTP/2; 0 if
 * there is none (RFC 9110 section 2.5): for the functions below. */
static inline size_t sf_version_length(sf_text text) {
  if (text.length < 6 || memcmp(text.at, "HTTP/", 5) != 0 || text.at[5] < '0' || text.at[5] > '9')
    return 0;
  return text.length > 7 && text.at[6] == '.' && text.at[7] >= '0' && text.at[7] <= '9' ? 8 : 6;
}

/* Returns the status code of a status line (RFC 9112 section 4); 0 if the line is none: for the
 * functions below. */
static inline uint32_t sf_code_of(sf_text line) {
  size_t at = sf_version_length(line), i;
  uint32_t code = 0;
  if (at == 0 || line.length < at + 4 || line.at[at] != ' ' ||
      (line.length > at + 4 && line.at[at + 4] != ' '))
    return 0;
  for (i = at + 1; i < at + 4; ++i) {
    if (line.at[i] < '0' || line.at[i] > '9')
      return 0;
    code = code * 10 + (uint32_t)(line.at[i] - '0');
  }
  return code < 100 ? 0 : code;
}

/* Returns in words why a line is no request line (RFC 9112 section 3), and sets where it can't go
 * on as one if it begins with a method and a space. If it is one, returns NULL, and sets the length
 * of its method. For the functions below. */
static inline const char *sf_request_fault(sf_text line, size_t *method, uint64_t *place) {
  size_t at = 0, version = line.length, length;
  while (at < line.length && sf_is_tchar(line.at[at]))
    ++at;
  *method = at;
  if (at == 0 || at == line.length || line.at[at] != ' ')
    return "no method, target and version";
  ++at;
  while (at < line.length && strchr(" \t\v\f", line.at[at]) == NULL)
    ++at;
  *place = at;
  while (version > at && line.at[version - 1] != ' ')
    --version;
  length = line.length - version;
  if (version > at && version > *method + 2 && length > 0 &&
      sf_version_length(sf_text_of(line.at + version, length)) == length)
    return version == at + 1 ? NULL : "white space in the target";
  if (version > at && at > *method + 1 && line.at[at] == ' ')
    *place += 1 + sf_version_length(sf_text_of(line.at + at + 1, line.length - at - 1));
  return "no method, target and version";
}

/* Returns in words why a line is no start line (RFC 9112 sections 2.2, 3 and 4), or no status line
 * if that is required, and sets the place, unless it is that at which the line is no field line.
 * For the functions below. */
static inline const char *sf_start_fault(sf_text line, int is_status_required, uint64_t *place) {
  size_t version = sf_version_length(line), at = 0, method;
  while (at < line.length && !sf_is_break(line.at[at]))
    ++at;
  if (at < line.length) {
    *place = at;
    return "a CR, LF or NUL in it";
  }
  if (version > 0) {
    *place = version + (version < line.length && line.at[version] == ' ');
    return "no status code of three digits";
  }
  for (at = 0; at < 5 && at < line.length && line.at[at] == "HTTP/"[at];)
    ++at;
  if (at < 5 && !is_status_required)
    return sf_request_fault(line, &method, place);
  *place = at;
  return at < 5 ? "a status line begins with HTTP/" : "no version";
}

/* Returns whether two refusals of a line have the same place and expect the same: for the function
 * below. */
static inline int sf_is_same_refusal(const sf_refusal *a, const sf_refusal *b) {
  return a->offset == b->offset && a->expected_low == b->expected_low &&
         a->expected_high == b->expected_high && a->may_end == b->may_end;
}

/* Adds a fault to those of a head, in the order of the lines, unless it is one of them. That of a
 * line that is no field line, and one that the program found, is added each time, and is not
 * compared with those of the same line. For the functions below. */
static inline void sf_note_fault(sf_head *head, const char *field, sf_reason reason,
                                 const char *message, const sf_location *location) {
  sf_fault *faults = head->faults.at;
  size_t i = head->faults.length;
  int is_added = reason == SF_FAULT_NOT_A_LINE || reason == SF_FAULT_OWN;
  for (; i > 0 && !is_added && faults[i - 1].location.number >= location->number; --i)
    if (strcmp(faults[i - 1].field, field) == 0 && faults[i - 1].reason == (uint32_t)reason &&
        sf_is_same(sf_cstr(faults[i - 1].message), sf_cstr(message)) &&
        faults[i - 1].location.number == location->number &&
        faults[i - 1].location.index == location->index &&
        sf_is_same_refusal(&faults[i - 1].location.refusal, &location->refusal))
      return;
  ++head->faults.required;
  if (head->faults.length >= head->faults.capacity)
    return;
  for (i = head->faults.length++; i > 0 && faults[i - 1].location.number > location->number; --i)
    faults[i] = faults[i - 1];
  faults[i].field = field;
  faults[i].reason = (uint32_t)reason;
  faults[i].location = *location;
  faults[i].message = message;
}

/* Takes a start line (RFC 9112 section 2.1), and returns whether the line is one: for the function
 * below. */
static inline int sf_take_start_line(sf_head *head, sf_text line) {
  uint32_t status = sf_code_of(line);
  size_t method, i;
  uint64_t place;
  for (i = 0; i < line.length; ++i)
    if (sf_is_break(line.at[i]))
      return 0;
  if (sf_request_fault(line, &method, &place) != NULL)
    method = 0;
  if (status == 0 && method == 0)
    return 0;
  head->start = line;
  head->method = sf_text_of(line.at, method);
  head->status = status;
  head->is_request = method > 0;
  head->is_begun = 1;
  ++head->number;
  return 1;
}

/* Sets the refusal of a location to a place and the byte there, without what is expected: for the
 * functions below. */
static inline void sf_refuse_at(sf_location *location, uint64_t place) {
  memset(&location->refusal, 0, sizeof location->refusal);
  location->refusal.offset = place;
  location->refusal.found = place < location->line.length
                                ? (int32_t)(unsigned char)location->line.at[place]
                                : (int32_t)SF_ENDED;
}

/* Adds a line to a head, that of a request or not, as sf_add_head_line does, with the reason for a
 * missing start line, if one is required: for the functions below. */
SF_USE_RESULT
static inline sf_status sf_add_line_of(sf_head *head, sf_text line, int is_request,
                                       sf_reason missing) {
  const char *words = NULL;
  sf_text name, value;
  sf_location location;
  sf_reason reason = head->is_begun ? SF_FAULT_NOT_A_LINE : SF_FAULT_NOT_A_START;
  line.length -= line.length > 0 && line.at[line.length - 1] == '\n';
  line.length -= line.length > 0 && line.at[line.length - 1] == '\r';
  if (!head->is_begun && sf_take_start_line(head, line))
    return SF_OK;
  location.index = head->lines.length;
  location.number = head->number;
  location.line = line;
  if (line.length > 0 && sf_split_line(line, is_request, &name, &value, &location.refusal)) {
    sf_status status = sf_add_received(head, name, value, line);
    sf_refuse_at(&location, name.length);
    if (status == SF_OK && line.at[name.length] != ':')
      sf_note_fault(head, "", SF_FAULT_SPACE_BEFORE_COLON, NULL, &location);
    return status;
  }
  ++head->number;
  if (line.length == 0)
    return SF_EMPTY;
  if (reason == SF_FAULT_NOT_A_START) {
    uint64_t place = location.refusal.offset;
    if (missing == SF_FAULT_NO_STATUS_LINE)
      words = sf_start_fault(line, 1, &place);
    else
      (void)sf_start_fault(line, 0, &place);
    sf_refuse_at(&location, place);
  }
  head->is_begun = 1;
  head->is_incomplete = 1;
  sf_note_fault(head, "", reason, words, &location);
  return SF_REFUSED;
}

static inline sf_status sf_add_head_line(sf_head *head, sf_text line) {
  return sf_add_line_of(head, line, head->is_request != 0, SF_FAULT_NO_END);
}

/* Adds a fault to those of a head that has no start line of the kind that the reason is about, if
 * there is one and no line of the head is refused: for the function below. */
static inline void sf_expect_start(sf_head *head, sf_reason reason) {
  int has_start = head->start.length > 0, has_lines = head->lines.length > 0;
  sf_location location;
  if (head->is_incomplete || (reason == SF_FAULT_NO_REQUEST_LINE  ? head->is_request != 0
                              : reason == SF_FAULT_NO_STATUS_LINE ? head->status != 0
                                                                  : 1))
    return;
  location.index = 0;
  location.number = (has_lines ? head->lines.at[0].number : head->number) - (uint64_t)has_start;
  location.line = has_start || !has_lines ? head->start : head->lines.at[0].received;
  sf_refuse_at(&location, 0);
  head->is_incomplete = 1;
  sf_note_fault(head, "", reason, NULL, &location);
}

/* Takes a head, as sf_take_head does, whose start line has to be of the kind that the reason is
 * about, if there is one: for the functions below. */
SF_USE_RESULT
static inline sf_status sf_take_head_for(sf_head *head, sf_text *rest, sf_reason reason) {
  sf_location location;
  location.line = sf_text_of("", 0);
  while (rest->length > 0) {
    sf_text before = *rest;
    int is_begun = head->is_begun != 0;
    sf_text line = sf_take_line(rest);
    sf_status status;
    location.number = head->number;
    if (line.at[line.length - 1] != '\n')
      location.line = line; /* it is cut off, and so the last */
    if (is_begun)
      sf_expect_start(head, reason);
    if (line.length == 1 && *line.at == '\r')
      break; /* an empty line whose LF is missing */
    /* the fields after a malformed request line are those of a request, too */
    status = sf_add_line_of(head, line,
                            head->is_request != 0 || reason == SF_FAULT_NO_REQUEST_LINE, reason);
    if (status == SF_EMPTY && is_begun) {
      head->is_truncated = 0;
      return SF_OK;
    }
    if (status == SF_SHORT) {
      *rest = before;
      return status;
    }
  }
  sf_expect_start(head, reason);
  head->is_truncated = 1;
  location.index = head->lines.length;
  if (location.line.length == 0)
    location.number = head->number;
  sf_refuse_at(&location, location.line.length);
  sf_note_fault(head, "", SF_FAULT_NO_END, NULL, &location);
  return SF_REFUSED;
}

static inline sf_status sf_take_head(sf_head *head, sf_text *rest) {
  return sf_take_head_for(head, rest, SF_FAULT_NO_END);
}

static inline sf_status sf_take_request(sf_head *head, sf_text *rest) {
  return sf_take_head_for(head, rest, SF_FAULT_NO_REQUEST_LINE);
}

static inline sf_status sf_take_response(sf_head *head, sf_text *rest) {
  return sf_take_head_for(head, rest, SF_FAULT_NO_STATUS_LINE);
}

static inline int sf_is_named(const sf_head_line *line, const char *name) {
  size_t i, length = strlen(name);
  if (line->name.length != length)
    return 0;
  for (i = 0; i < length; ++i) {
    char a = line->name.at[i], b = name[i];
    a = a >= 'A' && a <= 'Z' ? (char)(a + ('a' - 'A')) : a;
    b = b >= 'A' && b <= 'Z' ? (char)(b + ('a' - 'A')) : b;
    if (a != b)
      return 0;
  }
  return 1;
}

static inline int sf_has_field(const sf_head *head, const char *name) {
  size_t i;
  for (i = 0; i < head->lines.length; ++i)
    if (sf_is_named(&head->lines.at[i], name))
      return 1;
  return 0;
}

static inline sf_status sf_find_field(sf_head *head, const char *name, sf_text *text) {
  size_t i, begin = head->joined.length, length = 0, count = 0;
  sf_text only = sf_text_of("", 0);
  sf_lines lines;
  for (i = 0; i < head->lines.length; ++i)
    if (sf_is_named(&head->lines.at[i], name)) {
      only = head->lines.at[i].value;
      length += only.length + (count++ == 0 ? 0 : 2);
    }
  head->joined.required = 0;
  if (count > 1) {
    if (begin > head->joined.capacity || length > head->joined.capacity - begin) {
      head->joined.required = begin + length;
      return SF_SHORT;
    }
    lines = sf_lines_in(sf_buffer_of(head->joined.at + begin, length));
    for (i = 0; i < head->lines.length; ++i)
      if (sf_is_named(&head->lines.at[i], name) &&
          sf_add_line(&lines, head->lines.at[i].value) != SF_OK)
        return SF_SHORT;
    only = sf_joined_text(&lines);
    head->joined.length = begin + length;
  }
  *text = only;
  return SF_OK;
}

/* Moves a location in the value of a line to the line as it was received: for the functions below.
 */
static inline void sf_show_received(sf_location *location, const sf_head_line *line) {
  uintptr_t value = (uintptr_t)line->value.at, received = (uintptr_t)line->received.at;
  int is_within = value >= received && value - received <= line->received.length;
  location->line = is_within ? line->received : line->value; /* it may have been changed */
  location->refusal.offset += is_within ? value - received : 0;
}

static inline sf_location sf_locate_in_head(const sf_refusal *refusal, const sf_head *head,
                                            const char *name) {
  sf_location location = sf_locate_in_lines(refusal, NULL, 0);
  uint64_t offset = refusal->offset;
  size_t i;
  for (i = 0; i < head->lines.length; ++i) {
    const sf_head_line *line = &head->lines.at[i];
    if (sf_is_named(line, name)) {
      int is_here = sf_locate_in_line(&location, refusal, &offset, line->value, i, line->number);
      sf_show_received(&location, line);
      if (is_here)
        break;
    }
  }
  return location;
}

static inline void sf_note_refusal(sf_head *head, const char *name, const sf_refusal *refusal) {
  sf_location location = sf_locate_in_head(refusal, head, name);
  sf_note_fault(head, name, SF_FAULT_REFUSED, NULL, &location);
}

static inline sf_location sf_locate_offset(const sf_head *head, const char *name,
                                           uint64_t offset) {
  sf_refusal refusal;
  sf_location location;
  memset(&refusal, 0, sizeof refusal);
  refusal.offset = offset;
  location = sf_locate_in_head(&refusal, head, name);
  sf_refuse_at(&location, location.refusal.offset);
  if (!sf_has_field(head, name))
    location.number = head->lines.length == 0
                          ? head->number
                          : head->lines.at[head->lines.length - 1].number + 1;
  return location;
}

static inline void sf_add_fault(sf_head *head, const char *name, uint64_t offset,
                                const char *message) {
  sf_location location = sf_locate_offset(head, name, offset);
  sf_note_fault(head, name, SF_FAULT_OWN, message, &location);
}

/* Adds what is wrong with the value of a line of a head, with a refusal in it: for the functions
 * below. */
static inline void sf_note_value(sf_head *head, const char *name, sf_reason reason,
                                 const char *message, size_t index, const sf_refusal *refusal) {
  const sf_head_line *line = &head->lines.at[index];
  sf_location location;
  location.index = index;
  location.number = line->number;
  location.refusal = *refusal;
  sf_show_received(&location, line);
  sf_note_fault(head, name, reason, message, &location);
}

/* Adds each member of Cache-Status that names no cache to the faults of a head, in the order of the
 * lines, after those that an earlier call added. It takes time in proportion to the text, the lines
 * and the faults, however many there are of each. For the functions below. */
static inline void sf_note_nameless(sf_head *head, sf_text list) {
  sf_faults *faults = &head->faults;
  size_t first = sf_nameless_from(list, sf_after_space(list, 0)), at;
  size_t index = 0, noted = 0, count = 0, kept, from, to = 0;
  uint64_t begin = 0; /* the place in the text of the value of the line of this index */
  for (from = 0; from < faults->length; ++from)
    noted += faults->at[from].reason == SF_FAULT_NOT_A_CACHE;
  for (at = first; at < list.length; at = sf_nameless_from(list, sf_next_member(list, at)))
    ++count;
  if (count <= noted)
    return;
  faults->required += count - noted;
  kept = faults->capacity > faults->length ? faults->capacity - faults->length : 0;
  kept = kept < count - noted ? kept : count - noted;
  if (kept > 0 && faults->length > 0)
    memmove(faults->at + kept, faults->at, faults->length * sizeof *faults->at);
  faults->length += kept;
  from = kept;
  for (at = first; kept > 0; at = sf_nameless_from(list, sf_next_member(list, at))) {
    const sf_head_line *line = &head->lines.at[index];
    sf_fault fault;
    for (; !sf_is_named(line, "Cache-Status") || at >= begin + line->value.length; ++line, ++index)
      begin += sf_is_named(line, "Cache-Status") ? line->value.length + 2 : 0;
    if (noted > 0) {
      --noted;
      continue;
    }
    fault.field = "Cache-Status";
    fault.reason = SF_FAULT_NOT_A_CACHE;
    fault.message = NULL;
    fault.location.index = index;
    fault.location.number = line->number;
    fault.location.refusal = sf_refusal_of_nameless(list, at);
    fault.location.refusal.offset -= begin;
    sf_show_received(&fault.location, line);
    while (from < faults->length && faults->at[from].location.number <= line->number)
      faults->at[to++] = faults->at[from++];
    faults->at[to++] = fault;
    --kept;
  }
}

/* Returns in words why a line, the first or another, is no field line: for the function below. */
static inline const char *sf_line_fault(const sf_refusal *refusal, int is_first) {
  int is_space = refusal->found == ' ' || refusal->found == '\t';
  if (refusal->may_end)
    return "a CR, LF or NUL in the value";
  if (refusal->offset > 0)
    return is_space ? "white space after the name" : "no colon after the name";
  if (!is_space)
    return "no name";
  return is_first ? "it begins with white space" : "it continues the line before";
}

/* Returns the words for a reason, which go on for lines and dates, or have a directive before them;
 * NULL if a refusal has them: for the function below. */
static inline const char *sf_fault_words(uint32_t reason) {
  switch (reason) {
  case SF_FAULT_NOT_A_DATE:
    return "expected ";
  case SF_FAULT_REPEATED:
    return "there are several lines";
  case SF_FAULT_NOT_AN_AGE:
  case SF_FAULT_NOT_SECONDS:
    return "expected a number of seconds";
  case SF_FAULT_OTHER_SECONDS:
    return " had another value before";
  case SF_FAULT_OTHER_AGE:
    return "there are several values";
  case SF_FAULT_NOT_A_LINE:
    return "not a field line: ";
  case SF_FAULT_SPACE_BEFORE_COLON:
    return "white space before the colon";
  case SF_FAULT_NO_END:
    return "the head does not end with an empty line";
  case SF_FAULT_NOT_A_START:
    return "neither a start line (";
  case SF_FAULT_NOT_A_CACHE:
    return "the member does not name a cache, expected a Token or a String";
  case SF_FAULT_NO_REQUEST_LINE:
    return "the head of a request begins with a request line";
  case SF_FAULT_NO_STATUS_LINE:
    return "the head of a response begins with a status line";
  case SF_FAULT_OWN:
    return "";
  default:
    return NULL;
  }
}

/* Sets two texts to what comes before and after the words " at place N" of the error message of a
 * refusal: for the function below. */
static inline void sf_leave_out_place(sf_text message, sf_text *before, sf_text *after) {
  const char *place = " at place ";
  size_t length = strlen(place), at = 0, end;
  while (at < message.length &&
         (message.length - at < length || memcmp(message.at + at, place, length) != 0))
    ++at;
  end = at < message.length ? at + length : at;
  while (end < message.length && message.at[end] >= '0' && message.at[end] <= '9')
    ++end;
  *before = sf_text_of(message.at, at);
  *after = sf_text_of(message.at + end, message.length - end);
}

/* Returns whether a line is refused because a number has too many digits: more than 15, or 12
 * before a point, or 3 after it (RFC 9651 sections 3.3.1, 3.3.2 and 3.3.7). For the function below.
 */
static inline int sf_is_long_number(sf_text line, const sf_refusal *refusal) {
  size_t at = (size_t)refusal->offset, begin = at, digits;
  if (refusal->offset >= line.length)
    return 0;
  while (begin > 0 && line.at[begin - 1] >= '0' && line.at[begin - 1] <= '9')
    --begin;
  digits = at - begin;
  if (line.at[at] >= '0' && line.at[at] <= '9')
    return digits == 15 || (digits == 3 && begin > 0 && line.at[begin - 1] == '.');
  begin -= begin > 0 && line.at[begin - 1] == '-';
  return line.at[at] == '.' && digits > 12 && !(begin > 0 && line.at[begin - 1] == '@') &&
         (refusal->expected_high >> ('a' - 64) & 1) == 0; /* in a Byte Sequence, letters are */
}

static inline sf_status sf_show_fault_in(const char *file, const sf_fault *fault, size_t most,
                                        sf_buffer *out) {
  const sf_location *location = &fault->location;
  const char *words = sf_fault_words(fault->reason);
  int is_of_head = fault->reason == SF_FAULT_NO_END || fault->reason == SF_FAULT_NO_REQUEST_LINE ||
                   fault->reason == SF_FAULT_NO_STATUS_LINE || fault->reason == SF_FAULT_OWN;
  char message[SF_REFUSAL_SIZE], place[64], *end;
  sf_buffer refused = SF_BUFFER(message);
  sf_text parts[10];
  size_t count = 6;
  sf_status status;
  end = sf_put_number(place, "line ", location->number);
  end = sf_put_number(end, ", place ", location->refusal.offset);
  end = sf_put_text(end, sf_text_of(": ", 2));
  parts[0] = sf_cstr(file);
  parts[1] = sf_text_of(", ", parts[0].length == 0 ? 0 : 2);
  parts[2] = sf_text_of(place, (size_t)(end - place));
  parts[3] = sf_cstr(fault->field);
  parts[4] = sf_text_of(": ", parts[3].length == 0 ? 0 : 2);
  parts[5] = sf_cstr(words);
  if (fault->reason == SF_FAULT_NO_END && location->line.length > 0) {
    parts[5] = sf_cstr("the head is cut off: its last line has no line end");
  } else if (fault->reason == SF_FAULT_NOT_A_LINE) {
    parts[count++] = sf_cstr(sf_line_fault(&location->refusal, 0));
  } else if (fault->reason == SF_FAULT_NOT_A_START) {
    uint64_t ignored = 0;
    sf_refusal refusal;
    sf_text name, value;
    if (sf_split_line(location->line, 0, &name, &value, &refusal)) /* a field line of a response */
      (void)sf_split_line(location->line, 1, &name, &value, &refusal);
    parts[count++] = sf_cstr(fault->message == NULL ? sf_start_fault(location->line, 0, &ignored)
                                                    : fault->message);
    parts[count++] = sf_cstr(") nor a field line (");
    parts[count++] = sf_cstr(sf_line_fault(&refusal, 1));
    parts[count++] = sf_cstr(")");
  } else if (words == NULL) {
    status = sf_write_refusal(&location->refusal, &refused);
    if (status != SF_OK)
      return sf_wrote(out, status, 0);
    if (fault->message == NULL && sf_is_long_number(location->line, &location->refusal))
      parts[5] = sf_cstr("too many digits: ");
    sf_leave_out_place(sf_written(&refused), &parts[6], &parts[7]);
    if (fault->message != NULL)
      parts[7] = sf_text_of(", expected ", 11);
    count += 2;
  } else if (fault->reason == SF_FAULT_OTHER_SECONDS) {
    parts[5] = sf_cstr(fault->message == NULL ? "the directive" : fault->message);
    parts[count++] = sf_cstr(words);
  }
  if (words == NULL || fault->reason == SF_FAULT_OWN || fault->reason == SF_FAULT_NOT_A_DATE)
    parts[count++] = sf_cstr(fault->message);
  if (fault->reason == SF_FAULT_NOT_A_DATE)
    parts[count++] = sf_cstr("an HTTP-date, such as Sun, 06 Nov 1994 08:49:37 GMT");
  status = is_of_head && location->line.length == 0
               ? sf_write_parts(parts, count, 0, out)
               : sf_show_excerpt_below(parts, count, location->refusal.offset, location->line, most,
                                      out);
  if (status == SF_OK)
    sf_hide_bytes(out->at, parts[0].length);
  return status;
}

static inline sf_status sf_show_fault(const sf_fault *fault, size_t most, sf_buffer *out) {
  return sf_show_fault_in(NULL, fault, most, out);
}

/* Returns the status of a call that looked up a field and read it with this status. One that is
 * malformed counts as absent, and is added to the faults: for the functions below. */
static inline sf_status sf_found(const sf_context *context, sf_head *head, const char *name,
                                 sf_status status) {
  if (status != SF_REFUSED)
    return status;
  sf_note_refusal(head, name, &context->refusal);
  return SF_OK;
}

static inline sf_status sf_find_priority(sf_context *context, sf_head *head,
                                        sf_priority_flags *client) {
  sf_priority_flags said = SF_PRIORITY_UNSET;
  size_t begin = head->joined.length;
  sf_text text;
  sf_status status = sf_find_field(head, "Priority", &text);
  if (status == SF_OK)
    status = sf_read_priority(context, text, &said);
  head->joined.length = begin;
  status = sf_found(context, head, "Priority", status);
  if (status == SF_OK)
    *client = said;
  return status;
}

static inline sf_status sf_find_response_priority(sf_context *context, sf_head *head,
                                                 sf_response_priority_flags *server) {
  sf_response_priority_flags said = {0, 0, 0, 0};
  size_t begin = head->joined.length;
  sf_text text;
  sf_status status = sf_find_field(head, "Priority", &text);
  if (status == SF_OK)
    status = sf_read_response_priority(context, text, &said);
  head->joined.length = begin;
  status = sf_found(context, head, "Priority", status);
  if (status == SF_OK)
    *server = said;
  return status;
}

static inline sf_status sf_find_merged_priority(sf_context *context, sf_head *request,
                                               sf_head *response, sf_priority_flags *merged) {
  sf_priority_flags client;
  sf_response_priority_flags server;
  sf_status status = sf_find_priority(context, request, &client);
  if (status == SF_OK)
    status = sf_find_response_priority(context, response, &server);
  if (status == SF_OK)
    *merged = sf_merge_priority(client, server);
  return status;
}

static inline sf_status sf_find_hops(sf_context *context, sf_head *head, sf_hop_list *list) {
  size_t begin = head->joined.length;
  sf_text text;
  sf_status status = sf_find_field(head, "Cache-Status", &text);
  *list = sf_hop_list_in(sf_hops_of(list->hops.at, list->hops.capacity),
                         sf_buffer_of(list->bytes.at, list->bytes.capacity));
  if (status == SF_OK)
    status = sf_read_hops(context, text, list);
  if (status == SF_NOT_A_CACHE)
    sf_note_nameless(head, text);
  head->joined.length = begin;
  return sf_found(context, head, "Cache-Status", status == SF_NOT_A_CACHE ? SF_OK : status);
}

static inline sf_status sf_find_tree(sf_context *context, sf_kind kind, sf_head *head,
                                    const char *name, sf_tree *tree) {
  size_t begin = head->joined.length;
  sf_text text;
  sf_status status = sf_find_field(head, name, &text);
  *tree = sf_tree_in(sf_nodes_of(tree->nodes.at, tree->nodes.capacity),
                     sf_buffer_of(tree->bytes.at, tree->bytes.capacity));
  if (status == SF_OK && (kind != SF_ITEM || sf_has_field(head, name)))
    status = sf_read_tree(context, kind, text, tree);
  if (status != SF_OK)
    head->joined.length = begin;
  return sf_found(context, head, name, status);
}

static inline sf_status sf_check_field(sf_context *context, sf_kind kind, sf_head *head,
                                      const char *name) {
  size_t begin = head->joined.length;
  sf_text text;
  sf_status status = sf_find_field(head, name, &text);
  if (status == SF_OK && (kind != SF_ITEM || sf_has_field(head, name)))
    status = sf_check_text(context, kind, text);
  head->joined.length = begin;
  if (status == SF_REFUSED)
    sf_note_refusal(head, name, &context->refusal);
  return status;
}

static inline sf_status sf_add_hop(sf_context *context, sf_head *head, const sf_own_hop *own,
                                  sf_buffer *out) {
  size_t begin = head->joined.length;
  uint32_t is_appended = 1;
  sf_text text;
  sf_status status = sf_find_field(head, "Cache-Status", &text);
  (void)sf_wrote(out, SF_OK, 0);
  if (status == SF_OK)
    status = sf_append_or_write_hop(context, text, own, out, &is_appended);
  head->joined.length = begin;
  return is_appended ? status : sf_found(context, head, "Cache-Status", SF_REFUSED);
}

static inline sf_target sf_target_of(const char *name) {
  sf_target target;
  memset(&target, 0, sizeof target);
  target.name = name;
  target.status = SF_ABSENT;
  return target;
}

static inline sf_exchange sf_exchange_of(sf_cache cache, uint64_t now) {
  sf_exchange exchange;
  memset(&exchange, 0, sizeof exchange);
  exchange.cache = (uint32_t)cache;
  exchange.requested = now;
  exchange.received = now;
  exchange.now = now;
  return exchange;
}

static inline const char *sf_obstacle_name(uint32_t obstacle) {
  switch (obstacle) {
  case SF_BARRED_DIRECTIVE:
    return "a directive forbids it";
  case SF_BARRED_STATUS:
    return "the status code forbids it";
  case SF_BARRED_REQUEST:
    return "the request had Authorization";
  case SF_BARRED_UNPERMITTED:
    return "nothing permits it";
  case SF_BARRED_HEAD:
    return "the head is incomplete";
  case SF_BARRED_NO_RESPONSE:
    return "the head is that of a request";
  case SF_BARRED_MALFORMED:
    return "Cache-Control is malformed";
  case SF_BARRED_REQUEST_HEAD:
    return "the head of the request is incomplete";
  case SF_BARRED_METHOD:
    return "the method of the request is neither GET nor HEAD";
  case SF_BARRED_REQUEST_NO_STORE:
    return "the request has no-store or a malformed Cache-Control";
  default:
    return "";
  }
}

/* Returns why a response may not be stored: for the function below. */
static inline uint32_t sf_obstacle_of(const sf_decision *decision, const sf_exchange *exchange,
                                      const sf_head *head, int is_refused, int has_expires) {
  uint32_t status = exchange->status != 0 ? exchange->status : head->status;
  if (decision->reuse == SF_REUSE_NOT_STORED)
    return is_refused ? SF_BARRED_MALFORMED : SF_BARRED_DIRECTIVE;
  if (exchange->is_other_method)
    return SF_BARRED_METHOD;
  if (exchange->is_request_no_store)
    return SF_BARRED_REQUEST_NO_STORE;
  if (head->is_request)
    return SF_BARRED_NO_RESPONSE;
  if (head->is_incomplete || head->is_truncated)
    return SF_BARRED_HEAD;
  if (exchange->is_request_incomplete)
    return SF_BARRED_REQUEST_HEAD;
  if (status != 0 && status < 200)
    return SF_BARRED_STATUS;
  if ((status == 206 || status == 304) && !exchange->is_understood)
    return SF_BARRED_STATUS;
  if (exchange->cache == SF_SHARED_CACHE && exchange->is_authorized && !decision->allows_authorized)
    return SF_BARRED_REQUEST;
  if (decision->allows_storing || has_expires)
    return SF_NO_OBSTACLE;
  switch (status) {
  case 200:
  case 203:
  case 204:
  case 206:
  case 300:
  case 301:
  case 308:
  case 404:
  case 405:
  case 410:
  case 414:
  case 501:
    return SF_NO_OBSTACLE;
  default:
    return SF_BARRED_UNPERMITTED;
  }
}

/* Returns the age of a response whose Age field has this number: the seconds since the request are
 * added (RFC 9111 section 4.2.3, current_age by corrected_age_value). For the function below. */
static inline uint64_t sf_current_age(uint64_t age, const sf_exchange *exchange) {
  const uint64_t most = UINT64_C(2147483648);
  uint64_t since = exchange->now > exchange->requested ? exchange->now - exchange->requested : 0;
  return since < most - age ? age + since : most;
}

/* Reads the targets up to the first that is well-formed and not empty, and returns SF_EMPTY if
 * there is none. For the function below. */
static inline sf_status sf_choose_target(sf_context *context, sf_head *head, sf_target *targets,
                                         size_t targets_length, sf_choice *choice) {
  size_t i, begin = head->joined.length;
  for (i = 0; i < targets_length; ++i)
    targets[i].status = SF_ABSENT;
  for (i = 0; i < targets_length; ++i) {
    sf_text text;
    sf_status status = sf_find_field(head, targets[i].name, &text);
    if (status == SF_OK)
      status = sf_read_rules(context, text, &choice->rules);
    head->joined.length = begin;
    targets[i].status = (uint32_t)status;
    choice->index = i;
    if (status == SF_REFUSED) {
      targets[i].refusal = context->refusal;
      sf_note_refusal(head, targets[i].name, &context->refusal);
    } else if (status != SF_EMPTY)
      return status;
  }
  choice->index = targets_length;
  return SF_EMPTY;
}

/* What comes before a place in a line of Cache-Control. For the functions below. */
enum {
  SF_PLACE_BEFORE, /* the beginning, a comma, or white space after these */
  SF_PLACE_NAME,   /* a part of the name of a directive */
  SF_PLACE_EQUALS, /* a name and an equals sign */
  SF_PLACE_TOKEN,  /* a part of a token after these */
  SF_PLACE_QUOTED, /* a part of a quoted-string */
  SF_PLACE_ESCAPE, /* a backslash in a quoted-string */
  SF_PLACE_AFTER,  /* a quoted-string, or white space after a directive */
  SF_PLACE_NONE    /* the byte is not allowed there */
};

/* Returns the place after one more byte (RFC 9111 section 5.2, RFC 9110 sections 5.6.1 to 5.6.4).
 * For the function below. */
static inline int sf_place_after(int place, unsigned byte) {
  int is_space = byte == ' ' || byte == '\t', is_tchar = byte < 128 && sf_is_tchar((char)byte);
  int is_quotable = byte == '\t' || (byte >= ' ' && byte != 127);
  switch (place) {
  case SF_PLACE_QUOTED:
    if (byte == '"' || byte == '\\')
      return byte == '"' ? SF_PLACE_AFTER : SF_PLACE_ESCAPE;
    return is_quotable ? SF_PLACE_QUOTED : SF_PLACE_NONE;
  case SF_PLACE_ESCAPE:
    return is_quotable ? SF_PLACE_QUOTED : SF_PLACE_NONE;
  case SF_PLACE_EQUALS:
    return byte == '"' ? SF_PLACE_QUOTED : is_tchar ? SF_PLACE_TOKEN : SF_PLACE_NONE;
  default:
    break;
  }
  if (byte == ',')
    return SF_PLACE_BEFORE;
  if (is_space)
    return place == SF_PLACE_BEFORE ? SF_PLACE_BEFORE : SF_PLACE_AFTER;
  if (byte == '=' && place == SF_PLACE_NAME)
    return SF_PLACE_EQUALS;
  if (!is_tchar || place == SF_PLACE_AFTER)
    return SF_PLACE_NONE;
  return place == SF_PLACE_TOKEN ? SF_PLACE_TOKEN : SF_PLACE_NAME;
}

/* Returns in words what is expected after a place in a line of Cache-Control: for the function
 * below. */
static inline const char *sf_after_place(int place) {
  switch (place) {
  case SF_PLACE_BEFORE:
    return "a directive";
  case SF_PLACE_NAME:
    return "a token character, `=`, `,` or the end";
  case SF_PLACE_EQUALS:
    return "a token or a quoted-string";
  case SF_PLACE_TOKEN:
    return "a token character, `,` or the end";
  case SF_PLACE_AFTER:
    return "`,` or the end";
  default:
    return "the rest of a quoted-string";
  }
}

/* Returns where a line of Cache-Control is refused, which the library found to be no list of
 * directives, and sets in words what is expected there. For the function below. */
static inline sf_refusal sf_refusal_of_directives(sf_text value, const char **expected) {
  int place = SF_PLACE_BEFORE, next;
  size_t at;
  unsigned byte;
  sf_refusal refusal;
  memset(&refusal, 0, sizeof refusal);
  for (at = 0; at < value.length; ++at) {
    next = sf_place_after(place, (unsigned char)value.at[at]);
    if (next == SF_PLACE_NONE)
      break;
    place = next;
  }
  for (byte = 0; byte < 128; ++byte)
    if (sf_place_after(place, byte) != SF_PLACE_NONE)
      sf_expect(&refusal, byte);
  refusal.offset = at;
  refusal.found = at < value.length ? (int32_t)(unsigned char)value.at[at] : (int32_t)SF_ENDED;
  refusal.may_end = at < value.length && place != SF_PLACE_EQUALS && place != SF_PLACE_QUOTED &&
                    place != SF_PLACE_ESCAPE;
  *expected = sf_after_place(place);
  return refusal;
}

/* Adds a line of Cache-Control, and notes it if it is the first that is refused. For the functions
 * below. */
static inline void sf_add_directives(sf_head *head, size_t index, sf_fallback *fallback,
                                     size_t *refused_line) {
  uint32_t was_refused = fallback->is_refused;
  sf_text value = head->lines.at[index].value;
  sf_add_fallback_line(fallback, SF_FALLBACK_CACHE_CONTROL, value);
  if (fallback->is_refused && !was_refused) {
    const char *expected;
    sf_refusal refusal = sf_refusal_of_directives(value, &expected);
    sf_note_value(head, "Cache-Control", SF_FAULT_REFUSED, expected, index, &refusal);
    *refused_line = index;
  }
}

/* Returns what Cache-Control, Expires and Date of a head say, and which line of Cache-Control is
 * the first that is refused, which it notes. For the functions below. */
static inline sf_fallback sf_fallback_of(sf_head *head, size_t *refused_line) {
  sf_fallback fallback = sf_fallback_begin();
  size_t i;
  for (i = 0; i < head->lines.length; ++i) {
    const sf_head_line *line = &head->lines.at[i];
    if (sf_is_named(line, "Cache-Control"))
      sf_add_directives(head, i, &fallback, refused_line);
    else if (sf_is_named(line, "Expires"))
      sf_add_fallback_line(&fallback, SF_FALLBACK_EXPIRES, line->value);
    else if (sf_is_named(line, "Date"))
      sf_add_fallback_line(&fallback, SF_FALLBACK_DATE, line->value);
  }
  return fallback;
}

static inline void sf_set_request(sf_exchange *exchange, sf_head *request) {
  size_t refused_line;
  sf_fallback fallback = sf_fallback_of(request, &refused_line);
  sf_text method = request->method;
  exchange->is_authorized = sf_has_field(request, "Authorization") != 0;
  exchange->is_request_incomplete =
      request->is_incomplete || request->is_truncated || request->status != 0;
  exchange->is_other_method = method.length > 0 &&
                              !(method.length == 3 && memcmp(method.at, "GET", 3) == 0) &&
                              !(method.length == 4 && memcmp(method.at, "HEAD", 4) == 0);
  exchange->is_request_no_store = fallback.rules.policy.no_store != 0;
}

/* Returns the length of the name that a text begins with, of those in a list with a space after
 * each, or of their first so many letters; 0 if it is none. For the functions below. */
static inline size_t sf_name_length(sf_text text, const char *names, size_t most) {
  for (; *names != 0; names += strcspn(names, " ") + 1) {
    size_t length = strcspn(names, " ");
    length = length < most ? length : most;
    if (text.length >= length && memcmp(text.at, names, length) == 0)
      return length;
  }
  return 0;
}

/* Returns 2 if a text begins with two digits that are a number in this range, otherwise 0: for the
 * functions below. */
static inline size_t sf_pair_length(sf_text text, int from, int to) {
  int number;
  if (text.length < 2 || text.at[0] < '0' || text.at[0] > '9' || text.at[1] < '0' ||
      text.at[1] > '9')
    return 0;
  number = (text.at[0] - '0') * 10 + (text.at[1] - '0');
  return number >= from && number <= to ? 2 : 0;
}

/* Returns the length of a part of an HTTP-date (RFC 9110 section 5.6.7) that a text begins with; 0
 * if it does not. For the function below. */
static inline size_t sf_date_part_length(sf_text text, char part) {
  const char *days = "Monday Tuesday Wednesday Thursday Friday Saturday Sunday ";
  size_t at;
  switch (part) {
  case 'w':
    return sf_name_length(text, days, 3);
  case 'W':
    return sf_name_length(text, days, 9);
  case 'm':
    return sf_name_length(text, "Jan Feb Mar Apr May Jun Jul Aug Sep Oct Nov Dec ", 3);
  case 'd':
    return sf_pair_length(text, 1, 31);
  case 'D':
    return text.length > 1 && text.at[0] == ' ' && text.at[1] > '0' && text.at[1] <= '9'
               ? 2
               : sf_pair_length(text, 1, 31);
  case 'y':
    return sf_pair_length(text, 0, 99);
  case 'Y':
    at = sf_pair_length(text, 0, 99);
    return at > 0 && sf_pair_length(sf_text_of(text.at + at, text.length - at), 0, 99) > 0 ? 4 : 0;
  case 't':
    for (at = 0; at < 9; at += 3)
      if (text.length < at + 2 || (at > 0 && text.at[at - 1] != ':') ||
          sf_pair_length(sf_text_of(text.at + at, text.length - at), 0, at == 0 ? 23 : 59) == 0)
        return 0;
    return 8;
  case 'z':
    return text.length > 2 && memcmp(text.at, "GMT", 3) == 0 ? 3 : 0;
  default:
    return text.length > 0 && text.at[0] == part;
  }
}

/* Returns the number of two digits, or of a space and a digit: for the function below. */
static inline int sf_pair_at(sf_text text, size_t at) {
  return (text.at[at] == ' ' ? 0 : text.at[at] - '0') * 10 + (text.at[at + 1] - '0');
}

/* Returns the place of the part of a value that makes it no HTTP-date, though each part is in the
 * right format, and sets in words what is expected there: a day that is in the month, a year from
 * 1970 on, or the weekday. The places are those of the day, the month and the year. For the
 * function below. */
static inline size_t sf_place_in_day(sf_text value, const size_t places[3],
                                     const char **expected) {
  sf_text month = sf_text_of(value.at + places[1], value.length - places[1]);
  int day = sf_pair_at(value, places[0]), year = sf_pair_at(value, places[2]), last = 31;
  if (places[2] + 2 < value.length && value.at[places[2] + 2] != ' ')
    year = year * 100 + sf_pair_at(value, places[2] + 2);
  else
    year += year < 70 ? 2000 : 1900;
  if (sf_name_length(month, "Apr Jun Sep Nov ", 3) > 0)
    last = 30;
  if (sf_name_length(month, "Feb ", 3) > 0)
    last = year % 4 == 0 && (year % 100 != 0 || year % 400 == 0) ? 29 : 28;
  *expected = day > last    ? "a day of that month in "
              : year < 1970 ? "a year from 1970 on in "
                            : "the weekday of that day in ";
  return day > last ? places[0] : year < 1970 ? places[2] : 0;
}

/* Returns the place at which a value that is no HTTP-date can't go on as one, in the format that it
 * is most like, and sets in words which part of the date is expected there: for the function below.
 */
static inline size_t sf_place_in_date(sf_text value, const char **expected) {
  const char *format = "w, d m Y t z";
  size_t at = sf_date_part_length(value, 'W'), places[3] = {0, 0, 0};
  if (at > 0)
    format = "W, d-m-y t z";
  else if (value.length > 4 && value.at[3] == ' ' && (unsigned char)value.at[4] > '9')
    format = "w m D t Y";
  for (at = 0; *format != 0; ++format) {
    size_t length = sf_date_part_length(sf_text_of(value.at + at, value.length - at), *format);
    if (length == 0)
      break;
    if (*format == 'd' || *format == 'D')
      places[0] = at;
    if (*format == 'm')
      places[1] = at;
    if (*format == 'y' || *format == 'Y')
      places[2] = at;
    at += length;
  }
  switch (*format) {
  case 0:
    if (at == value.length)
      return sf_place_in_day(value, places, expected);
    *expected = "the end of ";
    return at;
  case 'w':
    *expected = NULL;
    return 0;
  case 'd':
  case 'D':
    *expected = "the day in ";
    return at;
  case 'm':
    *expected = "the month in ";
    return at;
  case 'y':
  case 'Y':
    *expected = "the year in ";
    return at;
  case 't':
    *expected = "the time in ";
    return at;
  case 'z':
    *expected = "GMT in ";
    return at;
  case ' ':
    *expected = "a space in ";
    return at;
  case ',':
    *expected = "a comma in ";
    return at;
  default:
    *expected = "a hyphen in ";
    return at;
  }
}

/* Notes the first line of Expires or Date if it is no HTTP-date, and the second. For the function
 * below. */
static inline void sf_note_dates(sf_head *head, const char *name) {
  sf_fallback fallback = sf_fallback_begin();
  size_t i, count = 0;
  for (i = 0; i < head->lines.length && count < 2; ++i)
    if (sf_is_named(&head->lines.at[i], name)) {
      sf_text value = head->lines.at[i].value;
      const char *expected = NULL;
      sf_refusal refusal;
      memset(&refusal, 0, sizeof refusal);
      sf_add_fallback_line(&fallback, SF_FALLBACK_DATE, value);
      if (count == 0)
        refusal.offset = sf_after_space(value, 0); /* it may have been changed */
      if (count == 0 && fallback.date.lines > 1)
        refusal.offset += sf_place_in_date(sf_trim(value.at, value.length), &expected);
      if (fallback.date.lines > 1)
        sf_note_value(head, name, count == 0 ? SF_FAULT_NOT_A_DATE : SF_FAULT_REPEATED, expected,
                      i, &refusal);
      ++count;
    }
}

/* Returns whether a line of Cache-Control has a directive of this name whose argument is no number
 * of seconds, or another one than before, and sets its place and the reason; otherwise sets the
 * number, if there is one. For the function below. */
static inline int sf_find_bad_seconds(sf_text line, const char *name, int64_t *before,
                                      uint64_t *place, sf_reason *reason) {
  const int64_t most = INT64_C(2147483648);
  size_t at = 0;
  while (at < line.length) {
    sf_head_line directive;
    size_t begin = at;
    int64_t number = -1;
    int is_valid = 1, is_quoted = 0;
    while (at < line.length && sf_is_tchar(line.at[at]))
      ++at;
    directive.name = sf_text_of(line.at + begin, at - begin);
    if (at < line.length && line.at[at] == '=')
      is_quoted = ++at < line.length && line.at[at] == '"';
    begin = at;
    at += (size_t)is_quoted;
    while (at < line.length && (is_quoted ? line.at[at] != '"' : sf_is_tchar(line.at[at]))) {
      int digit;
      at += is_quoted && line.at[at] == '\\' && at + 1 < line.length;
      digit = line.at[at++] - '0';
      is_valid = is_valid && digit >= 0 && digit <= 9;
      number = is_valid ? (number < 0 ? 0 : number) * 10 + digit : number;
      number = number < most ? number : most;
    }
    if (sf_is_named(&directive, name)) {
      int is_other = is_valid && number >= 0;
      if (!is_other || (*before >= 0 && *before != number)) {
        *place = begin;
        *reason = is_other ? SF_FAULT_OTHER_SECONDS : SF_FAULT_NOT_SECONDS;
        return 1;
      }
      *before = number;
    }
    for (at += is_quoted && at < line.length; at < line.length && !sf_is_tchar(line.at[at]);)
      ++at;
  }
  return 0;
}

/* Returns whether a line of Cache-Control is a list of directives: for the functions below. */
static inline int sf_is_directives(sf_text value) {
  sf_fallback fallback = sf_fallback_begin();
  sf_add_fallback_line(&fallback, SF_FALLBACK_CACHE_CONTROL, value);
  return !fallback.is_refused;
}

/* Notes the argument of a directive that is no number of seconds: of a target, which is
 * well-formed; or if the target is NULL, of the lines of Cache-Control that are lists of
 * directives. For the functions below. */
static inline void sf_note_argument(sf_head *head, const char *target, const char *name) {
  size_t begin = head->joined.length, i;
  sf_reason reason = SF_FAULT_NOT_SECONDS;
  sf_location location;
  sf_refusal refusal;
  sf_text text;
  int64_t before = -1;
  memset(&refusal, 0, sizeof refusal);
  if (target != NULL && sf_find_field(head, target, &text) == SF_OK) {
    refusal.offset = sf_place_of(text, 1, sf_cstr(name), 0, 0, sf_cstr(NULL)) + strlen(name);
    refusal.offset += refusal.offset < text.length && text.at[refusal.offset] == '=';
    head->joined.length = begin;
    location = sf_locate_offset(head, target, refusal.offset);
    sf_note_fault(head, target, reason, NULL, &location);
  }
  for (i = 0; i < head->lines.length && target == NULL; ++i)
    if (sf_is_named(&head->lines.at[i], "Cache-Control") &&
        sf_is_directives(head->lines.at[i].value) &&
        sf_find_bad_seconds(head->lines.at[i].value, name, &before, &refusal.offset, &reason)) {
      sf_note_value(head, "Cache-Control", reason, reason == SF_FAULT_OTHER_SECONDS ? name : NULL,
                    i, &refusal);
      return;
    }
}

/* Notes a max-age and an s-maxage that are no number of seconds, likewise: for the function below.
 */
static inline void sf_note_arguments(sf_head *head, const char *target, const sf_rules *rules) {
  if (rules->invalid_max_age)
    sf_note_argument(head, target, "max-age");
  if (rules->invalid_s_maxage)
    sf_note_argument(head, target, "s-maxage");
}

/* Notes a max-age, or in a shared cache an s-maxage, that counts and is no number of seconds: of a
 * target, or of Cache-Control if the target is NULL. For the function below. */
static inline void sf_note_seconds(sf_head *head, const char *target, const sf_rules *rules,
                                   const sf_decision *decision, uint32_t cache) {
  int by_s_maxage =
      cache == SF_SHARED_CACHE && (rules->policy.has_s_maxage || rules->invalid_s_maxage);
  if ((by_s_maxage ? rules->invalid_s_maxage : rules->invalid_max_age) &&
      decision->reuse != SF_REUSE_NOT_STORED && decision->cause != SF_BY_NO_CACHE)
    sf_note_argument(head, target, by_s_maxage ? "s-maxage" : "max-age");
}

/* Returns whether the lifetime by Expires counts beside these directives: none forbids storing,
 * asks for validation, or sets a lifetime, valid or not (RFC 9111 section 4.2.1). For the function
 * below. */
static inline int sf_is_by_expires(const sf_rules *rules, const sf_decision *decision,
                                   uint32_t cache) {
  int has_max_age = rules->policy.has_max_age || rules->invalid_max_age;
  int has_s_maxage = rules->policy.has_s_maxage || rules->invalid_s_maxage;
  return decision->reuse != SF_REUSE_NOT_STORED && decision->cause != SF_BY_NO_CACHE &&
         !has_max_age && !(has_s_maxage && cache == SF_SHARED_CACHE);
}

/* Returns where the second member of a line of Age begins, without those that are empty; the length
 * of the line if there is none. For the function below. */
static inline size_t sf_second_in_age(sf_text value) {
  size_t at = 0, i;
  for (i = 0; i < 2; ++i) {
    while (i > 0 && at < value.length && value.at[at] != ',')
      ++at;
    while (at < value.length &&
           (value.at[at] == ',' || value.at[at] == ' ' || value.at[at] == '\t'))
      ++at;
  }
  return at;
}

/* Returns the number of the first line of Age of a head, whose first member counts; 0 without one,
 * and says whether it is malformed. Notes that, and the second line or member. For the functions
 * below. */
static inline uint64_t sf_age_of(sf_head *head, uint32_t *is_malformed) {
  uint64_t age = 0;
  size_t i, count = 0;
  *is_malformed = 0;
  for (i = 0; i < head->lines.length && count < 2; ++i)
    if (sf_is_named(&head->lines.at[i], "Age")) {
      sf_text value = head->lines.at[i].value;
      sf_refusal refusal;
      memset(&refusal, 0, sizeof refusal);
      if (count == 0 && sf_read_age(value, &age) != SF_OK) {
        *is_malformed = 1;
        refusal.offset = sf_place_in_age(value);
        sf_note_value(head, "Age", SF_FAULT_NOT_AN_AGE, NULL, i, &refusal);
      }
      refusal.offset = count == 0 ? sf_second_in_age(value) : sf_after_space(value, 0);
      if (count++ == 0 && refusal.offset == value.length)
        continue;
      sf_note_value(head, "Age", SF_FAULT_OTHER_AGE, NULL, i, &refusal);
      count = 2;
    }
  return age;
}

/* Returns whether a directive of the cause decided by a lifetime. For the function below. */
static inline int sf_is_by_lifetime(uint32_t cause) {
  return cause == SF_BY_MAX_AGE || cause == SF_BY_S_MAXAGE || cause == SF_BY_EXPIRES ||
         cause == SF_BY_MUST_REVALIDATE || cause == SF_BY_PROXY_REVALIDATE;
}

/* Sets what is left of the lifetime by which was decided, if it was. For the function below. */
static inline void sf_set_ttl(sf_verdict *verdict, const sf_rules *rules,
                              const sf_response *response, uint32_t shared) {
  const uint64_t most = UINT64_C(2147483648);
  uint64_t lifetime = response->lifetime;
  int is_invalid = shared && (rules->invalid_s_maxage || rules->policy.has_s_maxage)
                       ? rules->invalid_s_maxage
                       : rules->invalid_max_age;
  int is_set = sf_lifetime(&rules->policy, shared, &lifetime) == 1 || response->has_lifetime;
  verdict->has_ttl = is_set && !is_invalid && sf_is_by_lifetime(verdict->decision.cause);
  lifetime = lifetime < most ? lifetime : most;
  verdict->ttl = verdict->has_ttl ? (int64_t)lifetime - (int64_t)response->age : 0;
}

static inline sf_status sf_decide_response(sf_context *context, sf_head *head, sf_target *targets,
                                          size_t targets_length, const sf_exchange *exchange,
                                          sf_verdict *verdict) {
  sf_response response = {0, 0, 0, 0};
  sf_fallback fallback = sf_fallback_begin();
  sf_choice choice;
  sf_decision decision;
  sf_status status;
  size_t refused_line = 0;
  uint32_t is_age_malformed = 0;
  if (context->dialect != SF_RFC9651 && context->dialect != SF_RFC8941)
    return SF_BAD_CALL;
  status = sf_choose_target(context, head, targets, targets_length, &choice);
  if (status != SF_OK && status != SF_EMPTY)
    return status;
  if (status == SF_EMPTY) {
    fallback = sf_fallback_of(head, &refused_line);
    choice.rules = fallback.rules;
    sf_fallback_lifetime(&fallback, exchange->received, &response);
  }
  response.age = sf_current_age(sf_age_of(head, &is_age_malformed), exchange);
  response.is_understood = exchange->is_understood != 0;
  status = (sf_status)sf_decide(&choice.rules, exchange->cache, &response, &decision);
  if (status != SF_OK)
    return status;
  if (fallback.expires.lines > 0 && sf_is_by_expires(&choice.rules, &decision, exchange->cache)) {
    sf_note_dates(head, "Expires");
    sf_note_dates(head, "Date");
  }
  sf_note_seconds(head, choice.index < targets_length ? targets[choice.index].name : NULL,
                  &choice.rules, &decision, exchange->cache);
  verdict->obstacle = sf_obstacle_of(&decision, exchange, head, fallback.is_refused != 0,
                                     response.has_lifetime);
  verdict->may_store = verdict->obstacle == SF_NO_OBSTACLE;
  verdict->decision = decision;
  verdict->age = response.age;
  sf_set_ttl(verdict, &choice.rules, &response, exchange->cache == SF_SHARED_CACHE);
  verdict->field = choice.index < targets_length              ? targets[choice.index].name
                   : decision.cause == SF_BY_EXPIRES        ? "Expires"
                   : sf_has_field(head, "Cache-Control") ? "Cache-Control"
                                                            : NULL;
  verdict->target = choice.index;
  verdict->is_refused = fallback.is_refused;
  verdict->refused_line = refused_line;
  verdict->is_age_malformed = is_age_malformed;
  verdict->is_expires_malformed = fallback.expires.lines > 1;
  verdict->is_date_malformed = fallback.date.lines > 1;
  return SF_OK;
}

static inline sf_status sf_check_head(sf_context *context, sf_head *head, const sf_target *targets,
                                     size_t targets_length) {
  size_t i, begin = head->joined.length, refused_line;
  sf_fallback lists = sf_fallback_begin();
  uint32_t is_malformed;
  sf_text text;
  sf_status status = sf_check_field(context, SF_DICT, head, "Priority");
  if (status != SF_OK && status != SF_REFUSED)
    return status;
  (void)sf_fallback_of(head, &refused_line);
  if (head->is_request)
    return SF_OK;
  for (i = 0; i < head->lines.length; ++i)
    if (sf_is_named(&head->lines.at[i], "Cache-Control") &&
        sf_is_directives(head->lines.at[i].value))
      sf_add_fallback_line(&lists, SF_FALLBACK_CACHE_CONTROL, head->lines.at[i].value);
  sf_note_arguments(head, NULL, &lists.rules);
  sf_note_dates(head, "Expires");
  sf_note_dates(head, "Date");
  (void)sf_age_of(head, &is_malformed);
  status = sf_find_field(head, "Cache-Status", &text);
  if (status == SF_OK)
    status = sf_check_text(context, SF_LIST, text);
  if (status == SF_OK)
    sf_note_nameless(head, text);
  head->joined.length = begin;
  status = sf_found(context, head, "Cache-Status", status);
  for (i = 0; i < targets_length && status == SF_OK; ++i) {
    sf_rules rules;
    status = sf_find_field(head, targets[i].name, &text);
    if (status == SF_OK)
      status = sf_read_rules(context, text, &rules);
    head->joined.length = begin;
    if (status == SF_OK)
      sf_note_arguments(head, targets[i].name, &rules);
    status = sf_found(context, head, targets[i].name, status == SF_EMPTY ? SF_OK : status);
  }
  return status;
}

/* Appends a string to a text: for the function below. */
static inline void sf_put_words(sf_buffer *out, const char *words) {
  size_t length = strlen(words), free = out->capacity - out->length;
  if (length > 0 && out->length <= out->capacity && length <= free)
    memcpy(out->at + out->length, words, length);
  out->length += length;
}

static inline sf_status sf_write_verdict(const sf_verdict *verdict, sf_buffer *out) {
  char seconds[32], *end;
  uint32_t by = verdict->decision.cause;
  const char *cause = verdict->is_refused   ? "malformed"
                      : by == SF_BY_EXPIRES ? "" /* the field says it */
                                            : sf_cause_name(by);
  out->length = 0;
  if (verdict->field != NULL) {
    sf_put_words(out, verdict->field);
    sf_put_words(out, ": ");
  }
  sf_put_words(out, verdict->decision.reuse == SF_REUSE_UNSPECIFIED
                        ? "no lifetime set"
                        : sf_reuse_name(verdict->decision.reuse));
  if (verdict->decision.reuse == SF_REUSE_FRESH) {
    end = sf_put_number(seconds, " for ", verdict->decision.seconds);
    memcpy(end, " s", 3);
    sf_put_words(out, seconds);
  }
  if (*cause != 0) {
    sf_put_words(out, " (");
    sf_put_words(out, cause);
    sf_put_words(out, ")");
  }
  if (verdict->obstacle == SF_NO_OBSTACLE) {
    sf_put_words(out, "; may be stored");
  } else if (verdict->obstacle != SF_BARRED_DIRECTIVE && verdict->obstacle != SF_BARRED_MALFORMED) {
    sf_put_words(out, "; not stored: ");
    sf_put_words(out, sf_obstacle_name(verdict->obstacle));
  }
  return sf_wrote(out, out->length > out->capacity ? SF_SHORT : SF_OK, out->length);
}

static inline sf_own_hop sf_hop_of_verdict(const char *name, sf_type type, sf_forward why,
                                           const sf_verdict *verdict) {
  sf_own_hop own = sf_hop_named(name, type);
  own.hop.outcome = SF_FORWARDED;
  own.hop.why = (uint16_t)why;
  own.hop.has_stored = 1;
  own.hop.stored = verdict->may_store != 0;
  own.hop.has_ttl = verdict->has_ttl != 0;
  own.hop.ttl = verdict->ttl;
  return own;
}

#endif
