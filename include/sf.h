/*
 * Structured Field Values for HTTP (RFC 9651). These calls parse, compare and write values,
 * join the lines of a field, and interpret three kinds of fields: Priority (RFC 9218), the targeted
 * cache control fields (RFC 9213) and Cache-Status (RFC 9211). In this order:
 *
 *   Texts and buffers         sf_text, sf_context, sf_random_seed, sf_buffer, and what all calls
 *                             have in common
 *   The lines of a field      sf_add_line, sf_joined_text
 *   Malformed fields          sf_check_text, sf_write_refusal, sf_show_excerpt_of_line
 *   Canonical texts           sf_write_canonical, sf_equal_texts
 *   Values that are read      sf_read_tree, sf_find_member_of, sf_node_offset, sf_write_tree
 *   Values that are built     sf_build, sf_put_string and the like, sf_put_copy, sf_write_built
 *   Priority                  sf_read_priority, sf_merge_priority, sf_write_priority
 *   Cache-Status              sf_read_hops, sf_write_hop_in, sf_append_or_write_hop
 *   Heads of messages         sf_head_in_memory, sf_take_request, sf_take_response, sf_find_field
 *   The fields of a head      sf_find_merged_priority, sf_find_hops, sf_find_tree, sf_add_hop,
 *                             sf_add_fault, sf_show_fault_in
 *   What a cache decides      sf_decide_response; its parts, such as sf_choose_rules
 *   All faults of a head      sf_check_head
 *
 * All of them are inline functions, which are tested. Many call functions of the library, which are
 * proved.
 * libsf.a and libsf.so.0 require only the C library. Two more files are parts of this one:
 * sf_functions.h declares and documents the functions of the library, which take pointers, lengths
 * and numbers of fixed width, as other languages call them; sf_inline.h has the inline bodies.
 *
 *   sf_context context = sf_context_of(seed, SF_RFC8941);
 *   sf_priority_flags client = SF_PRIORITY_UNSET;
 *   if (sf_read_priority(&context, sf_cstr("u=5, i"), &client) == SF_NO_MEMORY)
 *     return EXIT_FAILURE;
 *   printf("%d\n", client.urgency); // 5
 *
 * A text is an sf_text, a buffer is a struct with its capacity, the results of a call are in one
 * struct, and an sf_context has what a program sets once. So the compiler reports most swapped
 * arguments: not the two texts of sf_equal_texts, the name and the value of sf_add_field_line, the
 * key and the text of the functions of sf_builder, nor, in C, a number in the place of an enum. A
 * call returns an sf_status, unless its comment says what else it returns. The constants for kinds,
 * dialects, roles, types, caches, reuses, causes and fields all differ, and none is 0: if a kind is
 * passed as the dialect, the call returns SF_BAD_CALL.
 *
 * The caller provides the buffer for each result, and never owns or frees memory of the library. If
 * a buffer is too small, the call returns SF_SHORT (SF_TOO_MANY for the nodes of sf_read_tree) and
 * stores the required length. A call allocates only what the function named in its comment
 * allocates, and frees it before it returns.
 *
 * Pointers must be valid as usual in C: a pointer with a length points to that many bytes or
 * elements, and may be NULL if the length is 0; any other pointer is aligned and not NULL; and the
 * memory that a call writes overlaps none of its other arguments. Arguments that are not outputs
 * are only read. Calls share no state, so any number of threads may call at the same time, each
 * with its own buffers. No function may be called from a signal handler, or in the child after a
 * fork of a program with several threads. The program's malloc and realloc must return memory that
 * is aligned as C requires.
 *
 * Bytes are octets, and texts are not NUL-terminated, except those that a comment says are. White
 * space around the value of a field line is no part of it, and a tab there may be refused: see
 * sf_trim. Offsets are in bytes and begin at 0. The library requires a size_t of 64 bits.
 */
#ifndef SF_H
#define SF_H

#include <stddef.h>
#include <stdint.h>
#include <string.h>

/* Defined if the system has the getrandom of sf_random_seed. */
#if defined(__has_include)
#if __has_include(<sys/random.h>) && !defined(__APPLE__)
#include <errno.h>
#include <sys/random.h>
#define SF_HAS_RANDOM_SEED 1
#endif
#endif

#if SIZE_MAX < UINT64_MAX
#error "libsf.a is for machines where a size_t has 64 bits"
#endif

/* The version of this header and of the archive beside it. */
#define SF_VERSION_MAJOR 0
#define SF_VERSION_MINOR 1
#define SF_VERSION_PATCH 0
#define SF_VERSION "0.1.0"

/* The same as one number, for comparisons: 100 is 0.1.0, and 10203 is 1.2.3. */
#define SF_VERSION_NUMBER                                                                          \
  (SF_VERSION_MAJOR * 10000 + SF_VERSION_MINOR * 100 + SF_VERSION_PATCH)

/*
 * A bound on the bytes that a call has allocated at any one time; it is tested, not proved. The
 * length is that of the texts and bytes that the call reads, together, and for sf_write one more
 * for each node. The comment of a call says if it does not allocate, or when.
 */
#define SF_MEMORY_SIZE(length) (sizeof(char[200]) * (length) + 2048)

/* Of a function whose result is not to be ignored: a compiler that knows how warns of that. */
#if defined(__GNUC__)
#define SF_USE_RESULT __attribute__((warn_unused_result))
#else
#define SF_USE_RESULT
#endif

#ifdef __cplusplus
extern "C" {
#endif

/* == Texts and buffers. == */

/* Constants. */
enum {
  SF_ENDED = -1,           /* no byte: sf_refusal.found if the text ended */
  SF_SEED_SIZE = 16,       /* the size of a seed in bytes */
  SF_URGENCY_FIRST = 0,    /* the most urgent (RFC 9218 section 4.1) */
  SF_URGENCY_DEFAULT = 3,  /* the urgency if the field does not set it */
  SF_URGENCY_LAST = 7,     /* the least urgent */
  SF_FWD_STATUS_MIN = 100, /* the smallest fwd-status that is read (RFC 9211 section 2.3) */
  SF_FWD_STATUS_MAX = 999  /* the largest; see sf_is_valid_status */
};

/* Integers, Dates, and Decimals in thousandths are from -SF_NUMBER_MAX to SF_NUMBER_MAX (RFC 9651
 * sections 3.3.1, 3.3.7 and 3.3.2). */
#define SF_NUMBER_MAX INT64_C(999999999999999)

/* The result of a call. */
typedef enum sf_status {
  SF_OK = 0,             /* success */
  SF_REFUSED = 1,        /* the text is malformed: sf_refusal says where and why; of Cache-Control,
                            a line is no list of directives; of a head, a line is no field line, or
                            the head did not end */
  SF_SECOND_REFUSED = 2, /* of two texts, the first is well-formed and the second is malformed */
  SF_SHORT = 3,          /* a buffer is too small */
  SF_NO_MEMORY = 4,      /* malloc or realloc failed */
  SF_EMPTY = 5,          /* the field has no members; of a target list, each field is ignored; of
                            Expires, there is no line */
  SF_BAD_CALL = 6,       /* no such kind, dialect, cache or field, or a length or range past its
                            buffer */
  SF_NOT_A_CACHE = 7,    /* a member of a Cache-Status List does not name a cache */
  SF_INVALID = 8,        /* the nodes, the hop or the priority to be written are not valid; of a
                            decision, seconds are passed whose flag is 0 */
  SF_ABSENT = 9,         /* no node has the role and the key; of an sf_target, it was not read */
  SF_TOO_LONG = 10,      /* the text has 4 GiB or more, or an offset would have to be that large */
  SF_TOO_MANY = 11       /* the value has more nodes than the caller allows */
} sf_status;

/* Returns the name of a status, such as "SF_REFUSED", for messages; "SF_?" if there is no such
 * status. */
static inline const char *sf_status_name(uint32_t status);

/* The kind of a field, which the definition of the field states. */
typedef enum sf_kind {
  SF_ITEM = 1, /* RFC 9651 section 3.3 */
  SF_LIST = 2, /* section 3.1 */
  SF_DICT = 3  /* section 3.2 */
} sf_kind;

/* Returns the name of a kind, for messages; "?" if there is no such kind. */
static inline const char *sf_kind_name(uint32_t kind);

/* Returns the kind of a word, as a program has it from its user: "item", "list" or "dict"; 0 for
 * another word. The result is an sf_kind, or 0. */
static inline uint32_t sf_kind_of(const char *word);

/* The RFC by which a text is parsed. What RFC 8941 accepts has the same value by RFC 9651. */
typedef enum sf_dialect {
  SF_RFC9651 = 9651, /* all types of sf_type */
  SF_RFC8941 = 8941  /* its predecessor, without Dates and Display Strings */
} sf_dialect;

/* A text and its length in bytes. */
typedef struct sf_text {
  const char *at;
  size_t length;
} sf_text;

/* Returns a text of a stated length. It is not copied. */
static inline sf_text sf_text_of(const void *at, size_t length);

/* Returns the text of a string that ends with a NUL; the empty text if it is NULL. */
static inline sf_text sf_cstr(const char *string);

/*
 * Returns a text without the spaces and tabs before and after it. White space around the value of a
 * field line is no part of it (RFC 9110 section 5.5), but some programs pass it on. The functions
 * that read a structured field accept spaces there, but refuse a tab at the beginning, and one
 * after an Item (RFC 9651 section 4.2; after a member of a List or Dictionary it is accepted). So
 * trim each line before sf_add_line, or the text of a field of one line. The lines of an sf_head
 * are trimmed.
 */
static inline sf_text sf_trim(const void *text, size_t length);

/* The two arguments of %.*s for a text, or for what a buffer has, of less than 2 GiB. The macro
 * evaluates its argument twice:
 *
 *   printf("%.*s\n", SF_ARGS(text));
 */
#define SF_ARGS(text) ((int)(text).length), ((text).at)

/*
 * A seed for the hashes of keys. Fill it by sf_random_seed, or from another source that attackers
 * can't predict, once per program or per call: attackers choose the keys, and if they can predict
 * the hashes, a long Dictionary takes quadratic time. No result depends on the seed.
 */
typedef struct sf_seed {
  uint8_t bytes[SF_SEED_SIZE];
} sf_seed;

/*
 * Fills a seed with random bytes of the system, by getrandom. Early in the start of the system, it
 * waits until there are such bytes.
 *
 *   sf_seed seed;
 *   if (!sf_random_seed(&seed))
 *     return EXIT_FAILURE;
 *
 * Returns 1 if the seed is filled. Returns 0 if the system gives no random bytes: errno says why,
 * and the seed is unchanged. The result is not an sf_status. The call is declared only if
 * SF_HAS_RANDOM_SEED is defined: on systems with getrandom in <sys/random.h>, by a compiler with
 * __has_include.
 */
#if defined(SF_HAS_RANDOM_SEED)
SF_USE_RESULT
static inline int sf_random_seed(sf_seed *seed);
#endif

/* Where and why a text is refused (RFC 9651 section 4.2). */
typedef struct sf_refusal {
  uint64_t offset;        /* length of the text's longest prefix that some well-formed text of the
                             kind begins with; of a member that names no cache, its place */
  uint64_t expected_low;  /* bit b: byte b is allowed at that offset, for b from 0 to 63 */
  uint64_t expected_high; /* bit b: byte 64 + b is allowed there */
  int32_t found;          /* the byte at that offset, or SF_ENDED if the text ended */
  uint32_t may_end;       /* 1 if the text could have ended there, otherwise 0; always 0 if found is
                             SF_ENDED */
} sf_refusal;

/* What the calls of a program have in common. Threads may not use a context at the same time: give
 * each a copy. */
typedef struct sf_context {
  sf_seed seed;       /* for the hashes of keys */
  uint32_t dialect;   /* the sf_dialect in which texts are read and written */
  sf_refusal refusal; /* where and why a text was refused last: written with SF_REFUSED and
                         SF_SECOND_REFUSED, and by sf_read_hops with SF_NOT_A_CACHE;
                         sf_append_or_write_hop, sf_choose_rules and sf_decide_response may write it
                         and succeed */
  size_t invalid;     /* index of the first node that is wrong: written with SF_INVALID by
                         sf_write_tree and sf_write_built */
} sf_context;

/* Returns a context. The dialect is the RFC that the definition of a field cites: SF_RFC8941 for
 * Priority, Cache-Status and targeted cache control. */
static inline sf_context sf_context_of(sf_seed seed, sf_dialect dialect);

/* A buffer for bytes, such as a text that a call writes. */
typedef struct sf_buffer {
  char *at;        /* the caller's bytes */
  size_t capacity; /* how many there are */
  size_t length;   /* how many of them the last call wrote, 0 unless it returned SF_OK; of a call
                      that adds to them, how many there are */
  size_t required; /* after SF_SHORT, the capacity that the call requires */
} sf_buffer;

/* Returns a buffer over the caller's memory, with its capacity in bytes. */
static inline sf_buffer sf_buffer_of(void *at, size_t capacity);

/* The number of elements of an array. A pointer in its place does not compile, except in C with
 * other compilers than GCC and Clang. */
#if defined(__cplusplus)
extern "C++" {
template <class Element, size_t length> inline size_t sf_length_of(Element (&)[length]) {
  return length;
}
}
#define SF_LENGTH_OF(array) (sf_length_of(array))
#elif defined(__GNUC__)
#define SF_LENGTH_OF(array)                                                                        \
  (sizeof(array) / sizeof *(array) *                                                               \
   sizeof(char[__builtin_types_compatible_p(__typeof__(array), __typeof__(&(array)[0])) ? -1 : 1]))
#else
#define SF_LENGTH_OF(array) (sizeof(array) / sizeof *(array))
#endif

/* A buffer over an array of char:
 *
 *   char text[SF_PRIORITY_SIZE];
 *   sf_buffer out = SF_BUFFER(text);
 */
#define SF_BUFFER(chars) sf_buffer_of((chars), sizeof *(chars) * SF_LENGTH_OF(chars))

/* Returns the text that the last call wrote to a buffer; the empty text if it failed. The text is
 * in the buffer. */
static inline sf_text sf_written(const sf_buffer *buffer);

/* == The lines of a field. == */

/* The lines of a field, joined. */
typedef struct sf_lines {
  sf_buffer buffer; /* its first bytes are the joined lines */
  uint32_t begun;   /* 0 before the first line */
} sf_lines;

/* Returns the lines of a field before the first: none. */
static inline sf_lines sf_lines_in(sf_buffer buffer);

/*
 * Appends one line of a field, with a comma and a space between two lines (RFC 9651 section 4.2),
 * by sf_join. An empty line is a line: beside others it gives `a, , b`, which is malformed (RFC
 * 9110 section 5.3). These calls join the lines of a field:
 *
 *   char bytes[64];
 *   sf_lines lines = sf_lines_in(SF_BUFFER(bytes));
 *   if (sf_add_line(&lines, sf_trim("\tu=5", 4)) != SF_OK ||
 *       sf_add_line(&lines, sf_trim(" i", 2)) != SF_OK)
 *     return EXIT_FAILURE;
 *   printf("%.*s\n", (int)sf_joined_text(&lines).length, bytes); // u=5, i
 *
 *   SF_OK        the line is appended
 *   SF_SHORT     lines->buffer.required bytes are required; the lines before stay. Call again with
 *                a buffer that begins with the same bytes
 *   SF_BAD_CALL  lines->buffer.length is greater than its capacity
 */
SF_USE_RESULT
static inline sf_status sf_add_line(sf_lines *lines, sf_text line);

/* Returns the text of a field: its lines, joined; the empty text if it has none. It is in the
 * buffer of the lines. */
static inline sf_text sf_joined_text(const sf_lines *lines);

/* == Malformed fields. == */

/*
 * Checks whether a text is a well-formed field of the kind (RFC 9651 section 4.2), by sf_check:
 *
 *   if (sf_check_text(&context, SF_ITEM, sf_cstr("1 2")) == SF_REFUSED)
 *     printf("%d\n", (int)context.refusal.offset); // 2
 *
 *   SF_OK         it is
 *   SF_REFUSED    it is not; context->refusal says where and why
 *   SF_BAD_CALL
 *
 * Does not allocate.
 */
SF_USE_RESULT
static inline sf_status sf_check_text(sf_context *context, sf_kind kind, sf_text text);

/* The sizes in bytes of buffers that are large enough for each message of sf_refusal_text, and for
 * each of sf_refusal_in_text with a text of this length. This is tested, not proved: the longest
 * message has 739 bytes. The second is valid for lengths up to (SIZE_MAX - SF_REFUSAL_SIZE) / 2. */
#define SF_REFUSAL_SIZE 1024
#define SF_REFUSAL_IN_TEXT_SIZE(length) (SF_REFUSAL_SIZE + sizeof(char[2]) * (length))

/*
 * Writes the error message of a refusal to out, by sf_refusal_text. A buffer of SF_REFUSAL_SIZE
 * bytes is always large enough.
 *
 *   char message[SF_REFUSAL_SIZE];
 *   sf_buffer out = SF_BUFFER(message);
 *   if (sf_check_text(&context, SF_ITEM, sf_cstr("1 2")) == SF_REFUSED &&
 *       sf_write_refusal(&context.refusal, &out) == SF_OK)
 *     printf("%.*s\n", (int)out.length, out.at);
 *     // byte 0x32 '2' at place 2, expected a space or the end
 *
 *   SF_OK         the first out->length bytes of out are the message
 *   SF_SHORT      the message has out->required bytes, more than the capacity
 *   SF_NO_MEMORY
 */
SF_USE_RESULT
static inline sf_status sf_write_refusal(const sf_refusal *refusal, sf_buffer *out);

/* Writes the error message of a refusal of this text, with the text and a caret, by
 * sf_refusal_in_text. A buffer of SF_REFUSAL_IN_TEXT_SIZE(text.length) bytes is always large
 * enough. The results are those of sf_write_refusal. */
SF_USE_RESULT
static inline sf_status sf_show_refusal(const sf_refusal *refusal, sf_text text, sf_buffer *out);

/* The size in bytes of a buffer that is large enough for each message of sf_show_excerpt and of
 * sf_show_excerpt_of_line with this number of bytes of the text at most. */
#define SF_REFUSAL_EXCERPT_SIZE(most) (SF_REFUSAL_SIZE + 12 + sizeof(char[2]) * (most))

/*
 * Writes the error message of a refusal of this text, a second line with at most so many bytes of
 * the text around the offset, with `...` at an end where more of it is left out, and a caret below
 * the offset, without a newline at the end. So the message has a bound, whatever the length of the
 * text. Bytes are written as by sf_refusal_in_text. The results are those of sf_write_refusal.
 */
SF_USE_RESULT
static inline sf_status sf_show_excerpt(const sf_refusal *refusal, sf_text text, size_t most,
                                       sf_buffer *out);

/* A refusal in one of the lines of a field. */
typedef struct sf_location {
  size_t index;       /* of the line among those that were passed, from 0 */
  uint64_t number;    /* of the line, as messages have it */
  sf_text line;       /* the line */
  sf_refusal refusal; /* with its offset in the line, from 0. Where the line ends too early, that is
                         its length, and found is SF_ENDED, also if another line follows; after an
                         Item, which has one line, the comma is found */
} sf_location;

/* Returns the line that a refusal is in, and the refusal in it, if the refused text is these lines,
 * joined by sf_add_line in this order. The lines are numbered from 1: set location.number if the
 * caller's file or stream has other numbers. Without lines, the line is empty, and its number 1. */
static inline sf_location sf_locate_in_lines(const sf_refusal *refusal, const sf_text *lines,
                                             size_t lines_length);

/*
 * Writes the error message of a refusal in a line, with an excerpt of that line, as sf_show_excerpt
 * does, and before it a line with the number and the place. Both places in the message are in the
 * line, not in the joined text, and from 0. The number is here that of the line in the caller's
 * file, in the place of 2:
 *
 *   sf_text received[] = {sf_cstr("a, b"), sf_cstr("c, (d e, f")};
 *   char bytes[64], message[SF_REFUSAL_EXCERPT_SIZE(8)];
 *   sf_buffer out = SF_BUFFER(message);
 *   sf_lines lines = sf_lines_in(SF_BUFFER(bytes));
 *   for (int i = 0; i < 2; ++i)
 *     if (sf_add_line(&lines, received[i]) != SF_OK)
 *       return EXIT_FAILURE;
 *   if (sf_check_text(&context, SF_LIST, sf_joined_text(&lines)) == SF_REFUSED) {
 *     sf_location location = sf_locate_in_lines(&context.refusal, received, 2);
 *     location.number = 12;
 *     if (sf_show_excerpt_of_line(&location, 8, &out) == SF_OK)
 *       printf("%.*s\n", SF_ARGS(out));
 *   } // byte 0x2c ',' at place 7, expected a token character, `)`, `;` or a space
 *   // line 12, place 7:
 *   // ... (d e, f
 *   //         ^
 *
 * A buffer of SF_REFUSAL_EXCERPT_SIZE(most) bytes is always large enough. The results are those of
 * sf_write_refusal.
 */
SF_USE_RESULT
static inline sf_status sf_show_excerpt_of_line(const sf_location *location, size_t most,
                                               sf_buffer *out);

/* == Canonical texts. == */

/* The size in bytes of a buffer that is large enough for the canonical text of any text of this
 * length: eight fifths of it, so SF_CANONICAL_SIZE(5) is 8. The result is a size_t whatever integer
 * type the length has, and valid for lengths up to SIZE_MAX / 8 * 5. The macro evaluates its
 * argument twice. */
#define SF_CANONICAL_SIZE(length)                                                                  \
  (sizeof(char) * (length) / 5 * 8 + sizeof(char) * (length) % 5 * 8 / 5)

/*
 * Writes the canonical text (RFC 9651 section 4.1) of the value of a text, by sf_normalise. A
 * buffer of SF_CANONICAL_SIZE(text.length) bytes is always large enough.
 *
 *   char text[SF_CANONICAL_SIZE(10)];
 *   sf_buffer out = SF_BUFFER(text);
 *   if (sf_write_canonical(&context, SF_DICT, sf_cstr("u=1,  i=?1"), &out) == SF_OK)
 *     printf("%.*s\n", (int)out.length, out.at); // u=1, i
 *
 *   SF_OK         the first out->length bytes of out are the canonical text
 *   SF_SHORT      it has out->required bytes, more than the capacity
 *   SF_REFUSED    the text is malformed; context->refusal says where and why
 *   SF_NO_MEMORY, SF_BAD_CALL
 */
SF_USE_RESULT
static inline sf_status sf_write_canonical(sf_context *context, sf_kind kind, sf_text text,
                                          sf_buffer *out);

/*
 * Compares the values of two texts of a kind (RFC 9651 sections 3 and 4.2), by sf_equal.
 *
 *   uint32_t are_equal;
 *   if (sf_equal_texts(&context, SF_DICT, sf_cstr("u=1,i"), sf_cstr("u=1, i=?1"), &are_equal) ==
 *       SF_OK)
 *     printf("%s\n", are_equal ? "equal" : "not equal"); // equal
 *
 *   SF_OK              *are_equal is 1 if the values are equal, otherwise 0
 *   SF_REFUSED         the first text is malformed; context->refusal says where and why
 *   SF_SECOND_REFUSED  the first is well-formed and the second malformed, likewise
 *   SF_NO_MEMORY, SF_BAD_CALL
 *
 * Unless SF_OK is returned, *are_equal is 0.
 */
SF_USE_RESULT
static inline sf_status sf_equal_texts(sf_context *context, sf_kind kind, sf_text first,
                                      sf_text second, uint32_t *are_equal);

/* == Values that are read. == */

/* The role of a node in a parsed value. */
typedef enum sf_role {
  SF_MEMBER = 11,         /* the Item of an Item field, or a member of a List or Dictionary */
  SF_INNER_ITEM = 12,     /* an Item of an Inner List */
  SF_PARAMETER = 13,      /* a parameter of an Item: of the last one before it */
  SF_INNER_PARAMETER = 14 /* a parameter of an Inner List: of the last one before it */
} sf_role;

/* Returns the name of a role, for messages; "?" if there is no such role. */
static inline const char *sf_role_name(uint32_t role);

/* The type of a node (RFC 9651 section 3). */
typedef enum sf_type {
  SF_INNER_LIST = 21,    /* 3.1.1: number 0, no bytes */
  SF_INTEGER = 22,       /* 3.3.1: number, from -SF_NUMBER_MAX to SF_NUMBER_MAX */
  SF_DECIMAL = 23,       /* 3.3.2: number, in thousandths, in the same range */
  SF_STRING = 24,        /* 3.3.3: bytes, unescaped, without quotes */
  SF_TOKEN = 25,         /* 3.3.4: bytes */
  SF_BYTE_SEQUENCE = 26, /* 3.3.5: bytes, decoded */
  SF_BOOLEAN = 27,       /* 3.3.6: number, 1 for true and 0 for false */
  SF_DATE = 28,          /* 3.3.7: number, in seconds since 1970-01-01T00:00:00Z, in that range */
  SF_DISPLAY_STRING = 29 /* 3.3.8: bytes, UTF-8, decoded */
} sf_type;

/* Returns the name of a type, as the RFC has it; "?" if there is no such type. */
static inline const char *sf_type_name(uint32_t type);

/*
 * A node of the tree of a value. The nodes are in the order of the value: an Item is one node,
 * followed by its parameters; an Inner List is one node, followed by its Items, each with its
 * parameters, and then by its own parameters.
 *
 * An offset below text_length, the length of the text that was parsed, is in that text. Any other
 * offset is in the caller's buffer bytes, at offset - text_length.
 */
typedef struct sf_node {
  int64_t number;       /* value of an Integer, Decimal, Boolean or Date; otherwise 0 */
  uint32_t key_at;      /* offset of the key of a parameter or Dictionary member */
  uint32_t key_length;  /* length of the key; 0 without a key */
  uint32_t text_at;     /* offset of the bytes of a String, Token, Byte Sequence, Display String */
  uint32_t text_length; /* their length; 0 for other types */
  uint32_t size;        /* number of nodes in the subtree of this node, itself included: node + size
                           is its next sibling or, after the last, the end of its parent */
  uint8_t type;         /* an sf_type */
  uint8_t role;         /* an sf_role */
  uint8_t coded;        /* 0 in nodes that sf_parse writes; sf_write documents other numbers */
} sf_node;

/* The sizes of buffers that are large enough for the value of any text of this length: in nodes or
 * hops, four fifths of the length, rounded to the nearest integer; and in bytes, eight fifths. The
 * type, the largest length and the double evaluation are as for SF_CANONICAL_SIZE. */
#define SF_NODES_SIZE(length)                                                                      \
  (sizeof(char) * (length) / 5 * 4 + (sizeof(char) * (length) % 5 * 8 + 5) / 10)
#define SF_BYTES_SIZE(length) SF_CANONICAL_SIZE(length)

/* A buffer for the nodes of a value, likewise. Here required is in elements. */
typedef struct sf_nodes {
  sf_node *at;
  size_t capacity;
  size_t length;
  size_t required; /* after SF_TOO_MANY and SF_SHORT, the capacity that is large enough */
} sf_nodes;

/* Return a buffer over the caller's nodes, with their number, and over an array of them. */
static inline sf_nodes sf_nodes_of(sf_node *at, size_t capacity);
#define SF_NODES(nodes) sf_nodes_of((nodes), SF_LENGTH_OF(nodes))

/* A parsed value: its nodes, and the text and the bytes to which they point. The text is not
 * copied: it must be valid as long as the tree is used. */
typedef struct sf_tree {
  sf_text text;    /* that sf_read_tree parsed */
  sf_nodes nodes;  /* the first nodes.length are the value, in the order of sf_node */
  sf_buffer bytes; /* what is escaped or encoded in the text, decoded; or all keys and bytes: see
                      sf_parse */
  uint32_t kind;   /* the sf_kind */
} sf_tree;

/* Returns an empty tree with these buffers, which must be valid as long as the tree is used. */
static inline sf_tree sf_tree_in(sf_nodes nodes, sf_buffer bytes);

/* Returns the size in bytes of the memory that sf_tree_in_memory requires for the value of any text
 * of this length: at most 28 times the length, and 40; but SIZE_MAX if that is too large for a
 * size_t. */
static inline size_t sf_tree_memory_size(size_t text_length);

/*
 * Returns an empty tree whose buffers are parts of the caller's memory, which is aligned as that of
 * malloc, and must be valid as long as the tree is used. It begins at tree.nodes.at, so it is freed
 * by one call:
 *
 *   sf_text text = sf_cstr("a=1, b=\"\\\"\"");
 *   size_t size = sf_tree_memory_size(text.length);
 *   sf_tree tree = sf_tree_in_memory(malloc(size), size, text.length);
 *   if (sf_read_tree(&context, SF_DICT, text, &tree) != SF_OK)
 *     return EXIT_FAILURE;
 *   printf("%d nodes\n", (int)tree.nodes.length); // 2 nodes
 *   free(tree.nodes.at);
 *
 * The memory is enough for the value of each text of at most this length. If memory is NULL or not
 * aligned, or size is less than sf_tree_memory_size(text_length), the buffers are empty: a value
 * with a node is SF_TOO_MANY.
 */
static inline sf_tree sf_tree_in_memory(void *memory, size_t size, size_t text_length);

/*
 * Parses a text (RFC 9651 section 4.2) into a tree, by sf_parse:
 *
 *   sf_node nodes[16];
 *   char bytes[64];
 *   sf_tree tree = sf_tree_in(SF_NODES(nodes), SF_BUFFER(bytes));
 *   if (sf_read_tree(&context, SF_DICT, sf_cstr("a=1, sig=:YQ==:;created=7, b"), &tree) != SF_OK)
 *     return EXIT_FAILURE;
 *   const sf_node *sig = sf_find_member_of(&tree, "sig", SF_BYTE_SEQUENCE);
 *   const sf_node *created = sf_find_parameter_of(&tree, sig, "created", SF_INTEGER);
 *   if (created != NULL)
 *     printf("%d\n", (int)created->number); // 7
 *
 *   SF_OK         the tree is the value
 *   SF_TOO_MANY   the value has tree->nodes.required nodes, more than there is capacity for
 *   SF_SHORT      it may require tree->bytes.required bytes, more than there is capacity for
 *   SF_REFUSED    the text is malformed; context->refusal says where and why
 *   SF_TOO_LONG   the text, or what has to be decoded, has 4 GiB or more
 *   SF_NO_MEMORY, SF_BAD_CALL
 *
 * Unless SF_OK is returned, the tree is empty. Buffers of SF_NODES_SIZE(text.length) nodes and
 * SF_BYTES_SIZE(text.length) bytes are always large enough.
 */
SF_USE_RESULT
static inline sf_status sf_read_tree(sf_context *context, sf_kind kind, sf_text text,
                                    sf_tree *tree);

/* Returns the end of the nodes of a tree. This loop visits each member of the field:
 *
 *   for (const sf_node *node = tree.nodes.at; node < sf_tree_end(&tree); node += node->size)
 */
static inline const sf_node *sf_tree_end(const sf_tree *tree);

/* Returns the key of a node of a tree; the empty text if it has none. */
static inline sf_text sf_node_key(const sf_tree *tree, const sf_node *node);

/* Returns the bytes of a String, Token, Byte Sequence or Display String of a tree, without quotes
 * and decoded; the empty text for other types. */
static inline sf_text sf_node_text(const sf_tree *tree, const sf_node *node);

/* Returns the offset of a node of a tree that sf_read_tree read, in the text of that tree: where
 * its key begins, otherwise its Item or Inner List. If the key is repeated, the last one counts
 * (RFC 9651 section 3.2). For a node without a key, and for each node if a key is repeated, it
 * takes time in proportion to the length of the text: call it for the first wrong node of a text
 * from outside, not for each of many. sf_locate_offset returns the line. */
static inline size_t sf_node_offset(const sf_tree *tree, const sf_node *node);

/*
 * Returns the Item of an Inner List after this one, or the first if it is NULL; after the last,
 * NULL.
 * This loop visits each Item of an Inner List:
 *
 *   for (const sf_node *item = NULL; (item = sf_next_item(list, item)) != NULL;)
 */
static inline const sf_node *sf_next_item(const sf_node *list, const sf_node *item);

/* Returns the parameter of an Item or Inner List after this one, or the first if it is NULL; after
 * the last, NULL. A loop likewise visits each. */
static inline const sf_node *sf_next_parameter(const sf_node *node, const sf_node *param);

/* Returns the member of a Dictionary that has this key (RFC 9651 section 3.2), or NULL. The key
 * ends with a NUL; sf_find takes one of a stated length. */
static inline sf_node *sf_find_member(const sf_tree *tree, const char *key);

/* Returns the parameter of an Item or an Inner List that has this key (RFC 9651 section 3.1.2), or
 * NULL. The node is one of the tree, or NULL; a parameter and NULL have no parameters. The key ends
 * with a NUL. */
static inline sf_node *sf_find_parameter(const sf_tree *tree, const sf_node *node,
                                         const char *key);

/* Return the same member and the same parameter, but NULL also if it is of another type than this:
 * SF_INNER_LIST, or the type of its bare item. */
static inline sf_node *sf_find_member_of(const sf_tree *tree, const char *key, sf_type type);
static inline sf_node *sf_find_parameter_of(const sf_tree *tree, const sf_node *node,
                                            const char *key, sf_type type);

/*
 * Changes the bare item of a node of a tree to an Integer, Decimal, Boolean or Date with this
 * number. The key and the parameters of the node stay. This code changes a parameter of a member,
 * before sf_write_tree writes the field:
 *
 *   sf_node *created = sf_find_parameter(&tree, member, "created");
 *   if (created != NULL)
 *     sf_set_number(created, SF_INTEGER, 1);
 *
 * sf_write_tree checks the type and the number. Returns nothing.
 */
static inline void sf_set_number(sf_node *node, sf_type type, int64_t number);

/*
 * Likewise changes the bare item of a node of a tree to a String, Token, Byte Sequence or Display
 * String with this value. It is copied after the bytes of the tree.
 *
 *   SF_OK        the node is changed
 *   SF_SHORT     tree->bytes.required bytes are required
 *   SF_TOO_LONG  the offset or the length of the value would be 4 GiB or more
 *
 * Unless SF_OK is returned, the value of the tree is unchanged.
 */
SF_USE_RESULT
static inline sf_status sf_set_text(sf_tree *tree, sf_node *node, sf_type type, sf_text value);

/* The size in bytes of a buffer that is large enough for the text of so many nodes whose keys and
 * bytes together have so many bytes: of a builder, nodes.length and bytes.length. */
#define SF_WRITTEN_SIZE(nodes, bytes) (sizeof(char[24]) * (nodes) + sizeof(char[3]) * (bytes))

/*
 * Writes the canonical text (RFC 9651 section 4.1) of a tree, changed or not, by sf_write. A buffer
 * of SF_WRITTEN_SIZE(tree->nodes.length, tree->text.length + tree->bytes.length) bytes is large
 * enough for a tree whose nodes share no bytes, as those of sf_read_tree do not.
 *
 *   sf_node nodes[8];
 *   char bytes[64], changed[64];
 *   sf_buffer out = SF_BUFFER(changed);
 *   sf_tree tree = sf_tree_in(SF_NODES(nodes), SF_BUFFER(bytes));
 *   if (sf_read_tree(&context, SF_DICT, sf_cstr("a=1;q=x, b"), &tree) != SF_OK ||
 *       sf_set_text(&tree, sf_find_member(&tree, "a"), SF_STRING, sf_cstr("y")) != SF_OK ||
 *       sf_write_tree(&context, &tree, &out) != SF_OK)
 *     return EXIT_FAILURE;
 *   printf("%.*s\n", SF_ARGS(out)); // a="y";q=x, b
 *
 *   SF_OK        the first out->length bytes of out are the text
 *   SF_SHORT     it has out->required bytes, more than the capacity
 *   SF_INVALID   the nodes do not describe a valid field; context->invalid is the index of the
 *                first node that is wrong
 *   SF_BAD_CALL  no text was read into the tree
 *   SF_NO_MEMORY
 */
SF_USE_RESULT
static inline sf_status sf_write_tree(sf_context *context, const sf_tree *tree, sf_buffer *out);

/*
 * Writes the bare item of a node of a tree, without its key and its parameters, as it is in a
 * canonical text: "a", :YQ==: or ?1. If the tree is as sf_read_tree made it, a buffer of
 * SF_CANONICAL_SIZE(tree->text.length) bytes is large enough.
 *
 *   SF_OK        the first out->length bytes of out are the text
 *   SF_SHORT     it has out->required bytes, more than the capacity
 *   SF_INVALID   the node is an Inner List, or was changed and is not valid
 *   SF_BAD_CALL  no text was read into the tree
 *   SF_NO_MEMORY
 */
SF_USE_RESULT
static inline sf_status sf_write_bare(sf_context *context, const sf_tree *tree, const sf_node *node,
                                     sf_buffer *out);

/* Writes an Item or an Inner List of a tree with its parameters, without the key of a member:
 * ("a" "b");q=1. The results and the size are those of sf_write_bare, but a parameter is
 * SF_INVALID. While the call runs, the nodes of the part are changed; after it the tree is as
 * before. */
SF_USE_RESULT
static inline sf_status sf_write_part(sf_context *context, sf_tree *tree, const sf_node *node,
                                     sf_buffer *out);

/* == Values that are built. == */

/*
 * A builder makes the nodes of a field in two of the caller's buffers, and keeps their sizes and
 * offsets. These calls build a Dictionary and write its text:
 *
 *   sf_node nodes[8];
 *   char bytes[64], text[64];
 *   sf_buffer out = SF_BUFFER(text);
 *   sf_builder field = sf_build(SF_NODES(nodes), SF_BUFFER(bytes));
 *   sf_begin_inner_list(&field, "sig1");
 *   sf_put_string(&field, NULL, "@method");
 *   sf_put_string(&field, NULL, "@path");
 *   sf_end_inner_list(&field);
 *   sf_param_integer(&field, "created", 1);
 *   sf_param_string(&field, "keyid", "k");
 *   if (sf_write_built(&context, SF_DICT, &field, &out) == SF_OK)
 *     printf("%.*s\n", (int)out.length, text); // sig1=("@method" "@path");created=1;keyid="k"
 *
 * A node is required for each Item, each Inner List and each parameter, and as many bytes as all
 * keys and texts have. These are copied, so a builder keeps no pointer to its arguments.
 *
 * The calls that change a builder return nothing. If one fails, it puts nothing, builder->status
 * says why, and later calls do nothing:
 *
 *   SF_SHORT     one of the two buffers is too small
 *   SF_BAD_CALL  a parameter with nothing before it that it could belong to, an Inner List in
 *                another, or an end without a beginning
 *   SF_TOO_LONG  the keys and bytes have 4 GiB or more
 *
 * Builders do not check what is put: sf_write_built does. It refuses bytes that are not a String, a
 * number out of range, a repeated key, or the nodes of a List if a Dictionary is to be written.
 * Only sf_write_built allocates, by sf_write.
 */
typedef struct sf_builder {
  sf_nodes nodes;      /* the first nodes.length are the nodes of what was put */
  sf_buffer bytes;     /* the first bytes.length are their keys and bytes */
  size_t last;         /* index of the Item or Inner List to which parameters are put */
  size_t inner_list;   /* index of the Inner List that was begun last */
  uint32_t is_open;    /* 1 if it has not been ended, otherwise 0 */
  uint32_t status;     /* SF_OK, or the status of the first call that failed */
} sf_builder;

/* Returns an empty builder with these buffers, which must be valid as long as the builder is used.
 * A builder need not be freed. */
static inline sf_builder sf_build(sf_nodes nodes, sf_buffer bytes);

/*
 * These put a bare item of one type, or a parameter. The key ends with a NUL, and is NULL except
 * for members of a Dictionary and for parameters; a text, too, ends with a NUL. A Decimal is in
 * thousandths, a Boolean is true if is_true is not 0, a Date is in seconds since
 * 1970-01-01T00:00:00Z, and a Display String is in UTF-8: for one with a NUL in it, call sf_put.
 */
static inline void sf_put_integer(sf_builder *builder, const char *key, int64_t number);
static inline void sf_put_decimal(sf_builder *builder, const char *key, int64_t thousandths);
static inline void sf_put_string(sf_builder *builder, const char *key, const char *text);
static inline void sf_put_token(sf_builder *builder, const char *key, const char *text);
static inline void sf_put_byte_sequence(sf_builder *builder, const char *key, sf_text bytes);
static inline void sf_put_boolean(sf_builder *builder, const char *key, int is_true);
static inline void sf_put_date(sf_builder *builder, const char *key, int64_t seconds);
static inline void sf_put_display_string(sf_builder *builder, const char *key, const char *text);

static inline void sf_param_integer(sf_builder *builder, const char *key, int64_t number);
static inline void sf_param_decimal(sf_builder *builder, const char *key, int64_t thousandths);
static inline void sf_param_string(sf_builder *builder, const char *key, const char *text);
static inline void sf_param_token(sf_builder *builder, const char *key, const char *text);
static inline void sf_param_byte_sequence(sf_builder *builder, const char *key, sf_text bytes);
static inline void sf_param_boolean(sf_builder *builder, const char *key, int is_true);
static inline void sf_param_date(sf_builder *builder, const char *key, int64_t seconds);
static inline void sf_param_display_string(sf_builder *builder, const char *key,
                                           const char *text);

/*
 * Puts a bare item of any type, with a key and a text of stated lengths. The functions below call
 * it. An Integer, Decimal, Boolean or Date has a number and an empty text; the other types have a
 * text and the number 0. SF_INNER_LIST puts an Inner List without Items; sf_begin begins one with
 * Items. If type is no sf_type, sf_write_built refuses the node.
 *
 * If an Inner List is open, the item is one of its Items; otherwise it is a member of the field.
 * The key is that of a member of a Dictionary; for an Item, a member of a List, and an Item of an
 * Inner List, it is empty.
 */
static inline void sf_put(sf_builder *builder, sf_text key, sf_type type, int64_t number,
                          sf_text text);

/* Puts a parameter, likewise. It belongs to the Item that was put last or, if an Inner List was
 * ended since, to that Inner List. */
static inline void sf_param(sf_builder *builder, sf_text key, sf_type type, int64_t number,
                            sf_text text);

/*
 * Begins an Inner List, which is a member of the field. What is put until sf_end_inner_list are its
 * Items and their parameters; the parameters that are put after the end, and before the next Item
 * or Inner List, are its own. The key has a stated length, which is 0 in a List.
 */
static inline void sf_begin(sf_builder *builder, sf_text key);

/*
 * Begins an Inner List, likewise.
 *
 * Here and below, keys and texts end with a NUL, and key is NULL except for members of a Dictionary
 * and for parameters.
 */
static inline void sf_begin_inner_list(sf_builder *builder, const char *key);

/* Ends the Inner List that is open. */
static inline void sf_end_inner_list(sf_builder *builder);

/*
 * Puts a copy of an Item or Inner List of a tree, with its parameters, or of a parameter. To change
 * a field, copy what stays, in order:
 *
 *   for (const sf_node *node = tree.nodes.at; node < sf_tree_end(&tree); node += node->size)
 *     sf_put_copy(&field, &tree, node);
 *
 * An Item becomes a member, or an Item of the Inner List that is open, wherever it was. A member
 * keeps its key, and an Item of an Inner List has none. For copies of a whole value, a builder with
 * SF_NODES_SIZE(text.length) nodes and SF_BYTES_SIZE(text.length) bytes is always large enough.
 */
static inline void sf_put_copy(sf_builder *builder, const sf_tree *tree, const sf_node *node);

/*
 * Writes the canonical text (RFC 9651 section 4.1) of what was put, by sf_write. A buffer of
 * SF_WRITTEN_SIZE(builder->nodes.length, builder->bytes.length) bytes is always large enough.
 *
 *   SF_OK        the first out->length bytes of out are the text. If it is empty, the field is not
 *                to be sent
 *   SF_SHORT     it has out->required bytes, more than the capacity
 *   SF_INVALID   the nodes do not describe a valid field of this kind; context->invalid is the
 *                index of the first node that is wrong
 *   SF_BAD_CALL  a call with the builder failed: builder->status says why
 *   SF_NO_MEMORY
 */
SF_USE_RESULT
static inline sf_status sf_write_built(sf_context *context, sf_kind kind,
                                      const sf_builder *builder, sf_buffer *out);

/* == Priority (RFC 9218). == */

/* The parameters of the Priority field of a request (RFC 9218 section 4), with defaults for absent
 * ones. */
typedef struct sf_priority_flags {
  uint8_t urgency;          /* from SF_URGENCY_FIRST to SF_URGENCY_LAST; SF_URGENCY_DEFAULT if the
                               field does not set it (4.1) */
  uint8_t incremental;      /* 1 if the response is of use as it arrives, otherwise 0 (4.2) */
  uint8_t has_urgency;      /* 1 if the field sets the urgency, otherwise 0 */
  uint8_t has_incremental;  /* 1 if the field sets incremental, otherwise 0 */
} sf_priority_flags;

/* Initialises the priority of a request whose field is absent or malformed, which sets nothing:
 * sf_priority_flags priority = SF_PRIORITY_UNSET; */
#define SF_PRIORITY_UNSET {SF_URGENCY_DEFAULT, 0, 0, 0}

/* What a server sets by the Priority field of a response (RFC 9218 section 8). A parameter that is
 * absent there has no default: it leaves what the client asked for. A struct of zeros sets nothing:
 * sf_response_priority_flags priority = {0, 0, 0, 0}; */
typedef struct sf_response_priority_flags {
  uint8_t urgency;          /* from SF_URGENCY_FIRST to SF_URGENCY_LAST; 0 if it is not set */
  uint8_t incremental;      /* 1 if the response is of use as it arrives, otherwise 0; 0 if it is
                               not set */
  uint8_t has_urgency;      /* 1 if the urgency is set, otherwise 0 */
  uint8_t has_incremental;  /* 1 if incremental is set, otherwise 0 */
} sf_response_priority_flags;

/*
 * Reads the Priority field of a request (RFC 9218 section 5), by sf_priority_in. `u=5, i` sets
 * urgency 5 and incremental.
 *
 *   SF_OK         *client is written
 *   SF_REFUSED    the text is not a well-formed Dictionary; context->refusal says where and why.
 *                 Treat the field as absent
 *   SF_NO_MEMORY, SF_BAD_CALL
 *
 * Unless SF_OK is returned, *client is unchanged: begin with SF_PRIORITY_UNSET.
 */
SF_USE_RESULT
static inline sf_status sf_read_priority(sf_context *context, sf_text text,
                                        sf_priority_flags *client);

/* Reads the Priority field of a response (RFC 9218 section 8), by sf_response_priority. The results
 * are those of sf_read_priority, with *server in the place of *client: begin with zeros. */
SF_USE_RESULT
static inline sf_status sf_read_response_priority(sf_context *context, sf_text text,
                                                 sf_response_priority_flags *server);

/*
 * Merges what the client asks for and what the server sets (RFC 9218 section 8), by
 * sf_priority_merge. Swapped arguments do not compile.
 *
 *   sf_priority_flags client = SF_PRIORITY_UNSET;
 *   sf_response_priority_flags server = {0, 0, 0, 0};
 *   if (sf_read_priority(&context, sf_cstr("u=5, i"), &client) == SF_NO_MEMORY ||
 *       sf_read_response_priority(&context, sf_cstr("u=1"), &server) == SF_NO_MEMORY)
 *     return EXIT_FAILURE;
 *   printf("%d\n", sf_merge_priority(client, server).urgency); // 1
 */
static inline sf_priority_flags sf_merge_priority(sf_priority_flags client,
                                                  sf_response_priority_flags server);

/* The size in bytes of a buffer that is large enough for each text of sf_priority_text and of
 * sf_response_priority_text. */
#define SF_PRIORITY_SIZE 9

/*
 * Writes the text of the Priority field of a request (RFC 9218 section 5), by sf_priority_text. A
 * buffer of SF_PRIORITY_SIZE bytes is always large enough.
 *
 *   SF_OK       the first out->length bytes of out are the text. If it is empty, the field is not
 *               to be sent
 *   SF_SHORT    it has out->required bytes, more than the capacity
 *   SF_INVALID  urgency is above SF_URGENCY_LAST, or a parameter is set whose has_ flag is 0
 */
SF_USE_RESULT
static inline sf_status sf_write_priority(sf_priority_flags client, sf_buffer *out);

/* Writes the text of the Priority field of a response (RFC 9218 section 8), by
 * sf_response_priority_text. The buffer and the results are those of sf_write_priority; SF_INVALID
 * also if urgency is SF_URGENCY_DEFAULT and has_urgency is 0. */
SF_USE_RESULT
static inline sf_status sf_write_response_priority(sf_response_priority_flags server,
                                                  sf_buffer *out);

/* The size in bytes of a buffer that is large enough for each text of sf_priority_change of a text
 * of this length. */
#define SF_PRIORITY_CHANGE_SIZE(length) (SF_CANONICAL_SIZE(length) + 2 + SF_PRIORITY_SIZE)

/*
 * Writes the Priority field of a request with what client sets, and keeps its other members (RFC
 * 9218 section 4), by sf_priority_change; a member that is set loses its parameters. What is set is
 * written also if it is the default, so this changes the field of a response (section 8), too: set
 * what the server sets. A buffer of SF_PRIORITY_CHANGE_SIZE(text.length) bytes is always large
 * enough.
 *
 *   sf_priority_flags priority = {.urgency = 1, .has_urgency = 1};
 *   char text[SF_PRIORITY_CHANGE_SIZE(6)];
 *   sf_buffer out = SF_BUFFER(text);
 *   if (sf_change_priority(&context, sf_cstr("x, u=5"), priority, &out) == SF_OK)
 *     printf("%.*s\n", SF_ARGS(out)); // x, u=1
 *
 *   SF_OK       the first out->length bytes of out are the text. If it is empty, the field is not
 *               to be sent
 *   SF_SHORT    it has out->required bytes, more than the capacity
 *   SF_REFUSED  the text is not a well-formed Dictionary; context->refusal says where and why
 *   SF_INVALID  client is not valid, as for sf_write_priority, also if the text is malformed
 *   SF_NO_MEMORY, SF_BAD_CALL
 */
SF_USE_RESULT
static inline sf_status sf_change_priority(sf_context *context, sf_text text,
                                          sf_priority_flags client, sf_buffer *out);

/* == Cache-Status (RFC 9211). == */

/* A range of bytes in one of the caller's buffers. */
typedef struct sf_span {
  size_t at;     /* offset of its first byte */
  size_t length; /* number of bytes */
} sf_span;

/* What a cache did with a request (RFC 9211 sections 2.1 and 2.2). */
typedef enum sf_outcome {
  SF_UNSAID = 0,    /* hit is not true, and fwd is absent */
  SF_HIT = 1,       /* it answered from its store: hit is true, and fwd is absent */
  SF_FORWARDED = 2, /* it forwarded the request: fwd is present, and hit is not true */
  SF_CONFLICT = 3   /* hit is true and fwd is present, though the RFC allows only one of them */
} sf_outcome;

/* Returns the name of an outcome, for messages: "unsaid", "hit", "forwarded" or "hit and
 * forwarded"; "?" if there is no such outcome. */
static inline const char *sf_outcome_name(uint32_t outcome);

/* Returns whether a status code is a valid one, from 100 to 599: RFC 9110 section 15 calls all
 * others invalid, but those up to SF_FWD_STATUS_MAX are read in sf_hop.status all the same. */
static inline int sf_is_valid_status(uint32_t status);

/* Why a cache forwarded a request (RFC 9211 section 2.2). */
typedef enum sf_forward {
  SF_NO_FORWARD = 0, /* fwd is absent */
  SF_BYPASS = 1,     /* bypass: the cache was configured not to handle the request */
  SF_METHOD = 2,     /* method: the semantics of the request's method require it */
  SF_URI_MISS = 3,   /* uri-miss: no stored response matched the URI */
  SF_VARY_MISS = 4,  /* vary-miss: one matched the URI, but none matched the request's headers */
  SF_MISS = 5,       /* miss: one of the two above; the cache does not say which */
  SF_REQUEST = 6,    /* request: a fresh one matched, but the request did not allow its use */
  SF_STALE = 7,      /* stale: the stored response was stale */
  SF_PARTIAL = 8,    /* partial: the stored response lacked a part of what was requested */
  SF_OTHER = 9       /* another token: see why_token */
} sf_forward;

/* Returns the token of a reason, as fwd has it; "" for SF_NO_FORWARD, SF_OTHER and other
 * numbers. */
static inline const char *sf_forward_name(uint32_t why);

/*
 * A cache on the path of a response, and what it did (RFC 9211 section 2). If a parameter is
 * absent, its number is 0 and its range is empty. A parameter of another type than the RFC states
 * counts as absent, and so does a fwd-status below SF_FWD_STATUS_MIN or above SF_FWD_STATUS_MAX;
 * without a fwd, so do fwd-status, stored and collapsed.
 */
typedef struct sf_hop {
  sf_span name;            /* the cache's name */
  sf_span why_token;       /* fwd: its token, also if why is not SF_OTHER (2.2) */
  sf_span key;             /* key: the cache key (2.7) */
  sf_span detail;          /* detail: further information from the cache (2.8) */
  int64_t ttl;             /* ttl: the remaining freshness lifetime in seconds; if negative, how
                              long the response has been stale (2.4); in the range of an Integer */
  uint16_t outcome;        /* an sf_outcome */
  uint16_t why;            /* fwd: an sf_forward (2.2) */
  uint16_t status;         /* fwd-status: the status code of the next hop's response (2.3) */
  uint8_t has_status;      /* 1 if fwd-status is present, otherwise 0 */
  uint8_t stored;          /* stored: 1 if the cache stored the response (2.5) */
  uint8_t has_stored;      /* 1 if stored is present, otherwise 0 */
  uint8_t collapsed;       /* collapsed: 1 if the request was collapsed with others (2.6) */
  uint8_t has_collapsed;   /* 1 if collapsed is present, otherwise 0 */
  uint8_t has_ttl;         /* 1 if ttl is present, otherwise 0 */
  uint8_t has_key;         /* 1 if key is present, otherwise 0 */
  uint8_t has_detail;      /* 1 if detail is present, otherwise 0 */
  uint8_t name_is_token;   /* 1 if the name is a Token, 0 if it is a String */
  uint8_t detail_is_token; /* 1 if detail is present and a Token, otherwise 0 */
} sf_hop;

/* A buffer for the hops of a path, like sf_nodes. */
typedef struct sf_hops {
  sf_hop *at;
  size_t capacity;
  size_t length;
  size_t required; /* after SF_SHORT, the capacity that is large enough */
} sf_hops;

/* Return a buffer over the caller's hops, with their number, and over an array of them. */
static inline sf_hops sf_hops_of(sf_hop *at, size_t capacity);
#define SF_HOPS(hops) sf_hops_of((hops), SF_LENGTH_OF(hops))

/* The caches on the path of a response, and what each did. */
typedef struct sf_hop_list {
  sf_hops hops;         /* the first hops.length are the path, the cache nearest the origin first */
  sf_buffer bytes;      /* their names, fwd tokens, keys and details: see sf_hop_part */
  const sf_hop *served; /* the hop that served the response: the last one whose outcome is SF_HIT;
                           NULL if there is none */
  size_t nameless;      /* after SF_NOT_A_CACHE, the index of the first member that is no cache */
} sf_hop_list;

/* Returns an empty list with these buffers, which must be valid as long as the list is used. */
static inline sf_hop_list sf_hop_list_in(sf_hops hops, sf_buffer bytes);

/* Returns the size in bytes of the memory that sf_hop_list_in_memory requires for the path of any
 * text of this length: at most 72 times the length, and 90; but SIZE_MAX likewise. */
static inline size_t sf_hops_memory_size(size_t text_length);

/* Returns an empty list whose buffers are parts of the caller's memory, likewise: see
 * sf_tree_in_memory. It begins at list.hops.at. If it is too small, a path with a hop is
 * SF_SHORT. */
static inline sf_hop_list sf_hop_list_in_memory(void *memory, size_t size, size_t text_length);

/*
 * Reads the Cache-Status field of a response (RFC 9211 section 2), by sf_cache_status_in: a hop for
 * each member, with the parameters that the RFC defines. sf_read_tree has the others, too:
 *
 *   sf_hop hops[8];
 *   char bytes[256];
 *   sf_hop_list list = sf_hop_list_in(SF_HOPS(hops), SF_BUFFER(bytes));
 *   if (sf_read_hops(&context, sf_cstr("origin; fwd=stale, \"edge\"; hit"), &list) != SF_OK)
 *     return EXIT_FAILURE;
 *   sf_text name = list.served == NULL ? sf_cstr("nobody") : sf_hop_part(&list, list.served->name);
 *   printf("%.*s\n", (int)name.length, name.at); // edge
 *
 *   SF_OK           the list is the path
 *   SF_SHORT        it requires list->hops.required hops and list->bytes.required bytes, and one of
 *                   the two buffers is smaller
 *   SF_NOT_A_CACHE  member list->nameless is the first that is not an Item of a String or a Token;
 *                   context->refusal has its place, and what a String or a Token begins with
 *   SF_REFUSED      the text is not a well-formed List; context->refusal says where and why
 *   SF_NO_MEMORY, SF_BAD_CALL
 *
 * Unless SF_OK is returned, the list is empty. Buffers of SF_NODES_SIZE(text.length) hops and
 * SF_BYTES_SIZE(text.length) bytes are always large enough.
 */
SF_USE_RESULT
static inline sf_status sf_read_hops(sf_context *context, sf_text text, sf_hop_list *list);

/* Returns a part of a hop of a list: its name, why_token, key or detail, such as sf_hop_part(&list,
 * hop->name); the empty text if the part is absent. */
static inline sf_text sf_hop_part(const sf_hop_list *list, sf_span part);

/* A hop that is to be written, and the bytes that its ranges are in. */
typedef struct sf_own_hop {
  sf_hop hop;
  sf_text bytes;
} sf_own_hop;

/*
 * Returns a hop of a cache with this name, which ends with a NUL; it is a Token if type is
 * SF_TOKEN, and otherwise a String. The hop says nothing yet. Set the members of its field hop that
 * this cache reports; bytes are those of the name, which are not copied:
 *
 *   sf_own_hop own = sf_hop_named("ExampleCDN", SF_TOKEN);
 *   own.hop.outcome = SF_HIT;
 *   own.hop.ttl = 30;
 *   own.hop.has_ttl = 1;
 *
 * For a key, a detail or a why_token, set bytes to a text that has the name and these, and the
 * range of each in the hop.
 */
static inline sf_own_hop sf_hop_named(const char *name, sf_type type);

/* The sizes in bytes of buffers that are large enough for each text of sf_hop_text, and of
 * sf_cache_status_append for a text of this length, for a hop whose ranges are in so many bytes. */
#define SF_HOP_SIZE(bytes_length) (sizeof(char[7]) * (bytes_length) + 128)
#define SF_APPENDED_SIZE(length, bytes_length)                                                     \
  (SF_CANONICAL_SIZE(length) + 2 + SF_HOP_SIZE(bytes_length))

/*
 * Writes the text of a Cache-Status field whose only member is this hop (RFC 9211 section 2), by
 * sf_hop_text. A buffer of SF_HOP_SIZE(own->bytes.length) bytes is always large enough.
 *
 *   SF_OK       the first out->length bytes of out are the text
 *   SF_SHORT    it has out->required bytes, more than the capacity
 *   SF_INVALID  own->hop is not a hop
 *
 * Does not allocate.
 */
SF_USE_RESULT
static inline sf_status sf_write_hop(sf_context *context, const sf_own_hop *own, sf_buffer *out);

/*
 * Writes a hop of a list that sf_read_hops read, as the canonical text of its member, for messages:
 * edge;hit;ttl=30. What sf_hop does not have is left out: parameters that the RFC does not define,
 * and those that count as absent. The i-th member of the tree that sf_read_tree or sf_find_tree
 * reads is hop i, with all parameters. A buffer of SF_HOP_SIZE(list->bytes.length) bytes is always
 * large enough. The results are those of sf_write_hop.
 *
 *   sf_hop hops[8];
 *   char bytes[64], text[SF_HOP_SIZE(64)];
 *   sf_buffer out = SF_BUFFER(text);
 *   sf_hop_list list = sf_hop_list_in(SF_HOPS(hops), SF_BUFFER(bytes));
 *   if (sf_read_hops(&context, sf_cstr("origin; fwd=miss, edge; x; ttl=30; hit"), &list) != SF_OK)
 *     return EXIT_FAILURE;
 *   for (size_t i = 0; i < list.hops.length; ++i)
 *     if (sf_write_hop_in(&list, &hops[i], &out) == SF_OK)
 *       printf("%.*s\n", SF_ARGS(out)); // origin;fwd=miss
 *       // edge;hit;ttl=30
 */
SF_USE_RESULT
static inline sf_status sf_write_hop_in(const sf_hop_list *list, const sf_hop *hop, sf_buffer *out);

/*
 * Writes the Cache-Status field that was received with this hop as its last member (RFC 9211
 * section 2), by sf_cache_status_append. The text is that of the lines that were received, joined,
 * or empty; what is written is sent in their place. A buffer of SF_APPENDED_SIZE(text.length,
 * own->bytes.length) bytes is always large enough. With the hop of the comment of sf_hop_named,
 * `origin; fwd=miss` becomes `origin;fwd=miss, ExampleCDN;hit;ttl=30`. A member that names no
 * cache, for which sf_read_hops returns SF_NOT_A_CACHE, stays where it is: only a malformed List is
 * refused.
 *
 *   SF_OK       the first out->length bytes of out are the text
 *   SF_SHORT    it has out->required bytes, more than the capacity
 *   SF_REFUSED  the text that was received is not a well-formed List; context->refusal says where
 *               and why. Send the text of sf_write_hop in its place
 *   SF_INVALID  own->hop is not a hop, or its outcome is SF_CONFLICT
 *   SF_NO_MEMORY, SF_BAD_CALL
 */
SF_USE_RESULT
static inline sf_status sf_append_hop(sf_context *context, sf_text text, const sf_own_hop *own,
                                     sf_buffer *out);

/*
 * Writes the Cache-Status field to be sent in the place of the lines that were received: with this
 * hop as its last member, as sf_append_hop does; or, if what was received is malformed, this hop
 * alone, as sf_write_hop does.
 *
 *   sf_own_hop own = sf_hop_named("edge", SF_TOKEN);
 *   own.hop.outcome = SF_HIT;
 *   char text[SF_APPENDED_SIZE(16, 4)];
 *   sf_buffer out = SF_BUFFER(text);
 *   uint32_t is_appended;
 *   if (sf_append_or_write_hop(&context, sf_cstr("origin; fwd=miss"), &own, &out, &is_appended) ==
 *       SF_OK)
 *     printf("%.*s\n", SF_ARGS(out)); // origin;fwd=miss, edge;hit
 *
 *   SF_OK       the first out->length bytes of out are the text. *is_appended is 1 if it has what
 *               was received; 0 if that is malformed: context->refusal says where and why
 *   SF_SHORT    it has out->required bytes, more than the capacity
 *   SF_INVALID  own->hop is not a hop, or its outcome is SF_CONFLICT
 *   SF_NO_MEMORY, SF_BAD_CALL
 *
 * Unless SF_OK is returned, *is_appended is unchanged.
 */
SF_USE_RESULT
static inline sf_status sf_append_or_write_hop(sf_context *context, sf_text text,
                                              const sf_own_hop *own, sf_buffer *out,
                                              uint32_t *is_appended);

/* == Heads of messages. == */

/* A field line of a head. */
typedef struct sf_head_line {
  sf_text name;     /* of the field, in any case */
  sf_text value;    /* without the white space around it */
  sf_text received; /* the line as it was passed to sf_add_head_line, without its CR and LF; or the
                       value as it was passed to sf_add_field_line */
  uint64_t number;  /* of the line, as messages have it: see sf_locate_in_head */
} sf_head_line;

/* The number of field lines that is large enough for a head of so many bytes. */
#define SF_HEAD_LINES_SIZE(length) ((sizeof(char) * (length) + 1) / 3)

/* A buffer for the field lines of a head. */
typedef struct sf_head_lines {
  sf_head_line *at;
  size_t capacity;
  size_t length;
  size_t required; /* after SF_SHORT, the capacity that is required */
} sf_head_lines;

/* Return a buffer over the caller's field lines, with their number, and over an array of them. */
static inline sf_head_lines sf_head_lines_of(sf_head_line *at, size_t capacity);
#define SF_HEAD_LINES(lines) sf_head_lines_of((lines), SF_LENGTH_OF(lines))

/* Why a line or a field of a head counts as malformed. */
typedef enum sf_reason {
  SF_FAULT_REFUSED = 91,    /* it is refused: location.refusal says where and why */
  SF_FAULT_NOT_A_DATE = 92, /* the first line of Expires or Date is no HTTP-date (RFC 9110 section
                               5.6.7) */
  SF_FAULT_REPEATED = 93,   /* there is a second line of Expires or Date */
  SF_FAULT_NOT_AN_AGE = 94, /* the first member of Age is not one or more digits (RFC 9111 section
                               5.1) */
  SF_FAULT_NOT_A_LINE = 95, /* the line is no field line: location.refusal says where and why; see
                               sf_add_head_line */
  SF_FAULT_NO_END = 96,     /* the head does not end with an empty line, or is cut off in a
                               line: see sf_take_head */
  SF_FAULT_NOT_A_START = 97, /* the first line is neither a start line nor a field line; the
                                message of sf_show_fault says why it is neither */
  SF_FAULT_NOT_A_CACHE = 98, /* a member of Cache-Status does not name a cache: location.refusal is
                                as that of sf_read_hops. Each such member is a fault */
  SF_FAULT_NO_REQUEST_LINE = 101, /* there is no request line, but one was expected: see
                                     sf_take_request */
  SF_FAULT_NO_STATUS_LINE = 102,  /* the same for a status line: see sf_take_response */
  SF_FAULT_OWN = 104,             /* the program found it: see sf_add_fault */
  SF_FAULT_NOT_SECONDS = 105,     /* max-age or s-maxage is no number of seconds: if it counts, the
                                     response is stale (RFC 9111 section 4.2.1) */
  SF_FAULT_OTHER_SECONDS = 106,   /* the same, since Cache-Control has it with two numbers: this is
                                     the second */
  SF_FAULT_SPACE_BEFORE_COLON = 107, /* the line of a response has white space before its colon:
                                        see sf_add_head_line */
  SF_FAULT_OTHER_AGE = 108 /* Age has a second line, or in its first line a second member that is
                              not empty: the first member counts (RFC 9111 section 5.1) */
} sf_reason;

/* A line or a field of a head that is malformed. */
typedef struct sf_fault {
  const char *field;    /* the name by which the field was looked up; "" if the fault is about no
                           field, as those of lines, of the start line and of the end */
  uint32_t reason;      /* an sf_reason */
  sf_location location; /* the line as it was received, and the place in it. For SF_FAULT_REPEATED,
                           that is where the value begins; for SF_FAULT_NOT_A_DATE, the part of the
                           date that is wrong; for a number of seconds, the argument of the
                           directive; for Age, the first byte of the first member that is no digit
                           or, if the member is empty, its end, or where the second member or line
                           begins. For SF_FAULT_NOT_A_START, it is that of the first CR, LF or NUL;
                           otherwise, if the line begins with HTTP/, or a status line is required,
                           where it can't go on as a status line; otherwise, if it begins with a
                           method and a space, where it can't go on as a request line, such as at a
                           space in the target; otherwise where it can't go on as a field line. For
                           a missing start line, it is the beginning of the first line that is not
                           empty. For SF_FAULT_NO_END, it is the end of the text: if the last line
                           has no line end, the end of that line, with its CR. Otherwise, and for a
                           missing start line if there is no line, the line is empty, and its number
                           that of the line to be added next. For all of these, the refusal says
                           only where, not why */
  const char *message;  /* of SF_FAULT_OWN, that of sf_add_fault; otherwise what sf_show_fault says
                           of the part that is expected, of the directive, or of the status line
                           that is required, or NULL */
} sf_fault;

/* A buffer for faults. A head has at most one for each line that is no field line or has white
 * space before its colon, three for Cache-Control, two for each target and for each of Expires,
 * Date and Age, one for each member of Cache-Status that names no cache, one for each other name
 * that is looked up, one for a missing start line, one for a missing end, and those of
 * sf_add_fault. */
typedef struct sf_faults {
  sf_fault *at;
  size_t capacity;
  size_t length;   /* how many were kept, those that were found first, in the order of the lines */
  size_t required; /* how many were found; one that was not kept may be counted again */
} sf_faults;

/* Return a buffer over the caller's faults, with their number, and over an array of them. */
static inline sf_faults sf_faults_of(sf_fault *at, size_t capacity);
#define SF_FAULTS(faults) sf_faults_of((faults), SF_LENGTH_OF(faults))

/* The head of a request or a response: its field lines, in order. */
typedef struct sf_head {
  sf_head_lines lines;    /* the first lines.length are those that were added */
  sf_buffer joined;       /* the fields of several lines that were looked up, joined */
  sf_text start;          /* the start line as it was received, without its CR and LF; empty if
                             there is none */
  sf_text method;         /* of a request line, case-sensitive (RFC 9110 section 9.1); otherwise
                             empty */
  uint64_t number;        /* of the line that is added next; 1 at first: set it if the caller's file
                             or stream has another */
  uint32_t status;        /* the status code, if the start line is a status line; otherwise 0 */
  uint32_t is_request;    /* 1 if the start line is a request line, otherwise 0 */
  uint32_t is_begun;      /* 1 after a line that is not empty, otherwise 0 */
  uint32_t is_incomplete; /* 1 if a line was refused, or the start line that sf_take_request or
                             sf_take_response expects is missing; otherwise 0. The line may have had
                             a directive, so sf_decide_response does not permit to store the
                             response */
  uint32_t is_truncated;  /* 1 from SF_REFUSED of sf_take_head until SF_OK, otherwise 0; likewise */
  sf_faults faults;       /* what was found to be malformed, if there is a buffer for it: that of
                             sf_head_in_memory, or head.faults = SF_FAULTS(array); of fields, only
                             what the calls read: sf_check_head adds the rest */
} sf_head;

/* Returns a head without lines, with these buffers, which must be valid as long as it is used. A
 * second buffer of as many bytes as the head has is always large enough if no field is looked up
 * again after sf_find_field or sf_find_tree looked it up: only they keep what they join. */
static inline sf_head sf_head_in(sf_head_lines lines, sf_buffer joined);

/*
 * Returns the size in bytes of the memory that sf_head_in_memory requires for the head that this
 * text begins with: at most 74 times the length of that head, and 1024. What comes after the empty
 * line that ends the head does not count.
 */
static inline size_t sf_head_memory_size(sf_text received);

/*
 * Returns a head without lines whose buffers, for its lines, for the fields of several lines and
 * for faults, are parts of the caller's memory, which is aligned as that of malloc, and must be
 * valid as long as the head is used. It begins at head.lines.at, so it is freed by one call:
 *
 *   sf_text rest = sf_cstr("GET / HTTP/1.1\r\nPriority: u=5\r\nPriority: i\r\n\r\n");
 *   size_t size = sf_head_memory_size(rest);
 *   sf_head head = sf_head_in_memory(malloc(size), size, rest);
 *   if (sf_take_request(&head, &rest) != SF_OK)
 *     return EXIT_FAILURE;
 *   printf("%.*s: %d lines\n", SF_ARGS(head.method), (int)head.lines.length); // GET: 2 lines
 *   free(head.lines.at);
 *
 * The memory is enough for the lines that sf_take_head takes from this text, up to the end of one
 * head. Then no call returns SF_SHORT because head.joined is too small if sf_find_field and
 * sf_find_tree look up each field at most once: they keep what they join. The other calls may look
 * up any field as often as they like. And no fault is lost if each field is looked up by one name,
 * always spelled the same, and read as one kind in one dialect, and sf_add_fault adds at most
 * eight.
 *
 * If memory is NULL or not aligned, or size is less than sf_head_memory_size(received), the buffers
 * are empty: the first field line is SF_SHORT, and faults are only counted.
 */
static inline sf_head sf_head_in_memory(void *memory, size_t size, sf_text received);

/*
 * Returns the first line of a text, with its LF if it has one, and takes it off the text. The empty
 * text is returned if nothing is left.
 *
 *   sf_text rest = sf_cstr("Age: 20\nDate: 0\n"), line;
 *   while ((line = sf_take_line(&rest)).length > 0) {
 *     printf("%.*s", SF_ARGS(line)); // Age: 20
 *   } // Date: 0
 */
static inline sf_text sf_take_line(sf_text *rest);

/*
 * Adds a field line as it was received (RFC 9112 section 5), with or without its CR and LF. It is
 * not copied: it must be valid as long as the head is used.
 *
 *   SF_OK       the line is added; or it is the first one, and a status line or a request line
 *               (sections 3 and 4), which sets head->start, and head->status, or head->is_request
 *               and head->method. A request line with white space in its target is none (section
 *               3.2). HTTP/2 200, which curl prints for HTTP/2, is a status line: a version may be
 *               one digit, and the space after the status code may be missing
 *   SF_EMPTY    it is empty: the head ends, unless it has not begun
 *   SF_REFUSED  it is no field line nor, as the first one, a start line: it has no colon, or before
 *               it no name (RFC 9110 section 5.1); it has a CR, LF or NUL within (section 5.5, and
 *               RFC 9112 section 2.2); it begins with white space, as one does that continues the
 *               line before (RFC 9112 section 5.2); or, in a request, there is white space before
 *               the colon. A cache that skips a refused line may miss a directive:
 *               head->is_incomplete is 1, and head->faults has the line, and where and why. No
 *               context->refusal is written
 *   SF_SHORT    head->lines.required lines are required
 *
 * Unless SF_SHORT is returned, the line counts: head->number is one greater. In a head that is not
 * that of a request, white space before the colon is skipped, and the line is added: it is a fault,
 * SF_FAULT_SPACE_BEFORE_COLON, since a proxy must remove it (section 5.1).
 */
SF_USE_RESULT
static inline sf_status sf_add_head_line(sf_head *head, sf_text line);

/*
 * Adds the lines of a head by sf_add_head_line, up to the empty line that ends it, and takes them
 * off the text. A line that is no field line is in head->faults. Empty lines before the first other
 * one are skipped (RFC 9112 section 2.2). A missing start line is no fault: head->status and
 * head->is_request stay 0, and head->start is empty.
 *
 *   SF_OK       the head has ended: *rest is what comes after it
 *   SF_REFUSED  the text ended before the head did. Lines may be missing: head->is_truncated is 1,
 *               and head->faults has SF_FAULT_NO_END, with the place at which the text ends. A last
 *               line without a line end is added, too. No context->refusal is written
 *   SF_SHORT    head->lines.required lines are required; *rest begins with the line that is too
 *               many
 */
SF_USE_RESULT
static inline sf_status sf_take_head(sf_head *head, sf_text *rest);

/*
 * Take the head of a request and of a response, likewise. Its first line that is not empty has to
 * be a request line or a status line, respectively (RFC 9112 section 2.1). If it is a start line of
 * the other kind or a field line, or if there is no line, that is a fault, and head->is_incomplete
 * is 1; likewise if it is neither. The lines after it are read all the same, in sf_take_request as
 * those of a request. The results are those of sf_take_head, so SF_OK also for such a head.
 *
 *   sf_head_line head_lines[8];
 *   sf_fault faults[4];
 *   char message[SF_FAULT_SIZE(0, 40)];
 *   sf_buffer out = SF_BUFFER(message);
 *   sf_text rest = sf_cstr("Age: 20\r\n\r\n");
 *   sf_head head = sf_head_in(SF_HEAD_LINES(head_lines), sf_buffer_of(NULL, 0));
 *   head.faults = SF_FAULTS(faults);
 *   if (sf_take_response(&head, &rest) == SF_OK && head.faults.length == 1 &&
 *       sf_show_fault(&faults[0], 40, &out) == SF_OK)
 *     printf("%.*s\n", SF_ARGS(out));
 *     // line 1, place 0: the head of a response begins with a status line
 *     // Age: 20
 *     // ^
 */
SF_USE_RESULT
static inline sf_status sf_take_request(sf_head *head, sf_text *rest);
SF_USE_RESULT
static inline sf_status sf_take_response(sf_head *head, sf_text *rest);

/*
 * Adds a field line by its name and its value, of which white space around it is no part. They are
 * not copied: they must be valid as long as the head is used.
 *
 *   SF_OK     the line is added
 *   SF_SHORT  head->lines.required lines are required
 */
SF_USE_RESULT
static inline sf_status sf_add_field_line(sf_head *head, sf_text name, sf_text value);

/* Returns whether a field line has this name, in any case (RFC 9110 section 5.1). */
static inline int sf_is_named(const sf_head_line *line, const char *name);

/* Returns whether a head has a field of this name, in any case: an absent field and an empty one
 * have the same text. */
static inline int sf_has_field(const sf_head *head, const char *name);

/*
 * Looks up a field of a head by its name, in any case, and joins its lines, as the functions that
 * read a text take them. A field of one line is not copied; several are joined in head->joined,
 * after the fields that were looked up before. Both are valid as long as the head is.
 *
 *   SF_OK     *text is the text of the field; the empty text if the head does not have it
 *   SF_SHORT  head->joined.required bytes are required
 *
 * Unless SF_OK is returned, *text is unchanged.
 */
SF_USE_RESULT
static inline sf_status sf_find_field(sf_head *head, const char *name, sf_text *text);

/*
 * Returns the line that a refusal is in, and the refusal in it, of the text of a field of a head,
 * as sf_find_field joins it. The index is that of the line in head->lines, 0 if the head does not
 * have the field; the line and the place in it are those of sf_head_line.received, so mostly with
 * the name of the field; the number is that of the line in the caller's file or stream:
 *
 *   sf_head_line head_lines[8];
 *   char bytes[64];
 *   sf_text priority;
 *   sf_head head = sf_head_in(SF_HEAD_LINES(head_lines), SF_BUFFER(bytes));
 *   head.number = 12;
 *   if (sf_add_head_line(&head, sf_cstr("Priority: u=5")) != SF_OK ||
 *       sf_add_head_line(&head, sf_cstr("priority: i=,")) != SF_OK ||
 *       sf_find_field(&head, "Priority", &priority) != SF_OK)
 *     return EXIT_FAILURE;
 *   sf_priority_flags client = SF_PRIORITY_UNSET;
 *   if (sf_read_priority(&context, priority, &client) == SF_REFUSED) {
 *     sf_location location = sf_locate_in_head(&context.refusal, &head, "Priority");
 *     printf("line %d, place %d\n", (int)location.number, (int)location.refusal.offset);
 *   } // line 13, place 12
 *
 * sf_show_excerpt_of_line writes the whole message. If the head does not have the field, the line
 * is empty, and its number 1.
 */
static inline sf_location sf_locate_in_head(const sf_refusal *refusal, const sf_head *head,
                                            const char *name);

/* Returns the line that has the byte at this offset of the text of a field of a head, as
 * sf_find_field joins it, likewise: location.number is the line, and location.refusal.offset the
 * place in it, from 0. Of that refusal only found is set besides. If the head does not have the
 * field, the line is empty, and its number that of the line after the last field line. */
static inline sf_location sf_locate_offset(const sf_head *head, const char *name,
                                           uint64_t offset);

/* == The fields of a head. == */

/* These calls look up a structured field of a head, and read, check or write it. A malformed field
 * counts as absent (RFC 9651 section 4.2), except for sf_check_field; head->faults has it, once. */

/*
 * Reads the Priority field of a request, as sf_read_priority does:
 *
 *   sf_head_line head_lines[8];
 *   char bytes[64], message[SF_FAULT_SIZE(8, 40)];
 *   sf_fault faults[4];
 *   sf_buffer out = SF_BUFFER(message);
 *   sf_head head = sf_head_in(SF_HEAD_LINES(head_lines), SF_BUFFER(bytes));
 *   head.faults = SF_FAULTS(faults);
 *   sf_text rest = sf_cstr("GET / HTTP/1.1\r\nPriority: u=5\r\npriority: i=?2\r\n\r\n");
 *   sf_priority_flags client;
 *   if (sf_take_request(&head, &rest) != SF_OK ||
 *       sf_find_priority(&context, &head, &client) != SF_OK)
 *     return EXIT_FAILURE;
 *   for (size_t i = 0; i < head.faults.length; ++i)
 *     if (sf_show_fault(&faults[i], 40, &out) == SF_OK)
 *       printf("%.*s\n", SF_ARGS(out));
 *       // line 3, place 13: Priority: byte 0x32 '2', expected `0` or `1`
 *       // priority: i=?2
 *       //              ^
 *
 *   SF_OK     *client is written: with defaults for what is absent
 *   SF_SHORT  head->joined.required bytes are required
 *   SF_NO_MEMORY, SF_BAD_CALL
 *
 * Unless SF_OK is returned, *client is unchanged. The lines that it joins are not kept in
 * head->joined.
 */
SF_USE_RESULT
static inline sf_status sf_find_priority(sf_context *context, sf_head *head,
                                        sf_priority_flags *client);

/* Reads the Priority field of a response, as sf_read_response_priority does. The results are those
 * of sf_find_priority, with *server in the place of *client: zeros for what is absent. */
SF_USE_RESULT
static inline sf_status sf_find_response_priority(sf_context *context, sf_head *head,
                                                 sf_response_priority_flags *server);

/* Reads both, and merges them as sf_merge_priority does, for the sender of the response. The
 * results are those of sf_find_priority, with *merged in the place of *client. */
SF_USE_RESULT
static inline sf_status sf_find_merged_priority(sf_context *context, sf_head *request,
                                               sf_head *response, sf_priority_flags *merged);

/*
 * Reads the Cache-Status field of a response, as sf_read_hops does. Each member that names no cache
 * is a fault, too, SF_FAULT_NOT_A_CACHE. For sf_hop_list_in_memory, the length of the head is
 * enough.
 *
 *   SF_OK     the list is the path, without hops if the field is absent or malformed
 *   SF_SHORT  head->joined.required bytes are required for the lines, or, if that is 0, the list
 *             requires larger buffers, as after sf_read_hops
 *   SF_NO_MEMORY, SF_BAD_CALL
 *
 * Unless SF_OK is returned, the list is empty. The lines that it joins are not kept in
 * head->joined.
 */
SF_USE_RESULT
static inline sf_status sf_find_hops(sf_context *context, sf_head *head, sf_hop_list *list);

/*
 * Reads a field of a kind into a tree, as sf_read_tree does. For sf_tree_in_memory, the length of
 * the head is enough.
 *
 *   SF_OK     the tree is the value, without nodes if the field is absent or malformed
 *   SF_SHORT  head->joined.required bytes are required for the lines, or, if that is 0,
 *             tree->bytes.required
 *   SF_TOO_MANY, SF_TOO_LONG, SF_NO_MEMORY, SF_BAD_CALL
 *
 * Unless SF_OK is returned, the tree is empty, and head->joined is as before. The text of the tree
 * is in the lines of the head, or in head->joined: it must be valid as long as the tree is used.
 */
SF_USE_RESULT
static inline sf_status sf_find_tree(sf_context *context, sf_kind kind, sf_head *head,
                                    const char *name, sf_tree *tree);

/*
 * Writes the Cache-Status field to be sent in the place of the lines of a head, as
 * sf_append_or_write_hop does: with this hop as its last member, or this hop alone if what was
 * received is no well-formed List. A member that names no cache stays where it is.
 *
 *   SF_OK       the first out->length bytes of out are the text
 *   SF_SHORT    head->joined.required bytes are required for the lines, or, if that is 0,
 *               out->required
 *   SF_INVALID  own->hop is not a hop, or its outcome is SF_CONFLICT
 *   SF_NO_MEMORY, SF_BAD_CALL
 *
 * The lines that it joins are not kept in head->joined.
 */
SF_USE_RESULT
static inline sf_status sf_add_hop(sf_context *context, sf_head *head, const sf_own_hop *own,
                                  sf_buffer *out);

/*
 * Checks whether a field of a head is well-formed, as sf_check_text does.
 *
 *   SF_OK       it is, or it is absent
 *   SF_REFUSED  it is not: it is a fault of the head, and context->refusal says why
 *   SF_SHORT    head->joined.required bytes are required
 *   SF_BAD_CALL
 *
 * An absent Item, of which the text is empty, is well-formed here. The lines that it joins are not
 * kept in head->joined. Does not allocate.
 */
SF_USE_RESULT
static inline sf_status sf_check_field(sf_context *context, sf_kind kind, sf_head *head,
                                      const char *name);

/* Adds the refusal of a field to the faults of a head, for other functions that read the text of
 * sf_find_field. Returns nothing. */
static inline void sf_note_refusal(sf_head *head, const char *name, const sf_refusal *refusal);

/*
 * Adds a fault that the program finds itself: at this offset of the text of a field of a head, as
 * sf_find_field joins it, such as sf_node_offset returns, with a message of at most 900 bytes,
 * which ends with a NUL. sf_show_fault shows it, as it does other faults. The name and the message
 * are not copied: they must be valid as long as the head is used. It takes time in proportion to
 * the number of lines, and adds a fault again if it is one already.
 *
 *   sf_head_line head_lines[4];
 *   sf_fault faults[4];
 *   sf_node nodes[8];
 *   char bytes[64], message[SF_FAULT_SIZE(15, 60)];
 *   sf_buffer out = SF_BUFFER(message);
 *   sf_head head = sf_head_in(SF_HEAD_LINES(head_lines), SF_BUFFER(bytes));
 *   head.faults = SF_FAULTS(faults);
 *   sf_text rest = sf_cstr("GET / HTTP/1.1\r\nSignature-Input: a=(\"@path\"), b=1\r\n\r\n");
 *   sf_tree tree = sf_tree_in(SF_NODES(nodes), sf_buffer_of(NULL, 0));
 *   if (sf_take_request(&head, &rest) != SF_OK ||
 *       sf_find_tree(&context, SF_DICT, &head, "Signature-Input", &tree) != SF_OK)
 *     return EXIT_FAILURE;
 *   for (const sf_node *node = nodes; node < sf_tree_end(&tree); node += node->size)
 *     if (node->type != SF_INNER_LIST)
 *       sf_add_fault(&head, "Signature-Input", sf_node_offset(&tree, node),
 *                    "expected an Inner List");
 *   for (size_t i = 0; i < head.faults.length; ++i)
 *     if (sf_show_fault(&faults[i], 60, &out) == SF_OK)
 *       printf("%.*s\n", SF_ARGS(out));
 *       // line 2, place 30: Signature-Input: expected an Inner List
 *       // Signature-Input: a=("@path"), b=1
 *       //                               ^
 *
 * If the head does not have a field of that name, the message is one line, with the number of the
 * line after the last field line; if the name is empty, it is left out. Returns nothing.
 */
static inline void sf_add_fault(sf_head *head, const char *name, uint64_t offset,
                                const char *message);

/* The sizes in bytes of buffers that are large enough for each message of sf_show_fault of a field
 * whose name has this length, such as that of the longest name, with this number of bytes of the
 * line at most; and of sf_show_fault_in, if the name of the file has so many bytes. */
#define SF_FAULT_SIZE(name_length, most)                                                           \
  (SF_REFUSAL_EXCERPT_SIZE(most) + sizeof(char) * (name_length))
#define SF_FAULT_IN_SIZE(file_length, name_length, most)                                           \
  (SF_FAULT_SIZE(name_length, most) + sizeof(char) * (file_length))

/*
 * Writes the error message of a fault: the number of the line and the place in it, from 0; the name
 * of the field, if it is about one; what is wrong; and, as sf_show_excerpt does, at most so many
 * bytes of the line around the place. If there is no line to show, as for SF_FAULT_NO_END after a
 * whole line, the message is one line. Bytes of the line that can't be printed are question marks.
 * A buffer of SF_FAULT_SIZE(strlen(fault->field), most) bytes is always large enough. The results
 * are those of sf_write_refusal.
 */
SF_USE_RESULT
static inline sf_status sf_show_fault(const sf_fault *fault, size_t most, sf_buffer *out);

/*
 * Writes the same message, and before it the name of the file that the head is from, which ends
 * with a NUL. If it is NULL or empty, it is left out. Bytes of the name that can't be printed are
 * question marks. A buffer of SF_FAULT_IN_SIZE(strlen(file), strlen(fault->field), most) bytes is
 * always large enough.
 *
 *   char message[SF_FAULT_IN_SIZE(5, 0, 40)];
 *   sf_buffer out = SF_BUFFER(message);
 *   sf_head_line head_lines[2];
 *   sf_fault faults[2];
 *   sf_head head = sf_head_in(SF_HEAD_LINES(head_lines), sf_buffer_of(NULL, 0));
 *   head.faults = SF_FAULTS(faults);
 *   if (sf_add_head_line(&head, sf_cstr("HTTP/1.1 200")) == SF_OK &&
 *       sf_add_head_line(&head, sf_cstr("Age 20")) == SF_REFUSED &&
 *       sf_show_fault_in("a.txt", &faults[0], 40, &out) == SF_OK)
 *     printf("%.*s\n", SF_ARGS(out));
 *     // a.txt, line 2, place 4: not a field line: no colon after the name
 *     // Age 20
 *     //     ^
 */
SF_USE_RESULT
static inline sf_status sf_show_fault_in(const char *file, const sf_fault *fault, size_t most,
                                        sf_buffer *out);

/* == What a cache decides (RFC 9111 and 9213). == */

/* A cache by who uses what it stores (RFC 9111 section 1). */
typedef enum sf_cache {
  SF_SHARED_CACHE = 31, /* stores responses for more than one user */
  SF_PRIVATE_CACHE = 32 /* stores responses for one user */
} sf_cache;

/* How a cache may use a response (RFC 9111 sections 3 and 4). */
typedef enum sf_reuse {
  SF_REUSE_NOT_STORED = 41,  /* it is not stored, so it is never used again */
  SF_REUSE_FRESH = 42,       /* it may be stored, and is used without validation */
  SF_REUSE_STALE = 43,       /* it may be stored; it is used without validation only if the cache is
                                disconnected, or if the client or the origin permits it (4.2.4) */
  SF_REUSE_REVALIDATE = 44,  /* it may be stored, by SF_BY_NO_CACHE only if its status code, Expires
                                or allows_storing permits it (3); it is never used without
                                validation: if the cache is disconnected, the answer is an error
                                (5.2.2.2) */
  SF_REUSE_UNSPECIFIED = 45  /* no directive sets a lifetime: it may be stored if its status code or
                                allows_storing permits it, and a heuristic may apply (4.2.2) */
} sf_reuse;

/* Returns the name of an sf_reuse: "not stored", "fresh", "stale", "revalidate" or "unspecified";
 * "?" if there is no such one. */
static inline const char *sf_reuse_name(uint32_t reuse);

/* The directive that decided (RFC 9111 section 5.2.2). */
typedef enum sf_cause {
  SF_BY_NOTHING = 51,          /* no directive */
  SF_BY_NO_STORE = 52,         /* no-store (5.2.2.5) */
  SF_BY_PRIVATE = 53,          /* private, in a shared cache (5.2.2.7) */
  SF_BY_MUST_UNDERSTAND = 54,  /* must-understand (5.2.2.3) */
  SF_BY_NO_CACHE = 55,         /* no-cache (5.2.2.4) */
  SF_BY_MAX_AGE = 56,          /* max-age (5.2.2.1) */
  SF_BY_S_MAXAGE = 57,         /* s-maxage, in a shared cache (5.2.2.10) */
  SF_BY_INVALID_MAX_AGE = 58,  /* a max-age that can't be used (4.2.1) */
  SF_BY_INVALID_S_MAXAGE = 59, /* an s-maxage that can't be used (4.2.1) */
  SF_BY_EXPIRES = 60,          /* sf_response.lifetime, by Expires (5.3) or a heuristic */
  SF_BY_MUST_REVALIDATE = 61,  /* must-revalidate (5.2.2.2) */
  SF_BY_PROXY_REVALIDATE = 62  /* proxy-revalidate, in a shared cache (5.2.2.8) */
} sf_cause;

/* Returns the name of the directive that decided, such as "no-store"; "" for SF_BY_NOTHING and for
 * a number that is no sf_cause. */
static inline const char *sf_cause_name(uint32_t cause);

/* What a cache decides about a response. */
typedef struct sf_decision {
  uint64_t seconds;          /* for how many seconds it stays fresh, at least 1; 0 if it is not
                                SF_REUSE_FRESH */
  uint8_t reuse;             /* an sf_reuse */
  uint8_t cause;             /* an sf_cause */
  uint8_t allows_storing;    /* 1 if a directive permits storing it, also if its status code is not
                                heuristically cacheable (RFC 9111 section 3), otherwise 0;
                                SF_REUSE_NOT_STORED forbids it all the same: see sf_may_store */
  uint8_t allows_authorized; /* 1 if a directive permits a shared cache to store it, though the
                                request had Authorization (3.5), otherwise 0; likewise */
} sf_decision;

/* A field of the target list of a cache (RFC 9213 section 2.2), and what sf_decide_response found
 * it to be. */
typedef struct sf_target {
  const char *name;   /* of the field, such as "CDN-Cache-Control" */
  uint32_t status;    /* SF_OK: it decides; SF_EMPTY: it is absent or has no members; SF_REFUSED: it
                         is malformed; SF_ABSENT: it was not read, since one before it decides */
  sf_refusal refusal; /* of SF_REFUSED, where and why: see sf_locate_in_head */
} sf_target;

/* Returns a target of this name, which ends with a NUL. */
static inline sf_target sf_target_of(const char *name);

/* What a cache knows of a response beside its head. Times are in seconds since 1970. */
typedef struct sf_exchange {
  uint32_t cache;         /* an sf_cache */
  uint32_t status;        /* the status code; 0 for that of the start line of the head. If that is
                             not known either, it is taken for a final one that is not
                             heuristically cacheable */
  uint32_t is_understood; /* 1 if the cache understands the status code and implements its
                             requirements, otherwise 0: counts for 206, 304 and must-understand.
                             Most caches understand 200; with 0, fewer responses are stored */
  uint32_t is_authorized; /* 1 if the request had Authorization, otherwise 0: see sf_set_request */
  uint32_t is_request_incomplete; /* 1 if the head of the request is incomplete or did not end, or
                                     is that of a response: it may have had Authorization or
                                     no-store; otherwise 0 */
  uint32_t is_other_method;       /* 1 if the method of the request is neither GET nor HEAD, for
                                     which caches mostly store no response (RFC 9110 section 9.2.3);
                                     otherwise 0 */
  uint32_t is_request_no_store;   /* 1 if the request had no-store (RFC 9111 section 5.2.1.5), or a
                                     malformed Cache-Control, in which it may be lost; otherwise
                                     0 */
  uint64_t requested;     /* when the request was sent */
  uint64_t received;      /* when the response was received */
  uint64_t now;           /* when the response would be used */
} sf_exchange;

/* Returns an exchange at one time: a response to a request that was sent just now, and that would
 * be used now. Of its other members, which are 0, set what is known. */
static inline sf_exchange sf_exchange_of(sf_cache cache, uint64_t now);

/* Sets is_authorized, is_request_incomplete, is_other_method and is_request_no_store of an exchange
 * by the head of the request. Without a request line, the method does not count. The first line of
 * Cache-Control that is malformed is a fault of that head. Returns nothing. */
static inline void sf_set_request(sf_exchange *exchange, sf_head *request);

/* Why a response may not be stored (RFC 9111 section 3). */
typedef enum sf_obstacle {
  SF_NO_OBSTACLE = 81,      /* it may be stored */
  SF_BARRED_DIRECTIVE = 82, /* the directive that is the cause of the decision forbids it */
  SF_BARRED_STATUS = 83,    /* the status code is not final, or is 206 or 304 and not understood */
  SF_BARRED_REQUEST = 84,   /* the request had Authorization, the cache is shared, and no directive
                               permits it (3.5) */
  SF_BARRED_UNPERMITTED = 85, /* nothing permits it: no directive or Expires that counts; the status
                                 code is not heuristically cacheable (RFC 9110 section 15.1) */
  SF_BARRED_HEAD = 86,        /* a line of the head is no field line (sf_head.is_incomplete), or the
                                 head did not end (is_truncated) */
  SF_BARRED_NO_RESPONSE = 87, /* the head is that of a request (is_request) */
  SF_BARRED_MALFORMED = 88,   /* no target decides, and a line of Cache-Control is malformed, so
                                 that it counts as no-store */
  SF_BARRED_REQUEST_HEAD = 89, /* the head of the request is incomplete, so that no-store or
                                  Authorization may be missing (is_request_incomplete) */
  SF_BARRED_METHOD = 90,       /* the method of the request is neither GET nor HEAD (RFC 9110
                                  section 9.2.3) */
  SF_BARRED_REQUEST_NO_STORE = 103 /* the request has no-store (5.2.1.5), or a malformed
                                      Cache-Control */
} sf_obstacle;

/* Returns an obstacle in words, such as "the status code forbids it"; "" for SF_NO_OBSTACLE and for
 * a number that is no sf_obstacle. */
static inline const char *sf_obstacle_name(uint32_t obstacle);

/* What a cache does with a response, by the whole of its head. */
typedef struct sf_verdict {
  uint32_t may_store;   /* 1 if it may be stored, otherwise 0 */
  uint32_t obstacle;    /* why it may not: an sf_obstacle */
  sf_decision decision; /* how it may be used, for how long it is fresh, and the directive that is
                           the cause; of a response that may not be stored, what the directives
                           alone say */
  uint64_t age;         /* its age in seconds, at most 2^31, to be sent as Age when used (4) */
  int64_t ttl;          /* the lifetime that decided, less the age, both at most 2^31, for
                           sf_hop.ttl: if negative, for how long the response has been stale; 0 if
                           has_ttl is 0 */
  uint32_t has_ttl;     /* 1 if a lifetime decided, otherwise 0, as by no-cache */
  const char *field;    /* the name of the field that decides: that of a target, otherwise Expires
                           or Cache-Control; NULL if no target decides and the head has neither */
  size_t target;        /* index of that target; the length of the target list if none decides */
  uint32_t is_refused;  /* 1 if no target decides and a line of Cache-Control is malformed, so that
                           it counts as no-store; otherwise 0 */
  size_t refused_line;  /* index in head->lines of the first such line; 0 if there is none */
  uint32_t is_age_malformed;     /* 1 if the first member of Age is not one or more digits, so that
                                    it counts as 0; otherwise 0 */
  uint32_t is_expires_malformed; /* 1 if no target decides and Expires is no HTTP-date or has
                                    several lines, so that it is in the past; otherwise 0 */
  uint32_t is_date_malformed;    /* the same for Date, for which exchange->received counts */
} sf_verdict;

/*
 * Decides what a cache does with a response, by all fields of its head that count: the targeted
 * fields in the order of the target list, and if none of them is well-formed and not empty
 * Cache-Control and Expires less Date (RFC 9213 section 2.2), by Age, and by the status code (RFC
 * 9111 sections 3, 4.2 and 5.2.2).
 *
 *   const char *received[] = {"CDN-Cache-Control: max-age=600,", "Cache-Control: max-age=60",
 *                             "Age: 20"};
 *   sf_head_line head_lines[8];
 *   char bytes[64];
 *   sf_head head = sf_head_in(SF_HEAD_LINES(head_lines), SF_BUFFER(bytes));
 *   for (int i = 0; i < 3; ++i)
 *     if (sf_add_head_line(&head, sf_cstr(received[i])) != SF_OK)
 *       return EXIT_FAILURE;
 *   sf_target targets[] = {sf_target_of("ExampleCDN-Cache-Control"),
 *                          sf_target_of("CDN-Cache-Control")};
 *   sf_exchange exchange = sf_exchange_of(SF_SHARED_CACHE, 784111777);
 *   exchange.status = 200;
 *   sf_verdict verdict;
 *   if (sf_decide_response(&context, &head, targets, 2, &exchange, &verdict) != SF_OK)
 *     return EXIT_FAILURE;
 *   printf("%s: %s for %d s, by %s\n", verdict.field, sf_reuse_name(verdict.decision.reuse),
 *          (int)verdict.decision.seconds, sf_cause_name(verdict.decision.cause));
 *   // Cache-Control: fresh for 40 s, by max-age
 *   if (targets[1].status == SF_REFUSED)
 *     printf("%s is ignored: place %d\n", targets[1].name, (int)targets[1].refusal.offset);
 *   // CDN-Cache-Control is ignored: place 12
 *
 *   SF_OK         *verdict is written, and the status of each target, and its refusal
 *   SF_SHORT      head->joined.required bytes are required
 *   SF_BAD_CALL   there is no such dialect or cache
 *   SF_NO_MEMORY
 *
 * Unless SF_OK is returned, *verdict is unchanged. What counts and is malformed is in head->faults,
 * too (sf_check_head adds what does not count, such as a target after the one that decides): of
 * Cache-Control the first such line; of Expires the first if malformed, and the second; and so of
 * Date, if there is Expires. These two are faults only if the lifetime by Expires counts: not
 * beside a target that decides, a max-age, in a shared cache an s-maxage, or a directive that
 * forbids storing or asks for validation; for "0" and the like have a meaning (RFC 9111 section
 * 5.3). A max-age or s-maxage that is no number of seconds makes the response stale (section
 * 4.2.1), and is a fault if it counts likewise. A malformed Age is ignored (section 5.1), and is
 * always a fault, also of a response that is not stored: it has no such meaning. So is a second
 * line or member of Age, which is ignored, too.
 *
 * The method and no-store of the request count as sf_set_request sets them. The rest is the
 * caller's: the heuristics of section 4.2.2, Vary and other directives of the request when the
 * response is used (sections 4.1 and 5.2.1), and what extensions of Cache-Control ask for (section
 * 5.2.3). The fields that it joins are not kept in head->joined. Does not allocate.
 */
SF_USE_RESULT
static inline sf_status sf_decide_response(sf_context *context, sf_head *head, sf_target *targets,
                                          size_t targets_length, const sf_exchange *exchange,
                                          sf_verdict *verdict);

/*
 * Adds each malformed field that this library reads to head->faults, also if it does not count for
 * a decision: Priority, Cache-Status, Cache-Control, Expires, Date, Age and the field of each
 * target, and each max-age or s-maxage that is no number of seconds; if head->is_request is 1,
 * Priority and Cache-Control, as sf_set_request reads it. Expires: 0 beside no-store is a fault,
 * too.
 *
 *   sf_text rest = sf_cstr("HTTP/1.1 200 OK\r\nCDN-Cache-Control: max-age=60\r\n"
 *                          "Cache-Control: max-age=\r\nAge: 20, 30\r\n\r\n");
 *   size_t size = sf_head_memory_size(rest);
 *   sf_head head = sf_head_in_memory(malloc(size), size, rest);
 *   sf_target target = sf_target_of("CDN-Cache-Control");
 *   char message[SF_FAULT_SIZE(17, 40)];
 *   sf_buffer out = SF_BUFFER(message);
 *   if (sf_take_response(&head, &rest) != SF_OK ||
 *       sf_check_head(&context, &head, &target, 1) != SF_OK)
 *     return EXIT_FAILURE;
 *   for (size_t i = 0; i < head.faults.length; ++i)
 *     if (sf_show_fault(&head.faults.at[i], 40, &out) == SF_OK)
 *       printf("%.*s\n", SF_ARGS(out));
 *       // line 3, place 23: Cache-Control: the text ended, expected a token or a quoted-string
 *       // Cache-Control: max-age=
 *       //                        ^
 *       // line 4, place 9: Age: there are several values
 *       // Age: 20, 30
 *       //          ^
 *   free(head.lines.at);
 *
 *   SF_OK         what is malformed is in head->faults
 *   SF_SHORT      head->joined.required bytes are required
 *   SF_BAD_CALL   there is no such dialect
 *   SF_NO_MEMORY
 *
 * A fault that is there already is not added again: call it before or after the other calls, whose
 * results it does not change. Of the targets, only the names are read. The fields that it joins are
 * not kept in head->joined. Does not allocate.
 */
SF_USE_RESULT
static inline sf_status sf_check_head(sf_context *context, sf_head *head, const sf_target *targets,
                                     size_t targets_length);

/* The size in bytes of a buffer that is large enough for each text of sf_write_verdict if the name
 * of the field has this length. */
#define SF_VERDICT_SIZE(name_length) (sizeof(char) * (name_length) + 192)

/*
 * Writes a verdict in words: the field, unless it is NULL; sf_reuse_name and, if fresh, seconds, or
 * "no lifetime set" for SF_REUSE_UNSPECIFIED; sf_cause_name, unless it is that of SF_BY_EXPIRES, or
 * "malformed" if is_refused is 1; and "may be stored", or the obstacle, unless it is
 * SF_BARRED_DIRECTIVE or SF_BARRED_MALFORMED. Such as
 *
 *   CDN-Cache-Control: fresh for 600 s (max-age); may be stored
 *   Cache-Control: no lifetime set; not stored: the head is incomplete
 *   Cache-Control: not stored (no-store)
 *
 *   SF_OK     the first out->length bytes of out are the text
 *   SF_SHORT  it has out->required bytes, more than the capacity
 */
SF_USE_RESULT
static inline sf_status sf_write_verdict(const sf_verdict *verdict, sf_buffer *out);

/* Returns the hop of a cache with this name that forwarded the request for this reason, with
 * `stored` and `ttl` by the verdict: see sf_hop_named, and for SF_OTHER set why_token. */
static inline sf_own_hop sf_hop_of_verdict(const char *name, sf_type type, sf_forward why,
                                           const sf_verdict *verdict);

/* == The parts of that decision. == */

/* A program that has its own heads calls these, and sf_decide and sf_fallback_lifetime of
 * sf_functions.h. */

/* The directives of a targeted field (RFC 9213 section 2.1, RFC 9111 section 5.2.2). */
typedef struct sf_policy {
  uint64_t max_age;        /* max-age in seconds; 0 if has_max_age is 0 */
  uint64_t s_maxage;       /* s-maxage in seconds; 0 if has_s_maxage is 0 */
  uint8_t has_max_age;     /* 1 if max-age is present with an Integer of at least 0, otherwise 0 */
  uint8_t has_s_maxage;    /* the same for s-maxage */
  uint8_t must_revalidate; /* 1 if the directive is present and not ?0, otherwise 0 */
  uint8_t no_store;        /* the same for no-store */
  uint8_t no_cache;        /* the same for no-cache */
  uint8_t is_private;      /* the same for private */
} sf_policy;

/* The directives that decide how a cache handles a response (RFC 9111 section 5.2.2), for
 * sf_decide. */
typedef struct sf_rules {
  sf_policy policy;
  uint8_t invalid_max_age;  /* 1 if max-age is present, but is not an Integer of at least 0: the
                               response is stale (RFC 9111 section 4.2.1), unless it is a shared
                               cache that has s-maxage, and policy.max_age has no effect;
                               otherwise 0 */
  uint8_t invalid_s_maxage; /* the same for s-maxage, in a shared cache */
  uint8_t proxy_revalidate; /* 1 if the directive is present and not ?0, otherwise 0 */
  uint8_t must_understand;  /* 1 if the directive is Boolean true, otherwise 0: it permits to ignore
                               no-store */
  uint8_t is_public;        /* 1 if public is Boolean true, otherwise 0 */
} sf_rules;

/*
 * Reads one targeted field (RFC 9213 section 2.1), such as CDN-Cache-Control, for sf_decide, by
 * sf_cache_rules.
 *
 *   SF_OK         *rules is written
 *   SF_EMPTY      the Dictionary has no members: ignore the field
 *   SF_REFUSED    the text is not a well-formed Dictionary: ignore the field; context->refusal says
 *                 where and why
 *   SF_NO_MEMORY, SF_BAD_CALL
 *
 * Unless SF_OK is returned, *rules is unchanged.
 */
SF_USE_RESULT
static inline sf_status sf_read_rules(sf_context *context, sf_text text, sf_rules *rules);

/* The field of a target list that a cache obeys, and its directives. */
typedef struct sf_choice {
  size_t index;   /* of the field, from 0 */
  sf_rules rules; /* for sf_decide */
} sf_choice;

/*
 * Chooses the field that a cache obeys: the first of its target list that is well-formed and not
 * empty (RFC 9213 section 2.2). The fields are in the order of the list; one that the response does
 * not have is an empty text. It is sf_select_rules for texts that may be in different buffers.
 *
 *   sf_text fields[] = {sf_cstr("max-age=60,"), sf_cstr("max-age=600")};
 *   sf_response response = {0, 0, 0, 0};
 *   sf_choice choice;
 *   sf_decision decision;
 *   if (sf_choose_rules(&context, fields, 2, &choice) == SF_OK &&
 *       sf_decide(&choice.rules, SF_SHARED_CACHE, &response, &decision) == SF_OK)
 *     printf("%s for %d s\n", sf_reuse_name(decision.reuse), (int)decision.seconds);
 *     // fresh for 600 s
 *
 *   SF_OK         fields[choice->index] is the field; those before it are ignored
 *   SF_EMPTY      every field is ignored: Cache-Control and Expires decide, see
 *                 sf_add_fallback_line
 *   SF_NO_MEMORY, SF_BAD_CALL
 *
 * Unless SF_OK is returned, *choice is unchanged. context->refusal is that of the last field that
 * is malformed.
 */
SF_USE_RESULT
static inline sf_status sf_choose_rules(sf_context *context, const sf_text *fields,
                                       size_t fields_length, sf_choice *choice);

/* What a cache knows of a response beside its directives. In a struct of zeros the response is new,
 * has no other lifetime, and its status code is not understood. */
typedef struct sf_response {
  uint64_t age;          /* its age in seconds (RFC 9111 section 4.2.3); sf_read_age reads a part of
                            it, the Age field */
  uint64_t lifetime;     /* the seconds from Date to Expires (4.2.1), as sf_fallback_lifetime sets
                            them, unless a targeted field decides, by which Expires is ignored (RFC
                            9213 section 2.2), or of a heuristic, if one may apply (4.2.2); they
                            count if no directive sets a lifetime; 0 if there are none */
  uint8_t has_lifetime;  /* 1 if there is such a lifetime, otherwise 0 */
  uint8_t is_understood; /* 1 if the cache understands the status code and implements its
                            requirements, otherwise 0: must-understand forbids to store the response
                            if it is 0, and no-store beside it is ignored if it is 1 (5.2.2.3) */
} sf_response;

/* A field by which a cache decides if every field of its target list is ignored (RFC 9213 section
 * 2.2). */
typedef enum sf_fallback_field {
  SF_FALLBACK_CACHE_CONTROL = 71, /* Cache-Control (RFC 9111 section 5.2) */
  SF_FALLBACK_EXPIRES = 72,       /* Expires (5.3) */
  SF_FALLBACK_DATE = 73           /* Date (RFC 9110 section 6.6.1) */
} sf_fallback_field;

/* The time of Expires or of Date, by the lines so far. */
typedef struct sf_time {
  uint64_t seconds; /* since 1970; 0 unless lines is 1 */
  uint32_t lines;   /* 0 without a line; 1 if the only line is an HTTP-date (RFC 9110 section
                       5.6.7); otherwise 2 */
} sf_time;

/* What these fields say, by the lines so far. Begin with zeros. */
typedef struct sf_fallback {
  sf_rules rules;      /* the directives of Cache-Control, for sf_decide */
  sf_time expires;     /* Expires */
  sf_time date;        /* Date */
  uint32_t is_refused; /* 1 if a line of Cache-Control is not a list of directives, otherwise 0: the
                          directives are then those of no-store */
} sf_fallback;

/* Returns what Cache-Control, Expires and Date say before the first line: nothing. */
static inline sf_fallback sf_fallback_begin(void);

/*
 * Adds one line of Cache-Control, Expires or Date, by which a cache decides if sf_choose_rules
 * returns SF_EMPTY. Call this for each line in order, as it is: white space around the value is
 * skipped. The result, that of sf_fallback_line, may be ignored: after SF_REFUSED the directives
 * are those of no-store.
 *
 *   sf_fallback fallback = sf_fallback_begin();
 *   sf_response response = {0, 0, 0, 0};
 *   sf_decision decision;
 *   sf_add_fallback_line(&fallback, SF_FALLBACK_CACHE_CONTROL, sf_cstr("Public, , "));
 *   sf_add_fallback_line(&fallback, SF_FALLBACK_EXPIRES, sf_cstr("Sun, 06 Nov 1994 08:50:37 GMT"));
 *   sf_add_fallback_line(&fallback, SF_FALLBACK_DATE, sf_cstr("Sun, 06 Nov 1994 08:49:37 GMT"));
 *   sf_fallback_lifetime(&fallback, 784111777, &response);
 *   if (sf_decide(&fallback.rules, SF_SHARED_CACHE, &response, &decision) == SF_OK)
 *     printf("%s for %d s\n", sf_reuse_name(decision.reuse), (int)decision.seconds);
 *     // fresh for 60 s
 */
static inline sf_status sf_add_fallback_line(sf_fallback *fallback, sf_fallback_field field,
                                             sf_text line);

/*
 * Reads the Age field of a response, for sf_response.age: the number of the first member (RFC 9111
 * section 5.1). A number above 2^31 counts as 2^31 (section 1.2.2), so that seconds can be added.
 * The text is that of the lines, joined; white space around the number is no part of it.
 *
 *   uint64_t age = 0;
 *   if (sf_read_age(sf_cstr("20, 70"), &age) == SF_OK)
 *     printf("%d\n", (int)age); // 20
 *
 *   SF_OK       *seconds is the age
 *   SF_EMPTY    the text is empty: the response has no Age
 *   SF_REFUSED  the first member is not one or more digits, such as -5, 90x or nothing: ignore the
 *               field. Age is no structured field, so no sf_refusal is written
 *
 * Unless SF_OK is returned, *seconds is unchanged: begin with 0. Does not allocate.
 */
SF_USE_RESULT
static inline sf_status sf_read_age(sf_text text, uint64_t *seconds);

/*
 * Returns 1 if the response may be stored by what was decided (RFC 9111 section 3): it is not
 * SF_REUSE_NOT_STORED, and a directive or sf_response.lifetime sets how long it is fresh, or
 * allows_storing is 1. Otherwise returns 0: it is not to be stored, or only if its status code is
 * heuristically cacheable (RFC 9110 section 15.1) or, beside no-cache, if it has Expires. In both
 * cases the status code has to be final, and the cache has to understand 206 and 304. If the
 * request had Authorization, allows_authorized counts in a shared cache, too.
 *
 *   sf_rules rules;
 *   sf_response response = {0, 0, 0, 0};
 *   sf_decision decision;
 *   if (sf_read_rules(&context, sf_cstr("max-age=60, no-cache"), &rules) == SF_OK &&
 *       sf_decide(&rules, SF_SHARED_CACHE, &response, &decision) == SF_OK)
 *     printf("%s\n", sf_may_store(&decision) ? "store it" : "don't store it"); // store it
 *
 * The result is not an sf_status.
 */
static inline int sf_may_store(const sf_decision *decision);

#include "sf_functions.h"
#include "sf_inline.h"

#ifdef __cplusplus
}
#endif

#endif
