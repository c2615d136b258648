/*
 * The functions of the library, a part of sf.h, which has the types and the macros. A program in C
 * or C++ best calls the inline functions of sf.h, which are over these: with pointers and lengths,
 * arguments can be swapped unnoticed. sf.h has no inline function for sf_decide,
 * sf_fallback_lifetime, sf_lifetime and sf_version. Its sf_read_priority, sf_read_rules,
 * sf_choose_rules and sf_read_hops take the place of sf_priority, sf_cache_control, sf_select,
 * sf_select_rules and sf_cache_status.
 *
 * Each accepts any numbers and any bytes; what sf.h requires of pointers is required here. Each
 * returns an sf_status, except sf_priority_merge, sf_lifetime and sf_version; a dialect is an
 * sf_dialect, and a kind is an sf_kind. All are passed as integers of a fixed width, since the
 * width of an enum is not fixed, and since any number may be passed. A function that reads a
 * structured field, but takes no dialect, reads it by RFC 9651. A call that does not allocate lists
 * SF_NO_MEMORY if its contract permits it; that it is not returned is tested.
 */

#ifndef SF_FUNCTIONS_H
#define SF_FUNCTIONS_H

#ifndef SF_H
#error "include <sf.h>, of which this is a part"
#endif

/* Returns the version of the library that runs, in the form of SF_VERSION_NUMBER. A program that is
 * linked with the shared library may meet another version than that of its header. */
uint32_t sf_version(void);

/*
 * Checks whether a text is a well-formed field of the kind (RFC 9651 section 4.2). A tab at the
 * beginning, or after an Item, is refused: see sf_trim.
 *
 *   SF_OK         it is
 *   SF_REFUSED    it is not; refusal says where and why
 *   SF_BAD_CALL
 *
 * Does not allocate. A malformed text is refused without an allocation by each function but
 * sf_normalise, sf_equal and sf_cache_status_append.
 *
 * Each function writes refusal only if it returns SF_REFUSED or SF_SECOND_REFUSED.
 */
uint32_t sf_check(const sf_seed *seed, uint32_t dialect, uint32_t kind, const void *text,
                  size_t text_length, sf_refusal *refusal) SF_USE_RESULT;

/*
 * Writes the error message of a refusal to buffer, such as
 *
 *   byte 0x32 '2' at place 2, expected a space or the end
 *
 *   SF_OK         the first *required bytes of buffer are the message; the others are unchanged
 *   SF_SHORT      the message has *required bytes, more than buffer_length; buffer is unchanged
 *   SF_NO_MEMORY  buffer and *required are unchanged
 *
 * A refusal->found that is not from 0 to 255 counts as SF_ENDED; any refusal->may_end but 0, as 1.
 */
uint32_t sf_refusal_text(const sf_refusal *refusal, void *buffer, size_t buffer_length,
                         size_t *required) SF_USE_RESULT;

/*
 * Writes the error message of a refusal, a second line with the offset, the text as one line and a
 * caret below the offset, without a newline at the end:
 *
 *   byte 0x32 '2' at place 2, expected a space or the end
 *   line 1, place 2:
 *   1 2
 *     ^
 *
 * Each byte of the text is written as one character: a question mark if it is not printable. If the
 * offset is greater than the length of the text, the caret is at the end of the text, and so is the
 * place of the second line. The results are those of sf_refusal_text.
 */
uint32_t sf_refusal_in_text(const sf_refusal *refusal, const void *text, size_t text_length,
                            void *buffer, size_t buffer_length, size_t *required) SF_USE_RESULT;

/*
 * Writes the canonical text (RFC 9651 section 4.1) of the value of a text to buffer. Two texts of a
 * kind have equal values if and only if their canonical texts are equal, and the canonical text of
 * a canonical text is that text itself. A tab at the beginning, or after an Item, is refused: see
 * sf_trim.
 *
 *   SF_OK         the first *required bytes of buffer are the canonical text; the others are
 *                 unchanged
 *   SF_SHORT      the canonical text has *required bytes, more than buffer_length; buffer is
 *                 unchanged
 *   SF_REFUSED    the text is malformed; refusal says where and why
 *   SF_NO_MEMORY, SF_BAD_CALL
 *
 * Unless SF_OK or SF_SHORT is returned, buffer and *required are unchanged.
 */
uint32_t sf_normalise(const sf_seed *seed, uint32_t dialect, uint32_t kind, const void *text,
                      size_t text_length, void *buffer, size_t buffer_length, size_t *required,
                      sf_refusal *refusal) SF_USE_RESULT;

/*
 * Compares the values of two texts of a kind (RFC 9651 sections 3 and 4.2). The order of members,
 * items and parameters counts. A tab at the beginning, or after an Item, is refused: see sf_trim.
 *
 *   SF_OK              *equal is 1 if the values are equal, otherwise 0
 *   SF_REFUSED         the first text is malformed; refusal says where and why
 *   SF_SECOND_REFUSED  the first is well-formed and the second malformed; refusal says where and
 *                      why
 *   SF_NO_MEMORY, SF_BAD_CALL
 *
 * Unless SF_OK is returned, *equal is unchanged.
 */
uint32_t sf_equal(const sf_seed *seed, uint32_t dialect, uint32_t kind, const void *first,
                  size_t first_length, const void *second, size_t second_length, uint32_t *equal,
                  sf_refusal *refusal) SF_USE_RESULT;

/* Numbers of nodes and bytes. */
typedef struct sf_sizes {
  size_t nodes;
  size_t bytes;
} sf_sizes;

/*
 * Parses a text and writes its value as nodes. If a key is repeated, its member or parameter
 * appears once, at the position of the first and with the value of the last (RFC 9651 section 4.2).
 * No two values of a kind have the same nodes, text and bytes. A tab at the beginning, or after an
 * Item, is refused: see sf_trim.
 *
 *   SF_OK         the first sizes->nodes nodes are the value, with the text and the first
 *                 sizes->bytes bytes, to which they point
 *   SF_TOO_MANY   the value has sizes->nodes nodes, more than nodes_capacity
 *   SF_SHORT      the value has at most nodes_capacity nodes, but may require sizes->bytes bytes,
 *                 more than bytes_capacity
 *   SF_REFUSED    the text is malformed; refusal says where and why
 *   SF_TOO_LONG   text_length is 4 GiB or more; or it and the lengths of all keys and bytes of the
 *                 value are, together, and the value could not be written with offsets below 4 GiB
 *                 in one pass over the text
 *   SF_NO_MEMORY, SF_BAD_CALL
 *
 * Nodes point to keys and bytes in the text; only Strings with escapes, Byte Sequences and Display
 * Strings are decoded into bytes. All keys and bytes are copied there if a key of parameters is
 * repeated, if a part has 16,000 parameters or more, and rarely for another part of more than eight
 * parameters: the more often, the more there are. They are copied, too, if a key of a Dictionary is
 * repeated and its members, those that are overwritten included, have more nodes than
 * nodes_capacity. The nodes are valid as long as the text and bytes are.
 * Buffers of SF_NODES_SIZE(text_length) nodes and SF_BYTES_SIZE(text_length) bytes are always large
 * enough. If the text is well-formed and the buffers are large enough, the call allocates only if
 * keys are copied or, for a Dictionary of more than 32 nodes, if a key is repeated or, rarely, if
 * none is.
 *
 * The caller can limit the number of nodes of a value by nodes_capacity. After SF_TOO_MANY and
 * SF_SHORT, buffers of the sizes in *sizes are large enough. The text is then only counted. That
 * allocates only if a key is repeated or, rarely, if a Dictionary or a part has more than a
 * hundred: then for each different key.
 *
 * After SF_OK, the contents of the nodes and bytes beyond *sizes are unspecified; after any other
 * status, those of all nodes and bytes are. Unless SF_OK, SF_TOO_MANY or SF_SHORT is returned,
 * *sizes is unchanged.
 */
uint32_t sf_parse(const sf_seed *seed, uint32_t dialect, uint32_t kind, const void *text,
                  size_t text_length, sf_node *nodes, size_t nodes_capacity, void *bytes,
                  size_t bytes_capacity, sf_sizes *sizes, sf_refusal *refusal) SF_USE_RESULT;

/*
 * Finds the first of the nodes_length nodes that has this role and this key. For a member of a
 * Dictionary, pass all its nodes and SF_MEMBER; for a parameter of the Item or Inner List nodes[i],
 * pass nodes + i and nodes[i].size, with SF_PARAMETER or SF_INNER_PARAMETER. In each of these there
 * is at most one such node. The text and bytes are those of the call of sf_parse that wrote the
 * nodes.
 *
 *   SF_OK      it is nodes[*index]
 *   SF_ABSENT  there is none; *index is unchanged
 *
 * Any nodes may be passed. A node is not found if its key is neither entirely in the text nor
 * entirely in bytes. The time is proportional to nodes_length. Does not allocate.
 */
uint32_t sf_find(const sf_node *nodes, size_t nodes_length, const void *text, size_t text_length,
                 const void *bytes, size_t bytes_length, uint32_t role, const void *key,
                 size_t key_length, size_t *index) SF_USE_RESULT;

/*
 * Writes to buffer the canonical text (RFC 9651 section 4.1) of the field that nodes describe. The
 * nodes are those of sf_parse, changed or not, or the caller's. Offsets are those of sf_parse:
 * below text_length they are in the text, from there on in bytes. The caller's own nodes may have
 * all keys and bytes in bytes, with a text_length of 0.
 *
 *   SF_OK       the first *required bytes of buffer are the text; the others are unchanged
 *   SF_SHORT    the text has *required bytes, more than buffer_length; buffer is unchanged
 *   SF_INVALID  the nodes do not describe a valid field of this kind and dialect; *invalid is the
 *               index of the first node that is wrong, or 0 if nodes_length is 0: no change of
 *               the nodes after it makes the field valid
 *   SF_NO_MEMORY, SF_BAD_CALL
 *
 * Unless SF_OK or SF_SHORT is returned, buffer and *required are unchanged. Unless SF_INVALID is
 * returned, *invalid is unchanged. The text parses as the field that was written, and as no other.
 *
 * Nodes are in the order of sf_parse. Each is an Item, an Inner List or a parameter, with its role
 * and type; size is the number of nodes in its subtree. It has a valid key that occurs once among
 * its siblings, or a key_length of 0 if it has no key. If coded is 0, the node has a number or
 * bytes, by its type, and the other is 0 or empty. If coded is not 0, the bytes are the text of the
 * bare item in a field, with its quotes or colons, and the number is that of the value. In an Inner
 * List, text_at and coded have no effect. Each other range is within the text_length + bytes_length
 * bytes of the text and of bytes after it, also that of an empty key or of empty bytes. One may
 * begin in the text and end in bytes; sf_find does not find such a key.
 */
uint32_t sf_write(const sf_seed *seed, uint32_t dialect, uint32_t kind, const sf_node *nodes,
                  size_t nodes_length, const void *text, size_t text_length, const void *bytes,
                  size_t bytes_length, void *buffer, size_t buffer_length, size_t *required,
                  size_t *invalid) SF_USE_RESULT;

/*
 * Reads the text of the Priority field of a request (RFC 9218 section 5). Members that are unknown,
 * of another type or out of range are ignored. A tab at the beginning is refused: see sf_trim.
 *
 *   SF_OK         *priority is written
 *   SF_REFUSED    the text is not a well-formed Dictionary; refusal says where and why
 *   SF_NO_MEMORY
 *
 * Unless SF_OK is returned, *priority is unchanged. Does not allocate.
 */
uint32_t sf_priority(const sf_seed *seed, const void *text, size_t text_length,
                     sf_priority_flags *priority, sf_refusal *refusal) SF_USE_RESULT;

/* The same in a dialect: RFC 9218 cites RFC 8941, by which a text with a Date or a Display String
 * is malformed. Also returns SF_BAD_CALL. */
uint32_t sf_priority_in(const sf_seed *seed, uint32_t dialect, const void *text, size_t text_length,
                        sf_priority_flags *priority, sf_refusal *refusal) SF_USE_RESULT;

/*
 * Reads the text of the Priority field of a response (RFC 9218 section 8), in a dialect. Members
 * are ignored as by sf_priority. A tab at the beginning is refused: see sf_trim.
 *
 *   SF_OK         *priority is written
 *   SF_REFUSED    the text is not a well-formed Dictionary; refusal says where and why
 *   SF_NO_MEMORY, SF_BAD_CALL
 *
 * Unless SF_OK is returned, *priority is unchanged. Does not allocate.
 */
uint32_t sf_response_priority(const sf_seed *seed, uint32_t dialect, const void *text,
                              size_t text_length, sf_response_priority_flags *priority,
                              sf_refusal *refusal) SF_USE_RESULT;

/*
 * Merges the priority of a request and that of its response (RFC 9218 section 8). Each parameter is
 * the server's if the server sets it, otherwise the client's if the client sets it, otherwise the
 * default. The result is for the sender of this response to this client: the field of a response is
 * end-to-end (section 5), so it is forwarded as the server wrote it, without what the client asked
 * for.
 *
 * In the arguments, any number but 0 counts as 1 in incremental, has_urgency and has_incremental;
 * urgency counts only if has_urgency is set, and incremental only if has_incremental is; and an
 * urgency above SF_URGENCY_LAST counts as not set.
 */
sf_priority_flags sf_priority_merge(const sf_priority_flags *request,
                                    const sf_response_priority_flags *response);

/*
 * Writes the text of the Priority field of a request (RFC 9218 section 5) that sets what *priority
 * sets, and nothing else: u if has_urgency is set, then i if has_incremental is set, even to the
 * defaults. sf_priority reads the same priority from it. If the text is empty, the field is not to
 * be sent (RFC 9651 section 4.1).
 *
 *   SF_OK       the first *required bytes of buffer are the text; the others are unchanged
 *   SF_SHORT    the text has *required bytes, more than buffer_length; buffer is unchanged
 *   SF_INVALID  urgency is above SF_URGENCY_LAST, or is neither 0 nor SF_URGENCY_DEFAULT though
 *               has_urgency is 0, or incremental is not 0 though has_incremental is 0
 *
 * Unless SF_OK or SF_SHORT is returned, buffer and *required are unchanged. In *priority, any
 * number but 0 sets a flag. Does not allocate.
 */
uint32_t sf_priority_text(const sf_priority_flags *priority, void *buffer, size_t buffer_length,
                          size_t *required) SF_USE_RESULT;

/*
 * Writes the text of the Priority field of a response (RFC 9218 section 8) that sets what *priority
 * sets, and nothing else, likewise: u=3 or i=?0 too, since an absent parameter is not a default
 * there. sf_response_priority reads the same from it.
 *
 *   SF_OK       the first *required bytes of buffer are the text; the others are unchanged
 *   SF_SHORT    the text has *required bytes, more than buffer_length; buffer is unchanged
 *   SF_INVALID  urgency is above SF_URGENCY_LAST, or is not 0 though has_urgency is 0, or
 *               incremental is not 0 though has_incremental is 0
 *
 * Unless SF_OK or SF_SHORT is returned, buffer and *required are unchanged. In *priority, any
 * number but 0 sets a flag. Does not allocate.
 */
uint32_t sf_response_priority_text(const sf_response_priority_flags *priority, void *buffer,
                                   size_t buffer_length, size_t *required) SF_USE_RESULT;

/*
 * Writes the canonical text of a Priority field in which u is set if has_urgency is set, and i if
 * has_incremental is (RFC 9218 section 4). A member that the field has is overwritten in its place,
 * and a new one is added at the end; all other members stay as they are. If the text is empty, the
 * field is not to be sent. A tab at the beginning is refused: see sf_trim.
 *
 *   SF_OK       the first *required bytes of buffer are the text; the others are unchanged
 *   SF_SHORT    the text has *required bytes, more than buffer_length; buffer is unchanged
 *   SF_REFUSED  the text is not a well-formed Dictionary; refusal says where and why
 *   SF_INVALID  *priority is not valid, as for sf_priority_text
 *   SF_NO_MEMORY
 *
 * SF_INVALID is returned if and only if *priority is not valid, even if the text is malformed.
 * Unless SF_OK or SF_SHORT is returned, buffer and *required are unchanged. In *priority, any
 * number but 0 sets a flag. Does not allocate for a well-formed text that sf_parse writes at most
 * 16 nodes of, if no key is repeated in it.
 */
uint32_t sf_priority_change(const sf_seed *seed, const void *text, size_t text_length,
                            const sf_priority_flags *priority, void *buffer, size_t buffer_length,
                            size_t *required, sf_refusal *refusal) SF_USE_RESULT;

/*
 * Reads the text of one targeted field (RFC 9213 section 2.1). After SF_REFUSED or SF_EMPTY, a
 * cache ignores this field and uses the next of its target list (section 2.2), as sf_select does. A
 * tab at the beginning is refused: see sf_trim.
 *
 *   SF_OK         *policy is written
 *   SF_EMPTY      the Dictionary has no members
 *   SF_REFUSED    the text is not a well-formed Dictionary; refusal says where and why
 *   SF_NO_MEMORY
 *
 * Unless SF_OK is returned, *policy is unchanged. Does not allocate.
 */
uint32_t sf_cache_control(const sf_seed *seed, const void *text, size_t text_length,
                          sf_policy *policy, sf_refusal *refusal) SF_USE_RESULT;

/*
 * Reads the text of one targeted field (RFC 9213 section 2.1), for sf_decide, in a dialect: RFC
 * 9213 cites RFC 8941, by which a text with a Date or a Display String is malformed. After
 * SF_REFUSED or SF_EMPTY, a cache ignores this field, as after the same of sf_cache_control. A tab
 * at the beginning is refused: see sf_trim.
 *
 *   SF_OK         *rules is written
 *   SF_EMPTY      the Dictionary has no members
 *   SF_REFUSED    the text is not a well-formed Dictionary; refusal says where and why
 *   SF_NO_MEMORY, SF_BAD_CALL
 *
 * Unless SF_OK is returned, *rules is unchanged. Does not allocate.
 */
uint32_t sf_cache_rules(const sf_seed *seed, uint32_t dialect, const void *text, size_t text_length,
                        sf_rules *rules, sf_refusal *refusal) SF_USE_RESULT;

/*
 * Chooses the field that a cache obeys: the first of its target list that is not ignored (RFC 9213
 * section 2.2). The fields are in the order of the list. Each is the range of its text in texts:
 * the lines of the field, joined, or an empty range if the response does not have the field. A
 * field is ignored if its text is not a well-formed Dictionary, or is one without members (section
 * 2.1). A tab at the beginning is refused: see sf_trim.
 *
 *   SF_OK         fields[*index] is the field, and *policy its directives; the fields before it are
 *                 ignored
 *   SF_EMPTY      every field is ignored: Cache-Control and Expires decide, see sf_fallback_line
 *   SF_BAD_CALL   the range of a field is not within the texts_length bytes of texts, and the
 *                 fields before it are ignored
 *   SF_NO_MEMORY
 *
 * After SF_OK, the fields after fields[*index] and their ranges have no effect. Unless SF_OK is
 * returned, *index and *policy are unchanged. Call sf_check to learn which of the ignored fields
 * are malformed, and where. Does not allocate.
 */
uint32_t sf_select(const sf_seed *seed, const void *texts, size_t texts_length,
                   const sf_span *fields, size_t fields_length, size_t *index, sf_policy *policy)
    SF_USE_RESULT;

/*
 * Chooses the field that a cache obeys, as sf_select does, in a dialect, and writes its directives
 * for sf_decide. The results are those of sf_select, with *rules in the place of *policy; and
 * SF_BAD_CALL also if there is no such dialect.
 */
uint32_t sf_select_rules(const sf_seed *seed, uint32_t dialect, const void *texts,
                         size_t texts_length, const sf_span *fields, size_t fields_length,
                         size_t *index, sf_rules *rules) SF_USE_RESULT;

/*
 * Decides what a cache does with a response by its directives and its age (RFC 9111 sections 3, 4.2
 * and 5.2.2): whether it is stored, for how long it is fresh, or whether it has to be validated
 * first, and which directive decides. Of directives that conflict, the most restrictive one decides
 * (section 4.2.1): no-store before no-cache before any lifetime. Ages and lifetimes above 2^31
 * seconds count as 2^31 (section 1.2.2). The cache is an sf_cache.
 *
 *   SF_OK        *decision is written
 *   SF_BAD_CALL  there is no such cache
 *   SF_INVALID   max_age, s_maxage or lifetime is not 0, though its has_ flag is 0
 *
 * Unless SF_OK is returned, *decision is unchanged. In *rules and *response, any number but 0 sets
 * a flag. Does not allocate.
 */
uint32_t sf_decide(const sf_rules *rules, uint32_t cache, const sf_response *response,
                   sf_decision *decision) SF_USE_RESULT;

/*
 * Adds one line of Cache-Control, Expires or Date, an sf_fallback_field: a cache decides by these
 * fields if sf_select_rules returns SF_EMPTY. Call this for each line in order; the lines of
 * different fields may be mixed. White space around the value of Expires and Date is not skipped:
 * see sf_trim.
 *
 *   SF_OK        the line is added
 *   SF_REFUSED   this is a line of Cache-Control, and it or one before it is not a list of
 *                directives. One that forbids storing may be lost in it, so the directives are
 *                those of no-store
 *   SF_BAD_CALL  there is no such field; *fallback is unchanged
 *
 * Cache-Control is no structured field: names of directives have no case, an argument is a token or
 * a quoted-string, and empty members are skipped (RFC 9111 section 5.2). Two values of max-age, or
 * of s-maxage, that differ are invalid (section 4.2.1). Does not allocate.
 */
uint32_t sf_fallback_line(uint32_t field, const void *line, size_t line_length,
                          sf_fallback *fallback) SF_USE_RESULT;

/*
 * Sets response->lifetime and response->has_lifetime to the lifetime by Expires: the seconds from
 * Date to Expires (RFC 9111 section 4.2.1), or 0 if Expires is not later. Several lines of Expires,
 * or one that is not an HTTP-date, such as 0, are in the past (sections 4.2.1 and 5.3). An
 * HTTP-date is taken as one only from 1970 on, with letters in the case of RFC 9110 section 5.6.7,
 * the right day of the week and a second below 60; a year of two digits is one from 1970 to 2069.
 * Unless Date has one line, which is an HTTP-date, the time at which the response was received
 * counts, in seconds since 1970. Don't call this if a targeted field decides (RFC 9213 section
 * 2.2).
 *
 *   SF_OK     the lifetime is set
 *   SF_EMPTY  the response has no Expires; *response is unchanged
 *
 * The result may be ignored. Does not allocate.
 */
uint32_t sf_fallback_lifetime(const sf_fallback *fallback, uint64_t received,
                              sf_response *response);

/*
 * Computes the freshness lifetime of a response by a policy, in a shared cache if shared is not 0,
 * otherwise in a private cache. In a shared cache s-maxage takes precedence over max-age (RFC 9111
 * section 4.2.1); in a private cache only max-age counts. In *policy, any number but 0 sets a flag.
 *
 *   1  *seconds is the lifetime
 *   0  the policy sets no lifetime; *seconds is unchanged
 *
 * The lifetime alone does not say that a response is fresh: no-cache, no-store and must-revalidate
 * decide before it, and its age counts. sf_decide takes all of them. A directive whose value can't
 * be used counts as absent here, unlike for sf_decide.
 *
 * The result is not an sf_status: do not compare it with SF_OK, which is 0.
 */
uint32_t sf_lifetime(const sf_policy *policy, uint32_t shared, uint64_t *seconds) SF_USE_RESULT;

/* The sizes of the path of a response, and the cache that served the response. */
typedef struct sf_path {
  size_t hops;        /* number of hops */
  size_t bytes;       /* number of bytes: those of names, fwd tokens, keys and details */
  size_t served;      /* index of the hop that served the response, from 0: the last one whose
                         outcome is SF_HIT; 0 if there is none */
  size_t nameless;    /* index of the first member that does not name a cache, from 0 */
  uint32_t is_served; /* 1 if there is such a hop; 0 if there is none: the response came from the
                         origin, or the field does not say */
} sf_path;

/*
 * Reads the text of a Cache-Status field (RFC 9211 section 2) and writes the path of the response:
 * one hop for each member, the cache nearest the origin first. No two paths have the same hops and
 * bytes. A tab at the beginning is refused: see sf_trim.
 *
 *   SF_OK           the first path->hops hops and the first path->bytes bytes are the path
 *   SF_SHORT        the path has path->hops hops and path->bytes bytes, and one of the two buffers
 *                   is smaller
 *   SF_NOT_A_CACHE  member path->nameless is the first that is not an Item of a String or a Token
 *   SF_REFUSED      the text is not a well-formed List; refusal says where and why
 *   SF_NO_MEMORY
 *
 * The bytes are, for each hop in order, its name, why_token, key and detail, with nothing between
 * them; an empty range is at the offset at which it would begin. Buffers of
 * SF_NODES_SIZE(text_length) hops and SF_BYTES_SIZE(text_length) bytes are always large enough. A
 * call that returns SF_OK or SF_SHORT does not allocate.
 *
 * After SF_OK, the contents of the hops and bytes beyond these sizes are unspecified; after any
 * other status, those of all are. With SF_OK and SF_SHORT, all of *path but nameless is written;
 * with SF_NOT_A_CACHE, nameless alone; with any other status, *path is unchanged.
 */
uint32_t sf_cache_status(const sf_seed *seed, const void *text, size_t text_length, sf_hop *hops,
                         size_t hops_capacity, void *bytes, size_t bytes_capacity, sf_path *path,
                         sf_refusal *refusal) SF_USE_RESULT;

/* The same in a dialect: RFC 9211 cites RFC 8941, by which a text with a Date or a Display String
 * is malformed. Also returns SF_BAD_CALL. */
uint32_t sf_cache_status_in(const sf_seed *seed, uint32_t dialect, const void *text,
                            size_t text_length, sf_hop *hops, size_t hops_capacity, void *bytes,
                            size_t bytes_capacity, sf_path *path, sf_refusal *refusal)
    SF_USE_RESULT;

/*
 * Writes the text of a Cache-Status field (RFC 9211 section 2) whose only member is *hop: a field
 * line that a cache adds after the lines that came from the caches nearer the origin. If these are
 * malformed, so is the field with this line, and the hop is lost: sf_cache_status_append tells.
 * The ranges of *hop are in bytes. sf_cache_status reads the text as this hop alone; but if why is
 * SF_OTHER and why_token is one of the tokens that the RFC defines, it reads that token's reason.
 *
 *   SF_OK       the first *required bytes of buffer are the text; the others are unchanged
 *   SF_SHORT    the text has *required bytes, more than buffer_length; buffer is unchanged
 *   SF_INVALID  *hop is not a hop: a range is not within the bytes_length bytes; name or detail is
 *               not a Token if name_is_token or detail_is_token is set, or else not a String; key
 *               is not a String; outcome is no sf_outcome; why is SF_NO_FORWARD or no sf_forward,
 *               or is SF_OTHER and why_token is not a Token; status is below SF_FWD_STATUS_MIN or
 *               above SF_FWD_STATUS_MAX; or ttl is not in the range of an Integer
 *
 * Does not allocate. SF_INVALID is returned if and only if *hop is not a hop; buffer and *required
 * are then unchanged. In *hop, any number but 0 sets a flag. A member whose flag is not set is
 * ignored; so are why, why_token, status, stored, collapsed and their flags if outcome is SF_UNSAID
 * or SF_HIT, and why_token if why is not SF_OTHER. So the hops of sf_cache_status can be written
 * again, and for a custom hop only the members that differ from zero need to be set.
 */
uint32_t sf_hop_text(const sf_seed *seed, const sf_hop *hop, const void *bytes, size_t bytes_length,
                     void *buffer, size_t buffer_length, size_t *required) SF_USE_RESULT;

/*
 * Writes the canonical text of a Cache-Status field with *hop as its last member (RFC 9211 section
 * 2), in the place of the lines that were received. The text is that of these lines, joined, or
 * empty if there are none; the ranges of *hop are in bytes. A tab at the beginning is refused: see
 * sf_trim.
 *
 *   SF_OK       the first *required bytes of buffer are the text; the others are unchanged
 *   SF_SHORT    the text has *required bytes, more than buffer_length; buffer is unchanged
 *   SF_REFUSED  the text that was received is not a well-formed List; refusal says where and why.
 *               Nothing is appended to it: who reads it ignores all of it, and each line that is
 *               added to it (RFC 9651 section 4.2). Send the text of sf_hop_text in its place
 *   SF_INVALID  *hop is not a hop, as for sf_hop_text, or its outcome is SF_CONFLICT: only one of
 *               hit and fwd should appear (section 2.1)
 *   SF_NO_MEMORY, SF_BAD_CALL
 *
 * SF_INVALID is returned if and only if *hop is not such a hop, even if the text is malformed or an
 * allocation would fail. Unless SF_OK or SF_SHORT is returned, buffer and *required are unchanged.
 * In *hop, numbers count as for sf_hop_text.
 */
uint32_t sf_cache_status_append(const sf_seed *seed, uint32_t dialect, const void *text,
                                size_t text_length, const sf_hop *hop, const void *bytes,
                                size_t bytes_length, void *buffer, size_t buffer_length,
                                size_t *required, sf_refusal *refusal) SF_USE_RESULT;

/* The state of joining the lines of a field. Begin with zeros: sf_joined joined = {0, 0, 0}; */
typedef struct sf_joined {
  size_t length;   /* number of bytes of joined text at the beginning of buffer */
  size_t required; /* after SF_SHORT, the required length of buffer */
  uint32_t begun;  /* 0 before the first line; any other number counts as 1 */
} sf_joined;

/*
 * Appends one line of a field to the lines that are already in buffer, with a comma and a space
 * between two lines (RFC 9651 section 4.2). The result is the text that the functions above take.
 * Call this for each line in order. If a field has no lines, its text is empty.
 *
 *   SF_OK        the first joined->length bytes of buffer are the text with this line; the others
 *                and joined->required are unchanged; joined->begun is 1
 *   SF_SHORT     buffer has to be joined->required bytes long, or perhaps more if that is SIZE_MAX;
 *                everything else is unchanged. Call again with a longer buffer that begins with the
 *                same bytes
 *   SF_BAD_CALL  joined->length is greater than buffer_length; everything is unchanged
 */
uint32_t sf_join(const void *line, size_t line_length, void *buffer, size_t buffer_length,
                 sf_joined *joined) SF_USE_RESULT;

#endif
