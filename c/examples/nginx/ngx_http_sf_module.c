/* An nginx module that reads the structured fields of a request and of the response to it, obeys targeted
 * cache control, and adds this cache to Cache-Status. README.md has a configuration.
 *
 *   $sf_urgency      0 to 7, by the Priority fields of the request and of the response (RFC 9218
 *                    section 8); 3 if neither sets it
 *   $sf_incremental  1 if the response is of use as it arrives, otherwise 0
 *   $sf_target       the field of the target list that decides (RFC 9213 section 2.2); Cache-Control if
 *                    none does, with Expires and Date; empty without a target list, and then the others
 *                    are empty too
 *   $sf_reuse        what a shared cache does by that field (RFC 9111): not-stored, fresh, stale,
 *                    revalidate (it is never used without validation) or unspecified (no lifetime)
 *   $sf_seconds      for how many seconds the response stays fresh; 0 if it is not fresh
 *   $sf_cause        the directive that decided, such as no-store, or expires; empty if none did
 *
 *   sf_target_list NAME ..;    in http, server or location: the names of the target list, in order.
 *                              Without it there is none. What nginx's cache would store is then stored
 *                              only if the field that decides says that it is fresh, and for so many
 *                              seconds; and a stale response is answered by status 504 if that field
 *                              forbids its use without validation. If Cache-Control decides and sets no
 *                              lifetime, nor Expires, nginx does what it does without the module.
 *
 *   sf_cache_status NAME;      in http, server or location: adds this cache to Cache-Status (RFC 9211) of
 *                              a response from an upstream server or from the cache of one; NAME is this
 *                              cache, as a String. If the field that came is malformed, it is replaced:
 *                              whoever reads it would ignore this cache's part with the rest.
 *
 * A field that is malformed counts as absent; the error log says where it is malformed, at level info.
 * The fields of the response are those that are sent on, but Cache-Control, Expires and Date are those
 * that came; before the response's head arrives they are absent. All memory is from the pool of the request.
 */
#include <ngx_config.h>
#include <ngx_core.h>
#include <ngx_http.h>
#include <sf.h>

typedef struct {
  ngx_array_t *names; /* of ngx_str_t; NGX_CONF_UNSET_PTR before the settings are merged */
  ngx_str_t cache;    /* this cache's name; NULL without one */
} sf_settings;

/* What is decided. */
typedef struct {
  ngx_str_t name;   /* of the field that decides; empty without a target list */
  int is_fallback;  /* whether it is Cache-Control, since no field of the list decides */
  int allows_stale; /* whether nothing forbids to use it without validation when it is stale */
  sf_decision decision;
} sf_obeyed;

static sf_context fields; /* of this worker */

ngx_module_t ngx_http_sf_module;

/* Gives the next line of a field of this name from *part and *at on, or NULL. */
static ngx_table_elt_t *next_line(const ngx_str_t *name, const ngx_list_part_t **part,
                                  ngx_uint_t *at) {
  for (; *part != NULL; *part = (*part)->next, *at = 0) {
    ngx_table_elt_t *lines = (*part)->elts;
    while (*at < (*part)->nelts) {
      ngx_table_elt_t *line = &lines[(*at)++];
      if (line->hash != 0 && line->key.len == name->len &&
          ngx_strncasecmp(line->key.data, name->data, name->len) == 0)
        return line;
    }
  }
  return NULL;
}

/* The lines of a field, joined, without the white space around their values. Of a field without lines
 * the text is empty. */
static ngx_int_t join_lines(ngx_http_request_t *r, const ngx_list_t *headers, const ngx_str_t *name,
                            sf_text *text) {
  const ngx_list_part_t *part = &headers->part;
  ngx_uint_t at = 0;
  size_t size = 0;
  ngx_table_elt_t *line;
  while ((line = next_line(name, &part, &at)) != NULL)
    size += line->value.len + 2;
  *text = sf_text_of(NULL, 0);
  if (size == 0)
    return NGX_OK;
  sf_lines lines = sf_lines_in(sf_buffer_of(ngx_pnalloc(r->pool, size), size));
  if (lines.buffer.at == NULL)
    return NGX_ERROR;
  part = &headers->part;
  at = 0;
  while ((line = next_line(name, &part, &at)) != NULL)
    if (sf_add_line(&lines, sf_trim(line->value.data, line->value.len)) != SF_OK)
      return NGX_ERROR;
  *text = sf_joined_text(&lines);
  return NGX_OK;
}

/* Whether reading a field may go on after this status. */
static ngx_int_t passed(ngx_http_request_t *r, uint32_t status, const ngx_str_t *name,
                        sf_text text) {
  if (status == SF_REFUSED)
    ngx_log_error(NGX_LOG_INFO, r->connection->log, 0, "%V is malformed at byte %uL: \"%*s\"", name,
                  fields.refusal.offset, text.length, text.at);
  return status == SF_NO_MEMORY ? NGX_ERROR : NGX_OK;
}

static ngx_int_t read_priority(ngx_http_request_t *r, sf_priority_flags *merged) {
  static const ngx_str_t name = ngx_string("Priority");
  sf_priority_flags asked = SF_PRIORITY_UNSET;
  sf_response_priority_flags answered = {0, 0, 0, 0};
  sf_text text;
  if (join_lines(r, &r->headers_in.headers, &name, &text) != NGX_OK)
    return NGX_ERROR;
  if (passed(r, sf_read_priority(&fields, text, &asked), &name, text) != NGX_OK)
    return NGX_ERROR;
  if (join_lines(r, &r->headers_out.headers, &name, &text) != NGX_OK)
    return NGX_ERROR;
  if (passed(r, sf_read_response_priority(&fields, text, &answered), &name, text) != NGX_OK)
    return NGX_ERROR;
  *merged = sf_merge_priority(asked, answered);
  return NGX_OK;
}

/* The age of a response in seconds (RFC 9111 section 4.2.3): that of its Age field when it came, with the
 * time since the request for it, or how long it is in the cache. */
static uint64_t age_of(ngx_http_request_t *r) {
  static const ngx_str_t name = ngx_string("Age");
  const ngx_list_part_t *part = &r->headers_out.headers.part;
  ngx_uint_t at = 0;
  const ngx_table_elt_t *line = next_line(&name, &part, &at);
  uint64_t age = 0;
  if (line != NULL && sf_read_age(sf_text_of(line->value.data, line->value.len), &age) != SF_OK)
    age = 0; /* the field is ignored (section 5.1) */
#if (NGX_HTTP_CACHE)
  if (r->cached && r->cache != NULL && r->upstream->cache_status != NGX_HTTP_CACHE_REVALIDATED)
    return ngx_time() > r->cache->date ? age + (uint64_t)(ngx_time() - r->cache->date) : age;
#endif
  if (r->upstream != NULL && r->upstream->start_time != 0)
    age += (ngx_current_msec - r->upstream->start_time) / 1000;
  return age;
}

/* What a shared cache does now by these directives, and whether it may when the response is stale. */
static ngx_int_t decide(const sf_rules *rules, const sf_response *response, sf_obeyed *target) {
  sf_response older = *response;
  sf_decision decision;
  older.age = UINT64_MAX;
  if (sf_decide(rules, SF_SHARED_CACHE, response, &target->decision) != SF_OK ||
      sf_decide(rules, SF_SHARED_CACHE, &older, &decision) != SF_OK)
    return NGX_ERROR;
  target->allows_stale = decision.reuse == SF_REUSE_STALE;
  return NGX_OK;
}

/* When the response came, in seconds since 1970. */
static uint64_t received_at(ngx_http_request_t *r) {
#if (NGX_HTTP_CACHE)
  if (r->cached && r->cache != NULL && r->upstream->cache_status != NGX_HTTP_CACHE_REVALIDATED)
    return (uint64_t)r->cache->date;
#endif
  (void)r;
  return (uint64_t)ngx_time();
}

/* What Cache-Control, Expires and Date decide, as they came: nginx doesn't send Date on, and marks lines
 * that it ignores. */
static ngx_int_t fall_back(ngx_http_request_t *r, sf_obeyed *target) {
  static const ngx_str_t names[] = {ngx_string("Cache-Control"), ngx_string("Expires"),
                                    ngx_string("Date")};
  static const sf_fallback_field fields_of[] = {SF_FALLBACK_CACHE_CONTROL, SF_FALLBACK_EXPIRES,
                                                SF_FALLBACK_DATE};
  const ngx_list_part_t *part = r->upstream != NULL ? &r->upstream->headers_in.headers.part
                                                    : &r->headers_out.headers.part;
  sf_fallback fallback = sf_fallback_begin();
  sf_response response = {.age = age_of(r)};
  for (; part != NULL; part = part->next) {
    const ngx_table_elt_t *lines = part->elts;
    for (ngx_uint_t at = 0; at < part->nelts; ++at)
      for (size_t i = 0; i < sizeof names / sizeof *names; ++i)
        if (lines[at].key.len == names[i].len &&
            ngx_strncasecmp(lines[at].key.data, names[i].data, names[i].len) == 0)
          sf_add_fallback_line(&fallback, fields_of[i],
                               sf_text_of(lines[at].value.data, lines[at].value.len));
  }
  if (fallback.is_refused)
    ngx_log_error(NGX_LOG_INFO, r->connection->log, 0, "Cache-Control is no list of directives");
  sf_fallback_lifetime(&fallback, received_at(r), &response);
  target->name = names[0];
  target->is_fallback = 1;
  return decide(&fallback.rules, &response, target);
}

/* What the first field of the target list that is well-formed and not empty decides, in a shared
 * cache, or Cache-Control if there is none. */
static ngx_int_t read_targets(ngx_http_request_t *r, sf_obeyed *target) {
  const sf_settings *settings = ngx_http_get_module_loc_conf(r, ngx_http_sf_module);
  ngx_memzero(target, sizeof *target);
  if (settings->names == NULL)
    return NGX_OK;
  const ngx_str_t *names = settings->names->elts;
  for (ngx_uint_t i = 0; i < settings->names->nelts; ++i) {
    sf_text text;
    if (join_lines(r, &r->headers_out.headers, &names[i], &text) != NGX_OK)
      return NGX_ERROR;
    sf_rules rules;
    uint32_t status = sf_read_rules(&fields, text, &rules);
    if (status == SF_OK) {
      sf_response response = {.age = age_of(r)};
      target->name = names[i];
      return decide(&rules, &response, target);
    }
    if (passed(r, status, &names[i], text) != NGX_OK)
      return NGX_ERROR;
  }
  return fall_back(r, target);
}

/* Sets a variable to a text that outlives the request, or that is from its pool. */
static ngx_int_t set_text(ngx_http_variable_value_t *value, u_char *data, size_t length) {
  value->data = data;
  value->len = (unsigned)length;
  value->valid = 1;
  value->no_cacheable = 1; /* the response's fields may come later */
  value->not_found = length == 0;
  return NGX_OK;
}

static ngx_int_t set_number(ngx_http_request_t *r, ngx_http_variable_value_t *value,
                            uint64_t number) {
  u_char *data = ngx_pnalloc(r->pool, NGX_INT64_LEN);
  if (data == NULL)
    return NGX_ERROR;
  return set_text(value, data, (size_t)(ngx_sprintf(data, "%uL", number) - data));
}

static ngx_int_t get_urgency(ngx_http_request_t *r, ngx_http_variable_value_t *value,
                             uintptr_t data) {
  sf_priority_flags flags;
  (void)data;
  return read_priority(r, &flags) == NGX_OK ? set_number(r, value, flags.urgency) : NGX_ERROR;
}

static ngx_int_t get_incremental(ngx_http_request_t *r, ngx_http_variable_value_t *value,
                                 uintptr_t data) {
  sf_priority_flags flags;
  (void)data;
  return read_priority(r, &flags) == NGX_OK ? set_number(r, value, flags.incremental) : NGX_ERROR;
}

static ngx_int_t get_target(ngx_http_request_t *r, ngx_http_variable_value_t *value,
                            uintptr_t data) {
  sf_obeyed target;
  (void)data;
  if (read_targets(r, &target) != NGX_OK)
    return NGX_ERROR;
  return set_text(value, target.name.data, target.name.len);
}

static ngx_int_t get_reuse(ngx_http_request_t *r, ngx_http_variable_value_t *value,
                           uintptr_t data) {
  static ngx_str_t words[] = {ngx_string("not-stored"), ngx_string("fresh"), ngx_string("stale"),
                              ngx_string("revalidate"), ngx_string("unspecified")};
  sf_obeyed target;
  (void)data;
  if (read_targets(r, &target) != NGX_OK)
    return NGX_ERROR;
  if (target.name.len == 0)
    return set_text(value, NULL, 0);
  const ngx_str_t *word = &words[target.decision.reuse - SF_REUSE_NOT_STORED];
  return set_text(value, word->data, word->len);
}

static ngx_int_t get_seconds(ngx_http_request_t *r, ngx_http_variable_value_t *value,
                             uintptr_t data) {
  sf_obeyed target;
  (void)data;
  if (read_targets(r, &target) != NGX_OK)
    return NGX_ERROR;
  if (target.name.len == 0)
    return set_text(value, NULL, 0);
  return set_number(r, value, target.decision.seconds);
}

static ngx_int_t get_cause(ngx_http_request_t *r, ngx_http_variable_value_t *value,
                           uintptr_t data) {
  sf_obeyed target;
  (void)data;
  if (read_targets(r, &target) != NGX_OK)
    return NGX_ERROR;
  const char *name = sf_cause_name(target.decision.cause); /* "" if there is no target */
  return set_text(value, (u_char *)name, ngx_strlen(name));
}

/* A hop of this cache that says nothing yet. Its name is a String. */
static sf_own_hop own_hop(const ngx_str_t *cache) {
  return (sf_own_hop){.hop.name.length = cache->len, .bytes = sf_text_of(cache->data, cache->len)};
}

/* What this cache did with the request, by nginx's own account. */
static sf_own_hop hop_of(ngx_http_request_t *r, const ngx_str_t *cache) {
  sf_own_hop own = own_hop(cache);
  sf_hop *hop = &own.hop;
  hop->outcome = SF_FORWARDED;
  hop->why = SF_BYPASS;
  ngx_http_upstream_t *upstream = r->upstream;
  ngx_uint_t status = upstream->headers_in.status_n;
#if (NGX_HTTP_CACHE)
  switch (upstream->cache_status) {
  case NGX_HTTP_CACHE_HIT:
  case NGX_HTTP_CACHE_STALE:
  case NGX_HTTP_CACHE_UPDATING:
    hop->outcome = SF_HIT;
    hop->has_ttl = r->cache->valid_sec != 0; /* it is 0 after an error of the upstream server */
    hop->ttl = hop->has_ttl ? (int64_t)r->cache->valid_sec - (int64_t)ngx_time() : 0;
    return own;
  case NGX_HTTP_CACHE_REVALIDATED:
    status = NGX_HTTP_NOT_MODIFIED;
    /* fall through */
  case NGX_HTTP_CACHE_EXPIRED:
    hop->why = SF_STALE;
    break;
  case NGX_HTTP_CACHE_MISS:
  case NGX_HTTP_CACHE_SCARCE:
    hop->why = SF_MISS;
    break;
  default: /* bypassed, or no cache is set */
    break;
  }
#endif
  if (status >= SF_FWD_STATUS_MIN && status <= SF_FWD_STATUS_MAX) {
    hop->has_status = 1;
    hop->status = (uint16_t)status;
  }
  return own;
}

static ngx_http_output_header_filter_pt next_header_filter;

/* The text of the field that came with this cache's hop at its end, or of the hop alone if what came is
 * malformed. */
static ngx_int_t append_hop(ngx_http_request_t *r, const sf_own_hop *own, sf_text came,
                            ngx_str_t *text) {
  static const ngx_str_t name = ngx_string("Cache-Status");
  size_t size = SF_APPENDED_SIZE(came.length, own->bytes.length);
  sf_buffer out = sf_buffer_of(ngx_pnalloc(r->pool, size), size);
  if (out.at == NULL)
    return NGX_ERROR;
  uint32_t is_appended = 0;
  sf_status status = sf_append_or_write_hop(&fields, came, own, &out, &is_appended);
  if (status == SF_OK && !is_appended)
    (void)passed(r, SF_REFUSED, &name, came);
  text->data = (u_char *)out.at;
  text->len = out.length;
  return status == SF_OK ? NGX_OK : NGX_ERROR;
}

/* Puts this cache's hop into the field, which then has one line. A response that nginx generates itself,
 * such as an error, has none (RFC 9211 section 2). */
static ngx_int_t add_hop(ngx_http_request_t *r) {
  static const ngx_str_t name = ngx_string("Cache-Status");
  const sf_settings *settings = ngx_http_get_module_loc_conf(r, ngx_http_sf_module);
  if (settings->cache.data == NULL || r->err_status != 0)
    return NGX_OK;
  sf_own_hop own = hop_of(r, &settings->cache);
  sf_text came;
  ngx_str_t text;
  if (join_lines(r, &r->headers_out.headers, &name, &came) != NGX_OK ||
      append_hop(r, &own, came, &text) != NGX_OK)
    return NGX_ERROR;
  const ngx_list_part_t *part = &r->headers_out.headers.part;
  ngx_uint_t at = 0;
  ngx_table_elt_t *line;
  while ((line = next_line(&name, &part, &at)) != NULL)
    line->hash = 0; /* it is not sent */
  line = ngx_list_push(&r->headers_out.headers);
  if (line == NULL)
    return NGX_ERROR;
  ngx_memzero(line, sizeof *line);
  line->hash = 1;
  line->key = name;
  line->value = text;
  return NGX_OK;
}

#if (NGX_HTTP_CACHE)
/* Lets nginx store a response that is fresh, for as long; nginx reads these numbers after the head was
 * sent. It reads stale-while-revalidate and stale-if-error of Cache-Control itself: they count only if
 * Cache-Control decides, and no directive forbids to use the response when it is stale. */
static void store_by(ngx_http_request_t *r, const sf_obeyed *target) {
  ngx_http_upstream_t *upstream = r->upstream;
  if (r->headers_in.authorization != NULL && !target->decision.allows_authorized)
    upstream->cacheable = 0; /* RFC 9111 section 3.5 */
  else if (target->decision.reuse == SF_REUSE_FRESH)
    r->cache->valid_sec = ngx_time() + (time_t)target->decision.seconds;
  else if (target->decision.reuse != SF_REUSE_UNSPECIFIED || !target->is_fallback)
    upstream->cacheable = 0;
  else
    return; /* proxy_cache_valid says it */
  if (!target->is_fallback || !target->allows_stale)
    r->cache->updating_sec = r->cache->error_sec = 0;
}
#endif

/* Has nginx's cache do what is decided. Gives NGX_DECLINED for a stale response from the cache that must
 * not be used. */
static ngx_int_t obey_target(ngx_http_request_t *r) {
#if (NGX_HTTP_CACHE)
  ngx_http_upstream_t *upstream = r->upstream;
  sf_obeyed target;
  if (r->cache == NULL)
    return NGX_OK;
  if (read_targets(r, &target) != NGX_OK)
    return NGX_ERROR;
  if (target.name.len == 0)
    return NGX_OK;
  /* X-Accel-Expires is for nginx, which obeys it before Cache-Control. */
  if (target.is_fallback && upstream->headers_in.x_accel_expires != NULL &&
      !(upstream->conf->ignore_headers & NGX_HTTP_UPSTREAM_IGN_XA_EXPIRES))
    return NGX_OK;
  uint8_t reuse = target.decision.reuse;
  switch (upstream->cache_status) {
  case NGX_HTTP_CACHE_STALE:
  case NGX_HTTP_CACHE_UPDATING:
    return reuse == SF_REUSE_REVALIDATE || reuse == SF_REUSE_NOT_STORED ? NGX_DECLINED : NGX_OK;
  case NGX_HTTP_CACHE_HIT:
    return NGX_OK;
  default: /* it came from the upstream server, or was validated there */
    store_by(r, &target);
    return NGX_OK;
  }
#else
  (void)r;
  return NGX_OK;
#endif
}

static ngx_int_t filter_header(ngx_http_request_t *r) {
  if (r->upstream == NULL || r != r->main)
    return next_header_filter(r);
  switch (obey_target(r)) {
  case NGX_OK:
    break;
  case NGX_DECLINED:
    return ngx_http_filter_finalize_request(r, &ngx_http_sf_module, NGX_HTTP_GATEWAY_TIME_OUT);
  default:
    return NGX_ERROR;
  }
  return add_hop(r) == NGX_OK ? next_header_filter(r) : NGX_ERROR;
}

static ngx_int_t add_filter(ngx_conf_t *conf) {
  (void)conf;
  next_header_filter = ngx_http_top_header_filter;
  ngx_http_top_header_filter = filter_header;
  return NGX_OK;
}

static ngx_int_t add_variables(ngx_conf_t *conf) {
  static const struct {
    ngx_str_t name;
    ngx_http_get_variable_pt get;
  } variables[] = {{ngx_string("sf_urgency"), get_urgency},
                   {ngx_string("sf_incremental"), get_incremental},
                   {ngx_string("sf_target"), get_target},
                   {ngx_string("sf_reuse"), get_reuse},
                   {ngx_string("sf_seconds"), get_seconds},
                   {ngx_string("sf_cause"), get_cause}};
  for (size_t i = 0; i < sizeof variables / sizeof *variables; ++i) {
    ngx_str_t name = variables[i].name;
    ngx_http_variable_t *variable = ngx_http_add_variable(conf, &name, NGX_HTTP_VAR_NOCACHEABLE);
    if (variable == NULL)
      return NGX_ERROR;
    variable->get_handler = variables[i].get;
  }
  return NGX_OK;
}

static void *create_settings(ngx_conf_t *conf) {
  sf_settings *settings = ngx_pcalloc(conf->pool, sizeof *settings);
  if (settings != NULL)
    settings->names = NGX_CONF_UNSET_PTR;
  return settings;
}

static char *merge_settings(ngx_conf_t *conf, void *outer, void *inner) {
  sf_settings *from = outer, *to = inner;
  (void)conf;
  ngx_conf_merge_ptr_value(to->names, from->names, NULL);
  ngx_conf_merge_str_value(to->cache, from->cache, NULL);
  return NGX_CONF_OK;
}

static char *set_target_list(ngx_conf_t *conf, ngx_command_t *command, void *at) {
  sf_settings *settings = at;
  (void)command;
  if (settings->names != NGX_CONF_UNSET_PTR)
    return "is duplicate";
  const ngx_str_t *words = conf->args->elts;
  ngx_uint_t count = conf->args->nelts - 1;
  settings->names = ngx_array_create(conf->pool, count, sizeof(ngx_str_t));
  if (settings->names == NULL)
    return NGX_CONF_ERROR;
  ngx_str_t *names = ngx_array_push_n(settings->names, count);
  if (names == NULL)
    return NGX_CONF_ERROR;
  ngx_memcpy(names, words + 1, count * sizeof *names);
  return NGX_CONF_OK;
}

/* A name that Cache-Status can't say is an error of the settings, not of a response. */
static char *set_cache_name(ngx_conf_t *conf, ngx_command_t *command, void *at) {
  sf_settings *settings = at;
  char *result = ngx_conf_set_str_slot(conf, command, at);
  if (result != NGX_CONF_OK)
    return result;
  sf_own_hop own = own_hop(&settings->cache);
  sf_buffer out = sf_buffer_of(NULL, 0);
  return sf_write_hop(&fields, &own, &out) == SF_SHORT ? NGX_CONF_OK
                                                       : "needs a name of printable ASCII characters";
}

/* Each worker has a seed of its own, which clients can't predict. */
static ngx_int_t init_worker(ngx_cycle_t *cycle) {
  sf_seed seed;
  if (sf_random_seed(&seed)) {
    fields = sf_context_of(seed, SF_RFC8941); /* that the RFCs of the fields cite */
    return NGX_OK;
  }
  ngx_log_error(NGX_LOG_EMERG, cycle->log, ngx_errno, "getrandom() failed");
  return NGX_ERROR;
}

static ngx_command_t commands[] = {
    {ngx_string("sf_target_list"),
     NGX_HTTP_MAIN_CONF | NGX_HTTP_SRV_CONF | NGX_HTTP_LOC_CONF | NGX_CONF_1MORE, set_target_list,
     NGX_HTTP_LOC_CONF_OFFSET, 0, NULL},
    {ngx_string("sf_cache_status"),
     NGX_HTTP_MAIN_CONF | NGX_HTTP_SRV_CONF | NGX_HTTP_LOC_CONF | NGX_CONF_TAKE1, set_cache_name,
     NGX_HTTP_LOC_CONF_OFFSET, offsetof(sf_settings, cache), NULL},
    ngx_null_command};

static ngx_http_module_t context = {
    .preconfiguration = add_variables,
    .postconfiguration = add_filter,
    .create_loc_conf = create_settings,
    .merge_loc_conf = merge_settings,
};

ngx_module_t ngx_http_sf_module = {NGX_MODULE_V1,
                                   &context,
                                   commands,
                                   NGX_HTTP_MODULE,
                                   NULL,
                                   NULL,
                                   init_worker,
                                   NULL,
                                   NULL,
                                   NULL,
                                   NULL,
                                   NGX_MODULE_V1_PADDING};
