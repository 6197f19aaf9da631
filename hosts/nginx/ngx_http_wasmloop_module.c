/* A handler in WebAssembly per location, in slices on nginx's event loop.
 *
 *     location /slug {
 *         wasmloop        /srv/rules.wasm 0;     # the module, and the operation of its uv_work
 *         wasmloop_input  $request_body;         # what uv_work gets: the body unless this is there
 *         wasmloop_fuel   10000000;              # of a request
 *         wasmloop_depth  64;
 *         wasmloop_time   1s;                    # of a request
 *         wasmloop_jobs   64;                    # running requests of a worker; above that: 503
 *         wasmloop_type   text/plain;
 *         client_max_body_size 64k;
 *     }
 *     location /guests { wasmloop_status; }      # counters of all workers, as Prometheus reads them
 *
 * The reply of uv_work is the response. A guest that fails gives 500, 503 or 504, for error_page; the error log says why and where. Variables for
 * log_format: $wasmloop_outcome, $wasmloop_fuel, $wasmloop_value. Modules are loaded when the configuration is: `nginx -t` reports one that is rejected,
 * and a reload replaces them. */
#include <ngx_config.h>
#include <ngx_core.h>
#include <ngx_http.h>
#include "../host.h"

#define SLICE  20000                /* units; some ten microseconds */
#define SLICES 5                    /* of an iteration of the event loop, all requests together */
#define MOST   65536                /* bytes of input */

typedef struct { wasmloop_handle module; ngx_uint_t op; } loaded_t;         /* what a `wasmloop` has loaded */

typedef struct {
    loaded_t *loaded;
    ngx_http_complex_value_t *input;
    ngx_uint_t fuel, depth, jobs;
    ngx_msec_t time;
    ngx_str_t type;
} conf_t;

typedef struct {
    wasmloop_handle job;
    wasmloop_about about;
    ngx_http_request_t *request;
    ngx_queue_t queue;              /* among the running, while `runs` */
    ngx_event_t deadline;           /* its timer also keeps a worker that shuts down until the request is over */
    ngx_flag_t runs;
    const char *late;               /* what ended it before it was over */
} ctx_t;

/* Of all workers, in shared memory, which reloads keep. Requests that ended are counted by outcome: the library's, but 0 is one whose client left. */
enum { LATE = WASMLOOP_WORK_MEMORY + 1, BUSY, OUTCOMES };
static const char late[] = "deadline", busy[] = "busy";
typedef struct { ngx_atomic_t ended[OUTCOMES], fuel, running; } counters_t;
static counters_t *counters;

ngx_module_t ngx_http_wasmloop_module;
static ngx_queue_t running;         /* of this worker */
static ngx_uint_t jobs;
static ngx_event_t turn;            /* posted while there are any */

static void leave(ctx_t *c)
{
    if (!c->runs) return;
    c->runs = 0;
    jobs--;
    (void) ngx_atomic_fetch_add(&counters->running, -1);
    ngx_queue_remove(&c->queue);
    if (c->deadline.timer_set) { ngx_del_timer(&c->deadline); }
}

/* With the request. */
static void drop_job(void *data)
{
    ctx_t *c = data;
    leave(c);
    if (wasmloop_job_about(&c->job, &c->about) == WASMLOOP_OK) {
        (void) ngx_atomic_fetch_add(&counters->ended[c->late == late ? LATE : c->late == busy ? BUSY : c->about.outcome], 1);
        (void) ngx_atomic_fetch_add(&counters->fuel, c->about.used);
    }
    (void) wasmloop_drop(&c->job);
}

static void drop_module(void *data) { (void) wasmloop_drop(data); }

static ngx_int_t respond(ngx_http_request_t *r, ngx_str_t type, const u_char *bytes, size_t length)
{
    ngx_int_t rc;
    ngx_chain_t out;
    ngx_buf_t *b;
    r->headers_out.status = NGX_HTTP_OK;
    r->headers_out.content_length_n = length;
    r->headers_out.content_type = type;
    r->headers_out.content_type_len = type.len;
    r->headers_out.content_type_lowcase = NULL;
    rc = ngx_http_send_header(r);
    if (rc == NGX_ERROR || rc > NGX_OK || r->header_only) return rc;
    if (length == 0) return ngx_http_send_special(r, NGX_HTTP_LAST);        /* an empty buffer is an alert */
    b = ngx_calloc_buf(r->pool);
    if (b == NULL) return NGX_ERROR;
    b->pos = (u_char *) bytes;      /* of a job, which lives as long as the request's pool: no copy */
    b->last = b->pos + length;
    b->memory = 1;
    b->last_buf = r == r->main;
    b->last_in_chain = 1;
    out.buf = b;
    out.next = NULL;
    return ngx_http_output_filter(r, &out);
}

static ngx_int_t finish(ctx_t *c)
{
    ngx_http_request_t *r = c->request;
    conf_t *conf = ngx_http_get_module_loc_conf(r, ngx_http_wasmloop_module);
    const uint8_t *bytes;
    uint64_t length;
    char told[900];
    (void) wasmloop_job_about(&c->job, &c->about);
    if (!c->late && wasmloop_job_view(&c->job, &bytes, &length) == WASMLOOP_OK) return respond(r, conf->type, bytes, length);
    (void) host_job_ended(&c->job, c->late, told, sizeof told);
    ngx_log_error(NGX_LOG_ERR, r->connection->log, 0, "wasmloop: %s", told);
    return c->late || c->about.outcome == WASMLOOP_WORK_SPENT ? NGX_HTTP_GATEWAY_TIME_OUT
        : c->about.outcome == WASMLOOP_WORK_MEMORY ? NGX_HTTP_SERVICE_UNAVAILABLE : NGX_HTTP_INTERNAL_SERVER_ERROR;
}

/* Ends a request from an event of ours: whatever waits on it goes on. */
static void end(ctx_t *c)
{
    ngx_http_request_t *r = c->request;
    ngx_connection_t *connection = r->connection;
    leave(c);
    ngx_http_set_log_request(connection->log, r);
    ngx_http_finalize_request(r, finish(c));
    ngx_http_run_posted_requests(connection);
}

/* A slice. Whether the job is over. */
static ngx_flag_t slice(ctx_t *c)
{
    uint32_t over = 0;
    return wasmloop_job_run_for(&c->job, SLICE, &over) != WASMLOOP_OK || over;
}

/* Once per iteration of the event loop: some slices of the requests that run, in turn. Between two iterations nginx looks at epoll, which does not wait. */
static void on_turn(ngx_event_t *ev)
{
    for (ngx_uint_t i = 0; i < SLICES && !ngx_queue_empty(&running); i++) {
        ctx_t *c = ngx_queue_data(ngx_queue_head(&running), ctx_t, queue);
        ngx_queue_remove(&c->queue);
        ngx_queue_insert_tail(&running, &c->queue);
        if (slice(c)) end(c);
    }
    if (!ngx_queue_empty(&running) && !ev->posted) { ngx_post_event(ev, &ngx_posted_next_events); }
}

static void on_deadline(ngx_event_t *ev)
{
    ctx_t *c = ev->data;
    c->late = late;
    end(c);
}

/* Gathers the input: 0, or a status. */
static ngx_int_t input_of(ngx_http_request_t *r, conf_t *conf, ngx_str_t *input)
{
    ngx_chain_t *cl, *bufs = r->request_body ? r->request_body->bufs : NULL;
    ngx_buf_t *b;
    off_t size = 0;
    u_char *p;
    if (conf->input) return ngx_http_complex_value(r, conf->input, input) == NGX_OK ? 0 : NGX_HTTP_INTERNAL_SERVER_ERROR;
    for (cl = bufs; cl; cl = cl->next) size += ngx_buf_size(cl->buf);
    if (size > MOST) return NGX_HTTP_REQUEST_ENTITY_TOO_LARGE;
    input->len = size;
    if (size == 0) return 0;
    if (bufs->next == NULL && !bufs->buf->in_file) { input->data = bufs->buf->pos; return 0; }
    p = input->data = ngx_pnalloc(r->pool, size);
    if (p == NULL) return NGX_HTTP_INTERNAL_SERVER_ERROR;
    for (cl = bufs; cl; cl = cl->next) {
        b = cl->buf;
        if (!b->in_file) { p = ngx_cpymem(p, b->pos, b->last - b->pos); continue; }
        if (ngx_read_file(b->file, p, b->file_last - b->file_pos, b->file_pos) != b->file_last - b->file_pos) return NGX_HTTP_INTERNAL_SERVER_ERROR;
        p += b->file_last - b->file_pos;
    }
    return 0;
}

static void body_read(ngx_http_request_t *r)
{
    conf_t *conf = ngx_http_get_module_loc_conf(r, ngx_http_wasmloop_module);
    ctx_t *c = ngx_http_get_module_ctx(r, ngx_http_wasmloop_module);
    wasmloop_task task = { conf->fuel, conf->loaded->op, conf->depth };
    ngx_str_t input = ngx_null_string;
    ngx_int_t rc = input_of(r, conf, &input);
    int status = rc ? WASMLOOP_OK : wasmloop_job_new(&conf->loaded->module, &task, input.data, input.len, &c->job);
    if (status != WASMLOOP_OK) rc = status == WASMLOOP_RANGE ? NGX_HTTP_REQUEST_ENTITY_TOO_LARGE : NGX_HTTP_SERVICE_UNAVAILABLE;
    if (rc || slice(c)) {           /* a short one is over at once */
        ngx_http_finalize_request(r, rc ? rc : finish(c));
        return;
    }
    if (jobs >= conf->jobs) {
        c->late = busy;
        ngx_log_error(NGX_LOG_ERR, r->connection->log, 0, "wasmloop: %ui requests run already (wasmloop_jobs)", jobs);
        ngx_http_finalize_request(r, NGX_HTTP_SERVICE_UNAVAILABLE);
        return;
    }
    if (ngx_handle_read_event(r->connection->read, 0) != NGX_OK) {
        ngx_http_finalize_request(r, NGX_HTTP_INTERNAL_SERVER_ERROR);
        return;
    }
    c->deadline.handler = on_deadline;
    c->deadline.data = c;
    c->deadline.log = r->connection->log;
    ngx_add_timer(&c->deadline, conf->time);
    c->runs = 1;
    jobs++;
    (void) ngx_atomic_fetch_add(&counters->running, 1);
    ngx_queue_insert_tail(&running, &c->queue);
    if (!turn.posted) { ngx_post_event(&turn, &ngx_posted_next_events); }
    r->read_event_handler = ngx_http_test_reading;      /* a client that leaves ends its request */
    r->write_event_handler = ngx_http_request_empty_handler;
}

static ngx_int_t handler(ngx_http_request_t *r)
{
    ctx_t *c = ngx_pcalloc(r->pool, sizeof *c);
    ngx_pool_cleanup_t *cleanup = ngx_pool_cleanup_add(r->pool, 0);
    ngx_int_t rc;
    if (c == NULL || cleanup == NULL) return NGX_HTTP_INTERNAL_SERVER_ERROR;
    c->request = r;
    cleanup->handler = drop_job;
    cleanup->data = c;
    ngx_http_set_ctx(r, c, ngx_http_wasmloop_module);
    if (r == r->main && r->headers_in.content_length_n > MOST) return NGX_HTTP_REQUEST_ENTITY_TOO_LARGE;
    r->request_body_in_single_buf = 1;
    rc = ngx_http_read_client_request_body(r, body_read);
    return rc >= NGX_HTTP_SPECIAL_RESPONSE ? rc : NGX_DONE;
}

static ngx_int_t status_handler(ngx_http_request_t *r)
{
    static const char *names[OUTCOMES] = { "left", "done", "trap", "depth", "spent", "memory", late, busy };
    ngx_str_t type = ngx_string("text/plain; version=0.0.4");
    u_char *text = ngx_pnalloc(r->pool, 1024), *p = text;
    ngx_int_t rc;
    if (!(r->method & (NGX_HTTP_GET|NGX_HTTP_HEAD))) return NGX_HTTP_NOT_ALLOWED;
    rc = ngx_http_discard_request_body(r);
    if (rc != NGX_OK) return rc;
    if (text == NULL) return NGX_HTTP_INTERNAL_SERVER_ERROR;
    p = ngx_sprintf(p, "# TYPE wasmloop_requests_total counter\n");
    for (ngx_uint_t i = 0; i < OUTCOMES; i++) p = ngx_sprintf(p, "wasmloop_requests_total{outcome=\"%s\"} %uA\n", names[i], counters->ended[i]);
    p = ngx_sprintf(p, "# TYPE wasmloop_fuel_total counter\nwasmloop_fuel_total %uA\n", counters->fuel);
    p = ngx_sprintf(p, "# TYPE wasmloop_running gauge\nwasmloop_running %A\n", counters->running);
    return respond(r, type, text, p - text);
}

/* ---- Configuration ---- */

static char *set_status(ngx_conf_t *cf, ngx_command_t *cmd, void *at)
{
    ngx_http_core_loc_conf_t *core = ngx_http_conf_get_module_loc_conf(cf, ngx_http_core_module);
    (void) cmd, (void) at;
    core->handler = status_handler;
    return NGX_CONF_OK;
}

static ngx_int_t init_counters(ngx_shm_zone_t *zone, void *old)
{
    counters = zone->data = old ? old : ngx_slab_calloc((ngx_slab_pool_t *) zone->shm.addr, sizeof *counters);
    return counters ? NGX_OK : NGX_ERROR;
}

/* Reads a file of the configuration: a module has at most 2^20 bytes. */
static ngx_int_t read_file(ngx_conf_t *cf, ngx_str_t *path, ngx_str_t *bytes)
{
    ngx_file_t file;
    ngx_file_info_t info;
    ssize_t n;
    ngx_memzero(&file, sizeof file);
    file.name = *path;
    file.log = cf->log;
    file.fd = ngx_open_file(path->data, NGX_FILE_RDONLY, NGX_FILE_OPEN, 0);
    if (file.fd == NGX_INVALID_FILE) return NGX_ERROR;
    n = ngx_fd_info(file.fd, &info) == NGX_FILE_ERROR ? NGX_ERROR : 0;
    bytes->len = n ? 0 : ngx_min(ngx_file_size(&info), 1 << 21);
    bytes->data = ngx_palloc(cf->temp_pool, bytes->len + 1);
    n = n || bytes->data == NULL ? NGX_ERROR : ngx_read_file(&file, bytes->data, bytes->len, 0);
    ngx_close_file(file.fd);
    return n == (ssize_t) bytes->len ? NGX_OK : NGX_ERROR;
}

static char *set_module(ngx_conf_t *cf, ngx_command_t *cmd, void *at)
{
    conf_t *conf = at;
    ngx_str_t *value = cf->args->elts, path = value[1], bytes;
    ngx_http_core_loc_conf_t *core = ngx_http_conf_get_module_loc_conf(cf, ngx_http_core_module);
    ngx_pool_cleanup_t *cleanup = ngx_pool_cleanup_add(cf->pool, 0);
    loaded_t *m = ngx_pcalloc(cf->pool, sizeof *m);
    wasmloop_shape shape;
    ngx_int_t op = 0;
    char why[300];
    (void) cmd;
    if (conf->loaded) return "is duplicate";
    if (m == NULL || cleanup == NULL || ngx_conf_full_name(cf->cycle, &path, 1) != NGX_OK) return NGX_CONF_ERROR;
    cleanup->handler = drop_module;         /* with the configuration, also one that fails */
    cleanup->data = &m->module;
    if (cf->args->nelts > 2 && ((op = ngx_atoi(value[2].data, value[2].len)) == NGX_ERROR || op > UINT32_MAX)) return "has an invalid operation";
    if (read_file(cf, &path, &bytes) != NGX_OK) {
        ngx_conf_log_error(NGX_LOG_EMERG, cf, ngx_errno, "wasmloop: cannot read \"%V\"", &path);
        return NGX_CONF_ERROR;
    }
    if (host_load(bytes.data, bytes.len, &m->module, why, sizeof why) == WASMLOOP_OK
        && (wasmloop_shape_of(&m->module, &shape) != WASMLOOP_OK || !shape.work)) ngx_memcpy(why, "it exports no uv_work", 22);
    if (*why) {
        ngx_conf_log_error(NGX_LOG_EMERG, cf, 0, "wasmloop: \"%V\": %s", &path, why);
        return NGX_CONF_ERROR;
    }
    m->op = op;
    conf->loaded = m;
    core->handler = handler;
    return NGX_CONF_OK;
}

#define ANYWHERE NGX_HTTP_MAIN_CONF|NGX_HTTP_SRV_CONF|NGX_HTTP_LOC_CONF|NGX_CONF_TAKE1
static ngx_conf_num_bounds_t depth_bounds = { ngx_conf_check_num_bounds, 1, 128 };
static ngx_command_t commands[] = {
    { ngx_string("wasmloop"), NGX_HTTP_LOC_CONF|NGX_CONF_TAKE12, set_module, NGX_HTTP_LOC_CONF_OFFSET, 0, NULL },
    { ngx_string("wasmloop_input"), ANYWHERE, ngx_http_set_complex_value_slot, NGX_HTTP_LOC_CONF_OFFSET, offsetof(conf_t, input), NULL },
    { ngx_string("wasmloop_fuel"), ANYWHERE, ngx_conf_set_num_slot, NGX_HTTP_LOC_CONF_OFFSET, offsetof(conf_t, fuel), NULL },
    { ngx_string("wasmloop_depth"), ANYWHERE, ngx_conf_set_num_slot, NGX_HTTP_LOC_CONF_OFFSET, offsetof(conf_t, depth), &depth_bounds },
    { ngx_string("wasmloop_jobs"), ANYWHERE, ngx_conf_set_num_slot, NGX_HTTP_LOC_CONF_OFFSET, offsetof(conf_t, jobs), NULL },
    { ngx_string("wasmloop_time"), ANYWHERE, ngx_conf_set_msec_slot, NGX_HTTP_LOC_CONF_OFFSET, offsetof(conf_t, time), NULL },
    { ngx_string("wasmloop_type"), ANYWHERE, ngx_conf_set_str_slot, NGX_HTTP_LOC_CONF_OFFSET, offsetof(conf_t, type), NULL },
    { ngx_string("wasmloop_status"), NGX_HTTP_LOC_CONF|NGX_CONF_NOARGS, set_status, NGX_HTTP_LOC_CONF_OFFSET, 0, NULL },
    ngx_null_command
};

static void *create(ngx_conf_t *cf)
{
    conf_t *conf = ngx_pcalloc(cf->pool, sizeof *conf);
    if (conf == NULL) return NULL;
    conf->fuel = conf->depth = conf->jobs = NGX_CONF_UNSET_UINT;
    conf->time = NGX_CONF_UNSET_MSEC;
    return conf;
}

static char *merge(ngx_conf_t *cf, void *parent, void *child)
{
    conf_t *p = parent, *c = child;
    ngx_http_core_loc_conf_t *core = ngx_http_conf_get_module_loc_conf(cf, ngx_http_core_module);
    ngx_conf_merge_uint_value(c->fuel, p->fuel, 10000000);
    ngx_conf_merge_uint_value(c->depth, p->depth, 64);
    ngx_conf_merge_uint_value(c->jobs, p->jobs, 64);
    ngx_conf_merge_msec_value(c->time, p->time, 1000);
    ngx_conf_merge_str_value(c->type, p->type, "application/octet-stream");
    if (c->input == NULL) c->input = p->input;
    if (core->noname && c->loaded == NULL && p->loaded) {               /* an `if` or a limit_except within the location */
        c->loaded = p->loaded;
        core->handler = handler;
    }
    return NGX_CONF_OK;
}

static ngx_int_t variable(ngx_http_request_t *r, ngx_http_variable_value_t *v, uintptr_t which)
{
    ctx_t *c = ngx_http_get_module_ctx(r, ngx_http_wasmloop_module);
    const char *name = c == NULL ? NULL : c->late ? c->late : wasmloop_outcome_name(c->about.outcome);
    v->not_found = c == NULL;
    if (c == NULL) return NGX_OK;
    v->valid = 1;
    v->no_cacheable = 1;
    if (which == 0) { v->data = (u_char *) (name ? name : "-"); v->len = ngx_strlen(v->data); return NGX_OK; }
    v->data = ngx_pnalloc(r->pool, NGX_INT64_LEN);
    if (v->data == NULL) return NGX_ERROR;
    v->len = (which == 1 ? ngx_sprintf(v->data, "%uL", c->about.used) : ngx_sprintf(v->data, "%D", (int32_t) c->about.value)) - v->data;
    return NGX_OK;
}

static ngx_int_t preconfiguration(ngx_conf_t *cf)
{
    static ngx_str_t names[] = { ngx_string("wasmloop_outcome"), ngx_string("wasmloop_fuel"), ngx_string("wasmloop_value") }, name = ngx_string("wasmloop");
    ngx_shm_zone_t *zone = ngx_shared_memory_add(cf, &name, 8 * ngx_pagesize, &ngx_http_wasmloop_module);
    if (zone == NULL) return NGX_ERROR;
    zone->init = init_counters;
    for (uintptr_t i = 0; i < 3; i++) {
        ngx_http_variable_t *v = ngx_http_add_variable(cf, &names[i], NGX_HTTP_VAR_NOCACHEABLE);
        if (v == NULL) return NGX_ERROR;
        v->get_handler = variable;
        v->data = i;
    }
    return NGX_OK;
}

static ngx_int_t init_process(ngx_cycle_t *cycle)
{
    ngx_queue_init(&running);
    turn.handler = on_turn;
    turn.log = cycle->log;
    return NGX_OK;
}

static ngx_http_module_t context = { preconfiguration, NULL, NULL, NULL, NULL, NULL, create, merge };
ngx_module_t ngx_http_wasmloop_module = { NGX_MODULE_V1, &context, commands, NGX_HTTP_MODULE, NULL, NULL, init_process, NULL, NULL, NULL, NULL, NGX_MODULE_V1_PADDING };
