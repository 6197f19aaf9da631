/* The grammar of a request's line, headers, chunks and trailers: a table, by which each byte leads from a state to the next one. A byte that the
 * table does not have is refused. Behind it: what stands in the few headers by which a request's end is found. */
#include <ctype.h>
#include <string.h>
#include "grammar.h"

enum { MOST_EXTENSIONS = 4096, MOST_DIGITS = 16, CHUNKED = 7, OTHER };

enum { REFUSED, FIRST, BLANK, BEGIN, METHOD, TARGET, ANY_TARGET, STAR, PATH, PERCENT, HEX, SCHEME, COLON, SLASH, NET, NET_HOST, NET_LITERAL, NET_LITERAL_END,
    NET_PORT, PEER, PEER_HOST, PEER_LITERAL, PEER_LITERAL_END, PEER_COLON, PEER_PORT, VERSION, LINE, FIELD, NAME, VALUE, VALUE_LF, LENGTH, DIGITS, LENGTH_END,
    HOST, HOST_NAME, HOST_LITERAL, HOST_LITERAL_END, HOST_PORT, HOST_END, CODING, HEAD_LF, BODY, SIZE, SIZE_MORE, SIZE_LF, EXTENSION, EXTENSION_NAME,
    EXTENSION_GAP, EXTENSION_IS, EXTENSION_VALUE, EXTENSION_END, QUOTED, ESCAPED, QUOTED_END, DATA, DATA_CR, DATA_LF, END, STATES };

#define DIGIT "0123456789"
#define ALPHA "abcdefghijklmnopqrstuvwxyzABCDEFGHIJKLMNOPQRSTUVWXYZ"
#define HEXES DIGIT "abcdefABCDEF"
#define TOKEN DIGIT ALPHA "!#$%&'*+-.^_`|~"
#define REG DIGIT ALPHA "-._~!$&'()*+,;="
#define URI REG ":@/?"
#define LITERAL HEXES ":."
#define BLANKS " \t"
#define TEXT NULL /* each byte but control bytes; blanks, too */

static const char NO_TARGET[] = "the target is neither a path nor a URL", NO_LINE[] = "a line that does not end by CR LF", NO_HOST[] = "the Host is none",
    NO_LENGTH[] = "the Content-Length is no number", NO_SIZE[] = "the size of a chunk is no hexadecimal number", NO_EXTENSION[] = "a chunk's extension is none";

static const struct {
    const char *why; /* another byte is refused */
    struct {
        const char *bytes;
        uint8_t to;
    } on[5];
} table[STATES] = {
    /* an empty line before a request is ignored */
    [FIRST] = { "no method", { { TOKEN, METHOD }, { "\r", BLANK } } },
    [BLANK] = { NO_LINE, { { "\n", BEGIN } } },
    [BEGIN] = { "no method", { { TOKEN, METHOD } } },
    [METHOD] = { "the method is no token", { { TOKEN, METHOD }, { " ", TARGET } } },
    /* a path, `*` (of OPTIONS), a URL, or a host and port (of CONNECT) */
    [TARGET] = { NO_TARGET, { { "/", PATH }, { ALPHA, SCHEME } } },
    [ANY_TARGET] = { NO_TARGET, { { "/", PATH }, { ALPHA, SCHEME }, { "*", STAR } } },
    [STAR] = { NO_TARGET, { { " ", VERSION } } },
    [PATH] = { "a byte that no path has", { { URI, PATH }, { "%", PERCENT }, { " ", VERSION } } },
    [PERCENT] = { "a % without two hexadecimal digits", { { HEXES, HEX } } },
    [HEX] = { "a % without two hexadecimal digits", { { HEXES, PATH } } },
    [SCHEME] = { NO_TARGET, { { DIGIT ALPHA "+-.", SCHEME }, { ":", COLON } } },
    [COLON] = { NO_TARGET, { { "/", SLASH } } },
    [SLASH] = { NO_TARGET, { { "/", NET } } },
    [NET] = { NO_TARGET, { { REG, NET_HOST }, { "[", NET_LITERAL } } },
    [NET_HOST] = { NO_TARGET, { { REG, NET_HOST }, { ":", NET_PORT }, { "/?", PATH }, { " ", VERSION } } },
    [NET_LITERAL] = { NO_TARGET, { { LITERAL, NET_LITERAL }, { "]", NET_LITERAL_END } } },
    [NET_LITERAL_END] = { NO_TARGET, { { ":", NET_PORT }, { "/?", PATH }, { " ", VERSION } } },
    [NET_PORT] = { NO_TARGET, { { DIGIT, NET_PORT }, { "/?", PATH }, { " ", VERSION } } },
    [PEER] = { NO_TARGET, { { REG, PEER_HOST }, { "[", PEER_LITERAL } } },
    [PEER_HOST] = { NO_TARGET, { { REG, PEER_HOST }, { ":", PEER_COLON } } },
    [PEER_LITERAL] = { NO_TARGET, { { LITERAL, PEER_LITERAL }, { "]", PEER_LITERAL_END } } },
    [PEER_LITERAL_END] = { NO_TARGET, { { ":", PEER_COLON } } },
    [PEER_COLON] = { NO_TARGET, { { DIGIT, PEER_PORT } } },
    [PEER_PORT] = { NO_TARGET, { { DIGIT, PEER_PORT }, { " ", VERSION } } },
    [VERSION] = { "the version is not HTTP/1.1 or HTTP/1.0", { { "HTP/." DIGIT, VERSION }, { "\r", LINE } } },
    [LINE] = { NO_LINE, { { "\n", FIELD } } },
    [FIELD] = { "a header that is folded, or has no name", { { TOKEN, NAME }, { "\r", HEAD_LF } } },
    [NAME] = { "a byte in a header's name that none has", { { TOKEN, NAME }, { ":", VALUE } } },
    [VALUE] = { "a control byte in a header", { { TEXT, VALUE }, { "\r", VALUE_LF } } },
    [VALUE_LF] = { NO_LINE, { { "\n", FIELD } } },
    [LENGTH] = { NO_LENGTH, { { BLANKS, LENGTH }, { DIGIT, DIGITS } } },
    [DIGITS] = { NO_LENGTH, { { DIGIT, DIGITS }, { BLANKS, LENGTH_END }, { "\r", VALUE_LF } } },
    [LENGTH_END] = { NO_LENGTH, { { BLANKS, LENGTH_END }, { "\r", VALUE_LF } } },
    [HOST] = { NO_HOST, { { BLANKS, HOST }, { REG, HOST_NAME }, { "[", HOST_LITERAL }, { "\r", VALUE_LF } } },
    [HOST_NAME] = { NO_HOST, { { REG, HOST_NAME }, { ":", HOST_PORT }, { BLANKS, HOST_END }, { "\r", VALUE_LF } } },
    [HOST_LITERAL] = { NO_HOST, { { LITERAL, HOST_LITERAL }, { "]", HOST_LITERAL_END } } },
    [HOST_LITERAL_END] = { NO_HOST, { { ":", HOST_PORT }, { BLANKS, HOST_END }, { "\r", VALUE_LF } } },
    [HOST_PORT] = { NO_HOST, { { DIGIT, HOST_PORT }, { BLANKS, HOST_END }, { "\r", VALUE_LF } } },
    [HOST_END] = { NO_HOST, { { BLANKS, HOST_END }, { "\r", VALUE_LF } } },
    [CODING] = { "a control byte in a Transfer-Encoding", { { TEXT, CODING }, { "\r", VALUE_LF } } },
    [HEAD_LF] = { NO_LINE, { { "\n", END } } },
    [SIZE] = { NO_SIZE, { { HEXES, SIZE_MORE } } },
    [SIZE_MORE] = { NO_SIZE, { { HEXES, SIZE_MORE }, { ";", EXTENSION }, { "\r", SIZE_LF } } },
    [SIZE_LF] = { NO_LINE, { { "\n", DATA } } },
    [EXTENSION] = { NO_EXTENSION, { { BLANKS, EXTENSION }, { TOKEN, EXTENSION_NAME } } },
    [EXTENSION_NAME] = { NO_EXTENSION, { { TOKEN, EXTENSION_NAME }, { BLANKS, EXTENSION_GAP }, { "=", EXTENSION_IS }, { ";", EXTENSION }, { "\r", SIZE_LF } } },
    [EXTENSION_GAP] = { NO_EXTENSION, { { BLANKS, EXTENSION_GAP }, { "=", EXTENSION_IS }, { ";", EXTENSION } } },
    [EXTENSION_IS] = { NO_EXTENSION, { { BLANKS, EXTENSION_IS }, { TOKEN, EXTENSION_VALUE }, { "\"", QUOTED } } },
    [EXTENSION_VALUE] = { NO_EXTENSION, { { TOKEN, EXTENSION_VALUE }, { BLANKS, EXTENSION_END }, { ";", EXTENSION }, { "\r", SIZE_LF } } },
    [EXTENSION_END] = { NO_EXTENSION, { { BLANKS, EXTENSION_END }, { ";", EXTENSION } } },
    [QUOTED] = { NO_EXTENSION, { { TEXT, QUOTED }, { "\\", ESCAPED }, { "\"", QUOTED_END } } },
    [ESCAPED] = { NO_EXTENSION, { { TEXT, QUOTED } } },
    [QUOTED_END] = { NO_EXTENSION, { { BLANKS, EXTENSION_END }, { ";", EXTENSION }, { "\r", SIZE_LF } } },
    [DATA_CR] = { "a chunk without CR LF at its end", { { "\r", DATA_LF } } },
    [DATA_LF] = { "a chunk without CR LF at its end", { { "\n", SIZE } } },
};

static uint8_t next[STATES][256];

/* Fills `next` by the table; of two rows that have a byte the later one counts. */
void grammar_begin(void) {
    for (int state = 0; state < STATES; state++)
        for (int row = 0; row < 5 && table[state].on[row].to; row++) {
            const char *bytes = table[state].on[row].bytes;
            for (int byte = 0; byte < 256; byte++) {
                bool is_text = byte == '\t' || (byte >= ' ' && byte != 0x7f);
                if (bytes ? byte && strchr(bytes, byte) : is_text) next[state][byte] = table[state].on[row].to;
            }
        }
}

static uint8_t refuse(grammar *g, int status, const char *why) {
    g->status = status;
    g->why = why;
    return REFUSED;
}

/* ---- what a byte that the table has means ---- */

static uint8_t named(grammar *g, uint8_t state, char byte) {
    size_t length = strlen(g->name);
    if (length < sizeof g->name - 1) g->name[length] = (char)tolower((unsigned char)byte), g->name[length + 1] = 0;
    return state;
}

/* The method is complete: which targets it may have. */
static uint8_t target_of(grammar *g) {
    bool peers = strcmp(g->name, "connect") == 0, any = strcmp(g->name, "options") == 0;
    *g->name = 0;
    return peers ? PEER : any ? ANY_TARGET : TARGET;
}

static uint8_t versioned(grammar *g, char byte) {
    static const char form[] = "HTTP/1.0";
    bool last = g->counted == sizeof form - 2;
    if (byte == '\r') return g->counted == sizeof form - 1 ? LINE : refuse(g, 400, table[VERSION].why);
    if (g->counted > sizeof form - 2 || (last ? !isdigit((unsigned char)byte) : byte != form[g->counted])) return refuse(g, 400, table[VERSION].why);
    g->counted++;
    if (last) g->minor = (uint8_t)(byte - '0');
    return VERSION;
}

/* A header's name is complete: how its value is read. */
static uint8_t value_of(grammar *g) {
    bool is_host = strcmp(g->name, "host") == 0, is_length = strcmp(g->name, "content-length") == 0, is_coding = strcmp(g->name, "transfer-encoding") == 0;
    if (g->trails && (is_host || is_length || is_coding)) return refuse(g, 400, "a trailer that says where a request ends, or to whom it goes");
    if (is_length && g->sized) return refuse(g, 400, "two Content-Lengths");
    g->sized |= is_length;
    g->expects |= !g->trails && strcmp(g->name, "expect") == 0;
    if (is_host && g->hosts < 2) g->hosts++;
    if (is_coding) g->codings += g->codings < 2, g->coded = 0;
    *g->name = 0;
    return is_host ? HOST : is_length ? LENGTH : is_coding ? CODING : VALUE;
}

/* Compares the last of the transfer codings with "chunked", which blanks may surround. */
static uint8_t coded(grammar *g, char byte) {
    bool blank = byte == ' ' || byte == '\t', ends = g->coded == 0 || g->coded == CHUNKED;
    if (byte == ',') g->codings += g->codings < 2, g->coded = 0;
    else if (g->coded < CHUNKED && tolower((unsigned char)byte) == "chunked"[g->coded]) g->coded++;
    else if (!blank || !ends) g->coded = OTHER;
    return CODING;
}

static uint8_t digit(grammar *g, char byte) {
    if (g->length > (UINT64_MAX - 9) / 10) return refuse(g, 400, "the Content-Length is too great");
    g->length = g->length * 10 + (uint64_t)(byte - '0');
    return DIGITS;
}

static uint8_t sized(grammar *g, char byte) {
    int low = tolower((unsigned char)byte);
    if (g->counted++ == MOST_DIGITS) return refuse(g, 400, "the size of a chunk is too great");
    g->left = g->left << 4 | (uint64_t)(low - (low > '9' ? 'a' - 10 : '0'));
    return SIZE_MORE;
}

static uint8_t extended(grammar *g, uint8_t state) {
    return g->extensions++ < MOST_EXTENSIONS ? state : refuse(g, 400, "the extensions of its chunks are too long");
}

/* The headers are complete, or the trailers: what comes next. */
static uint8_t behind_head(grammar *g) {
    g->counted = 0;
    if (g->trails) return END;
    if (g->codings && (g->sized || g->minor == 0)) return refuse(g, 400, "a Transfer-Encoding beside a Content-Length, or in HTTP/1.0");
    if (g->codings && g->coded != CHUNKED) return refuse(g, 400, "the last Transfer-Encoding is not chunked");
    if (g->codings > 1) return refuse(g, 501, "a Transfer-Encoding other than chunked");
    if (g->hosts != 1 && (g->minor > 0 || g->hosts)) return refuse(g, 400, "expected one Host header");
    g->chunked = g->codings;
    g->left = g->length;
    return g->chunked ? SIZE : g->left ? BODY : END;
}

/* The line with a chunk's size is complete. */
static uint8_t behind_size(grammar *g) {
    g->counted = 0;
    g->trails = g->left == 0;
    return g->trails ? FIELD : DATA;
}

static uint8_t meant(grammar *g, uint8_t to, char byte) {
    switch (to) {
    case METHOD:
    case NAME: return named(g, to, byte);
    case TARGET: return target_of(g);
    case VERSION: return byte == ' ' ? VERSION : versioned(g, byte);
    case LINE: return versioned(g, byte);
    case VALUE: return byte == ':' && *g->name ? value_of(g) : VALUE;
    case CODING: return coded(g, byte);
    case DIGITS: return digit(g, byte);
    case SIZE_MORE: return sized(g, byte);
    case DATA: return behind_size(g);
    case END: return behind_head(g);
    }
    return to >= EXTENSION && to <= QUOTED_END ? extended(g, to) : to;
}

/* Takes what can be taken at once of a body or a chunk. */
static size_t take_data(grammar *g, size_t n) {
    size_t took = g->left < n ? (size_t)g->left : n;
    g->left -= took;
    if (g->left == 0) g->state = g->state == BODY ? END : DATA_CR;
    return took;
}

size_t grammar_takes(grammar *g, const char *at, size_t n) {
    size_t took = 0;
    if (g->state == REFUSED || g->state == END) *g = (grammar){ .state = FIRST };
    while (took < n && g->state != END) {
        if (g->state == BODY || g->state == DATA) {
            took += take_data(g, n - took);
            continue;
        }
        uint8_t to = next[g->state][(unsigned char)at[took]];
        if (!to) refuse(g, 400, table[g->state].why);
        g->state = to ? meant(g, to, at[took]) : REFUSED;
        if (g->state == REFUSED) return took;
        took++;
    }
    g->ends = g->state == END;
    return took;
}
