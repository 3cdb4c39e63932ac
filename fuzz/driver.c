/* Calls every function of sefgrunn.h on documents, texts, settings and rooms made from one input, and checks each answer.
 *
 * Whatever is lent to the library ends at memory that cannot be read or written, and in a second call starts at such memory; what it
 * may only read is mapped for reading alone. Both calls must give the same answer. An input is a document; all else follows from its
 * bytes, so that an input that found a fault finds it again.
 *
 * Built with libFuzzer, or with -DALONE as a program of its own: driver SECONDS SEED SEED-DOCUMENT.. */
#define _GNU_SOURCE
#include "sefgrunn.h"

#include <signal.h>
#include <stdio.h>
#include <stdlib.h>
#include <string.h>
#include <sys/mman.h>
#include <time.h>
#include <ucontext.h>
#include <unistd.h>

enum { MOST_BYTES = 32768, MOST_WIDTH = 10000, MOST_HEIGHT = 200, MOST_INPUT = 40000, MOST_ROOM = 1 << 20, MOST_NUMBER = 23 };
/* What a room holds before a call, and what a number holds that the library must write. */
enum { BEFORE = 0xEE };
static const size_t UNWRITTEN = (size_t)-1 / 3;

static void fault(const char *what)
{
    fprintf(stderr, "fault: %s\n", what);
    abort();
}

static void must(int holds, const char *what)
{
    if (!holds) {
        fault(what);
    }
}

/* ---- chance ------------------------------------------------------------------------------------------------------------------ */

/* splitmix64 */
static uint64_t next(uint64_t *state)
{
    uint64_t z = (*state += 0x9E3779B97F4A7C15u);
    z = (z ^ (z >> 30)) * 0xBF58476D1CE4E5B9u;
    z = (z ^ (z >> 27)) * 0x94D049BB133111EBu;
    return z ^ (z >> 31);
}

/* 0 to n - 1 */
static size_t below(uint64_t *state, size_t n)
{
    return (size_t)(next(state) % n);
}

/* The state that an input gives: all of its bytes count. */
static uint64_t state_of(const uint8_t *data, size_t n)
{
    uint64_t hash = 0xCBF29CE484222325u;
    for (size_t i = 0; i < n; i++) {
        hash = (hash ^ data[i]) * 0x100000001B3u;
    }
    return hash;
}

static size_t room_size(uint64_t *state, size_t n)
{
    switch (below(state, 12)) {
    case 0:
        return 0;
    case 1:
    case 2:
        return below(state, 80);
    case 3:
        return n;
    case 4:
        return 65536;
    case 5:
        return below(state, 8) == 0 ? MOST_ROOM : 2 * n;
    default:
        return 6 * n + 700;
    }
}

static size_t width(uint64_t *state)
{
    static const size_t others[] = {100, 80, 40, 9999, 10000, 10001, (size_t)-1};
    return below(state, 3) == 0 ? others[below(state, 7)] : below(state, 111);
}

/* ---- fences ------------------------------------------------------------------------------------------------------------------ */

enum { FENCE = 1 << 20 };
enum placement { ENDS_AT_FENCE, STARTS_AT_FENCE };

/* `size` bytes between two stretches of FENCE bytes that cannot be accessed. */
struct fenced {
    uint8_t *lent;    /* what the library sees */
    uint8_t *written; /* the same bytes, where they can be written */
    size_t size;
};

static uint8_t *between_fences(size_t size, int protection, int file)
{
    uint8_t *all = mmap(NULL, size + 2 * FENCE, PROT_NONE, MAP_PRIVATE | MAP_ANONYMOUS | MAP_NORESERVE, -1, 0);
    must(all != MAP_FAILED, "mmap of fences");
    int flags = MAP_FIXED | (file < 0 ? MAP_PRIVATE | MAP_ANONYMOUS : MAP_SHARED);
    void *inner = mmap(all + FENCE, size, protection, flags, file, 0);
    must(inner != MAP_FAILED, "mmap between fences");
    return inner;
}

static struct fenced fenced(size_t size)
{
    uint8_t *lent = between_fences(size, PROT_READ | PROT_WRITE, -1);
    return (struct fenced){lent, lent, size};
}

/* The library sees it for reading alone. */
static struct fenced fenced_for_reading(size_t size)
{
    int file = memfd_create("read", 0);
    must(file >= 0 && ftruncate(file, (off_t)size) == 0, "memory for reading");
    uint8_t *written = between_fences(size, PROT_READ | PROT_WRITE, file);
    return (struct fenced){between_fences(size, PROT_READ, file), written, size};
}

static size_t offset(const struct fenced *in, size_t n, enum placement placement)
{
    must(n <= in->size, "driver: too large to be lent");
    return placement == ENDS_AT_FENCE ? in->size - n : 0;
}

/* Bytes to be read. An empty slice may have any pointer: of one that would start at a fence it is null. */
static const uint8_t *lend(struct fenced *in, const uint8_t *bytes, size_t n, enum placement placement)
{
    if (n == 0) {
        return placement == ENDS_AT_FENCE ? in->lent + in->size : NULL;
    }
    memcpy(in->written + offset(in, n, placement), bytes, n);
    return in->lent + offset(in, n, placement);
}

static uint8_t *lend_room(struct fenced *in, size_t n, enum placement placement)
{
    return n == 0 && placement == STARTS_AT_FENCE ? NULL : in->lent + offset(in, n, placement);
}

static size_t *lend_number(struct fenced *in, size_t value, enum placement placement)
{
    size_t *number = (size_t *)(void *)(in->lent + offset(in, sizeof *number, placement));
    *number = value;
    return number;
}

/* A uint32_t alone at the fence. */
static uint32_t *lend_small_number(struct fenced *in, uint32_t value, enum placement placement)
{
    uint32_t *number = (uint32_t *)(void *)(in->lent + offset(in, sizeof *number, placement));
    *number = value;
    return number;
}

static struct fenced documents, seconds, rooms, places, lengths, more[3];

/* ---- what was reached -------------------------------------------------------------------------------------------------------- */

enum function { CHECK, CONSOLE, HTML, HTML_STRICT, MARKDOWN, ROFF, WRITE, OPEN, CLOSE, DOC, EM_DOC, NEXT_CHUNK, TABSTOP, PAGE_COUNT, PAGE, HOUSE_SHAPE, NOTES, JOIN, UNJOIN,
    JOINED_CHECK, JOINED_CONSOLE, JOINED_HTML, JOINED_HTML_STRICT, JOINED_MARKDOWN, JOINED_ROFF, FIGURES, ROOM_BOUND, MERGE,
    DRAFT_RESUME, DRAFT_WRITE, DRAFT_OPEN, DRAFT_CLOSE, DRAFT_DOC, DRAFT_EM_DOC, FUNCTIONS };
static const char *const names[FUNCTIONS] = {"check", "console", "html", "html_strict", "markdown", "roff", "write", "open", "close",
    "doc", "em_doc", "next_chunk", "tabstop", "page_count", "page", "house_shape", "notes", "join", "unjoin", "joined_check", "j_console", "j_html", "j_html_s",
    "j_markdown", "j_roff", "figures", "room_bound", "merge", "d_resume", "d_write", "d_open", "d_close", "d_doc",
    "d_em_doc"};
static unsigned long calls[FUNCTIONS], accepts[FUNCTIONS], numbers[MOST_NUMBER + 1], inputs;

enum { MOST_BLOCKS = 16384, OUTCOMES = 16384 };
/* libFuzzer keeps an input that sets one of these for the first time. */
#ifndef ALONE
__attribute__((section("__libfuzzer_extra_counters")))
#endif
static uint8_t features[MOST_BLOCKS + OUTCOMES];
static uint8_t seen[MOST_BLOCKS + OUTCOMES];
static int fresh; /* the input set one for the first time */

static void feature(size_t index)
{
    features[index] = 1;
    fresh |= !seen[index];
    seen[index] = 1;
}

/* A call's number, and the power of two below its length or place. */
static void outcome(enum function function, uint32_t number, size_t at)
{
    unsigned power = 0;

    must(number <= MOST_NUMBER && number != 12, "no number of a refusal");
    calls[function]++;
    accepts[function] += number == 0;
    numbers[number] += function != NEXT_CHUNK; /* whose number is no refusal */
    while (at > 1 && power < 15) {
        at >>= 1;
        power++;
    }
    feature(MOST_BLOCKS + ((function * (MOST_NUMBER + 1u) + number) * 16u + power) % OUTCOMES);
}

/* The library is not instrumented: the first byte of each of its blocks of code becomes a breakpoint that goes when it is met. */
static struct { uint8_t *at, byte; } blocks[MOST_BLOCKS];
static size_t block_count, blocks_met;

static void met(int signal_number, siginfo_t *info, void *context)
{
    greg_t *rip = &((ucontext_t *)context)->uc_mcontext.gregs[REG_RIP];
    uint8_t *at = (uint8_t *)*rip - 1;
    size_t low = 0, high = block_count;

    (void)signal_number;
    (void)info;
    while (low < high) {
        size_t middle = low + (high - low) / 2;
        if (blocks[middle].at < at) {
            low = middle + 1;
        } else {
            high = middle;
        }
    }
    if (low == block_count || blocks[low].at != at) {
        fault("a breakpoint that the driver did not set");
    }
    *at = blocks[low].byte;
    *rip -= 1;
    blocks_met++;
    feature(low);
}

/* Reads ascending places, as differences to that of sefgrunn_check, from a file. */
static void set_blocks(const char *path)
{
    FILE *file = fopen(path, "r");
    long difference;
    struct sigaction action = {.sa_sigaction = met, .sa_flags = SA_SIGINFO};
    uintptr_t page = (uintptr_t)sysconf(_SC_PAGESIZE);

    must(file != NULL, "the list of blocks cannot be read");
    while (fscanf(file, "%ld", &difference) == 1 && block_count < MOST_BLOCKS) {
        blocks[block_count++].at = (uint8_t *)(uintptr_t)sefgrunn_check + difference;
    }
    fclose(file);
    must(block_count > 0 && sigaction(SIGTRAP, &action, NULL) == 0, "no block to watch");
    uintptr_t from = (uintptr_t)blocks[0].at / page * page;
    uintptr_t to = (uintptr_t)blocks[block_count - 1].at + 1;
    must(mprotect((void *)from, to - from, PROT_READ | PROT_WRITE | PROT_EXEC) == 0, "mprotect of the library's code");
    for (size_t i = 0; i < block_count; i++) {
        blocks[i].byte = *blocks[i].at;
        *blocks[i].at = 0xCC;
    }
}

/* ---- checking and rendering -------------------------------------------------------------------------------------------------- */

struct answer {
    uint32_t number;
    size_t at;
};

static struct answer run_check(const uint8_t *document, size_t n)
{
    struct answer answers[2];
    for (int p = ENDS_AT_FENCE; p <= STARTS_AT_FENCE; p++) {
        const uint8_t *lent = lend(&documents, document, n, p);
        size_t *place = lend_number(&places, UNWRITTEN, p);
        uint32_t number = sefgrunn_check(lent, n, place);
        answers[p] = (struct answer){number, *place};
        outcome(CHECK, number, *place);
        must(number <= 8, "check: no number of its own");
        must(*place <= n && (number != 0 || *place == 0), "check: place");
    }
    must(answers[0].number == answers[1].number && answers[0].at == answers[1].at, "check: two answers");
    return answers[0];
}

static void run_tabstop(const uint8_t *document, size_t n, struct answer checked)
{
    struct { size_t tabstop, at; } got[2];
    for (int p = ENDS_AT_FENCE; p <= STARTS_AT_FENCE; p++) {
        const uint8_t *lent = lend(&documents, document, n, p);
        size_t *tabstop = lend_number(&lengths, UNWRITTEN, p), *at = lend_number(&places, UNWRITTEN, p);
        uint32_t number = sefgrunn_tabstop(lent, n, tabstop, at);
        got[p].tabstop = *tabstop, got[p].at = *at;
        outcome(TABSTOP, number, *at);
        must(number == checked.number, "tabstop: not the check's number");
        if (number != 0) {
            must(*tabstop == 0 && *at == checked.at, "tabstop: after a refusal");
        } else {
            must(*tabstop >= 4 && *tabstop <= 28 && (*tabstop == 28) == (*at < n), "tabstop: what settles it");
            must(*at == n || (n - *at >= 6 && memcmp(document + *at, "\0\0\0\0\4\2", 6) == 0), "tabstop: not at the end of a term");
        }
    }
    must(got[0].tabstop == got[1].tabstop && got[0].at == got[1].at, "tabstop: two answers");
}

static void run_house_shape(const uint8_t *document, size_t n, struct answer checked)
{
    struct { uint32_t shaped; size_t place; } got[2];
    for (int p = ENDS_AT_FENCE; p <= STARTS_AT_FENCE; p++) {
        const uint8_t *lent = lend(&documents, document, n, p);
        uint32_t *shaped = lend_small_number(&lengths, (uint32_t)-1, p);
        size_t *place = lend_number(&places, UNWRITTEN, p);
        uint32_t number = sefgrunn_house_shape(lent, n, shaped, place);
        got[p].shaped = *shaped, got[p].place = *place;
        outcome(HOUSE_SHAPE, number, *place + (*shaped == 0));
        must(number == checked.number && *shaped <= 1, "house_shape: not the check's number");
        if (number != 0) {
            must(*shaped == 0 && *place == checked.at, "house_shape: after a refusal");
        } else {
            must(*shaped == 1 ? *place == 0 : n >= 6 && *place <= n - 6, "house_shape: place");
        }
    }
    must(got[0].shaped == got[1].shaped && got[0].place == got[1].place, "house_shape: two answers");
}

struct settings {
    enum function function;
    size_t width;
    bool full, css, characters;
};

static uint32_t render(struct settings s, const uint8_t *document, size_t n, uint8_t *room, size_t room_len, size_t *at)
{
    switch (s.function) {
    case CONSOLE:
        return sefgrunn_console(document, n, s.width, s.full, s.characters, room, room_len, at);
    case HTML:
        return sefgrunn_html(document, n, s.full, s.css, room, room_len, at);
    case HTML_STRICT:
        return sefgrunn_html_strict(document, n, s.full, s.css, room, room_len, at);
    case MARKDOWN:
        return sefgrunn_markdown(document, n, s.full, room, room_len, at);
    default:
        return sefgrunn_roff(document, n, room, room_len, at);
    }
}

/* Whether bytes are UTF-8, by the table of well-formed byte sequences of the Unicode standard. */
static int is_utf8(const uint8_t *s, size_t n)
{
    for (size_t i = 0; i < n;) {
        uint8_t b = s[i], low = 0x80, high = 0xBF;
        size_t more = b < 0x80 ? 0 : b >= 0xC2 && b <= 0xDF ? 1 : b >= 0xE0 && b <= 0xEF ? 2 : b >= 0xF0 && b <= 0xF4 ? 3 : 4;
        if (more > 3 || n - i <= more) {
            return 0;
        }
        low = b == 0xE0 ? 0xA0 : b == 0xF0 ? 0x90 : low;
        high = b == 0xED ? 0x9F : b == 0xF4 ? 0x8F : high;
        for (size_t k = 1; k <= more; k++) {
            if (s[i + k] < low || s[i + k] > high) {
                return 0;
            }
            low = 0x80;
            high = 0xBF;
        }
        i += more + 1;
    }
    return 1;
}

static uint8_t zeros[MOST_ROOM];
static uint8_t text[MOST_ROOM]; /* what the last accepted call left in its room */

/* The numbers that a renderer may give for a document with this verdict. */
static int may_give(struct settings s, struct answer checked, struct answer got)
{
    if (s.function == CONSOLE && s.width > MOST_WIDTH && checked.number != 1) {
        return got.number == 9 && got.at == 0;
    }
    if (checked.number != 0) {
        return got.number == checked.number && got.at == checked.at;
    }
    switch (got.number) {
    case 0:
        return 1;
    case 10:
        return s.function == CONSOLE;
    case 11:
        return s.function != CONSOLE;
    default:
        return got.number == 13 && got.at == 0;
    }
}

/* One rendering, in both placements; the text of an accepted one is left in `text`. */
static struct answer run_render(struct settings s, const uint8_t *document, size_t n, struct answer checked, size_t room_len)
{
    struct answer answers[2];
    for (int p = ENDS_AT_FENCE; p <= STARTS_AT_FENCE; p++) {
        const uint8_t *lent = lend(&documents, document, n, p);
        uint8_t *room = lend_room(&rooms, room_len, p);
        size_t *at = lend_number(&places, UNWRITTEN, p);
        if (room_len > 0) {
            memset(room, BEFORE, room_len);
        }
        uint32_t number = render(s, lent, n, room, room_len, at);
        size_t length = number == 0 ? *at : 0;
        answers[p] = (struct answer){number, *at};
        outcome(s.function, number, *at);
        must(may_give(s, checked, answers[p]), "renderer: not this number or place for this document");
        must(length <= room_len, "renderer: a length over the room");
        must(number == 0 || *at <= n, "renderer: a place behind the document");
        if (room_len > 0) {
            must(memcmp(room + length, zeros, room_len - length) == 0, "renderer: not 0 behind the text or after a refusal");
            must(p == ENDS_AT_FENCE || memcmp(text, room, length) == 0, "renderer: two texts");
            memcpy(text, room, length);
        }
    }
    must(answers[0].number == answers[1].number && answers[0].at == answers[1].at, "renderer: two answers");
    must(answers[0].number != 0 || is_utf8(text, answers[0].at), "renderer: a text that is not UTF-8");
    return answers[0];
}

/* A rendering in a room of some size, then in one of exactly the text's length and in one that is a byte shorter. */
static void try_render(struct settings s, const uint8_t *document, size_t n, struct answer checked, size_t room_len)
{
    static uint8_t kept[MOST_ROOM];
    struct answer first = run_render(s, document, n, checked, room_len), again;

    if (first.number != 0) {
        return;
    }
    memcpy(kept, text, first.at);
    again = run_render(s, document, n, checked, first.at);
    /* only the console trims, so only its text may have been longer before */
    must(again.number == 0 || (s.function == CONSOLE && again.number == 13), "renderer: refused in a room of its length");
    must(again.number != 0 || (again.at == first.at && memcmp(kept, text, first.at) == 0), "renderer: another text in another room");
    if (first.at > 0) {
        must(run_render(s, document, n, checked, first.at - 1).number == 13, "renderer: accepted in a room below its length");
    }
}

/* ---- how much room to lend --------------------------------------------------------------------------------------------------- */

/* The bound of an accepted document, counted from its records. */
static size_t bound_of(const uint8_t *document, size_t n)
{
    size_t bound = 1;
    for (size_t at = 0; at < n;) {
        size_t size = document[at] | (size_t)document[at + 1] << 8;
        bound += 54 * size + (document[at + 4] == 9 && document[at + 5] > 0);
        at += 6 + size;
    }
    return bound;
}

/* The bound; in a room of so many bytes the console never answers 13. */
static void try_room_bound(uint64_t *state, const uint8_t *document, size_t n, struct answer checked)
{
    size_t bounds[2];
    for (int p = ENDS_AT_FENCE; p <= STARTS_AT_FENCE; p++) {
        const uint8_t *lent = lend(&documents, document, n, p);
        size_t *at = lend_number(&places, UNWRITTEN, p);
        uint32_t number = sefgrunn_room_bound(lent, n, at);
        bounds[p] = *at;
        outcome(ROOM_BOUND, number, *at);
        must(number == checked.number, "room_bound: not the check's number");
        must(*at == (number == 0 ? bound_of(document, n) : checked.at), "room_bound: bound or place");
    }
    must(bounds[0] == bounds[1], "room_bound: two answers");
    if (checked.number == 0 && bounds[0] <= MOST_ROOM) {
        struct settings s = {CONSOLE, width(state), below(state, 3) != 0, false, below(state, 2) == 0};
        must(run_render(s, document, n, checked, bounds[0]).number != 13, "room_bound: not enough room");
    }
}

/* ---- the splitter ------------------------------------------------------------------------------------------------------------ */

struct cursor {
    size_t at;
    uint32_t ticks;
};

/* One chunk, in both placements; moves the cursor and says whether there was a chunk. */
static int run_next_chunk(const uint8_t *body, size_t n, struct cursor *cursor)
{
    struct { uint32_t which, ticks; size_t at, start, length, width; } got[2];
    for (int p = ENDS_AT_FENCE; p <= STARTS_AT_FENCE; p++) {
        const uint8_t *lent = lend(&documents, body, n, p);
        size_t *at = lend_number(&places, cursor->at, p), *start = lend_number(&more[0], UNWRITTEN, p);
        size_t *length = lend_number(&more[1], UNWRITTEN, p), *width = lend_number(&more[2], UNWRITTEN, p);
        uint32_t *ticks = lend_small_number(&lengths, cursor->ticks, p);
        uint32_t which = sefgrunn_next_chunk(lent, n, at, ticks, start, length, width);
        memset(&got[p], 0, sizeof got[p]);
        got[p].which = which, got[p].ticks = *ticks, got[p].at = *at;
        got[p].start = *start, got[p].length = *length, got[p].width = *width;
        outcome(NEXT_CHUNK, which, *start);
        must(which <= 4 && (which == 0) == (cursor->at >= n), "next_chunk: which chunk");
        if (which == 0) {
            must(*at == cursor->at && *ticks == cursor->ticks, "next_chunk: a cursor was moved without a chunk");
            must(*start == 0 && *length == 0 && *width == 0, "next_chunk: numbers without a chunk");
            continue;
        }
        must(*at > cursor->at && *at <= n && *ticks <= 2, "next_chunk: the cursor after a chunk");
        must(*start >= cursor->at && *start <= n && *length <= n - *start && *start + *length <= *at, "next_chunk: no part of the body");
        must(which == 1 || (body[*start] == '\n' && *start == cursor->at), "next_chunk: not at a line end");
        must(which == 1 || (*length == (which == 4) && *width == (which == 4)), "next_chunk: the numbers of a mark");
        must(which != 1 || *width <= *length || *width == 1000000 || *width == 1000001, "next_chunk: width");
        must(which != 1 || memchr(body + *start, '\n', *length) == NULL, "next_chunk: a line end in a chunk");
    }
    must(memcmp(&got[0], &got[1], sizeof got[0]) == 0, "next_chunk: two answers");
    *cursor = (struct cursor){got[0].at, got[0].ticks};
    return got[0].which != 0;
}

/* Any bytes as a body: the chunks from a cursor on, up to 64 of them, and one at a cursor of chance. */
static void try_splitter(uint64_t *state, const uint8_t *data, size_t n)
{
    struct cursor cursor = {below(state, 2) == 0 ? 0 : below(state, n + 2), (uint32_t)below(state, 4)};
    for (int left = 64; left > 0 && run_next_chunk(data, n, &cursor); left--) {
    }
    cursor = (struct cursor){below(state, 4) == 0 ? (size_t)next(state) : below(state, n + 1), (uint32_t)next(state)};
    run_next_chunk(data, n, &cursor);
}

/* ---- pages ------------------------------------------------------------------------------------------------------------------- */

static size_t run_page_count(const uint8_t *bytes, size_t n, size_t height)
{
    size_t counts[2];
    for (int p = ENDS_AT_FENCE; p <= STARTS_AT_FENCE; p++) {
        const uint8_t *lent = lend(&documents, bytes, n, p);
        size_t *count = lend_number(&places, UNWRITTEN, p);
        uint32_t number = sefgrunn_page_count(lent, n, height, count);
        counts[p] = *count;
        outcome(PAGE_COUNT, number, *count);
        must(number == (height < 1 || height > MOST_HEIGHT ? 20 : 0), "page_count: number");
        must(number == 0 ? *count <= n && (*count == 0) == (n == 0) : *count == 0, "page_count: count");
    }
    must(counts[0] == counts[1], "page_count: two answers");
    return counts[0];
}

/* One page, in both placements; its end, or 0. `count` is how many pages there are. */
static size_t run_page(const uint8_t *bytes, size_t n, size_t height, size_t page, size_t count)
{
    size_t starts[2], sizes[2], rows = 0;
    uint32_t expected = height < 1 || height > MOST_HEIGHT ? 20 : page < 1 || page > count ? 21 : 0;
    for (int p = ENDS_AT_FENCE; p <= STARTS_AT_FENCE; p++) {
        const uint8_t *lent = lend(&documents, bytes, n, p);
        size_t *start = lend_number(&places, UNWRITTEN, p), *length = lend_number(&lengths, UNWRITTEN, p);
        uint32_t number = sefgrunn_page(lent, n, height, page, start, length);
        starts[p] = *start, sizes[p] = *length;
        outcome(PAGE, number, *start);
        must(number == expected, "page: number");
        must(number == 0 ? *length > 0 && *start < n && *length <= n - *start : *start == 0 && *length == 0, "page: no part of the text");
    }
    must(starts[0] == starts[1] && sizes[0] == sizes[1], "page: two answers");
    for (size_t i = starts[0]; i < starts[0] + sizes[0]; i++) {
        rows += bytes[i] == '\n' || i == n - 1;
    }
    must(expected != 0 || (page < count ? rows == height && bytes[starts[0] + sizes[0] - 1] == '\n' : rows >= 1 && rows <= height),
        "page: rows");
    must(expected != 0 || (page == 1) == (starts[0] == 0), "page: start");
    return starts[0] + sizes[0];
}

/* Any bytes as a text: the count, then two pages that follow each other, and pages of chance. */
static void try_pages(uint64_t *state, const uint8_t *data, size_t n)
{
    static const size_t others[] = {0, 200, 201, (size_t)-1};
    size_t height = below(state, 6) == 0 ? others[below(state, 4)] : 1 + below(state, 30);
    size_t count = run_page_count(data, n, height);
    if (count > 0) {
        size_t page = 1 + below(state, count), end = run_page(data, n, height, page, count);
        must((page == count) == (end == n), "page: the last one");
        if (page < count) {
            must(run_page(data + end, n - end, height, 1, count - page) > 0, "page: the next one");
        }
    }
    run_page(data, n, height, below(state, 2) == 0 ? count + 1 : 0, count);
    run_page(data, n, height, (size_t)next(state), count);
}

/* ---- what is made into a room ------------------------------------------------------------------------------------------------ */

struct maker {
    enum function function;
    uint32_t (*call)(const uint8_t *given, size_t n, uint8_t *room, size_t room_len, size_t *at);
    size_t beside; /* bytes that are given beside these */
};

/* One call that makes bytes of bytes, in both placements; what an accepted one made is left in `text`. */
static struct answer run_maker(struct maker m, const uint8_t *given, size_t n, size_t room_len)
{
    struct answer answers[2];
    for (int p = ENDS_AT_FENCE; p <= STARTS_AT_FENCE; p++) {
        const uint8_t *lent = lend(&documents, given, n, p);
        uint8_t *room = lend_room(&rooms, room_len, p);
        size_t *at = lend_number(&places, UNWRITTEN, p);
        if (room_len > 0) {
            memset(room, BEFORE, room_len);
        }
        uint32_t number = m.call(lent, n, room, room_len, at);
        size_t length = number == 0 ? *at : 0;
        answers[p] = (struct answer){number, *at};
        outcome(m.function, number, *at);
        must(*at <= (number == 0 ? room_len : n > m.beside ? n : m.beside), "maker: a length over the room, or a place behind what was given");
        if (room_len > 0) {
            must(memcmp(room + length, zeros, room_len - length) == 0, "maker: not 0 behind what was made or after a refusal");
            must(p == ENDS_AT_FENCE || memcmp(text, room, length) == 0, "maker: two results");
            memcpy(text, room, length);
        }
    }
    must(answers[0].number == answers[1].number && answers[0].at == answers[1].at, "maker: two answers");
    return answers[0];
}

/* In a room of some size, then in one of exactly the length made and in one that is a byte shorter. */
static struct answer try_maker(struct maker m, const uint8_t *given, size_t n, size_t room_len)
{
    static uint8_t kept[MOST_ROOM];
    struct answer first = run_maker(m, given, n, room_len), again;

    if (first.number != 0) {
        return first;
    }
    memcpy(kept, text, first.at);
    if (first.at > 0) {
        again = run_maker(m, given, n, first.at - 1);
        must(again.number == 13 && again.at == 0, "maker: accepted in a room below its length");
    }
    again = run_maker(m, given, n, first.at);
    must(again.number == 0 && again.at == first.at && memcmp(kept, text, first.at) == 0, "maker: another result in another room");
    return first;
}

/* Any bytes as notes: what they make is a document. */
static void try_notes(uint64_t *state, const uint8_t *data, size_t n)
{
    struct maker m = {NOTES, sefgrunn_notes, 0};
    struct answer got = try_maker(m, data, n, below(state, 3) == 0 ? below(state, 100) : 40000);
    must((got.number == 1) == (n > MOST_BYTES), "notes: 1");
    must((got.number == 19) == (n <= MOST_BYTES && !is_utf8(data, n)), "notes: 19");
    must(got.number == 0 || got.number == 1 || got.number == 13 || got.number == 19, "notes: no number of its own");
    if (got.number == 0) {
        static uint8_t document[MOST_BYTES];
        must(got.at <= MOST_BYTES, "notes: a document over the limit");
        memcpy(document, text, got.at);
        must(run_check(document, got.at).number == 0, "notes: no document");
    }
}

/* ---- the joined form --------------------------------------------------------------------------------------------------------- */

static struct answer run_joined_check(const uint8_t *joined, size_t n)
{
    struct answer answers[2];
    for (int p = ENDS_AT_FENCE; p <= STARTS_AT_FENCE; p++) {
        const uint8_t *lent = lend(&documents, joined, n, p);
        size_t *place = lend_number(&places, UNWRITTEN, p);
        uint32_t number = sefgrunn_joined_check(lent, n, place);
        answers[p] = (struct answer){number, *place};
        outcome(JOINED_CHECK, number, *place);
        must(number <= 8 || number == 17 || number == 18, "joined_check: no number of its own");
        must(*place <= n && (number != 0 || *place == 0), "joined_check: place");
        must((number == 1) == (n > MOST_BYTES + 4), "joined_check: 1");
    }
    must(answers[0].number == answers[1].number && answers[0].at == answers[1].at, "joined_check: two answers");
    return answers[0];
}

/* The settings of this call, which the renderers of the joined form take like the others; `width` is the console's. */
static struct settings joined_settings;

static uint32_t joined_console(const uint8_t *joined, size_t n, uint8_t *room, size_t room_len, size_t *at)
{
    struct settings s = joined_settings;
    return sefgrunn_joined_console(joined, n, s.width, s.full, s.characters, room, room_len, at);
}

static uint32_t joined_html(const uint8_t *joined, size_t n, uint8_t *room, size_t room_len, size_t *at)
{
    return sefgrunn_joined_html(joined, n, joined_settings.full, joined_settings.css, room, room_len, at);
}

static uint32_t joined_html_strict(const uint8_t *joined, size_t n, uint8_t *room, size_t room_len, size_t *at)
{
    return sefgrunn_joined_html_strict(joined, n, joined_settings.full, joined_settings.css, room, room_len, at);
}

static uint32_t joined_markdown(const uint8_t *joined, size_t n, uint8_t *room, size_t room_len, size_t *at)
{
    return sefgrunn_joined_markdown(joined, n, joined_settings.full, room, room_len, at);
}

static const struct maker joined_renderers[] = {{JOINED_CONSOLE, joined_console, 0}, {JOINED_HTML, joined_html, 0},
    {JOINED_HTML_STRICT, joined_html_strict, 0}, {JOINED_MARKDOWN, joined_markdown, 0}, {JOINED_ROFF, sefgrunn_joined_roff, 0}};

/* Any bytes as a joined form: checked, moved back, rendered. */
static void try_any_joined(const uint8_t *joined, size_t n, size_t room_len)
{
    struct answer checked = run_joined_check(joined, n), got;
    struct maker unjoin = {UNJOIN, sefgrunn_unjoin, 0};

    got = try_maker(unjoin, joined, n, room_len);
    must(got.number == checked.number || (checked.number == 0 && got.number == 13), "unjoin: not the check's number");
    must(got.number != 0 || got.at + 4 == n, "unjoin: length");
    for (int i = 0; i < 5; i++) {
        struct settings s = joined_settings;
        s.function = CONSOLE + (enum function)i;
        got = run_maker(joined_renderers[i], joined, n, room_len);
        if (checked.number == 0) {
            must(may_give(s, checked, got), "joined renderer: number");
        } else {
            /* 1 and 17 come before 9 */
            int wide = i == 0 && s.width > MOST_WIDTH && checked.number != 1 && checked.number != 17;
            must(wide ? got.number == 9 && got.at == 0 : got.number == checked.number && got.at == checked.at, "joined renderer: refusal");
        }
    }
}

/* A document moved over, moved back, and rendered in both forms. */
static void try_joined(uint64_t *state, const uint8_t *data, size_t n, struct answer checked)
{
    static uint8_t form[MOST_ROOM], old[MOST_ROOM];
    struct maker join = {JOIN, sefgrunn_join, 0}, unjoin = {UNJOIN, sefgrunn_unjoin, 0};
    size_t room_len = room_size(state, n), form_n;
    struct answer got;

    joined_settings = (struct settings){JOINED_CONSOLE, width(state), below(state, 3) != 0, below(state, 4) == 0, below(state, 2) == 0};
    try_any_joined(data, n, room_len);
    got = try_maker(join, data, n, MOST_BYTES + 4);
    must(got.number == checked.number && got.at == (checked.number == 0 ? n + 4 : checked.at), "join: not the check's answer");
    if (got.number != 0) {
        return;
    }
    form_n = got.at;
    memcpy(form, text, form_n);
    must(run_joined_check(form, form_n).number == 0, "join: no joined form");
    got = run_maker(unjoin, form, form_n, n);
    must(got.number == 0 && got.at == n && memcmp(text, data, n) == 0, "unjoin: not the document");
    for (int i = 0; i < 5; i++) {
        struct settings s = joined_settings;
        s.function = CONSOLE + (enum function)i;
        got = run_render(s, data, n, checked, room_len);
        memcpy(old, text, got.number == 0 ? got.at : 0);
        struct answer new = run_maker(joined_renderers[i], form, form_n, room_len);
        must(new.number == got.number && (got.number != 0 || (new.at == got.at && memcmp(text, old, got.at) == 0)),
            "joined renderer: not as the document");
    }
    /* one byte changed */
    form[below(state, form_n)] ^= (uint8_t)(1u << below(state, 8));
    try_any_joined(form, form_n, room_len);
}

/* ---- bundles ----------------------------------------------------------------------------------------------------------------- */

static struct answer run_figures(const uint8_t *bundle, size_t n)
{
    struct { uint32_t number; size_t documents, accepted, refused, characters, place; } got[2];
    for (int p = ENDS_AT_FENCE; p <= STARTS_AT_FENCE; p++) {
        const uint8_t *lent = lend(&documents, bundle, n, p);
        size_t *docs = lend_number(&more[0], UNWRITTEN, p), *accepted = lend_number(&more[1], UNWRITTEN, p);
        size_t *refused = lend_number(&more[2], UNWRITTEN, p), *characters = lend_number(&lengths, UNWRITTEN, p);
        size_t *place = lend_number(&places, UNWRITTEN, p);
        uint32_t number = sefgrunn_figures(lent, n, docs, accepted, refused, characters, place);
        memset(&got[p], 0, sizeof got[p]);
        got[p].number = number, got[p].documents = *docs, got[p].accepted = *accepted;
        got[p].refused = *refused, got[p].characters = *characters, got[p].place = *place;
        outcome(FIGURES, number, number == 0 ? *characters : *place);
        must(number == 0 || (number >= 14 && number <= 16), "figures: no number of its own");
        must((number == 16) == (n > 65536), "figures: 16");
        must(*accepted + *refused == *docs && *docs <= n / 6 && *characters <= n, "figures: they do not add up");
        must(number == 0 ? *place == 0 : *docs == 0 && *characters == 0 && *place <= n, "figures: after a refusal");
    }
    must(memcmp(&got[0], &got[1], sizeof got[0]) == 0, "figures: two answers");
    return (struct answer){got[0].number, got[0].accepted};
}

/* The input, or parts of it, once or twice in a bundle; then a bundle with a byte changed. */
static void try_figures(uint64_t *state, const uint8_t *data, size_t n, struct answer checked)
{
    static uint8_t bundle[2 * MOST_INPUT + 24];
    size_t used = 0;
    struct answer got;

    for (int i = (int)below(state, 3); i >= 0 && used + n + 6 <= sizeof bundle; i--) {
        size_t part = i == 0 ? n : below(state, n + 1);
        const uint8_t head[6] = {(uint8_t)part, (uint8_t)(part >> 8), (uint8_t)(part >> 16), 0, 0, 3};
        memcpy(bundle + used, head, 6);
        memcpy(bundle + used + 6, data, part);
        used += 6 + part;
    }
    got = run_figures(bundle, used);
    must(got.number == 0 || used > 65536, "figures: a bundle that is refused");
    must(checked.number != 0 || n > 0 || got.at > 0, "figures: an empty document is accepted");
    bundle[below(state, 4) == 0 ? below(state, used) : below(state, 6)] ^= (uint8_t)(1u << below(state, 8));
    run_figures(bundle, used);
    run_figures(data, n);
}

/* ---- lists merged ------------------------------------------------------------------------------------------------------------ */

/* The side that is merged with what is given. */
static const uint8_t *second_side;
static size_t second_n;

static uint32_t merge_with(const uint8_t *first, size_t n, uint8_t *room, size_t room_len, size_t *at)
{
    /* at the fence at which the first side is not */
    return sefgrunn_merge(first, n, lend(&seconds, second_side, second_n, STARTS_AT_FENCE), second_n, room, room_len, at);
}

/* An option list with terms from a to z, ascending but for one time in sixteen. */
static size_t make_list(uint8_t *out, uint64_t *state)
{
    static const uint8_t open_list[] = {0, 0, 0, 0, 6, 1}, close_list[] = {0, 0, 0, 0, 6, 2};
    uint8_t item[] = {0, 0, 0, 0, 4, 1, 1, 0, 0, 0, 3, 0, 'a', 0, 0, 0, 0, 4, 2, 0, 0, 0, 0, 5, 1, 0, 0, 0, 0, 5, 2};
    size_t n = 0;

    memcpy(out, open_list, 6);
    n += 6;
    for (uint8_t term = 'a'; term <= 'z'; term = (uint8_t)(term + 1 + below(state, 9))) {
        item[12] = below(state, 40) == 0 ? 'c' : term;
        memcpy(out + n, item, sizeof item);
        n += sizeof item;
    }
    memcpy(out + n, close_list, 6);
    return n + 6;
}

/* A first side merged with a second one. */
static struct answer merge(const uint8_t *first, size_t n, const uint8_t *second, size_t m, size_t room_len)
{
    second_side = second, second_n = m;
    return try_maker((struct maker){MERGE, merge_with, m}, first, n, room_len);
}

/* The input merged with itself, with a list and with a part of itself; two lists merged. */
static void try_merge(uint64_t *state, const uint8_t *data, size_t n, struct answer checked)
{
    static uint8_t list[2048], other[2048], result[MOST_BYTES];
    size_t list_n = make_list(list, state), other_n = make_list(other, state);
    struct answer got = merge(data, n, data, n, n);

    must(checked.number == 0 ? got.number == 0 || got.number == 22 || got.number == 23 : got.number == checked.number,
        "merge: number");
    must(got.number != 0 || (got.at == n && memcmp(text, data, n) == 0), "merge: a list merged with itself is another");
    got = merge(data, n, list, list_n, room_size(state, n));
    must(checked.number == 0 || (got.number == checked.number && got.at == checked.at), "merge: the first side is refused first");
    got = merge(other, other_n, list, list_n, MOST_BYTES);
    must(got.number == 0 || got.number == 23, "merge: two lists");
    if (got.number == 0) {
        memcpy(result, text, got.at);
        must(run_check(result, got.at).number == 0, "merge: no document");
    }
    merge(other, other_n, data, below(state, n + 1), MOST_BYTES);
}

/* ---- the builder ------------------------------------------------------------------------------------------------------------- */

struct build {
    enum function function;
    uint32_t kind; /* style or block */
    const uint8_t *added;
    size_t n;
};

static uint8_t before[MOST_ROOM];

static uint32_t build(struct build b, const uint8_t *added, uint8_t *room, size_t room_len, size_t *length, size_t *place)
{
    switch (b.function) {
    case WRITE:
        return sefgrunn_write(room, room_len, length, b.kind, added, b.n, place);
    case OPEN:
        return sefgrunn_open(room, room_len, length, b.kind, place);
    case CLOSE:
        return sefgrunn_close(room, room_len, length, b.kind, place);
    case DOC:
        return sefgrunn_doc(room, room_len, length, added, b.n, place);
    default:
        return sefgrunn_em_doc(room, room_len, length, added, b.n, place);
    }
}

/* How many bytes an accepted call may add. */
static int may_grow(struct build b, size_t bytes)
{
    switch (b.function) {
    case WRITE:
        return bytes == b.n || bytes == b.n + 6;
    case OPEN:
    case CLOSE:
        return bytes == 6;
    case DOC:
        return bytes == b.n + 12;
    default: /* the bracket; a line end may become a Section3 around a second record */
        return bytes >= 12 && bytes <= b.n + 12 + 17;
    }
}

static int differences(const uint8_t *a, const uint8_t *b, size_t n)
{
    int count = 0;
    for (size_t i = 0; i < n; i++) {
        count += a[i] != b[i];
    }
    return count;
}

/* What an accepted call may have changed: the new records, and for text the four bytes of the last record's size. */
static void check_built(struct build b, const uint8_t *room, size_t room_len, size_t old, size_t new)
{
    must(new <= room_len && new <= MOST_BYTES && new >= old && may_grow(b, new - old), "builder: length");
    must(memcmp(room + new, before + new, room_len - new) == 0, "builder: a byte behind the document was changed");
    int changed = memcmp(room, before, old) == 0 ? 0 : differences(room, before, old);
    must(changed == 0 || (b.function == WRITE && new - old == b.n && changed <= 4), "builder: a byte of the document was changed");
}

/* One call, in both placements, on the room that `before` holds. The new length, and the room in `before`; 0 after a refusal. */
static size_t run_build(struct build b, size_t room_len, size_t length)
{
    struct answer answers[2];
    size_t lengths_after[2];
    uint8_t *room = NULL;
    for (int p = ENDS_AT_FENCE; p <= STARTS_AT_FENCE; p++) {
        const uint8_t *added = lend(&documents, b.added, b.n, p);
        room = lend_room(&rooms, room_len, p);
        size_t *place = lend_number(&places, UNWRITTEN, p), *len = lend_number(&lengths, length, p);
        if (room_len > 0) {
            memcpy(room, before, room_len);
        }
        uint32_t number = build(b, added, room, room_len, len, place);
        answers[p] = (struct answer){number, *place};
        lengths_after[p] = *len;
        outcome(b.function, number, *place);
        must(number <= 8 || number == 13, "builder: no number of its own");
        must(number == 13 ? *place == 0 : *place <= MOST_BYTES + b.n + 24, "builder: place");
        if (number == 0) {
            must(*place == 0, "builder: place of an accepted call");
            check_built(b, room, room_len, length, *len);
            must(p == ENDS_AT_FENCE || memcmp(text, room, *len) == 0, "builder: two documents");
            memcpy(text, room, *len);
        } else {
            must(*len == length, "builder: a refused call changed the length");
            must(room_len == 0 || memcmp(room, before, room_len) == 0, "builder: a refused call changed the room");
        }
    }
    must(answers[0].number == answers[1].number && answers[0].at == answers[1].at && lengths_after[0] == lengths_after[1],
        "builder: two answers");
    if (answers[0].number != 0) {
        return 0;
    }
    memcpy(before, room, room_len);
    struct answer checked = run_check(before, lengths_after[0]);
    must(checked.number == 0 || checked.number == 8, "builder: what it built is not a document");
    return lengths_after[0];
}

/* A few calls, each on what the one before built; the document so far is the input up to `cut`. */
static void try_builder(uint64_t *state, const uint8_t *data, size_t n, size_t cut)
{
    static const size_t spare[] = {0, 1, 5, 6, 7, 12, 40, 500, 40000};
    size_t length = cut;
    size_t room_len = cut + spare[below(state, 9)];

    memset(before, BEFORE, room_len);
    memcpy(before, data, cut);
    for (int turn = 0; turn < 4; turn++) {
        struct build b = {WRITE + (enum function)below(state, 5), (uint32_t)below(state, 13), data, n};
        if (b.function == WRITE) {
            size_t from = below(state, n + 1);
            b.added = data + from;
            b.n = below(state, n - from + 1);
        } else if (b.function == OPEN || b.function == CLOSE) {
            b.n = 0;
        }
        if (below(state, 40) == 0) {
            b.kind = (uint32_t)next(state);
        }
        size_t given = length;
        if (below(state, 40) == 0) {
            given = below(state, 2) == 0 ? (size_t)next(state) : room_len + 1;
        }
        size_t new = run_build(b, room_len, given);
        length = new > 0 ? new : length;
    }
}

/* A text written at once and in two pieces, cut where it may be cut, to the same document. */
static void try_small_writes(uint64_t *state, const uint8_t *data, size_t n, size_t cut)
{
    static uint8_t once[MOST_ROOM];
    size_t from = below(state, n + 1), size = below(state, (n - from < 200 ? n - from : 200) + 1), at = below(state, size + 1);
    size_t room_len = cut + size + 6;
    struct build whole = {WRITE, 1 + (uint32_t)below(state, 5), data + from, size}, first = whole, second = whole;

    if (!is_utf8(data + from, at) || !is_utf8(data + from + at, size - at)) {
        return;
    }
    first.n = at;
    second.added += at, second.n -= at;
    memset(before, BEFORE, room_len);
    memcpy(before, data, cut);
    size_t length = run_build(whole, room_len, cut);
    if (length > 0) {
        memcpy(once, before, room_len);
        memset(before, BEFORE, room_len);
        memcpy(before, data, cut);
        must(run_build(second, room_len, run_build(first, room_len, cut)) == length, "small writes: another length");
        must(memcmp(once, before, room_len) == 0, "small writes: another document");
    }
}

/* ---- the builder by a draft -------------------------------------------------------------------------------------------------- */

enum { WORDS = 8 };

static uint64_t *lend_draft(const uint64_t *words, enum placement placement)
{
    uint64_t *draft = (uint64_t *)(void *)lend_room(&lengths, WORDS * sizeof *words, placement);
    memcpy(draft, words, WORDS * sizeof *words);
    return draft;
}

/* The draft of the first bytes of the room that `before` holds; the check's own refusals, and then the words stay. */
static uint32_t resume_draft(size_t room_len, size_t length, uint64_t *words)
{
    uint32_t number = 0;
    uint64_t old[WORDS];
    memcpy(old, words, sizeof old);
    for (int p = ENDS_AT_FENCE; p <= STARTS_AT_FENCE; p++) {
        const uint8_t *room = lend(&documents, before, room_len, p);
        size_t *place = lend_number(&places, UNWRITTEN, p);
        uint64_t *draft = lend_draft(old, p);
        uint32_t got = sefgrunn_draft_resume(room, room_len, length, draft, place);
        outcome(DRAFT_RESUME, got, *place);
        must(got <= 7 || got == 13, "draft: no number of a check");
        must(got == 0 ? draft[0] == length && *place == 0 : memcmp(draft, old, sizeof old) == 0, "draft: words after a check");
        must(p == ENDS_AT_FENCE || (got == number && memcmp(draft, words, sizeof old) == 0), "draft: two answers");
        number = got;
        memcpy(words, draft, sizeof old);
    }
    return number;
}

/* One call by a draft on the room that `before` holds; the room after it is in `text`. */
static struct answer by_draft(struct build b, size_t room_len, uint64_t *words, enum placement p)
{
    const uint8_t *added = lend(&documents, b.added, b.n, p);
    uint8_t *room = lend_room(&rooms, room_len, p);
    size_t *place = lend_number(&places, UNWRITTEN, p);
    uint64_t *draft = lend_draft(words, p);
    if (room_len > 0) {
        memcpy(room, before, room_len);
    }
    uint32_t number = b.function == WRITE ? sefgrunn_draft_write(room, room_len, draft, b.kind, added, b.n, place)
        : b.function == OPEN              ? sefgrunn_draft_open(room, room_len, draft, b.kind, place)
        : b.function == CLOSE             ? sefgrunn_draft_close(room, room_len, draft, b.kind, place)
        : b.function == DOC               ? sefgrunn_draft_doc(room, room_len, draft, added, b.n, place)
                                          : sefgrunn_draft_em_doc(room, room_len, draft, added, b.n, place);
    outcome(DRAFT_WRITE + (b.function - WRITE), number, *place);
    must(number <= 8 || number == 13, "draft: no number of the builder");
    memcpy(words, draft, WORDS * sizeof *words);
    if (room_len > 0) {
        memcpy(text, room, room_len);
    }
    return (struct answer){number, *place};
}

/* The start of a record chosen among the first 64, so that a document so far ends between records, some blocks open. */
static size_t record_start(uint64_t *state, const uint8_t *data, size_t n)
{
    size_t at = 0;
    for (size_t left = below(state, 64); left > 0 && n - at >= 6; left--) {
        size_t size = data[at] | (size_t)data[at + 1] << 8 | (size_t)data[at + 2] << 16 | (size_t)data[at + 3] << 24;
        if (size > n - at - 6) {
            break;
        }
        at += 6 + size;
    }
    return at;
}

/* Calls by a draft beside the same calls without; then by drafts of random numbers, of which only the number and the fences are looked at. */
static void try_draft(uint64_t *state, const uint8_t *data, size_t n, size_t cut)
{
    static uint8_t plain[MOST_ROOM];
    uint64_t words[WORDS] = {0};
    size_t room_len = cut + below(state, 300) + (below(state, 3) == 0 ? n : 0), length = cut;

    memset(before, BEFORE, room_len);
    memcpy(before, data, cut);
    if (resume_draft(room_len, cut, words) != 0) {
        return;
    }
    for (int turn = 0; turn < 4; turn++) {
        struct build b = {WRITE + (enum function)below(state, 5), (uint32_t)below(state, 13), data, 0};
        if (b.function == DOC || b.function == EM_DOC) {
            b.n = below(state, 2) == 0 ? n : record_start(state, data, n);
        }
        if (b.function == WRITE) {
            size_t from = below(state, n + 1);
            b.added = data + from;
            b.n = below(state, (n - from < 80 ? n - from : 80) + 1);
        }
        size_t new = length, place = UNWRITTEN;
        memcpy(plain, before, room_len);
        uint32_t number = build(b, b.added, plain, room_len, &new, &place);
        for (int p = ENDS_AT_FENCE; p <= STARTS_AT_FENCE; p++) {
            uint64_t made_up[WORDS], given[WORDS];
            for (int i = 0; i < WORDS; i++) {
                made_up[i] = below(state, 2) == 0 ? words[i] : below(state, 2) == 0 ? below(state, room_len + 9) : next(state);
            }
            by_draft(b, room_len, made_up, p);
            memcpy(given, words, sizeof given);
            struct answer answer = by_draft(b, room_len, given, p);
            must(answer.number == number && answer.at == place, "draft: another answer than without");
            must(given[0] == new, "draft: another length than without");
            must(room_len == 0 || memcmp(text, plain, room_len) == 0, "draft: another room than without");
            must(number == 0 || memcmp(given, words, sizeof given) == 0, "draft: a refused call changed the draft");
            if (p == STARTS_AT_FENCE) {
                memcpy(words, given, sizeof given);
            }
        }
        memcpy(before, plain, room_len);
        length = new;
    }
}

/* ---- one input --------------------------------------------------------------------------------------------------------------- */

int LLVMFuzzerTestOneInput(const uint8_t *data, size_t n)
{
    if (n > MOST_INPUT) {
        return 0;
    }
    uint64_t state = state_of(data, n);
    struct answer checked = run_check(data, n);
    inputs++;
    run_tabstop(data, n, checked);
    run_house_shape(data, n, checked);
    for (enum function f = CONSOLE; f <= ROFF; f++) {
        struct settings s = {f, width(&state), below(&state, 3) != 0, below(&state, 4) == 0, below(&state, 2) == 0};
        try_render(s, data, n, checked, room_size(&state, n));
    }
    try_room_bound(&state, data, n, checked);
    try_splitter(&state, data, n);
    try_pages(&state, data, n);
    try_notes(&state, data, n);
    /* from the first text record's body on there is text that may be notes */
    try_notes(&state, data + (n < 6 ? n : 6), n < 6 ? 0 : n - 6);
    try_joined(&state, data, n, checked);
    try_figures(&state, data, n, checked);
    try_merge(&state, data, n, checked);
    try_builder(&state, data, n, below(&state, 4) == 0 ? n : record_start(&state, data, n));
    try_small_writes(&state, data, n, record_start(&state, data, n));
    try_draft(&state, data, n, record_start(&state, data, n));
    return 0;
}

static void report(void)
{
    unsigned long all = 0;
    printf("\n%-12s %14s %14s\n", "function", "calls", "accepted");
    for (int f = 0; f < FUNCTIONS; f++) {
        printf("%-12s %14lu %14lu\n", names[f], calls[f], accepts[f]);
        all += calls[f];
    }
    printf("answers 0 to %d:", MOST_NUMBER);
    for (int i = 0; i <= MOST_NUMBER; i++) {
        printf(" %lu", numbers[i]);
    }
    printf("\nblocks of the library's code: %zu of %zu met\n", blocks_met, block_count);
    printf("%lu inputs, %lu calls, no fault\n", inputs, all);
    fflush(stdout);
}

static void prepare(void)
{
    const char *list = getenv("FUZZ_BLOCKS");
    documents = fenced_for_reading(MOST_ROOM);
    seconds = fenced_for_reading(MOST_ROOM);
    rooms = fenced(MOST_ROOM);
    places = fenced(4096);
    lengths = fenced(4096);
    for (int i = 0; i < 3; i++) {
        more[i] = fenced(4096);
    }
    if (list != NULL) {
        set_blocks(list);
    }
}

/* ---- making inputs ----------------------------------------------------------------------------------------------------------- */

struct input {
    uint8_t *at;
    size_t n, most;
};

static const char *const pieces[] = {"a", "b", "of", "port", "-p", "--listen", "UPPER", "longer-word-to-fold", " ", " ", " ", " ", "\n",
    "\n\n", "\n\n\n", "\n ", "\n    ", "\n\n    ", "\n\n```", "\n\n```\n", "\n```\n", "\n```\n\n", "```", "`", "    ", "\n.", "\n'", "'",
    "\\", "-", ".", "<", ">", "&", "&amp;", "&lt;", "&gt;", "&am", "[", "]", "*", "_", "#", "\t", "\r", "\v", "\xC2\x85", "\xC2\xA0",
    "\xC3\x9F", "\xCE\x90", "\xC7\x86", "\xF0\x9E\xA5\x83",
    "\xE1\x9A\x80", "\xE2\x80\x83", "\xE2\x80\xA8", "\xE3\x80\x80", "\xC3\xA9", "\xE6\xBC\xA2", "\xF0\x9F\x98\x80", "e\xCC\x81",
    "tttttttttttttttttttttttt", "uuuuuuuuuuuuuuuuuuuuuuuuuuu"};
enum { PIECES = sizeof pieces / sizeof pieces[0] };
/* one of these makes a text that is not UTF-8 */
static const char *const broken[] = {"\x80", "\xC3", "\xC0\x80", "\xE0\x80\x80", "\xED\xA0\x80", "\xF4\x90\x80\x80", "\xFF", "\xE6\xBC"};

/* Makes room for n bytes at a place; says whether they fit. */
static int make_space(struct input *in, size_t at, size_t n)
{
    if (n > in->most - in->n) {
        return 0;
    }
    memmove(in->at + at + n, in->at + at, in->n - at);
    in->n += n;
    return 1;
}

static size_t put_record(struct input *in, size_t at, unsigned kind, const uint8_t *body, size_t n)
{
    const uint8_t head[6] = {(uint8_t)n, (uint8_t)(n >> 8), (uint8_t)(n >> 16), (uint8_t)(n >> 24), (uint8_t)kind, (uint8_t)(kind >> 8)};
    if (!make_space(in, at, 6 + n)) {
        return 0;
    }
    memcpy(in->at + at, head, 6);
    if (n > 0) {
        memcpy(in->at + at + 6, body, n);
    }
    return 6 + n;
}

static size_t put_text(struct input *in, size_t at, uint64_t *state)
{
    uint8_t body[512];
    size_t n = 0;
    for (size_t left = below(state, 10); left > 0; left--) {
        const char *piece = below(state, 200) == 0 ? broken[below(state, 8)] : pieces[below(state, PIECES)];
        memcpy(body + n, piece, strlen(piece));
        n += strlen(piece);
    }
    return put_record(in, at, 1 + (unsigned)(below(state, 2) == 0 ? 0 : below(state, 5)), body, n);
}

/* One piece again and again: up to 2,000 bytes, or up to a document of about 32,768. */
static size_t put_long_text(struct input *in, size_t at, uint64_t *state)
{
    static uint8_t body[MOST_INPUT];
    const char *piece = pieces[below(state, PIECES)];
    size_t most = below(state, 2000), n = 0, aim = MOST_BYTES - 8 + below(state, 4);
    if (below(state, 8) == 0 && in->n < aim) {
        most = aim - in->n;
    }
    while (n + strlen(piece) <= most) {
        memcpy(body + n, piece, strlen(piece));
        n += strlen(piece);
    }
    return put_record(in, at, 1 + (unsigned)below(state, 5), body, n);
}

/* A document from nothing: texts and blocks, all closed but for one time in eight. */
static void make_document(struct input *in, uint64_t *state)
{
    unsigned open[40];
    size_t depth = 0;
    in->n = 0;
    for (size_t left = below(state, 48); left > 0; left--) {
        unsigned block = (unsigned)below(state, 12);
        switch (below(state, 5)) {
        case 0:
        case 1:
            put_text(in, in->n, state);
            break;
        case 2:
        case 3:
            for (size_t times = below(state, 12) == 0 ? below(state, 34) : 1; times > 0 && depth < 33; times--) {
                open[depth] = block;
                depth += put_record(in, in->n, 0x0100 + block, NULL, 0) > 0;
            }
            break;
        default:
            if (depth > 0 && put_record(in, in->n, 0x0200 + open[depth - 1], NULL, 0) > 0) {
                depth--;
            }
        }
    }
    while (depth > 0 && below(state, 40) != 0) {
        depth--;
        put_record(in, in->n, 0x0200 + open[depth], NULL, 0);
    }
}

/* A document of what can be kept of an input: kinds and bodies set right, ends made to match, open blocks closed. */
static size_t repaired(uint8_t *data, size_t n, size_t most)
{
    static uint8_t copy[MOST_INPUT];
    unsigned open[32];
    size_t depth = 0, at = 0;
    struct input in = {data, 0, most < MOST_BYTES ? most : MOST_BYTES};

    memcpy(copy, data, n);
    while (n - at >= 6 && in.n + 6 * depth + 12 <= in.most) {
        size_t size = copy[at] | (size_t)copy[at + 1] << 8, left = in.most - in.n - 6 * depth - 6;
        unsigned block = copy[at + 4] % 12u, part = copy[at + 5];
        const uint8_t *body = copy + at + 6;
        size = size < n - at - 6 ? size : n - at - 6;
        at += 6 + size;
        if (part == 1 && depth < 32) {
            open[depth++] = block;
            put_record(&in, in.n, 0x0100 + block, NULL, 0);
        } else if (part == 2 && depth > 0) {
            put_record(&in, in.n, 0x0200 + open[--depth], NULL, 0);
        } else if (size <= left && is_utf8(body, size)) {
            put_record(&in, in.n, 1 + block % 5, body, size);
        }
    }
    while (depth > 0) {
        put_record(&in, in.n, 0x0200 + open[--depth], NULL, 0);
    }
    return in.n;
}

size_t LLVMFuzzerMutate(uint8_t *data, size_t n, size_t most);

/* A block around what stands between two records. */
static size_t put_around(struct input *in, size_t from, size_t to, unsigned block)
{
    size_t first = from < to ? from : to, last = from < to ? to : from;
    if (put_record(in, last, 0x0200 + block, NULL, 0) > 0) {
        put_record(in, first, 0x0100 + block, NULL, 0);
    }
    return in->n;
}

/* One record taken out, if it is short and there is one. */
static size_t take_out(struct input *in, size_t at)
{
    if (in->n - at >= 6 && in->n - at - 6 >= in->at[at] && in->at[at + 1] == 0) {
        size_t end = at + 6 + in->at[at];
        memmove(in->at + at, in->at + end, in->n - end);
        in->n -= end - at;
    }
    return in->n;
}

static size_t change_kind(struct input *in, size_t at, uint64_t *state)
{
    if (in->n - at >= 6) {
        in->at[at + 4] = (uint8_t)below(state, 13);
        in->at[at + 5] = (uint8_t)below(state, 3);
    }
    return in->n;
}

/* One change that keeps records whole, or any change of bytes. */
static size_t changed(uint8_t *data, size_t n, size_t most, uint64_t state)
{
    struct input in = {data, n, most};
    size_t from = record_start(&state, data, n), to = record_start(&state, data, n);
    switch (below(&state, 11)) {
    case 0:
        make_document(&in, &state);
        return in.n;
    case 1:
    case 2:
        put_text(&in, from, &state);
        return in.n;
    case 3:
        put_long_text(&in, from, &state);
        return in.n;
    case 4:
    case 5:
        return put_around(&in, from, to, (unsigned)below(&state, 12));
    case 6:
        return take_out(&in, from);
    case 7:
        return change_kind(&in, from, &state);
    default:
        return LLVMFuzzerMutate(data, n, most);
    }
}

size_t LLVMFuzzerCustomMutator(uint8_t *data, size_t n, size_t most, unsigned seed)
{
    uint64_t state = seed;
    bool repair = next(&state) % 2 == 0;
    size_t new = changed(data, n, most, state);
    return repair && new <= MOST_INPUT ? repaired(data, new, most) : new;
}

#ifndef ALONE

int LLVMFuzzerInitialize(int *argc, char ***argv)
{
    (void)argc;
    (void)argv;
    prepare();
    atexit(report);
    return 0;
}

#else

static uint64_t chance;

size_t LLVMFuzzerMutate(uint8_t *data, size_t n, size_t most)
{
    struct input in = {data, n, most};
    size_t at = below(&chance, n + 1);
    switch (below(&chance, 5)) {
    case 0:
        if (make_space(&in, at, 1)) {
            data[at] = (uint8_t)next(&chance);
        }
        return in.n;
    case 1:
        return at;
    case 2:
        if (at < n) {
            memmove(data + at, data + at + 1, n - at - 1);
            return n - 1;
        }
        return n;
    default:
        if (at < n) {
            data[at] = below(&chance, 2) == 0 ? (uint8_t)(data[at] ^ 1u << below(&chance, 8)) : (uint8_t)next(&chance);
        }
        return n;
    }
}

enum { MOST_KEPT = 4096 };
static struct { uint8_t *at; size_t n; } kept_inputs[MOST_KEPT];
static size_t kept_count;

static void keep(const uint8_t *data, size_t n)
{
    uint8_t *copy = malloc(n + 1);
    if (copy != NULL && kept_count < MOST_KEPT) {
        memcpy(copy, data, n);
        kept_inputs[kept_count].at = copy;
        kept_inputs[kept_count++].n = n;
    } else {
        free(copy);
    }
}

/* The input that is being tried, for when a fault ends the program. */
static uint8_t data[MOST_INPUT];
static size_t data_n;

static void write_out(int signal_number)
{
    FILE *file = fopen("fault.doc", "wb");
    if (file != NULL) {
        fwrite(data, 1, data_n, file);
        fclose(file);
    }
    fprintf(stderr, "driver: signal %d; the input is in fault.doc\n", signal_number);
    _exit(1);
}

int main(int argc, char **argv)
{
    must(argc >= 3, "usage: driver SECONDS SEED DOCUMENT..");
    time_t end = time(NULL) + atoi(argv[1]);
    chance = strtoull(argv[2], NULL, 10);
    prepare();
    signal(SIGSEGV, write_out);
    signal(SIGBUS, write_out);
    signal(SIGABRT, write_out);
    for (int i = 3; i < argc; i++) {
        FILE *file = fopen(argv[i], "rb");
        must(file != NULL, "a seed document cannot be read");
        data_n = fread(data, 1, sizeof data, file);
        fclose(file);
        LLVMFuzzerTestOneInput(data, data_n);
        keep(data, data_n);
    }
    while (time(NULL) < end) {
        size_t pick = kept_count == 0 ? 0 : below(&chance, kept_count);
        data_n = kept_count == 0 ? 0 : kept_inputs[pick].n;
        memcpy(data, kept_count == 0 ? zeros : kept_inputs[pick].at, data_n);
        for (size_t left = 1 + below(&chance, 4); left > 0; left--) {
            data_n = LLVMFuzzerCustomMutator(data, data_n, sizeof data, (unsigned)next(&chance));
        }
        fresh = 0;
        LLVMFuzzerTestOneInput(data, data_n);
        if (fresh) {
            keep(data, data_n);
        }
    }
    report();
    return 0;
}

#endif
