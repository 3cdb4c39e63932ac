/* Builds a help page by the calls of sefgrunn.h, checks it, prints it in every form, and shows two refusals.
 *
 *     cc -std=c99 -Iinclude samples/example.c target/staticlib/libsefgrunn.a -o target/example
 *
 * Ends with status 1, and says why on standard error, where an answer is not what this page must give. */
#include "sefgrunn.h"

#include <stdio.h>
#include <stdlib.h>
#include <string.h>

enum { ROOM = 4096 };

/* What roff text needs before it: .TH, without which groff shows no headings, and .nh, without which it hyphenates options. */
static const char MAN_PAGE[] = ".TH BALANCER 1\n.nh\n";

/* A document under construction: its room, and how much of it is used. */
struct page {
    uint8_t room[SEFGRUNN_MOST_BYTES];
    size_t length;
};

static const char *meaning(uint32_t number)
{
    static const char *const meanings[] = {
        "accepted",
        "the document is over 32,768 bytes",
        "a record is cut short",
        "unknown kind",
        "a block record has a body",
        "text is not UTF-8",
        "an end is not of the innermost open block",
        "more than 32 blocks are open",
        "the document ends with a block open",
        "the width is over 10,000",
        "text is more than 50 columns before its margin",
        "this form has no such block",
        "no such number",
        "no room",
    };
    return number < sizeof meanings / sizeof meanings[0] ? meanings[number] : "no such number";
}

/* Ends the program where a call was refused. */
static void accepted(const char *what, uint32_t number, size_t place)
{
    if (number != SEFGRUNN_ACCEPTED) {
        fprintf(stderr, "example: %s: refused %u at %lu: %s\n", what, (unsigned)number, (unsigned long)place, meaning(number));
        exit(1);
    }
}

/* Ends the program where a call was not refused as it must be; else prints the refusal. */
static void refused(const char *what, uint32_t number, size_t place, uint32_t want_number, size_t want_place)
{
    if (number != want_number || place != want_place) {
        fprintf(stderr, "example: %s: expected %u at %lu, got %u at %lu\n", what, (unsigned)want_number, (unsigned long)want_place,
            (unsigned)number, (unsigned long)place);
        exit(1);
    }
    printf("%s: refused %u at %lu: %s\n", what, (unsigned)number, (unsigned long)place, meaning(number));
}

static void put(struct page *page, uint32_t style, const char *text)
{
    size_t place;
    uint32_t number = sefgrunn_write(page->room, sizeof page->room, &page->length, style, (const uint8_t *)text, strlen(text), &place);
    accepted("write", number, place);
}

static void open_block(struct page *page, uint32_t block)
{
    size_t place;
    uint32_t number = sefgrunn_open(page->room, sizeof page->room, &page->length, block, &place);
    accepted("open", number, place);
}

static void close_block(struct page *page, uint32_t block)
{
    size_t place;
    uint32_t number = sefgrunn_close(page->room, sizeof page->room, &page->length, block, &place);
    accepted("close", number, place);
}

/* An option: its term, then its help as a document of its own, so that a shortened page ends at the help's first paragraph. */
static void option(struct page *page, const char *name, const char *metavar, const char *help)
{
    static struct page body;
    size_t place;
    uint32_t number;

    body.length = 0;
    put(&body, SEFGRUNN_STYLE_TEXT, help);
    open_block(page, SEFGRUNN_BLOCK_ITEM_TERM);
    put(page, SEFGRUNN_STYLE_LITERAL, name);
    if (metavar[0] != '\0') {
        put(page, SEFGRUNN_STYLE_TEXT, "=");
        put(page, SEFGRUNN_STYLE_METAVAR, metavar);
    }
    close_block(page, SEFGRUNN_BLOCK_ITEM_TERM);
    open_block(page, SEFGRUNN_BLOCK_ITEM_BODY);
    number = sefgrunn_doc(page->room, sizeof page->room, &page->length, body.room, body.length, &place);
    accepted("doc", number, place);
    close_block(page, SEFGRUNN_BLOCK_ITEM_BODY);
}

static void build(struct page *page)
{
    page->length = 0;
    open_block(page, SEFGRUNN_BLOCK_HEADER);
    put(page, SEFGRUNN_STYLE_TEXT, "balancer");
    close_block(page, SEFGRUNN_BLOCK_HEADER);
    open_block(page, SEFGRUNN_BLOCK_BLOCK);
    open_block(page, SEFGRUNN_BLOCK_SECTION2);
    put(page, SEFGRUNN_STYLE_EMPHASIS, "Available options:");
    close_block(page, SEFGRUNN_BLOCK_SECTION2);
    open_block(page, SEFGRUNN_BLOCK_DEFINITION_LIST);
    option(page, "--port", "PORT", "Port to listen on\n\nGive 0 to take any free port.");
    option(page, "--quiet", "", "Print nothing on start");
    close_block(page, SEFGRUNN_BLOCK_DEFINITION_LIST);
    close_block(page, SEFGRUNN_BLOCK_BLOCK);
}

/* What the page must give. */
static const char CONSOLE_40[] =
    "balancer\n"
    "Available options:\n"
    "    --port=PORT  Port to listen on\n"
    "                 Give 0 to take any free\n"
    "                 port.\n"
    "    --quiet      Print nothing on start\n";
static const char CONSOLE_100[] =
    "balancer\n"
    "Available options:\n"
    "    --port=PORT  Port to listen on\n"
    "                 Give 0 to take any free port.\n"
    "    --quiet      Print nothing on start\n";
static const char CONSOLE_SHORT[] =
    "balancer\n"
    "Available options:\n"
    "    --port=PORT  Port to listen on\n"
    "    --quiet      Print nothing on start\n";
static const char HTML[] =
    "# balancer<br>\n"
    "<p><div>\n"
    "<b>Available options:</b></div><dl><dt><tt><b>--port</b></tt>=<tt><i>PORT</i></tt></dt>\n"
    "<dd>Port to listen on<br>\n"
    "Give 0 to take any free port.</dd>\n"
    "<dt><tt><b>--quiet</b></tt></dt>\n"
    "<dd>Print nothing on start</dd>\n"
    "</dl>\n"
    "</p>";
static const char MARKDOWN[] =
    "# balancer\n"
    "\n"
    "**Available options:**\n"
    "- **`--port`**=_`PORT`_ &mdash; \n"
    "  Port to listen on\n"
    "\n"
    "  Give 0 to take any free port.\n"
    "- **`--quiet`** &mdash; \n"
    "  Print nothing on start\n"
    "\n"
    "\n";
static const char ROFF[] =
    ".ie \\n(.g .ds Aq \\(aq\n"
    ".el .ds Aq '\n"
    ".SH BALANCER\n"
    ".PP\n"
    ".SS AVAILABLE\\ OPTIONS:\n"
    ".TP\n"
    "\\fB\\-\\-port\\fP\\fR=\\fP\\fIPORT\\fP\n"
    "\\fRPort to listen on\n"
    "\n"
    "Give 0 to take any free port.\\fP\n"
    ".PP\n"
    ".TP\n"
    "\\fB\\-\\-quiet\\fP\n"
    "\\fRPrint nothing on start\\fP\n"
    ".PP\n";

/* Prints a text under its name, after what has to stand before it; ends the program where it is not the one expected or where the
 * room behind it is not 0. */
static void show(const char *what, const char *before, uint32_t number, const uint8_t *room, size_t length, const char *want)
{
    size_t i;

    accepted(what, number, length);
    if (length != strlen(want) || memcmp(room, want, length) != 0) {
        fprintf(stderr, "example: %s: not the text expected, but:\n", what);
        fwrite(room, 1, length, stderr);
        exit(1);
    }
    for (i = length; i < ROOM; i++) {
        if (room[i] != 0) {
            fprintf(stderr, "example: %s: byte %lu behind the text is not 0\n", what, (unsigned long)i);
            exit(1);
        }
    }
    printf("== %s\n%s", what, before);
    fwrite(room, 1, length, stdout);
    printf("\n");
}

/* A text beyond ASCII, folded by bytes and by characters. */
static void show_measures(void)
{
    static struct page french;
    static uint8_t room[ROOM];
    size_t at;
    uint32_t number;

    put(&french, SEFGRUNN_STYLE_TEXT, "à côté");
    number = sefgrunn_console(french.room, french.length, 6, true, false, room, sizeof room, &at);
    show("console, width 6, folded by bytes", "", number, room, at, "à\ncôté");
    number = sefgrunn_console(french.room, french.length, 6, true, true, room, sizeof room, &at);
    show("console, width 6, folded by characters", "", number, room, at, "à côté");
}

static void show_all(const struct page *page)
{
    static uint8_t room[ROOM];
    size_t at;
    uint32_t number;

    number = sefgrunn_console(page->room, page->length, 40, true, false, room, sizeof room, &at);
    show("console, width 40", "", number, room, at, CONSOLE_40);
    number = sefgrunn_console(page->room, page->length, 100, true, false, room, sizeof room, &at);
    show("console, width 100", "", number, room, at, CONSOLE_100);
    number = sefgrunn_console(page->room, page->length, 100, false, false, room, sizeof room, &at);
    show("console, width 100, up to each first paragraph", "", number, room, at, CONSOLE_SHORT);
    show_measures();
    number = sefgrunn_html(page->room, page->length, true, false, room, sizeof room, &at);
    show("HTML", "", number, room, at, HTML);
    number = sefgrunn_markdown(page->room, page->length, true, room, sizeof room, &at);
    show("Markdown", "", number, room, at, MARKDOWN);
    number = sefgrunn_roff(page->room, page->length, room, sizeof room, &at);
    show("roff", MAN_PAGE, number, room, at, ROFF);
}

int main(void)
{
    static struct page page;
    uint8_t small[8];
    size_t length, place;
    uint32_t number;

    build(&page);
    number = sefgrunn_check(page.room, page.length, &place);
    accepted("check", number, place);
    show_all(&page);

    /* No block is open, so none can be closed; the page stays as it is. */
    length = page.length;
    number = sefgrunn_close(page.room, sizeof page.room, &page.length, SEFGRUNN_BLOCK_BLOCK, &place);
    refused("a second end of the block", number, place, SEFGRUNN_WRONG_END, length);
    if (page.length != length) {
        fprintf(stderr, "example: a refused call changed the length\n");
        return 1;
    }
    number = sefgrunn_console(page.room, page.length, 100, true, false, small, sizeof small, &place);
    refused("a room of 8 bytes", number, place, SEFGRUNN_NO_ROOM, 0);
    return 0;
}
