/* Sefgrunn: help text of a stored document. docs/FORMAT.md says what a stored document is and what each renderer writes.
 *
 * Link libsefgrunn.a, which `tools/library` writes to target/staticlib.
 *
 * Every function returns 0 (SEFGRUNN_ACCEPTED) where it accepts, else the number of the refusal, and stores where it was met: enum
 * sefgrunn_refusal.
 *
 * No pointer may be null, save that of an empty slice. No two of the slices and numbers given may overlap. Nothing outside
 * the given lengths is read or written, whatever the bytes are.
 *
 * Nothing is kept between calls: the library has no variables of its own, allocates nothing and calls nothing but memcpy and memset. Any
 * thread may call any function at any time, as long as no other thread uses what this call writes, or writes what it reads. */
#ifndef SEFGRUNN_H
#define SEFGRUNN_H

#include <stdbool.h>
#include <stddef.h>
#include <stdint.h>

#ifdef __cplusplus
extern "C" {
#endif

/* The version of this header. */
#define SEFGRUNN_VERSION "0.1.0"
#define SEFGRUNN_VERSION_MAJOR 0
#define SEFGRUNN_VERSION_MINOR 1
#define SEFGRUNN_VERSION_PATCH 0

/* The limits of a document: its bytes, those of its joined form and of a bundle, the blocks that may be open at once, and the columns of console text. */
#define SEFGRUNN_MOST_BYTES 32768
#define SEFGRUNN_MOST_JOINED_BYTES 32772
#define SEFGRUNN_MOST_BUNDLE_BYTES 65536
#define SEFGRUNN_MOST_OPEN 32
#define SEFGRUNN_MOST_WIDTH 10000

/* Why a call was refused, and what its place is, in bytes from the document's start. */
enum sefgrunn_refusal {
    SEFGRUNN_ACCEPTED = 0,
    SEFGRUNN_TOO_LONG = 1,           /* document, or notes, over 32,768 bytes, joined form over 32,772; place 0 */
    SEFGRUNN_CUT_SHORT = 2,          /* under 6 bytes left, or a body longer than what is left; place of the record */
    SEFGRUNN_UNKNOWN_KIND = 3,       /* unknown kind; place of the record */
    SEFGRUNN_BLOCK_WITH_BODY = 4,    /* block record with a body; place of the record */
    SEFGRUNN_NOT_UTF8 = 5,           /* text that is not UTF-8 by itself; place of the record */
    SEFGRUNN_WRONG_END = 6,          /* end not of the innermost open block; place of the record */
    SEFGRUNN_TOO_DEEP = 7,           /* start with 32 blocks open; place of the record */
    SEFGRUNN_LEFT_OPEN = 8,          /* document ends with a block open; the place is the document's length */
    SEFGRUNN_TOO_WIDE = 9,           /* width over 10,000 (console); place 0 */
    SEFGRUNN_BEYOND_MARGIN = 10,     /* a chunk misses more than 50 columns to its margin (console); place of the chunk's
                                        first byte, or where an empty chunk would stand */
    SEFGRUNN_NO_FORM = 11,           /* Meta in HTML or Markdown, TermRef in roff; place of the record */
    /* 12 was a byte over 127 in a roff heading. Headings have been upper-cased beyond ASCII since; the number is not used again. */
    SEFGRUNN_NO_ROOM = 13,           /* no room; place 0 */
    SEFGRUNN_BUNDLE_KIND = 14,       /* record of a bundle of another kind than 0x0300; place of the record */
    SEFGRUNN_BUNDLE_CUT_SHORT = 15,  /* record of a bundle cut short; place of the record */
    SEFGRUNN_BUNDLE_TOO_LONG = 16,   /* bundle over 65,536 bytes; place 0 */
    SEFGRUNN_NO_JOINED_TEXT = 17,    /* joined form of under four bytes, or whose text runs past its end; place 0 */
    SEFGRUNN_WRONG_SHARE = 18,       /* record's text past the end of the joined text; place of the record; or text left over; the place is
                                        the joined form's length */
    SEFGRUNN_NOTES_NOT_UTF8 = 19,    /* notes that are not UTF-8; place 0 */
    SEFGRUNN_WRONG_HEIGHT = 20,      /* height of a page outside 1 to 200; place 0 */
    SEFGRUNN_NO_PAGE = 21,           /* page 0, or beyond the last; place 0 */
    SEFGRUNN_NOT_A_LIST = 22,        /* side to merge that is not a single list in house shape; place 0 */
    SEFGRUNN_NOT_ASCENDING = 23      /* side to merge whose terms do not strictly ascend; place 0 */
};

/* The style of a text record: its kind. */
enum sefgrunn_style {
    SEFGRUNN_STYLE_TEXT = 1,
    SEFGRUNN_STYLE_EMPHASIS = 2,
    SEFGRUNN_STYLE_LITERAL = 3,
    SEFGRUNN_STYLE_METAVAR = 4,
    SEFGRUNN_STYLE_INVALID = 5
};

/* A block: its start is of kind 0x0100 plus this number, its end of kind 0x0200 plus it. */
enum sefgrunn_block {
    SEFGRUNN_BLOCK_HEADER = 0,
    SEFGRUNN_BLOCK_SECTION2 = 1,
    SEFGRUNN_BLOCK_SECTION3 = 2,
    SEFGRUNN_BLOCK_SECTION4 = 3,
    SEFGRUNN_BLOCK_ITEM_TERM = 4,
    SEFGRUNN_BLOCK_ITEM_BODY = 5,
    SEFGRUNN_BLOCK_DEFINITION_LIST = 6,
    SEFGRUNN_BLOCK_BLOCK = 7,
    SEFGRUNN_BLOCK_INLINE_BLOCK = 8,
    SEFGRUNN_BLOCK_TERM_REF = 9,
    SEFGRUNN_BLOCK_META = 10,
    SEFGRUNN_BLOCK_MONO = 11
};

/* Whether a document is accepted: refusals 1 to 8. Reads n bytes at document. Writes *place: the refusal's place, or 0. */
uint32_t sefgrunn_check(const uint8_t *document, size_t n, size_t *place);

/* The monochrome console text of a document for a width in columns. With full it is all there; without, the first empty line in a text
 * ends it: that line is still ended, and from there on text is left out until an InlineBlock ends that was open there (or to the end of
 * the document). Blocks still take effect, and the backticks of a TermRef are still written. A line is folded where the columns so far
 * and the next word's bytes pass the width, as bpaf does; with characters, where they and the word's characters do. Each character then
 * counts one, a combining one too. Reads n bytes at document. Writes all
 * room_len bytes at room: the text, then zeros; all zeros after a refusal. Writes *at: the text's length, or the refusal's place.
 * Refusals 1 to 10 and 13. */
uint32_t sefgrunn_console(const uint8_t *document, size_t n, size_t width, bool full, bool characters, uint8_t *room, size_t room_len,
    size_t *at);

/* Whether a document has house shape. It is then a run of parts; a part is text, a DefinitionList, or one of the other blocks around parts.
 * A list holds zero or more pairs of an ItemTerm and an ItemBody; a body holds parts; a term holds text, TermRef, Mono and InlineBlock,
 * these around the same. Terms and bodies stand nowhere else. Rendering does not ask for it. Reads n bytes at document. Writes *shaped, 1
 * or 0, and *place: where it is 0, the start of the first record after which no further records could lead to a document of that shape.
 * After a refusal *shaped is 0 and *place the refusal's; else *place is 0. Refusals 1 to 8. */
uint32_t sefgrunn_house_shape(const uint8_t *document, size_t n, uint32_t *shaped, size_t *place);

/* How much room to lend to sefgrunn_console: 54 times the bytes of the document's text, plus the number of TermRef starts and ends, plus 1.
 * With so much room it never refuses by 13, whatever the width, full and characters are. Reads n bytes at document. Writes *at: the bytes,
 * or the refusal's place. Refusals 1 to 8; a document that the console would refuse by 9 or 10 has such a room too. */
uint32_t sefgrunn_room_bound(const uint8_t *document, size_t n, size_t *at);

/* What sefgrunn_next_chunk found. */
enum sefgrunn_chunk {
    SEFGRUNN_CHUNK_NONE = 0,       /* no further chunk */
    SEFGRUNN_CHUNK_PART = 1,       /* a part of the body: a word, a space, a code line, a line in ticks */
    SEFGRUNN_CHUNK_PARAGRAPH = 2,  /* an empty line */
    SEFGRUNN_CHUNK_LINE_BREAK = 3, /* a line end before a space */
    SEFGRUNN_CHUNK_SPACE = 4       /* one space, which stands for a line end and is no part of the body */
};

/* The width of a code line, which follows a line end and four spaces, and of a line between lines of three backticks. */
#define SEFGRUNN_WIDTH_CODE 1000000
#define SEFGRUNN_WIDTH_TICKED 1000001

/* The next chunk of a text record's body, as the renderers take them: one of enum sefgrunn_chunk, no refusal. Any bytes are a body; each
 * byte outside 0x80 to 0xBF counts as a character. The cursor is *at, a place in the body, and *ticks: 0 outside ticks, 1 before the
 * first line in ticks, any other number after it; a body starts with 0 and 0. Reads n bytes at body. Writes the cursor after the chunk
 * (*ticks is then 0, 1 or 2) and *start, where in the body the chunk begins: a part at its first byte or, if it is empty, where it would
 * stand; the others at their first line end. Writes *length and *width, a part's bytes and columns; 0 for a paragraph and a line break,
 * 1 for the space of a line end. Without a further chunk, as at or past the body's end, the cursor stays as it was and the other three
 * are 0. */
uint32_t sefgrunn_next_chunk(const uint8_t *body, size_t n, size_t *at, uint32_t *ticks, size_t *start, size_t *length, size_t *width);

/* The tabstop, on which console text lays out the bodies of a list: the characters of the widest ItemTerm that has at most 24 (0 where
 * there is none), plus 4. A term's start sets the count back to 0, its end stops it; a nested term's does so too. Reads n bytes at
 * document. Writes *tabstop, and *at: the start of the first ItemTerm end whose count is 24, after which no term changes the tabstop, or n
 * where there is none. After a refusal *tabstop is 0 and *at the place. Refusals 1 to 8. */
uint32_t sefgrunn_tabstop(const uint8_t *document, size_t n, size_t *tabstop, size_t *at);

/* HTML, with or without the style sheet. As sefgrunn_console; refusals 1 to 8, 11 and 13. */
uint32_t sefgrunn_html(const uint8_t *document, size_t n, bool full, bool css, uint8_t *room, size_t room_len, size_t *at);

/* HTML in which every `&` of the text becomes `&amp;`, also one that opens `&amp;`, `&lt;` or `&gt;`: the page shows the text as it is.
 * As sefgrunn_html. */
uint32_t sefgrunn_html_strict(const uint8_t *document, size_t n, bool full, bool css, uint8_t *room, size_t room_len, size_t *at);

/* Markdown. As sefgrunn_console; refusals 1 to 8, 11 and 13. */
uint32_t sefgrunn_markdown(const uint8_t *document, size_t n, bool full, uint8_t *room, size_t room_len, size_t *at);

/* Roff, for man pages. Headings are upper-cased by the full mapping of Unicode 17.0.0, in which some characters become two or three.
 * As sefgrunn_console; refusals 1 to 8, 11 and 13. The text is a page's body. Write two lines before it:
 *
 *     .TH NAME 1
 *     .nh
 *
 * Without .TH, groff shows no headings and other characters for `-` and backticks. Without .nh, it hyphenates words at line ends, options
 * too: `--certificate` becomes `--cer`, a hyphen that the document does not have, and `tificate` on the next line. */
uint32_t sefgrunn_roff(const uint8_t *document, size_t n, uint8_t *room, size_t room_len, size_t *at);

/* The joined form of a document: the length of its text in four bytes, the least first, the text, then for each record of the document
 * its length and its kind, without its body; the texts follow one another in the joined text. It has four bytes more than the document.
 *
 * Refusals, with places in the joined form: 1 over 32,772 bytes; 17; 9 (console); at each record 2 (only for under 6 bytes left), 3, 4, 18
 * where its text passes the end of the joined text, 5 (a text's share that is not UTF-8 by itself), 6, 7; after the records 8, then 18
 * where text is left over, both with the form's length as place; then as of a document: 10 at the chunk's byte in the text, 11, 13. */

/* A document moved over. Reads n bytes at document. Writes all room_len bytes at room: the joined form, then zeros; all zeros after a
 * refusal. Writes *at: the form's length, or the place. Refusals 1 to 8 of the document, then 13. */
uint32_t sefgrunn_join(const uint8_t *document, size_t n, uint8_t *room, size_t room_len, size_t *at);

/* A joined form moved back. As sefgrunn_join; refusals 1, 17, 2 to 8 and 18, then 13. */
uint32_t sefgrunn_unjoin(const uint8_t *joined, size_t n, uint8_t *room, size_t room_len, size_t *at);

/* Whether a joined form is accepted. As sefgrunn_check; refusals 1, 17, 2 to 8 and 18. */
uint32_t sefgrunn_joined_check(const uint8_t *joined, size_t n, size_t *place);

/* The texts of a joined form: those of its document, byte for byte. Each is as the function without joined_ in its name. */
uint32_t sefgrunn_joined_console(const uint8_t *joined, size_t n, size_t width, bool full, bool characters, uint8_t *room, size_t room_len,
    size_t *at);
uint32_t sefgrunn_joined_html(const uint8_t *joined, size_t n, bool full, bool css, uint8_t *room, size_t room_len, size_t *at);
uint32_t sefgrunn_joined_html_strict(const uint8_t *joined, size_t n, bool full, bool css, uint8_t *room, size_t room_len, size_t *at);
uint32_t sefgrunn_joined_markdown(const uint8_t *joined, size_t n, bool full, uint8_t *room, size_t room_len, size_t *at);
uint32_t sefgrunn_joined_roff(const uint8_t *joined, size_t n, uint8_t *room, size_t room_len, size_t *at);

/* The document of a writer's notes: lines that end at line feeds. A line starting with a number sign and a space becomes a Header, one
 * starting with a hyphen and a space an ItemBody, each holding the rest of the line. A line that is empty or all spaces separates. Other
 * neighbouring lines, joined by line feeds, become one Block. Within each such text backticks pair from the left: what stands between a
 * pair is Literal, the rest Text, an unpaired last backtick too. An ItemBody then stands outside a list, so a document with one has not
 * house shape. Reads n bytes at notes. Writes all room_len bytes at room: the document, then zeros; all zeros after a refusal. Writes *at:
 * the document's length, or 0. Refusals 1 where the notes are over 32,768 bytes, then 19, then 13, also for a document over 32,768 bytes. */
uint32_t sefgrunn_notes(const uint8_t *notes, size_t n, uint8_t *room, size_t room_len, size_t *at);

/* The figures of a bundle: records laid out as a document's, of kind 0x0300, each body a document. Reads n bytes at bundle. Writes
 * *documents, the bodies; *accepted, those that sefgrunn_console accepts with width 100, full and without characters in a room of 65,536
 * bytes; *refused, the others, one over 32,768 bytes too; *characters, the characters outside White_Space of the accepted texts, backticks
 * of TermRefs included. *accepted and *refused add up to *documents. Writes *place: the refusal's, or 0. After a refusal all the others are
 * 0. Refusals 16, then at each record 15, then 14. */
uint32_t sefgrunn_figures(const uint8_t *bundle, size_t n, size_t *documents, size_t *accepted, size_t *refused, size_t *characters,
    size_t *place);

/* One option list from two. Each side is a document of a single DefinitionList in house shape and nothing else, its terms strictly ascending
 * by the bytes of their text, joined over records; backticks of TermRefs are no part of it. The result has every term of either side once,
 * ascending, each item's records unchanged; where both have a term, the first side's item stands. Reads n bytes at first and m at second.
 * Writes all room_len bytes at room: the list, then zeros; all zeros after a refusal. Writes *at: the list's length, or the place. Refusals
 * 1 to 8 of the first side, then of the second, each with places in that side (sefgrunn_check tells which it was); 22 of the first, then of
 * the second; 23 likewise; 13 last, also for a list over 32,768 bytes. */
uint32_t sefgrunn_merge(const uint8_t *first, size_t n, const uint8_t *second, size_t m, uint8_t *room, size_t room_len, size_t *at);

/* Pages of a console text for a screen of some rows. Any bytes are a text. A row ends at a line feed, which it has; a non-empty rest is a
 * row. A page is height rows, the last one 1 to height of them; pages joined in order are the text, and an empty text has none. Reads n
 * bytes at text. */

/* How many pages there are. Writes *count, 0 after a refusal. Refusal 20. */
uint32_t sefgrunn_page_count(const uint8_t *text, size_t n, size_t height, size_t *count);

/* A page, as a part of the text; the first is page 1. Writes *start and *length, both 0 after a refusal. Refusals 20, then 21. */
uint32_t sefgrunn_page(const uint8_t *text, size_t n, size_t height, size_t page, size_t *start, size_t *length);

/* The builder. A document, whose blocks may be open, stands in the first *length bytes at room. An accepted call writes the new
 * records there, sets *length to the new length and *place to 0; no byte past the new length changes. A refused one changes neither
 * the room nor *length, and sets *place. Order of refusals: 13 when *length passes the room, 1 to 7 of the document so far, 5 of
 * written text (place 0) or 1 to 8 of an added document (places from its own start), 6 or 7 of the result (place where the record
 * would stand), 13 when the result exceeds the room or 32,768 bytes. */

/* Text in a style, one of enum sefgrunn_style; any other number is refused as 3 with place 0, first of all. The last
 * record is lengthened if it is text of that style; else a record is added, even for empty text. So a text written in pieces, each of them
 * UTF-8, leaves the same document as the text written at once. */
uint32_t sefgrunn_write(uint8_t *room, size_t room_len, size_t *length, uint32_t style, const uint8_t *text, size_t n, size_t *place);

/* The start, and the end, of a block, one of enum sefgrunn_block; any other number is refused as 3 with place 0, first of all. */
uint32_t sefgrunn_open(uint8_t *room, size_t room_len, size_t *length, uint32_t block, size_t *place);
uint32_t sefgrunn_close(uint8_t *room, size_t room_len, size_t *length, uint32_t block, size_t *place);

/* A document inside an InlineBlock. */
uint32_t sefgrunn_doc(uint8_t *room, size_t room_len, size_t *length, const uint8_t *added, size_t n, size_t *place);

/* The same, where the added document's first record is not text in style Text. Where it is, the part before its first line end becomes
 * Emphasis, and the part after it text in a Section3, followed by the other records. If it has no line end, the other records of the
 * added document are left out. */
uint32_t sefgrunn_em_doc(uint8_t *room, size_t room_len, size_t *length, const uint8_t *added, size_t n, size_t *place);

/* The builder's calls by a draft, for a page that is built in one go: they take time by what they add, while each call above checks the whole document
 * so far. A draft is eight words that say what a check of the document in the room's first bytes would find: its length (draft[0]), where its last record
 * stands, that record's style or 0, how many blocks are open and which; two words are spare. Eight zeros are the draft of an empty document. Read
 * draft[0]; let the calls write the rest.
 *
 * As long as nobody but these calls changes the draft and the bytes of the document, each call answers as the one above with the length draft[0] does:
 * the same number, the same place, the same bytes. An accepted call makes the draft that of the new document; a refused one leaves room and draft as they
 * were. If the room was changed meanwhile, call sefgrunn_draft_resume. Where that was forgotten, a call may notice it (the length passes the room, no record
 * ends there, more than 32 blocks are open), and then checks the document first; or it may not, and then it accepts, or refuses with a number from 1 to 13:
 * nothing outside the room, the draft and *place is touched, and every renderer checks the whole document in any case. */

/* The draft of the document in the first `length` bytes of the room, by one check: 13 where length passes the room, then 1 to 7. */
uint32_t sefgrunn_draft_resume(const uint8_t *room, size_t room_len, size_t length, uint64_t draft[8], size_t *place);

/* As sefgrunn_write, sefgrunn_open, sefgrunn_close, sefgrunn_doc and sefgrunn_em_doc. The last two take time by the added document, which they check. */
uint32_t sefgrunn_draft_write(uint8_t *room, size_t room_len, uint64_t draft[8], uint32_t style, const uint8_t *text, size_t n, size_t *place);
uint32_t sefgrunn_draft_open(uint8_t *room, size_t room_len, uint64_t draft[8], uint32_t block, size_t *place);
uint32_t sefgrunn_draft_close(uint8_t *room, size_t room_len, uint64_t draft[8], uint32_t block, size_t *place);
uint32_t sefgrunn_draft_doc(uint8_t *room, size_t room_len, uint64_t draft[8], const uint8_t *added, size_t n, size_t *place);
uint32_t sefgrunn_draft_em_doc(uint8_t *room, size_t room_len, uint64_t draft[8], const uint8_t *added, size_t n, size_t *place);

#ifdef __cplusplus
}
#endif

#endif
