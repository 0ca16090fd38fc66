/*
 * hamvukile: the labels, decoders and encoders of the Encoding Standard, for C (C99).
 *
 * No call keeps anything between calls, allocates, blocks, or reads or writes memory other than what it is lent.
 * What a call answers follows from its arguments alone, so any number of threads may call at once.
 * Lent memory is given as a pointer and a count of elements. It has to be valid for that many elements during the
 * call; with a count of 0 the pointer may be anything, also NULL. A part that is lent to be written (no `const`) may
 * not overlap any other part lent to the same call.
 *
 * A refused call leaves everything as it was: it writes nothing, and hands a decoder or a writer's state back as it came.
 * There is one exception, HAMVUKILE_MALFORMED: see there.
 *
 * An example: the bytes 80 09 41 as Latin-1. The program prints U+20AC, U+0009, U+0041.
 *
 *     #include <stdio.h>
 *     #include "hamvukile.h"
 *
 *     int main(void) {
 *         const uint8_t text[] = { 0x80, 0x09, 0x41 };
 *         uint32_t room[3];
 *         if (hamvukile_version() != HAMVUKILE_VERSION_NUMBER) return 1;
 *         hamvukile_found found = hamvukile_label((const uint8_t *)" Latin1", 7);
 *         if (found.refusal != 0) return 1;
 *         if (hamvukile_check(found.encoding, text, 3, NULL, 0, NULL, 0).clean == 0) puts("with errors");
 *         hamvukile_answer answer = hamvukile_open(found.encoding, HAMVUKILE_REPLACING, HAMVUKILE_DROP_MARK);
 *         answer = hamvukile_feed(answer.decoder, text, 3, NULL, 0, NULL, 0, room, 3);
 *         if (answer.refusal != 0) return 1;
 *         for (size_t i = 0; i < answer.written; i++) printf("U+%04lX\n", (unsigned long)room[i]);
 *         answer = hamvukile_finish(answer.decoder, NULL, 0, NULL, 0, room, 3);
 *         return answer.refusal;
 *     }
 *
 * Link it with libhamvukile.a, which is for x86-64 Linux.
 */
#ifndef HAMVUKILE_H
#define HAMVUKILE_H

#include <stddef.h>
#include <stdint.h>

#ifdef __cplusplus
extern "C" {
#endif

/* ---- Version --------------------------------------------------------------------------------------------------- */

#define HAMVUKILE_VERSION "0.10.0"
#define HAMVUKILE_VERSION_MAJOR 0
#define HAMVUKILE_VERSION_MINOR 10
#define HAMVUKILE_VERSION_PATCH 0

/* The version as one number: 10,000 times major, 100 times minor, and patch. Records and calls of another version may
 * differ, so a program that finds another number than this in the library has been linked with the wrong one. */
#define HAMVUKILE_VERSION_NUMBER 1000

/* The version of the library. */
uint32_t hamvukile_version(void);

/* ---- Refusals -------------------------------------------------------------------------------------------------- */

/* The field `refusal` of every answer is one of these. Where several hold, the call's own order decides: see there. */
enum {
    HAMVUKILE_ACCEPTED = 0,           /* not refused */
    HAMVUKILE_UNKNOWN_LABEL = 1,      /* the standard's table has no such label */
    HAMVUKILE_UNKNOWN_ENCODING = 2,   /* the encoding number is above 39 */
    HAMVUKILE_UNKNOWN_MODE = 3,       /* the mode is above 1, or the rule for the byte order mark above 2 */
    HAMVUKILE_WRONG_TABLE = 4,        /* a lent table has not the length that the encoding asks for */
    HAMVUKILE_FORGED_DECODER = 5,     /* no opening and no feed leave a decoder with these fields, no writing this state */
    HAMVUKILE_ENDED_DECODER = 6,      /* the decoder has ended: by a finish, by HAMVUKILE_MALFORMED, or since its opening was refused */
    HAMVUKILE_SMALL_ROOM = 7,         /* the lent room is smaller than the call asks for */
    HAMVUKILE_TOO_LONG = 8,           /* a chunk above 65,536 bytes, above 16,384 scalars, an index line above 1,024 bytes */
    HAMVUKILE_NO_ENCODER = 9,         /* this encoding can be read, and not written */
    HAMVUKILE_NOT_SCALAR = 10,        /* among the numbers to write is one that is no scalar */
    HAMVUKILE_MALFORMED = 11,         /* refusing mode met an error. The call was accepted up to there: what stands before
                                         the error is written, and a decoder has ended */
    HAMVUKILE_BAD_LINE = 12,          /* the line is no line of an index file */
    HAMVUKILE_TAKEN_CELL = 13,        /* the line's pointer is not below the table's length, or its cell is not 0 */
    HAMVUKILE_TOO_MUCH = 14,          /* with this chunk the decoder would have taken more than HAMVUKILE_MAX_TAKEN bytes */
    HAMVUKILE_WRONG_INDEX = 15,       /* a lent reverse index has not the length that the table asks for */
    HAMVUKILE_BAD_OPTION_LINE = 16,   /* a line of a list has no tab, or several */
    HAMVUKILE_UNKNOWN_OPTION = 17,    /* the name of a line of a list is empty, or none of the known names */
    HAMVUKILE_REPEATED_OPTION = 18    /* an earlier line of the list has the same name */
};

/* Modes. */
enum {
    HAMVUKILE_REPLACING = 0, /* decoding: an error is U+FFFD, and decoding goes on */
    HAMVUKILE_HTML = 0,      /* encoding: a scalar that cannot be written is written as &#12345; */
    HAMVUKILE_REFUSING = 1   /* both: the first error ends the call with HAMVUKILE_MALFORMED */
};

/* What happens to a byte order mark, U+FEFF, at the very front of the text. */
enum {
    HAMVUKILE_DROP_MARK = 0,  /* it is dropped, where the encoding is UTF-8 or UTF-16 */
    HAMVUKILE_KEEP_MARK = 1,  /* it is a character like any other */
    HAMVUKILE_CHOOSE_MARK = 2 /* it is dropped and chooses the encoding that reads: EF BB BF UTF-8, FE FF UTF-16BE, FF FE
                                 UTF-16LE; without one the encoding of the opening reads. A mark behind it is kept */
};

/* Limits. */
enum {
    HAMVUKILE_MAX_ENCODING = 39,
    HAMVUKILE_MAX_CHUNK = 65536,
    HAMVUKILE_MAX_SCALARS = 16384,
    HAMVUKILE_MAX_LINE = 1024,
    HAMVUKILE_MAX_HELD = 3,   /* bytes that a decoder holds */
    HAMVUKILE_MAX_NAME = 14,  /* bytes of an encoding's name */
    HAMVUKILE_MAX_INDEX_NAME = 30 /* bytes of the name of an index file */
};
#define HAMVUKILE_MAX_TAKEN UINT32_C(4294967295) /* bytes that a decoder takes in all */

/* ---- Encodings ------------------------------------------------------------------------------------------------- */

/* An encoding is a number. The constant has the standard's name, in capitals, with _ for -. */
enum {
    HAMVUKILE_UTF_8 = 0,
    HAMVUKILE_IBM866 = 1,
    HAMVUKILE_ISO_8859_2 = 2,
    HAMVUKILE_ISO_8859_3 = 3,
    HAMVUKILE_ISO_8859_4 = 4,
    HAMVUKILE_ISO_8859_5 = 5,
    HAMVUKILE_ISO_8859_6 = 6,
    HAMVUKILE_ISO_8859_7 = 7,
    HAMVUKILE_ISO_8859_8 = 8,
    HAMVUKILE_ISO_8859_8_I = 9,
    HAMVUKILE_ISO_8859_10 = 10,
    HAMVUKILE_ISO_8859_13 = 11,
    HAMVUKILE_ISO_8859_14 = 12,
    HAMVUKILE_ISO_8859_15 = 13,
    HAMVUKILE_ISO_8859_16 = 14,
    HAMVUKILE_KOI8_R = 15,
    HAMVUKILE_KOI8_U = 16,
    HAMVUKILE_MACINTOSH = 17,
    HAMVUKILE_WINDOWS_874 = 18,
    HAMVUKILE_WINDOWS_1250 = 19,
    HAMVUKILE_WINDOWS_1251 = 20,
    HAMVUKILE_WINDOWS_1252 = 21,
    HAMVUKILE_WINDOWS_1253 = 22,
    HAMVUKILE_WINDOWS_1254 = 23,
    HAMVUKILE_WINDOWS_1255 = 24,
    HAMVUKILE_WINDOWS_1256 = 25,
    HAMVUKILE_WINDOWS_1257 = 26,
    HAMVUKILE_WINDOWS_1258 = 27,
    HAMVUKILE_X_MAC_CYRILLIC = 28,
    HAMVUKILE_GBK = 29,
    HAMVUKILE_GB18030 = 30,
    HAMVUKILE_BIG5 = 31,
    HAMVUKILE_EUC_JP = 32,
    HAMVUKILE_ISO_2022_JP = 33,
    HAMVUKILE_SHIFT_JIS = 34,
    HAMVUKILE_EUC_KR = 35,
    HAMVUKILE_REPLACEMENT = 36,
    HAMVUKILE_UTF_16BE = 37,
    HAMVUKILE_UTF_16LE = 38,
    HAMVUKILE_X_USER_DEFINED = 39
};

/* What `hamvukile_label` answers. */
typedef struct {
    size_t start;     /* where the trimmed label lies in the caller's bytes; 0 where it is unknown */
    size_t length;    /* how long it is; 0 where it is unknown */
    uint8_t refusal;  /* 0 or HAMVUKILE_UNKNOWN_LABEL */
    uint8_t encoding; /* the encoding's number; 0 where the label is unknown */
} hamvukile_found;

/* The encoding of a label. Tabs, line feeds, form feeds, carriage returns and spaces at both ends are dropped, and
 * the case of ASCII letters does not matter. Reads `bytes`. */
hamvukile_found hamvukile_label(const uint8_t *bytes, size_t length);

/* What `hamvukile_name` answers. */
typedef struct {
    size_t length;   /* bytes of the name; 0 where the call is refused */
    uint8_t refusal; /* 0, HAMVUKILE_UNKNOWN_ENCODING or HAMVUKILE_SMALL_ROOM, in this order */
} hamvukile_named;

/* Writes an encoding's name to the front of the room, with no NUL behind it, and changes nothing behind that.
 * HAMVUKILE_MAX_NAME bytes are always enough. */
hamvukile_named hamvukile_name(uint8_t encoding, uint8_t *room, size_t room_length);

/* ---- Tables ---------------------------------------------------------------------------------------------------- */

/*
 * The tables are the caller's: an index is a list of cells, the cell at a pointer holding its code point. A cell that
 * is not a scalar of at least 0x80 counts as unmapped, so 0 is an empty cell. A scalar is a number from 0 to 0x10FFFF
 * outside 0xD800 to 0xDFFF. Decoding and encoding are lent two tables, of these lengths:
 *
 *     encoding                   first                           second
 *     1 to 28 except 21          HAMVUKILE_SINGLE_BYTE_CELLS     0
 *     29, 30 (GBK, gb18030)      HAMVUKILE_GB18030_CELLS         ranges: pointer, code point in turn; an even number of
 *                                                                cells, at most HAMVUKILE_MAX_RANGES_CELLS
 *     31 (Big5)                  HAMVUKILE_BIG5_CELLS            0
 *     32 (EUC-JP)                HAMVUKILE_JIS0208_CELLS         HAMVUKILE_JIS0212_CELLS
 *     33, 34                     HAMVUKILE_JIS0208_CELLS         0
 *     35 (EUC-KR)                HAMVUKILE_EUC_KR_CELLS          0
 *     all others, and 21         0                               0
 *
 * For encoding in ISO-2022-JP (33) the second table is the index of its katakana, HAMVUKILE_KATAKANA_CELLS cells.
 *
 * In Shift_JIS (34) the pairs F0 40 to F9 FC are 0xE000 to 0xE757, for private use, and the cells at their pointers,
 * 8836 to 10715, are not looked at.
 */
enum {
    HAMVUKILE_SINGLE_BYTE_CELLS = 128,
    HAMVUKILE_GB18030_CELLS = 23940,
    HAMVUKILE_KATAKANA_CELLS = 63,
    HAMVUKILE_MAX_RANGES_CELLS = 414,
    HAMVUKILE_BIG5_CELLS = 19782,
    HAMVUKILE_JIS0208_CELLS = 11280,
    HAMVUKILE_JIS0212_CELLS = 8836,
    HAMVUKILE_EUC_KR_CELLS = 23940
};

/* Writes the name of the published index file that fills an encoding's first table, or its second, to the front of the
 * room, with no NUL behind it, and changes nothing behind that: "index-jis0208.txt" for Shift_JIS. The name is empty
 * where the encoding has no such table; the second of ISO-2022-JP is for writing only. HAMVUKILE_MAX_INDEX_NAME bytes are
 * always enough. Refusals: HAMVUKILE_UNKNOWN_ENCODING, HAMVUKILE_SMALL_ROOM, in this order. */
hamvukile_named hamvukile_first_index_name(uint8_t encoding, uint8_t *room, size_t room_length);
hamvukile_named hamvukile_second_index_name(uint8_t encoding, uint8_t *room, size_t room_length);

/* What `hamvukile_index_line` answers, and `hamvukile_index_line_indexed`. */
typedef struct {
    uint32_t pointer; /* the pointer of the entry; 0 where there is none */
    uint8_t refusal;  /* 0, with an index HAMVUKILE_WRONG_INDEX, HAMVUKILE_TOO_LONG, HAMVUKILE_BAD_LINE or
                         HAMVUKILE_TAKEN_CELL, in this order */
    uint8_t entry;    /* 1 where the line is an entry; 0 for an empty line and a comment */
} hamvukile_line;

/* Enters one line of a published index file, without its line feed, into a table: the cell at the line's pointer,
 * which has to be 0, takes the line's code point, and no other cell changes. Start with a table of zeros, and hand it
 * the lines of the file one by one. (The file of the gb18030 ranges has lines of the same form and is no such index:
 * its two numbers are a pair of the second table.) */
hamvukile_line hamvukile_index_line(const uint8_t *line, size_t length, uint32_t *table, size_t table_length);

/*
 * A reverse index beside a table finds the pointer of a code point without a search of the table. It is the caller's,
 * too: twice as many cells as the table has. For a table of n cells, cell b below n has the link to the least pointer
 * of bucket b, and cell n + p the link from pointer p to the next of its bucket; a link is a pointer plus 1, or 0 where
 * there is none; a code point c is in bucket c / 2 % n. Only cells that count as mapped are in a bucket. Such an index
 * is true, and gives the pointer that a search of the table gives.
 *
 * An index is true once `hamvukile_build_index` has written it, and stays so as long as its table is changed by
 * `hamvukile_index_line_indexed` alone; a caller that stores a cell otherwise builds the index anew. Of a table of
 * zeros an index of zeros is true. Nothing tells a true index from another. With any other cells a look-up still gives
 * a pointer that is searched and whose cell is the code point, though perhaps not the first or the last of them, and
 * nothing exactly where the search of the table gives nothing.
 */

/* The cells of a reverse index of a table of so many cells: 2 * cells, so 0 for 0. A table of 4,294,967,296 cells or
 * more has no index, since a link would not fit a cell: 0 is answered, and an index line with an index of any length,
 * 0 too, is refused with HAMVUKILE_WRONG_INDEX. */
size_t hamvukile_index_size(size_t cells);

/* Builds the reverse index of an encoding's first table: writes every cell of `index`. An encoding without a first
 * table has an index of no cells. Answers 0 or a refusal: HAMVUKILE_UNKNOWN_ENCODING, HAMVUKILE_WRONG_TABLE,
 * HAMVUKILE_WRONG_INDEX, in this order. */
uint8_t hamvukile_build_index(uint8_t encoding, const uint32_t *first, size_t first_length, uint32_t *index,
                              size_t index_length);

/* Enters one line as `hamvukile_index_line` does, and puts its entry into the reverse index of the table: a true index
 * stays true. Refusals: HAMVUKILE_WRONG_INDEX, and then those of `hamvukile_index_line`. A line that is refused, and one that
 * is no entry, alters neither table nor index. */
hamvukile_line hamvukile_index_line_indexed(const uint8_t *line, size_t length, uint32_t *table, size_t table_length,
                                            uint32_t *index, size_t index_length);

/* ---- Decoding -------------------------------------------------------------------------------------------------- */

/* A decoder between calls: a value to keep and to hand back as it is. */
typedef struct {
    uint32_t taken;   /* the bytes taken since the opening, a dropped mark and the bytes held among them */
    uint32_t lines;   /* the line feeds (U+000A) handed out since the opening */
    uint8_t encoding; /* the encoding of the opening */
    uint8_t mode;
    uint8_t stage;    /* 0 the encoding of the opening reads; 1 a mark at the front is still to choose; 2, 3, 4 a mark chose
                         UTF-8, UTF-16BE, UTF-16LE */
    uint8_t state;
    uint8_t flag;
    uint8_t held;     /* how many bytes it holds: the unfinished last ones of those fed */
    uint8_t first;
    uint8_t second;
    uint8_t third;
    uint8_t ended;    /* 1 once it has ended */
} hamvukile_decoder;

/* What opening, feed and finish answer. */
typedef struct {
    size_t written;            /* scalars at the front of the room */
    uint32_t place;            /* with HAMVUKILE_MALFORMED the bytes taken since the opening before the first byte of the
                                  sequence at fault; else 0 */
    uint32_t line;             /* with HAMVUKILE_MALFORMED the line that it is in: one plus the line feeds handed out
                                  before it; else 0 */
    uint8_t refusal;           /* 0 or a refusal */
    hamvukile_decoder decoder; /* the decoder from here on */
} hamvukile_answer;

/* A new decoder. Refusals: HAMVUKILE_UNKNOWN_ENCODING, HAMVUKILE_UNKNOWN_MODE, in this order. A refused opening
 * answers with a decoder that has ended. */
hamvukile_answer hamvukile_open(uint8_t encoding, uint8_t mode, uint8_t rule);

/* Decodes a chunk: takes all of it, writes the scalars to the front of the room, and changes nothing behind them.
 * The room needs as many cells as the chunk has bytes and the decoder holds: chunk_length + decoder.held.
 * Text may be cut into chunks anywhere: the scalars are the same. The tables are those of the encoding of the opening,
 * whatever a mark has chosen, and may be other ones in each call; they are checked, and read, in this one. With
 * HAMVUKILE_CHOOSE_MARK at most two bytes wait for the choice; they count as held. Refusals: HAMVUKILE_FORGED_DECODER,
 * HAMVUKILE_ENDED_DECODER, HAMVUKILE_WRONG_TABLE, HAMVUKILE_TOO_LONG, HAMVUKILE_TOO_MUCH, HAMVUKILE_SMALL_ROOM, in this
 * order; then, in refusing mode, HAMVUKILE_MALFORMED. Place and line of an error are the same however the text is cut. */
hamvukile_answer hamvukile_feed(hamvukile_decoder decoder, const uint8_t *chunk, size_t chunk_length,
                                const uint32_t *first, size_t first_length, const uint32_t *second,
                                size_t second_length, uint32_t *room, size_t room_length);

/* The end of the text: writes what the bytes held give, and ends the decoder. The room needs decoder.held cells.
 * The tables are those of a feed. They are checked, and read, only while the choice of HAMVUKILE_CHOOSE_MARK is still
 * to come (decoder.stage 1); else any will do. Refusals: HAMVUKILE_FORGED_DECODER, HAMVUKILE_ENDED_DECODER,
 * HAMVUKILE_WRONG_TABLE, HAMVUKILE_SMALL_ROOM, in this order; then, in refusing mode, HAMVUKILE_MALFORMED. */
hamvukile_answer hamvukile_finish(hamvukile_decoder decoder, const uint32_t *first, size_t first_length,
                                  const uint32_t *second, size_t second_length, uint32_t *room, size_t room_length);

/* What the next two calls answer: the answer of the feed or the finish, and how many sequences were replaced. */
typedef struct {
    hamvukile_answer answer;
    size_t count;
} hamvukile_replacing;

/* Feed and finish that also tell what was replaced by U+FFFD: answer and room are those of `hamvukile_feed` and
 * `hamvukile_finish`, and for each replaced sequence, in order, two cells at the front of `spans` are its place, the
 * bytes taken since the opening before its first byte, and its width, the bytes given up; nothing behind them changes.
 * Bytes that are read again are no part of a width, and a U+FFFD that is text is not told. In refusing mode nothing is
 * told. `spans` needs two cells for each byte of the chunk and each byte held: 2 * (chunk_length + decoder.held), at a
 * finish 2 * decoder.held. Refusals are those of the two calls; then HAMVUKILE_SMALL_ROOM where `spans` is smaller. One
 * decoder may be fed in all forms in turn. */
hamvukile_replacing hamvukile_feed_replaced(hamvukile_decoder decoder, const uint8_t *chunk, size_t chunk_length,
                                            const uint32_t *first, size_t first_length, const uint32_t *second,
                                            size_t second_length, uint32_t *room, size_t room_length, uint32_t *spans,
                                            size_t spans_length);
hamvukile_replacing hamvukile_finish_replaced(hamvukile_decoder decoder, const uint32_t *first, size_t first_length,
                                              const uint32_t *second, size_t second_length, uint32_t *room,
                                              size_t room_length, uint32_t *spans, size_t spans_length);

/* What feed and finish answer of a decoder that is lent: as `hamvukile_answer`, without the decoder. */
typedef struct {
    size_t written;
    uint32_t place;
    uint32_t line;
    uint8_t refusal;
} hamvukile_reply;

/* The same two calls on a decoder that is lent and altered where it stands: the reply is the answer that
 * `hamvukile_feed` and `hamvukile_finish` give for *decoder, and *decoder is then the decoder of that answer; a refused
 * call leaves it as it was. `decoder` has to be valid, and the room may not overlap it. One decoder may be fed in both
 * forms in turn. */
hamvukile_reply hamvukile_feed_in_place(hamvukile_decoder *decoder, const uint8_t *chunk, size_t chunk_length,
                                        const uint32_t *first, size_t first_length, const uint32_t *second,
                                        size_t second_length, uint32_t *room, size_t room_length);
hamvukile_reply hamvukile_finish_in_place(hamvukile_decoder *decoder, const uint32_t *first, size_t first_length,
                                          const uint32_t *second, size_t second_length, uint32_t *room,
                                          size_t room_length);

/* What `hamvukile_check` answers. */
typedef struct {
    uint32_t place;  /* where the text is not clean the bytes before the first byte of the sequence at fault; else 0 */
    uint32_t line;   /* where it is not clean the line of that: one plus the line feeds (U+000A) before it; else 0 */
    uint8_t refusal; /* 0 or a refusal */
    uint8_t clean;   /* 1 where the text is clean; 0 where it is not, and where the call is refused */
} hamvukile_checked;

/* Is a text, of at most HAMVUKILE_MAX_CHUNK bytes, clean? It is where opening with HAMVUKILE_REFUSING and
 * HAMVUKILE_DROP_MARK, a feed of the whole text and a finish give no HAMVUKILE_MALFORMED; else place and line are those
 * that come with it. A U+FFFD that is text is no error, and an unfinished sequence at the end is one. The call is lent
 * no room: it has one of 33 KB on the stack. Refusals: HAMVUKILE_UNKNOWN_ENCODING, HAMVUKILE_WRONG_TABLE,
 * HAMVUKILE_TOO_LONG, in this order. */
hamvukile_checked hamvukile_check(uint8_t encoding, const uint8_t *text, size_t length, const uint32_t *first,
                                  size_t first_length, const uint32_t *second, size_t second_length);

/* ---- Encoding -------------------------------------------------------------------------------------------------- */

/* The states of a writing: ISO-2022-JP changes between them, and the other encodings hand back the state that they are
 * handed. A text begins in HAMVUKILE_ASCII_STATE. */
enum {
    HAMVUKILE_ASCII_STATE = 0,
    HAMVUKILE_ROMAN_STATE = 1,
    HAMVUKILE_TWO_BYTE_STATE = 2
};

/* What `hamvukile_encode`, `hamvukile_encode_indexed` and `hamvukile_encode_finish` answer. */
typedef struct {
    size_t written;  /* bytes at the front of the room */
    size_t index;    /* with HAMVUKILE_MALFORMED the index of the scalar that cannot be written; else 0 */
    uint8_t refusal; /* 0 or a refusal */
    uint8_t state;   /* the state for the next call; where a call is refused the one that it was handed */
} hamvukile_written;

/* Encodes scalars in any encoding but replacement (36) and UTF-16 (37, 38): writes the bytes to the front of the room, and
 * changes nothing behind them. The tables are those of decoding, but for ISO-2022-JP's second. The room needs the bytes
 * that are written, and no more: at most 10 for each scalar, in ISO-2022-JP 13. A text may be cut anywhere: the state that
 * a call answers goes into the next one, and a finish ends the text. In an encoding of pairs a call has up to 140 KB of
 * its own on the stack.
 *
 * EUC-JP and Shift_JIS write U+00A5 as 5C, U+203E as 7E and U+2212 as U+FF0D; ISO-2022-JP writes U+2212 as U+FF0D, and the
 * katakana of half width (U+FF61 to U+FF9F) as the characters of its second table. These are read back as another
 * character; every other scalar that is written is read back as itself. In ISO-2022-JP, U+000E, U+000F and U+001B cannot
 * be written, and html refers to them as &#65533;. There a scalar that cannot be written is written, or reported, in
 * ASCII or Roman: the three bytes of a return to ASCII before it are among those written, and the state is the one then
 * reached. Characters of jis0212, of Shift_JIS's user rows and of Big5's first 32 rows are read, and not written.
 *
 * Refusals: HAMVUKILE_UNKNOWN_ENCODING, HAMVUKILE_UNKNOWN_MODE, HAMVUKILE_FORGED_DECODER (a state above 2, in any
 * encoding), HAMVUKILE_NO_ENCODER, HAMVUKILE_WRONG_TABLE, HAMVUKILE_TOO_LONG, HAMVUKILE_NOT_SCALAR,
 * HAMVUKILE_SMALL_ROOM, in this order; then, in refusing mode, HAMVUKILE_MALFORMED. What is written after that need not
 * read back: a text ends with its first one. */
hamvukile_written hamvukile_encode(uint8_t encoding, uint8_t mode, uint8_t state, const uint32_t *scalars,
                                   size_t scalars_length, const uint32_t *first, size_t first_length,
                                   const uint32_t *second, size_t second_length, uint8_t *room, size_t room_length);

/* Encodes scalars as `hamvukile_encode` does, with a reverse index of the first table (see above; of no cells for an
 * encoding without a first table), which is read and not altered. It pays in calls of few scalars: each is found in a few
 * steps, and only one that the table has not costs a search of the table. A long call reads the whole table once, and then
 * finds nearly all without search or index: in an encoding of pairs from 32 scalars on that are not ASCII, with an index
 * from 1,024 (in gb18030 from 64); in a single-byte encoding from 16 scalars on, with an index from 256.
 *
 * With a true index the answer and the bytes are those of `hamvukile_encode`. With any other cells of the right length
 * the answer is still the same, and as many bytes are written, which read back the same; where the table has a scalar in
 * more than one cell, its bytes may be those of another of these cells. The two calls may write pieces of one text in
 * turn; pieces written with the same index give the bytes of the whole text written with it.
 *
 * Refusals: as of `hamvukile_encode`, and behind HAMVUKILE_WRONG_TABLE and before HAMVUKILE_TOO_LONG
 * HAMVUKILE_WRONG_INDEX: the index has not 2 * first_length cells. */
hamvukile_written hamvukile_encode_indexed(uint8_t encoding, uint8_t mode, uint8_t state, const uint32_t *scalars,
                                           size_t scalars_length, const uint32_t *first, size_t first_length,
                                           const uint32_t *second, size_t second_length, const uint32_t *index,
                                           size_t index_length, uint8_t *room, size_t room_length);

/* Ends a text: writes the three bytes of a return to ASCII where the state is not HAMVUKILE_ASCII_STATE, else nothing, and
 * answers that state. The room needs what is written, and no more. A finish sees the state and not the encoding: a host
 * that hands an encoding other than ISO-2022-JP the state 1 or 2 gets it back, and a finish then writes three bytes that
 * do not belong to that encoding. Refusals: HAMVUKILE_FORGED_DECODER, HAMVUKILE_SMALL_ROOM, in this order. */
hamvukile_written hamvukile_encode_finish(uint8_t state, uint8_t *room, size_t room_length);

/* ---- Lists ----------------------------------------------------------------------------------------------------- */

/*
 * An options list has one option a line: name, tab, value. A line feed (U+000A) ends a line; a carriage return (U+000D)
 * just before it is dropped, and only one; the last line may lack its line feed. A line that is then empty is passed
 * over, but counted. A list is faultless where every other line has one tab (U+0009) and a known name that is not empty
 * and that no earlier line has. An option is handed out as five cells:
 *
 *     0      the number of its line, from 1
 *     1, 2   where its name starts in the text, and just after it ends
 *     3, 4   where its value starts, and just after it ends
 *
 * Places count from 0. The text is the caller's: name and value are the text from one place to the other.
 */
enum {
    HAMVUKILE_OPTION_CELLS = 5
};

/* What `hamvukile_read_list` answers. */
typedef struct {
    size_t options;  /* the options at the front of the room; 0 where the call is refused */
    size_t line;     /* with HAMVUKILE_BAD_OPTION_LINE, HAMVUKILE_UNKNOWN_OPTION and HAMVUKILE_REPEATED_OPTION the line at
                        fault, from 1; else 0 */
    uint8_t refusal; /* 0 or a refusal */
} hamvukile_listed;

/* Reads a list of decoded characters (any numbers; they are compared as numbers): writes the cells of its options to
 * the front of the room, in order, and changes nothing behind them. The known names are lent as characters, each closed
 * by a line feed; characters after the last line feed name nothing, an empty name makes no name known, and no carriage
 * return is dropped there. The room needs HAMVUKILE_OPTION_CELLS cells for each option: as many as the list has line
 * feeds and one more are always enough. Refusals: by the first line at fault HAMVUKILE_BAD_OPTION_LINE,
 * HAMVUKILE_UNKNOWN_OPTION, HAMVUKILE_REPEATED_OPTION, in this order within it; then HAMVUKILE_SMALL_ROOM. The whole list
 * is judged before anything is written. The call has up to 330 KB of its own on the stack. */
hamvukile_listed hamvukile_read_list(const uint32_t *text, size_t length, const uint32_t *names, size_t names_length,
                                     uint64_t *room, size_t room_length);

#ifdef __cplusplus
}
#endif

#endif
