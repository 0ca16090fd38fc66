/* The sample readings and the refusals of document 01, through the C boundary. Prints what it compared; exits 1 on a difference. */
#include <stdio.h>
#include <string.h>

#include "hamvukile.h"

#define UNTOUCHED 0xABCDEF01u

static int compared = 0;
static int different = 0;

static void check(const char *what, int same) {
    compared++;
    if (!same) {
        different++;
        printf("DIFFERENT: %s\n", what);
    }
}

/* Are two decoders the same, field by field? */
static int same_decoder(hamvukile_decoder a, hamvukile_decoder b) {
    return a.taken == b.taken && a.lines == b.lines && a.encoding == b.encoding && a.mode == b.mode && a.stage == b.stage && a.state == b.state && a.flag == b.flag
        && a.held == b.held && a.first == b.first && a.second == b.second && a.third == b.third && a.ended == b.ended;
}

/* Tables of unmapped cells, of the lengths that an encoding asks for. */
static const uint32_t unmapped[HAMVUKILE_GB18030_CELLS];

typedef struct {
    const uint32_t *first;
    size_t first_length;
    const uint32_t *second;
    size_t second_length;
} tables;

static tables tables_of(uint8_t encoding) {
    tables t = { unmapped, 0, unmapped, 0 };
    if (encoding >= HAMVUKILE_IBM866 && encoding <= HAMVUKILE_X_MAC_CYRILLIC && encoding != HAMVUKILE_WINDOWS_1252) t.first_length = HAMVUKILE_SINGLE_BYTE_CELLS;
    if (encoding == HAMVUKILE_GBK || encoding == HAMVUKILE_GB18030) t.first_length = HAMVUKILE_GB18030_CELLS;
    if (encoding == HAMVUKILE_BIG5) t.first_length = HAMVUKILE_BIG5_CELLS;
    if (encoding == HAMVUKILE_EUC_JP || encoding == HAMVUKILE_ISO_2022_JP || encoding == HAMVUKILE_SHIFT_JIS) t.first_length = HAMVUKILE_JIS0208_CELLS;
    if (encoding == HAMVUKILE_EUC_JP) t.second_length = HAMVUKILE_JIS0212_CELLS;
    if (encoding == HAMVUKILE_EUC_KR) t.first_length = HAMVUKILE_EUC_KR_CELLS;
    return t;
}

static hamvukile_answer feed(hamvukile_decoder d, const uint8_t *chunk, size_t n, tables t, uint32_t *room, size_t room_length) {
    return hamvukile_feed(d, chunk, n, t.first, t.first_length, t.second, t.second_length, room, room_length);
}

static hamvukile_answer finish(hamvukile_decoder d, tables t, uint32_t *room, size_t room_length) {
    return hamvukile_finish(d, t.first, t.first_length, t.second, t.second_length, room, room_length);
}

static hamvukile_written encode(uint8_t encoding, uint8_t mode, const uint32_t *scalars, size_t n, tables t, uint8_t *room, size_t room_length) {
    return hamvukile_encode(encoding, mode, HAMVUKILE_ASCII_STATE, scalars, n, t.first, t.first_length, t.second, t.second_length, room, room_length);
}

/* Reads a text that is cut behind byte i where bit i of `cuts` is set; the number of scalars, or -1 if a call was refused or wrote behind them. */
static int decode(uint8_t encoding, uint8_t rule, tables t, const uint8_t *text, size_t n, unsigned cuts, uint32_t *out) {
    int total = 0, fed = 0;
    size_t at = 0;
    hamvukile_answer a = hamvukile_open(encoding, HAMVUKILE_REPLACING, rule);
    while (a.refusal == 0 && !a.decoder.ended) {
        uint32_t room[64];
        size_t i, end = at;
        for (i = 0; i < 64; i++) room[i] = UNTOUCHED;
        if (fed && at == n) {
            a = finish(a.decoder, t, room, a.decoder.held);
        } else {
            while (end < n && (end == at || !(cuts >> (end - 1) & 1))) end++;
            a = feed(a.decoder, text + at, end - at, t, room, end - at + a.decoder.held);
            fed = 1;
            at = end;
        }
        for (i = 0; i < a.written; i++) out[total++] = room[i];
        for (; i < 64; i++) if (room[i] != UNTOUCHED) return -1;
    }
    return a.refusal == 0 ? total : -1;
}

static void show_scalars(const uint32_t *scalars, int count) {
    int i;
    for (i = 0; i < count; i++) printf(" %04lX", (unsigned long)scalars[i]);
}

/* A sample: some bytes, and the scalars that they give, in every cut: whole, byte by byte, and all others. */
static void sample(const char *what, uint8_t encoding, uint8_t rule, tables t, const char *bytes, size_t n, const uint32_t *want, int count) {
    unsigned cuts;
    for (cuts = 0; cuts < (n == 0 ? 1u : 1u << (n - 1)); cuts++) {
        uint32_t out[64];
        size_t i;
        int got = decode(encoding, rule, t, (const uint8_t *)bytes, n, cuts, out);
        int same = got == count && memcmp(out, want, sizeof(uint32_t) * (size_t)count) == 0;
        check(what, same);
        if (same) continue;
        printf("  encoding %d, cut as", encoding);
        for (i = 0; i < n; i++) printf("%s%02X", i > 0 && (cuts >> (i - 1) & 1) ? " | " : " ", (uint8_t)bytes[i]);
        printf("\n  expected");
        show_scalars(want, count);
        printf(got < 0 ? "\n  came a refusal, or cells behind the scalars are altered" : "\n  came");
        show_scalars(out, got);
        printf("\n");
    }
}

#define SCALARS(...) ((const uint32_t[]){ __VA_ARGS__ }), (int)(sizeof((const uint32_t[]){ __VA_ARGS__ }) / sizeof(uint32_t))
#define BYTES(s) (s), (sizeof(s) - 1)
#define SAMPLE(what, encoding, bytes, ...) sample(what, encoding, HAMVUKILE_DROP_MARK, tables_of(encoding), BYTES(bytes), SCALARS(__VA_ARGS__))

static void samples(void) {
    static const uint32_t pair[] = { 189000, 65536 };
    tables ranges = tables_of(30);
    int e;
    ranges.second = pair;
    ranges.second_length = 2;
    for (e = 0; e <= HAMVUKILE_MAX_ENCODING; e++) {
        hamvukile_answer a = finish(hamvukile_open((uint8_t)e, HAMVUKILE_REPLACING, HAMVUKILE_DROP_MARK).decoder, tables_of(0), NULL, 0);
        check("1: no chunk", a.refusal == 0 && a.written == 0 && a.decoder.ended == 1);
        sample("1: a chunk of no bytes", (uint8_t)e, HAMVUKILE_DROP_MARK, tables_of((uint8_t)e), "", 0, pair, 0);
    }
    SAMPLE("2: UTF-8 F0 9F 92 A9", 0, "\xF0\x9F\x92\xA9", 0x1F4A9);
    SAMPLE("3: UTF-8 E2 82", 0, "\xE2\x82", 0xFFFD);
    SAMPLE("4: UTF-8 ED A0 80", 0, "\xED\xA0\x80", 0xFFFD, 0xFFFD, 0xFFFD);
    SAMPLE("4: UTF-8 C0 80", 0, "\xC0\x80", 0xFFFD, 0xFFFD);
    SAMPLE("5: Shift_JIS 82 22", 34, "\x82\x22", 0xFFFD, 0x22);
    SAMPLE("6: gb18030 81 30 2C", 30, "\x81\x30\x2C", 0xFFFD, 0x30, 0x2C);
    SAMPLE("7: gb18030 81 30", 30, "\x81\x30", 0xFFFD);
    SAMPLE("8: gb18030 81 35 F4 37", 30, "\x81\x35\xF4\x37", 0xE7C7);
    sample("8: gb18030 90 30 81 30", 30, HAMVUKILE_DROP_MARK, ranges, BYTES("\x90\x30\x81\x30"), SCALARS(0x10000));
    SAMPLE("9: UTF-16LE 3D D8 A9 DC", 38, "\x3D\xD8\xA9\xDC", 0x1F4A9);
    SAMPLE("9: UTF-16LE 3D D8 41 00", 38, "\x3D\xD8\x41\x00", 0xFFFD, 0x41);
    SAMPLE("10: ISO-2022-JP 1B 28 42 twice", 33, "\x1B\x28\x42\x1B\x28\x42", 0xFFFD);
    SAMPLE("10: ISO-2022-JP 1B 24", 33, "\x1B\x24", 0xFFFD, 0x24);
    SAMPLE("11: EUC-JP 8F A1 09", 32, "\x8F\xA1\x09", 0xFFFD, 0x09);
    SAMPLE("12: Big5 88 62", 31, "\x88\x62", 0xCA, 0x304);
    SAMPLE("13: UTF-8 EF BB BF 41, drop", 0, "\xEF\xBB\xBF\x41", 0x41);
    sample("13: UTF-8 EF BB BF 41, keep", 0, HAMVUKILE_KEEP_MARK, tables_of(0), BYTES("\xEF\xBB\xBF\x41"), SCALARS(0xFEFF, 0x41));
    SAMPLE("14: replacement 41 42", 36, "\x41\x42", 0xFFFD);
    SAMPLE("showtext's: windows-1252 80 09 41", 21, "\x80\x09\x41", 0x20AC, 0x09, 0x41);
}

/* Shift_JIS: F0 40 to F9 FC are U+E000 and up, whatever the cells there; the pairs beside them go by the table. */
static void user_rows(void) {
    static uint32_t cells[HAMVUKILE_JIS0208_CELLS];
    tables both[2];
    int i;
    for (i = 0; i < HAMVUKILE_JIS0208_CELLS; i++) cells[i] = 0x4E00 + (uint32_t)i;
    both[0] = both[1] = tables_of(HAMVUKILE_SHIFT_JIS);
    both[1].first = cells;
    for (i = 0; i < 2; i++) {
#define USER(bytes, ...) sample("Shift_JIS, user rows", HAMVUKILE_SHIFT_JIS, HAMVUKILE_DROP_MARK, both[i], BYTES(bytes), SCALARS(__VA_ARGS__))
        USER("\xF0\x40", 0xE000);
        USER("\xF0\x7E", 0xE03E);
        USER("\xF0\x7F", 0xFFFD, 0x7F);
        USER("\xF0\x80", 0xE03F);
        USER("\xF0\xFC", 0xE0BB);
        USER("\xF1\x40", 0xE0BC);
        USER("\xF9\xFC", 0xE757);
        USER("\xF9\xFD", 0xFFFD);
        USER("\xF0\x22", 0xFFFD, 0x22);
        USER("\xF0\x09", 0xFFFD, 0x09);
        USER("\xF9\x3F", 0xFFFD, 0x3F);
        USER("\xF0", 0xFFFD);
        USER("\x41\xF0\x40\xF0\x7F\xF9\xFC\x42", 0x41, 0xE000, 0xFFFD, 0x7F, 0xE757, 0x42);
    }
    i = 0;
    USER("\xEF\xFC", 0xFFFD);
    USER("\xFA\x40", 0xFFFD, 0x40);
    i = 1;
    USER("\xEF\xFC", 0x4E00 + 8835);
    USER("\xFA\x40", 0x4E00 + 10716);
}

/* Reads a text, cut by `cuts`, in refusing mode: the report 11 has this place and line, and came after so many bytes. */
static void report_at(const char *what, uint8_t encoding, const char *bytes, size_t n, uint32_t at, uint32_t line) {
    unsigned cuts;
    for (cuts = 0; cuts < 1u << (n - 1); cuts++) {
        size_t from = 0, end;
        uint32_t room[64], lines = 0;
        hamvukile_answer a = hamvukile_open(encoding, HAMVUKILE_REFUSING, HAMVUKILE_DROP_MARK);
        int zeros = a.place == 0 && a.line == 0;
        while (a.refusal == 0) {
            uint32_t before = a.decoder.taken;
            size_t i;
            if (from == n) {
                a = finish(a.decoder, tables_of(encoding), room, a.decoder.held);
                end = from;
            } else {
                for (end = from + 1; end < n && !(cuts >> (end - 1) & 1); end++) {}
                a = feed(a.decoder, (const uint8_t *)bytes + from, end - from, tables_of(encoding), room, end - from + a.decoder.held);
            }
            for (i = 0; i < a.written; i++) lines += room[i] == 0x0A;
            zeros = zeros && (a.refusal != 0 || (a.place == 0 && a.line == 0));
            check("the bytes taken", a.decoder.taken == before + (end - from) && a.decoder.taken == end);
            check("the line feeds handed out", a.decoder.lines == lines);
            from = end;
            if (a.decoder.ended) break;
        }
        check(what, a.refusal == HAMVUKILE_MALFORMED && a.place == at && a.line == line && zeros);
    }
}

#define PLACE(what, encoding, bytes, at, line) report_at(what, encoding, BYTES(bytes), at, line)

/* Places and lines of errors, in every cut. */
static void places(void) {
    PLACE("UTF-8: a lone byte in the third line", 0, "a\nb\n\xFF\n", 4, 3);
    PLACE("UTF-8: a dropped mark counts", 0, "\xEF\xBB\xBF\n\xE2\x82x", 4, 2);
    PLACE("UTF-8: an unfinished sequence at the end", 0, "ab\n\xF0\x9F\x92", 3, 2);
    PLACE("Shift_JIS: a bad trail is put back", 34, "A\n\x82\n", 2, 2);
    PLACE("gb18030: three bytes held", 30, "\n\x81\x30\x81 ", 1, 2);
    PLACE("UTF-16LE: a unit 0A0A is no line", 38, "\x0A\x0A\x0A\x00\x00\xDC", 4, 2);
    PLACE("UTF-16BE: one byte at the end", 37, "\x00\x0A\x00", 2, 2);
    PLACE("ISO-2022-JP: the second of two escapes", 33, "\n\x1B(B\x1B(B", 4, 2);
    PLACE("ISO-2022-JP: a lead before an escape", 33, "\x1B$B!\x1B(B", 3, 1);
    PLACE("ISO-2022-JP: a line feed that is a trail is no line", 33, "\x1B$B!\x0A", 3, 1);
    PLACE("replacement: the first byte", 36, "\nA", 0, 1);
}

static hamvukile_checked check_text(uint8_t encoding, tables t, const char *text, size_t n) {
    return hamvukile_check(encoding, (const uint8_t *)text, n, t.first, t.first_length, t.second, t.second_length);
}

static void checked_as(const char *what, hamvukile_checked c, uint8_t refusal, uint8_t clean, uint32_t place, uint32_t line) {
    check(what, c.refusal == refusal && c.clean == clean && c.place == place && c.line == line);
}

#define CLEAN(what, encoding, bytes) checked_as(what, check_text(encoding, tables_of(encoding), BYTES(bytes)), 0, 1, 0, 0)
#define FAULT(what, encoding, bytes, at, line) checked_as(what, check_text(encoding, tables_of(encoding), BYTES(bytes)), 0, 0, at, line)
#define REFUSED(what, encoding, t, n, refusal) checked_as(what, check_text(encoding, t, long_text, n), refusal, 0, 0, 0)

/* Lists that are clean and lists that are not, short ones and long ones, and the refusals with their order. */
static void lists(void) {
    static char long_text[65537];
    tables none = tables_of(0), wrong = tables_of(1);
    int e;
    for (e = 0; e <= HAMVUKILE_MAX_ENCODING; e++) CLEAN("clean: no bytes", (uint8_t)e, "");
    CLEAN("clean: UTF-8", 0, "\xEF\xBB\xBF" "a\tb\n\xF0\x9F\x92\xA9\n");
    CLEAN("clean: a U+FFFD that is text", 0, "a\xEF\xBF\xBD\n");
    CLEAN("clean: a U+FFFD of UTF-16LE that is text", 38, "\xFD\xFF");
    CLEAN("clean: windows-1252 has no errors", 21, "\x80\x81\xFF");
    FAULT("a lone byte in the third line", 0, "a\nb\n\xFF\n", 4, 3);
    FAULT("a dropped mark counts", 0, "\xEF\xBB\xBF\n\xE2\x82x", 4, 2);
    FAULT("an unfinished sequence at the end", 0, "ab\n\xF0\x9F\x92", 3, 2);
    FAULT("one byte of UTF-16BE at the end", 37, "\x00\x0A\x00", 2, 2);
    FAULT("Shift_JIS: a bad trail", 34, "A\n\x82\n", 2, 2);
    FAULT("ISO-2022-JP: the second of two escapes", 33, "\n\x1B(B\x1B(B", 4, 2);
    FAULT("replacement: the first byte", 36, "\nA", 0, 1);
    FAULT("an unmapped byte", 1, "a\x80", 1, 1);
    memset(long_text, 'a', sizeof long_text);
    long_text[10] = '\n';
    REFUSED("clean: 2", 40, none, 1, HAMVUKILE_UNKNOWN_ENCODING);
    REFUSED("clean: 4", 0, wrong, 1, HAMVUKILE_WRONG_TABLE);
    REFUSED("clean: 8", 0, none, 65537, HAMVUKILE_TOO_LONG);
    REFUSED("clean: 2 before 4 and 8", 40, wrong, 65537, HAMVUKILE_UNKNOWN_ENCODING);
    REFUSED("clean: 4 before 8", 0, wrong, 65537, HAMVUKILE_WRONG_TABLE);
    REFUSED("clean: 2 before 8", 255, none, 65537, HAMVUKILE_UNKNOWN_ENCODING);
    checked_as("clean: 65,536 bytes", check_text(0, none, long_text, 65536), 0, 1, 0, 0);
    long_text[65535] = '\xE2';
    checked_as("an unfinished sequence behind 65,535 bytes", check_text(0, none, long_text, 65536), 0, 0, 65535, 2);
    checked_as("clean: the bytes before it", check_text(0, none, long_text, 65535), 0, 1, 0, 0);
}

/* Characters of a text, and their number. */
static size_t characters(const char *text, uint32_t *to) {
    size_t n = 0;
    for (; text[n] != 0; n++) to[n] = (uint8_t)text[n];
    return n;
}

static void listed_as(const char *what, const char *text, const char *names, size_t room_length, uint8_t refusal, size_t line, const uint64_t *want, size_t options) {
    uint32_t t[64], n[64];
    uint64_t room[32];
    size_t i, cells = options * HAMVUKILE_OPTION_CELLS;
    hamvukile_listed l;
    int same;
    for (i = 0; i < 32; i++) room[i] = UNTOUCHED;
    i = characters(text, t);
    l = hamvukile_read_list(t, i, n, characters(names, n), room, room_length);
    same = l.refusal == refusal && l.line == line && l.options == options;
    for (i = 0; i < 32; i++) same = same && room[i] == (i < cells ? want[i] : UNTOUCHED);
    check(what, same);
    if (!same) printf("  came refusal %d, line %lu, options %lu\n", l.refusal, (unsigned long)l.line, (unsigned long)l.options);
}

#define CELLS(...) ((const uint64_t[]){ __VA_ARGS__ }), (sizeof((const uint64_t[]){ __VA_ARGS__ }) / sizeof(uint64_t) / HAMVUKILE_OPTION_CELLS)
#define OPTIONS(what, text, names, room, ...) listed_as(what, text, names, room, HAMVUKILE_ACCEPTED, 0, CELLS(__VA_ARGS__))
#define FAULTY(what, text, names, room, refusal, line) listed_as(what, text, names, room, refusal, line, NULL, 0)

/* Options lists: the cells of each option, the refusals with their line and their order, and that they change nothing. */
static void options(void) {
    const char *names = "a\nb\nab\nname\n";
    static uint32_t text[4 * 5000], known[2 * 5000];
    static uint64_t room[HAMVUKILE_OPTION_CELLS * 5000];
    hamvukile_listed l;
    int i;
    listed_as("nothing", "", "", 0, HAMVUKILE_ACCEPTED, 0, NULL, 0);
    OPTIONS("three options", "a\tv\nb\tw\r\nab\tx", names, 16, 1, 0, 1, 2, 3, 2, 4, 5, 6, 7, 3, 9, 11, 12, 13);
    OPTIONS("two carriage returns", "a\tv\r\r\n", names, 5, 1, 0, 1, 2, 4);
    OPTIONS("a carriage return at the end", "a\tv\r", names, 5, 1, 0, 1, 2, 4);
    OPTIONS("a carriage return inside", "a\tv\rw\n", names, 5, 1, 0, 1, 2, 5);
    OPTIONS("lines that are passed over", "\n\r\n\na\tv\n", names, 5, 4, 4, 5, 6, 7);
    OPTIONS("no value", "a\t\r\n", names, 5, 1, 0, 1, 2, 2);
    OPTIONS("the room exactly", "a\tv\nb\tw\n", names, 10, 1, 0, 1, 2, 3, 2, 4, 5, 6, 7);
    FAULTY("16: no tab", "a\n", names, 5, HAMVUKILE_BAD_OPTION_LINE, 1);
    FAULTY("16: two tabs", "a\tv\tw\n", names, 5, HAMVUKILE_BAD_OPTION_LINE, 1);
    FAULTY("16: a line of blanks", "a\tv\n \n", names, 5, HAMVUKILE_BAD_OPTION_LINE, 2);
    FAULTY("16: a carriage return alone, at the end", "a\tv\n\r", names, 5, HAMVUKILE_BAD_OPTION_LINE, 2);
    FAULTY("17: unknown", "a\tv\n\nc\tw\n", names, 10, HAMVUKILE_UNKNOWN_OPTION, 3);
    FAULTY("17: empty", "\tv\n", "\n\na\n", 5, HAMVUKILE_UNKNOWN_OPTION, 1);
    FAULTY("17: the front of a known name", "nam\tv\n", names, 5, HAMVUKILE_UNKNOWN_OPTION, 1);
    FAULTY("17: longer than a known name", "names\tv\n", names, 5, HAMVUKILE_UNKNOWN_OPTION, 1);
    FAULTY("17: the end of a known name", "me\tv\n", names, 5, HAMVUKILE_UNKNOWN_OPTION, 1);
    FAULTY("17: a known name without its line feed", "b\tv\n", "a\nb", 5, HAMVUKILE_UNKNOWN_OPTION, 1);
    FAULTY("17: a known name with a carriage return", "a\tv\n", "a\r\n", 5, HAMVUKILE_UNKNOWN_OPTION, 1);
    FAULTY("18: used before", "a\tv\nb\tw\n\r\nab\tx\na\ty\n", names, 20, HAMVUKILE_REPEATED_OPTION, 5);
    FAULTY("the first line at fault", "a\tv\na\tw\nc\n", names, 15, HAMVUKILE_REPEATED_OPTION, 2);
    FAULTY("16 before 17", "c\tv\tw\n", names, 5, HAMVUKILE_BAD_OPTION_LINE, 1);
    FAULTY("16 before 18", "a\tv\na\n", names, 10, HAMVUKILE_BAD_OPTION_LINE, 2);
    FAULTY("7: a cell short", "a\tv\nb\tw\n", names, 9, HAMVUKILE_SMALL_ROOM, 0);
    FAULTY("17 before 7", "a\tv\nx\ty\n", names, 0, HAMVUKILE_UNKNOWN_OPTION, 2);
    /* 5,000 names of one character, known in the other order */
    for (i = 0; i < 5000; i++) {
        text[4 * i] = 0x4E00 + (uint32_t)i;
        text[4 * i + 1] = '\t';
        text[4 * i + 2] = 'v';
        text[4 * i + 3] = '\n';
        known[2 * i] = 0x4E00 + 4999 - (uint32_t)i;
        known[2 * i + 1] = '\n';
    }
    l = hamvukile_read_list(text, 4 * 5000, known, 2 * 5000, room, HAMVUKILE_OPTION_CELLS * 5000);
    check("5,000 options", l.refusal == 0 && l.options == 5000 && room[5 * 4999] == 5000 && room[5 * 4999 + 1] == 4 * 4999);
    text[4 * 4999] = 0x4E00 + 1500;
    l = hamvukile_read_list(text, 4 * 5000, known, 2 * 5000, room, HAMVUKILE_OPTION_CELLS * 5000);
    check("18: the last of 5,000", l.refusal == HAMVUKILE_REPEATED_OPTION && l.line == 5000);
    text[4 * 4999] = 0xFFFFFFFF;
    l = hamvukile_read_list(text, 4 * 5000, known, 2 * 5000, room, HAMVUKILE_OPTION_CELLS * 5000);
    check("17: the last of 5,000", l.refusal == HAMVUKILE_UNKNOWN_OPTION && l.line == 5000);
}

/* Sample 15, and what else a writer answers. */
static void writing(void) {
    static const uint32_t han[] = { 0x4E00 }, text[] = { 0x41, 0x4E00 }, surrogate[] = { 0x4E00, 0xD800 };
    uint8_t room[16];
    hamvukile_written w;
    memset(room, 0x55, sizeof room);
    w = hamvukile_encode(21, HAMVUKILE_HTML, 0, han, 1, NULL, 0, NULL, 0, room, 8);
    check("15: U+4E00 as windows-1252, html", w.refusal == 0 && w.written == 8 && w.index == 0 && memcmp(room, "&#19968;\x55", 9) == 0);
    w = hamvukile_encode(21, HAMVUKILE_REFUSING, 0, han, 1, NULL, 0, NULL, 0, room, 0);
    check("15: U+4E00 as windows-1252, refusing", w.refusal == HAMVUKILE_MALFORMED && w.written == 0 && w.index == 0);
    memset(room, 0x55, sizeof room);
    w = hamvukile_encode(21, HAMVUKILE_REFUSING, 0, text, 2, NULL, 0, NULL, 0, room, 1);
    check("an unwritable scalar at index 1", w.refusal == HAMVUKILE_MALFORMED && w.written == 1 && w.index == 1 && room[0] == 0x41 && room[1] == 0x55);
    w = hamvukile_encode(0, HAMVUKILE_HTML, 0, han, 1, NULL, 0, NULL, 0, room, 3);
    check("U+4E00 as UTF-8", w.refusal == 0 && w.written == 3 && memcmp(room, "\xE4\xB8\x80", 3) == 0);
    check("writing: 7", hamvukile_encode(0, HAMVUKILE_HTML, 0, han, 1, NULL, 0, NULL, 0, room, 2).refusal == HAMVUKILE_SMALL_ROOM);
    check("writing: 2 before 3", hamvukile_encode(40, 2, 0, han, 1, NULL, 0, NULL, 0, room, 16).refusal == HAMVUKILE_UNKNOWN_ENCODING);
    check("writing: 3 before 9", hamvukile_encode(36, 2, 0, han, 1, NULL, 0, NULL, 0, room, 16).refusal == HAMVUKILE_UNKNOWN_MODE);
    check("writing: 3 before 5", hamvukile_encode(36, 2, 3, han, 1, NULL, 0, NULL, 0, room, 16).refusal == HAMVUKILE_UNKNOWN_MODE);
    w = hamvukile_encode(36, 0, 3, han, 1, NULL, 0, NULL, 0, room, 16);
    check("writing: 5 before 9", w.refusal == HAMVUKILE_FORGED_DECODER && w.state == 3);
    check("writing: 5 in UTF-8", hamvukile_encode(0, 0, 255, han, 1, NULL, 0, NULL, 0, room, 16).refusal == HAMVUKILE_FORGED_DECODER);
    w = hamvukile_encode(0, 0, HAMVUKILE_TWO_BYTE_STATE, han, 1, NULL, 0, NULL, 0, room, 16);
    check("UTF-8 hands the state back", w.refusal == 0 && w.written == 3 && w.state == HAMVUKILE_TWO_BYTE_STATE);
    check("writing: 9 before 4", hamvukile_encode(36, 0, 0, han, 1, NULL, 0, NULL, 0, room, 16).refusal == HAMVUKILE_NO_ENCODER);
    check("writing: 4", hamvukile_encode(1, 0, 0, han, 1, NULL, 0, NULL, 0, room, 16).refusal == HAMVUKILE_WRONG_TABLE);
    check("writing: 8", hamvukile_encode(0, 0, 0, unmapped, 16385, NULL, 0, NULL, 0, room, 16).refusal == HAMVUKILE_TOO_LONG);
    check("writing: 10 before 7", hamvukile_encode(21, 1, 0, surrogate, 2, NULL, 0, NULL, 0, room, 0).refusal == HAMVUKILE_NOT_SCALAR);
}

/* Sample 16, the other refusals of a decoder, and that they change nothing. */
static void refusals(void) {
    static uint8_t chunk[65537];
    static uint32_t room[65537];
    tables none = { NULL, 0, NULL, 0 };
    hamvukile_decoder forged;
    hamvukile_answer a, b;
    a = hamvukile_open(0, HAMVUKILE_REPLACING, HAMVUKILE_DROP_MARK);
    a = feed(a.decoder, (const uint8_t *)"\xE2", 1, none, room, 1);
    check("16: E2 is held", a.refusal == 0 && a.written == 0 && a.decoder.held == 1);
    room[0] = UNTOUCHED;
    b = feed(a.decoder, (const uint8_t *)"\x82", 1, none, room, 1);
    check("16: room 1", b.refusal == HAMVUKILE_SMALL_ROOM && b.written == 0 && same_decoder(a.decoder, b.decoder) && room[0] == UNTOUCHED);
    b = feed(a.decoder, (const uint8_t *)"\x82", 1, none, room, 2);
    check("16: room 2", b.refusal == 0 && b.written == 0 && b.decoder.held == 2);
    a = hamvukile_open(0, HAMVUKILE_REPLACING, HAMVUKILE_DROP_MARK);
    b = feed(a.decoder, chunk, 65536, none, room, 65536);
    check("16: a chunk of 65,536 bytes", b.refusal == 0 && b.written == 65536);
    b = feed(a.decoder, chunk, 65537, none, room, 65537);
    check("16: a chunk of 65,537 bytes", b.refusal == HAMVUKILE_TOO_LONG);
    b = feed(a.decoder, chunk, 0, tables_of(1), room, 0);
    check("4: a table that is not asked for", b.refusal == HAMVUKILE_WRONG_TABLE);
    a = hamvukile_open(40, 2, 3);
    check("2: encoding 40", a.refusal == HAMVUKILE_UNKNOWN_ENCODING && a.decoder.encoding == 0 && a.decoder.ended == 1);
    check("3: mode 2", hamvukile_open(0, 2, 0).refusal == HAMVUKILE_UNKNOWN_MODE);
    check("3: rule 3", hamvukile_open(0, 0, 3).refusal == HAMVUKILE_UNKNOWN_MODE);
    check("6: after a refused opening", feed(a.decoder, chunk, 1, none, room, 1).refusal == HAMVUKILE_ENDED_DECODER);
    forged = hamvukile_open(0, 0, 0).decoder;
    forged.first = 1;
    b = finish(forged, none, room, 3);
    check("5: a stale byte", b.refusal == HAMVUKILE_FORGED_DECODER && same_decoder(forged, b.decoder));
    forged = hamvukile_open(0, 0, HAMVUKILE_KEEP_MARK).decoder;
    forged.taken = HAMVUKILE_MAX_TAKEN - 1;
    forged.lines = HAMVUKILE_MAX_TAKEN - 1;
    b = feed(forged, (const uint8_t *)"\n", 1, none, room, 1);
    check("4,294,967,295 bytes in all", b.refusal == 0 && b.decoder.taken == HAMVUKILE_MAX_TAKEN && b.decoder.lines == HAMVUKILE_MAX_TAKEN);
    check("14: a byte more", feed(b.decoder, chunk, 1, none, room, 0).refusal == HAMVUKILE_TOO_MUCH);
    check("14: same decoder", same_decoder(feed(b.decoder, chunk, 1, none, room, 1).decoder, b.decoder));
    check("8 before 14", feed(b.decoder, chunk, 65537, none, room, 65537).refusal == HAMVUKILE_TOO_LONG);
    check("an empty chunk behind them", feed(b.decoder, chunk, 0, none, room, 0).refusal == 0);
    check("a finish behind them", finish(b.decoder, none, room, 0).refusal == 0);
    forged.lines = HAMVUKILE_MAX_TAKEN;
    check("5: more line feeds than bytes", feed(forged, chunk, 1, none, room, 1).refusal == HAMVUKILE_FORGED_DECODER);
    forged = hamvukile_open(HAMVUKILE_UTF_16LE, 0, HAMVUKILE_KEEP_MARK).decoder;
    forged.taken = 3;
    check("5: an odd number of bytes, none held, in UTF-16", finish(forged, none, room, 3).refusal == HAMVUKILE_FORGED_DECODER);
    a = hamvukile_open(0, HAMVUKILE_REFUSING, HAMVUKILE_DROP_MARK);
    room[1] = UNTOUCHED;
    a = feed(a.decoder, (const uint8_t *)"A\xFF" "B", 3, none, room, 3);
    check("11: A FF B", a.refusal == HAMVUKILE_MALFORMED && a.written == 1 && a.place == 1 && a.line == 1 && room[0] == 0x41 && room[1] == UNTOUCHED && a.decoder.ended == 1 && a.decoder.taken == 3);
    check("6: after report 11", feed(a.decoder, chunk, 1, none, room, 1).refusal == HAMVUKILE_ENDED_DECODER);
}

/* Writing Shift_JIS and EUC-JP: the rules before the table, the pointers that are passed over, and errors by their names. */
static uint32_t jis0208[HAMVUKILE_JIS0208_CELLS];

static void japanese(void) {
    static const uint32_t fixed[] = { 0x41, 0x5C, 0xA5, 0x203E, 0xFF61, 0xFF9F };
    static const uint32_t cells[] = { 0x4E00, 0x4E01, 0x4E02, 0x4E03, 0x4E04, 0x4E05 };
    static const uint32_t minus[] = { 0x41, 0x2212 }, control[] = { 0x80 };
    tables sjis = { jis0208, HAMVUKILE_JIS0208_CELLS, NULL, 0 }, euc = { jis0208, HAMVUKILE_JIS0208_CELLS, unmapped, HAMVUKILE_JIS0212_CELLS };
    uint8_t room[64];
    hamvukile_written w;
    jis0208[0] = 0x4E00;
    jis0208[8271] = 0x4E01;
    jis0208[8272] = jis0208[10716] = 0x4E02;
    jis0208[8836] = 0x4E03;
    jis0208[10715] = 0x4E04;
    jis0208[11279] = 0x4E05;
    jis0208[5] = 0xA5;
    jis0208[6] = 0x2212;
    w = encode(34, 0, fixed, 6, sjis, room, 64);
    check("Shift_JIS: the fixed rules", w.refusal == 0 && w.written == 6 && memcmp(room, "A\\\\~\xA1\xDF", 6) == 0);
    w = encode(32, 0, fixed, 6, euc, room, 64);
    check("EUC-JP: the fixed rules", w.refusal == 0 && w.written == 8 && memcmp(room, "A\\\\~\x8E\xA1\x8E\xDF", 8) == 0);
    w = encode(34, 0, cells, 6, sjis, room, 64);
    check("Shift_JIS: 8,272 to 10,715 are passed over", w.refusal == 0 && w.written == 24
        && memcmp(room, "\x81\x40\xEC\xFC\xFA\x40&#19971;&#19972;\xFC\xFC", 24) == 0);
    w = encode(32, 0, cells, 6, euc, room, 64);
    check("EUC-JP: everything from 8,836 is passed over", w.refusal == 0 && w.written == 6 + 3 * 8
        && memcmp(room, "\xA1\xA1\xF8\xFE\xF9\xA1&#19971;&#19972;&#19973;", 30) == 0);
    w = encode(34, 0, minus, 2, sjis, room, 64);
    check("U+2212 is looked up and named as U+FF0D", w.refusal == 0 && w.written == 9 && memcmp(room, "A&#65293;", 9) == 0);
    w = encode(34, 1, minus, 2, sjis, room, 1);
    check("11: the index of the scalar as it was lent", w.refusal == HAMVUKILE_MALFORMED && w.index == 1 && w.written == 1);
    jis0208[7] = 0xFF0D;
    w = encode(32, 1, minus, 2, euc, room, 3);
    check("U+2212 by the cell of U+FF0D", w.refusal == 0 && w.written == 3 && memcmp(room, "A\xA1\xA8", 3) == 0);
    check("7: room for all of it", encode(32, 1, minus, 2, euc, room, 2).refusal == HAMVUKILE_SMALL_ROOM);
    check("Shift_JIS: U+0080", encode(34, 1, control, 1, sjis, room, 1).written == 1 && room[0] == 0x80);
    check("EUC-JP: U+0080 without a cell", encode(32, 1, control, 1, euc, room, 1).refusal == HAMVUKILE_MALFORMED);
    check("4: both tables", encode(32, 1, control, 1, sjis, room, 1).refusal == HAMVUKILE_WRONG_TABLE);
}

/* Writing GBK, gb18030, Big5 and EUC-KR: the rules before the table, first and last pointers, and the ranges. */
static uint32_t cells[HAMVUKILE_GB18030_CELLS];

static void chinese(void) {
    static const uint32_t ruled[] = { 0x20AC, 0xE5E5, 0xE7C7, 0x4E00 }, lines[] = { 0x2550, 0x4E00 }, far[] = { 0x10000 };
    /* the last pair whose code point is not above the scalar, not the first; and one whose sum is above 32 bits */
    static const uint32_t ranges[] = { 0, 0x80, 189000, 0x10000, 0, 0x4E00 }, wide[] = { 0, 0x10000, 0xFFFFFFFF, 0xFFFF };
    tables gb = { cells, HAMVUKILE_GB18030_CELLS, NULL, 0 }, big5 = { cells, HAMVUKILE_BIG5_CELLS, NULL, 0 };
    uint8_t room[64];
    hamvukile_written w;
    cells[1] = 0x20AC;
    cells[2] = 0xE5E5;
    cells[190] = 0x4E00;
    w = encode(29, 0, ruled, 4, gb, room, 64);
    check("GBK: 80, and errors", w.refusal == 0 && w.written == 19 && memcmp(room, "\x80&#58853;&#59335;\x82\x40", 19) == 0);
    w = encode(30, 0, ruled, 4, gb, room, 64);
    check("gb18030: by the table, and U+E7C7 by four bytes", w.refusal == 0 && w.written == 16
        && memcmp(room, "\x81\x41&#58853;\x81\x35\xF4\x37\x82\x40", 16) == 0);
    w = encode(35, 0, ruled + 3, 1, gb, room, 64);
    check("EUC-KR", w.refusal == 0 && w.written == 2 && memcmp(room, "\x82\x41", 2) == 0);
    cells[190] = 0;
    check("gb18030: no pair", encode(30, 1, ruled + 3, 1, gb, room, 64).refusal == HAMVUKILE_MALFORMED);
    gb.second = ranges;
    gb.second_length = 6;
    w = encode(30, 1, ruled + 3, 1, gb, room, 4);
    check("gb18030: the last pair", w.refusal == 0 && w.written == 4 && memcmp(room, "\x81\x30\x81\x30", 4) == 0);
    check("gb18030: a pointer that is not read back", encode(30, 1, far, 1, gb, room, 64).refusal == HAMVUKILE_MALFORMED);
    gb.second_length = 4;
    w = encode(30, 1, far, 1, gb, room, 4);
    check("gb18030: 90 30 81 30", w.refusal == 0 && w.written == 4 && memcmp(room, "\x90\x30\x81\x30", 4) == 0);
    check("GBK does not use the ranges", encode(29, 1, far, 1, gb, room, 64).refusal == HAMVUKILE_MALFORMED);
    gb.second = wide;
    gb.second_length = 4;
    check("gb18030: a sum above 32 bits", encode(30, 1, far, 1, gb, room, 64).refusal == HAMVUKILE_MALFORMED);
    cells[5023] = cells[5024] = cells[5025] = 0x2550;
    cells[5026] = cells[5027] = 0x4E00;
    w = encode(31, 1, lines, 2, big5, room, 4);
    check("Big5: the last pointer of U+2550, the first of others", w.refusal == 0 && w.written == 4 && memcmp(room, "\xA1\x41\xA1\x42", 4) == 0);
    cells[5024] = cells[5025] = 0;
    check("Big5: not below 5,024", encode(31, 1, lines, 1, big5, room, 4).refusal == HAMVUKILE_MALFORMED);
}

/* Writing ISO-2022-JP: the state from call to call, errors, the room of a return, and the finish. */
static void iso_2022_jp(void) {
    static const uint32_t text[] = { 0x41, 0x4E00, 0xFF61, 0xA5, 0x42, 0x0A, 0x5C, 0x203E, 0x2212, 0x1B, 0x4E00, 0x4E01 };
    static const char whole[] = "A\x1B$B!!!\"\x1B(J\\B\n\x1B(B\\\x1B(J~\x1B$B!#\x1B(B&#65533;\x1B$B!!\x1B(B&#19969;";
    static uint32_t first[HAMVUKILE_JIS0208_CELLS], katakana[HAMVUKILE_KATAKANA_CELLS];
    tables t = { first, HAMVUKILE_JIS0208_CELLS, katakana, HAMVUKILE_KATAKANA_CELLS };
    const size_t n = sizeof text / sizeof *text, length = sizeof whole - 1;
    uint8_t room[128];
    hamvukile_written w;
    size_t cut, at;
    first[0] = 0x4E00;
    first[1] = 0x30A2;
    first[2] = 0xFF0D;
    first[8836] = 0x4E01;
    katakana[0] = 0x30A2;
    for (cut = 0; cut <= n; cut++) {
        memset(room, 0x55, sizeof room);
        w = hamvukile_encode(33, HAMVUKILE_HTML, 0, text, cut, t.first, t.first_length, t.second, t.second_length, room, length);
        at = w.written;
        check("ISO-2022-JP: the first part", w.refusal == 0);
        w = hamvukile_encode(33, HAMVUKILE_HTML, w.state, text + cut, n - cut, t.first, t.first_length, t.second, t.second_length, room + at, length - at);
        check("ISO-2022-JP in every cut", w.refusal == 0 && w.state == HAMVUKILE_ASCII_STATE && at + w.written == length && memcmp(room, whole, length) == 0 && room[length] == 0x55);
    }
    w = hamvukile_encode(33, HAMVUKILE_REFUSING, HAMVUKILE_TWO_BYTE_STATE, text + 10, 2, t.first, t.first_length, t.second, t.second_length, room, 5);
    check("11: a return before it is written", w.refusal == HAMVUKILE_MALFORMED && w.written == 5 && w.index == 1 && w.state == HAMVUKILE_ASCII_STATE && memcmp(room, "!!\x1B(B", 5) == 0);
    w = hamvukile_encode(33, HAMVUKILE_REFUSING, HAMVUKILE_TWO_BYTE_STATE, text + 10, 2, t.first, t.first_length, t.second, t.second_length, room, 4);
    check("7: and needs room", w.refusal == HAMVUKILE_SMALL_ROOM && w.written == 0 && w.state == HAMVUKILE_TWO_BYTE_STATE);
    w = hamvukile_encode(33, HAMVUKILE_REFUSING, HAMVUKILE_ROMAN_STATE, text + 9, 1, t.first, t.first_length, t.second, t.second_length, room, 0);
    check("11 in Roman stays there", w.refusal == HAMVUKILE_MALFORMED && w.written == 0 && w.state == HAMVUKILE_ROMAN_STATE);
    t.second_length = 0;
    check("4: the katakana", encode(33, 1, text, 1, t, room, 1).refusal == HAMVUKILE_WRONG_TABLE);
    w = hamvukile_encode_finish(HAMVUKILE_ASCII_STATE, NULL, 0);
    check("a finish in ASCII", w.refusal == 0 && w.written == 0 && w.index == 0 && w.state == HAMVUKILE_ASCII_STATE);
    memset(room, 0x55, sizeof room);
    w = hamvukile_encode_finish(HAMVUKILE_ROMAN_STATE, room, 3);
    check("a finish in Roman", w.refusal == 0 && w.written == 3 && w.state == HAMVUKILE_ASCII_STATE && memcmp(room, "\x1B(B\x55", 4) == 0);
    memset(room, 0x55, sizeof room);
    w = hamvukile_encode_finish(HAMVUKILE_TWO_BYTE_STATE, room, 2);
    check("a finish: 7", w.refusal == HAMVUKILE_SMALL_ROOM && w.written == 0 && w.state == HAMVUKILE_TWO_BYTE_STATE && room[0] == 0x55);
    w = hamvukile_encode_finish(3, NULL, 0);
    check("a finish: 5 before 7", w.refusal == HAMVUKILE_FORGED_DECODER && w.state == 3);
}

/* A mark that chooses, in every cut; the tables of the opening's encoding at a feed, and at a finish before the choice. */
#define CHOICE(what, encoding, bytes, ...) sample(what, encoding, HAMVUKILE_CHOOSE_MARK, tables_of(encoding), BYTES(bytes), SCALARS(__VA_ARGS__))

static void choices(void) {
    static const uint8_t mark[] = { 0xEF, 0xBB, 0xBF };
    tables none = tables_of(0), jis = tables_of(HAMVUKILE_SHIFT_JIS);
    uint32_t room[8];
    hamvukile_answer a, b;
    CHOICE("UTF-16LE under windows-1252", 21, "\xFF\xFE" "A\0\n\0", 0x41, 0x0A);
    CHOICE("UTF-16BE under Shift_JIS", 34, "\xFE\xFF\0A", 0x41);
    CHOICE("UTF-8 under UTF-16LE", 38, "\xEF\xBB\xBF\xC3\xA9", 0xE9);
    CHOICE("UTF-8 under replacement", 36, "\xEF\xBB\xBF" "A", 0x41);
    CHOICE("a second mark stays", 21, "\xEF\xBB\xBF\xEF\xBB\xBF", 0xFEFF);
    CHOICE("another mark behind it stays", 0, "\xFF\xFE\xFF\xFE", 0xFEFF);
    CHOICE("FF alone", 21, "\xFF", 0xFF);
    CHOICE("FF FF", 21, "\xFF\xFF", 0xFF, 0xFF);
    CHOICE("EF BB at the end of windows-1252", 21, "\xEF\xBB", 0xEF, 0xBB);
    CHOICE("EF BB at the end of UTF-8", 0, "\xEF\xBB", 0xFFFD);
    CHOICE("EF BB and no BF", 0, "\xEF\xBB\x09", 0xFFFD, 0x09);
    CHOICE("a mark that is not at the front", 0, "A\xEF\xBB\xBF", 0x41, 0xFEFF);
    a = hamvukile_open(HAMVUKILE_SHIFT_JIS, HAMVUKILE_REPLACING, HAMVUKILE_CHOOSE_MARK);
    check("the choice is to come", a.refusal == 0 && a.decoder.stage == 1 && a.decoder.held == 0);
    b = finish(a.decoder, none, room, 0);
    check("4: a finish before the choice", b.refusal == HAMVUKILE_WRONG_TABLE && same_decoder(a.decoder, b.decoder));
    check("a finish before the choice", finish(a.decoder, jis, room, 0).refusal == 0);
    a = feed(a.decoder, mark, 2, jis, room, 2);
    check("two bytes wait", a.refusal == 0 && a.written == 0 && a.decoder.stage == 1 && a.decoder.held == 2);
    check("4 before 7", finish(a.decoder, none, room, 0).refusal == HAMVUKILE_WRONG_TABLE);
    check("7: room for them", finish(a.decoder, jis, room, 1).refusal == HAMVUKILE_SMALL_ROOM);
    check("7: room for them and the chunk", feed(a.decoder, mark + 2, 1, jis, room, 2).refusal == HAMVUKILE_SMALL_ROOM);
    a = feed(a.decoder, mark + 2, 1, jis, room, 3);
    check("the mark chose UTF-8", a.refusal == 0 && a.written == 0 && a.decoder.stage == 2 && a.decoder.held == 0 && a.decoder.taken == 3);
    check("4: the tables of the opening's encoding", feed(a.decoder, mark, 1, none, room, 1).refusal == HAMVUKILE_WRONG_TABLE);
    b = feed(a.decoder, mark, 1, jis, room, 1);
    check("a finish behind the choice looks at no tables", b.refusal == 0 && finish(b.decoder, none, room, 1).refusal == 0);
    b = a;
    b.decoder.flag = 1;
    check("5: a second mark to be dropped", finish(b.decoder, jis, room, 0).refusal == HAMVUKILE_FORGED_DECODER);
    b = a;
    b.decoder.stage = 5;
    check("5: stage 5", finish(b.decoder, jis, room, 0).refusal == HAMVUKILE_FORGED_DECODER);
    b = a;
    b.decoder.taken = 2;
    check("5: fewer bytes than the mark has", finish(b.decoder, jis, room, 0).refusal == HAMVUKILE_FORGED_DECODER);
}

/* A decoder that is lent, in turn with one that is handed over: the same answers, and a refused call leaves it. */
static void in_place(void) {
    static const uint8_t text[] = "a\n\xE2\x82\xAC" "b\xFF\n\xE2";
    uint32_t room[16], other[16];
    unsigned mix, at;
    for (mix = 0; mix < 1024; mix++) {
        hamvukile_decoder d = hamvukile_open(0, HAMVUKILE_REPLACING, HAMVUKILE_DROP_MARK).decoder, before;
        hamvukile_answer a;
        hamvukile_reply r;
        for (at = 0; at < 10; at++) {
            size_t i;
            before = d;
            /* too small a room, and then room enough */
            r = hamvukile_feed_in_place(&d, text + at, 1, NULL, 0, NULL, 0, room, d.held);
            check("7: a lent decoder stays", r.refusal == HAMVUKILE_SMALL_ROOM && r.written == 0 && same_decoder(d, before));
            a = hamvukile_feed(d, text + at, at < 9, NULL, 0, NULL, 0, room, 4);
            if (mix >> at & 1) {
                d = a.decoder;
                continue;
            }
            r = hamvukile_feed_in_place(&d, text + at, at < 9, NULL, 0, NULL, 0, other, 4);
            check("lent: the answer", r.written == a.written && r.place == a.place && r.line == a.line && r.refusal == a.refusal);
            check("lent: the decoder", same_decoder(d, a.decoder));
            for (i = 0; i < a.written; i++) check("lent: the scalars", room[i] == other[i]);
        }
        before = d;
        r = hamvukile_finish_in_place(&d, NULL, 0, NULL, 0, room, 0);
        check("7: a finish leaves a lent decoder", r.refusal == HAMVUKILE_SMALL_ROOM && same_decoder(d, before));
        a = hamvukile_finish(d, NULL, 0, NULL, 0, room, 1);
        r = hamvukile_finish_in_place(&d, NULL, 0, NULL, 0, other, 1);
        check("lent: finish", r.refusal == 0 && r.written == 1 && other[0] == 0xFFFD && same_decoder(d, a.decoder) && d.ended == 1);
        r = hamvukile_finish_in_place(&d, NULL, 0, NULL, 0, other, 1);
        check("6: a second finish", r.refusal == HAMVUKILE_ENDED_DECODER && same_decoder(d, a.decoder));
    }
    {
        hamvukile_decoder d = hamvukile_open(0, HAMVUKILE_REFUSING, HAMVUKILE_DROP_MARK).decoder;
        hamvukile_reply r = hamvukile_feed_in_place(&d, text, 8, NULL, 0, NULL, 0, room, 8);
        check("11: place and line of a reply", r.refusal == HAMVUKILE_MALFORMED && r.written == 4 && r.place == 6 && r.line == 2 && d.ended == 1 && d.taken == 8);
    }
}

/* Labels and names. */
static void labels(void) {
    hamvukile_found f = hamvukile_label((const uint8_t *)" Latin1", 7);
    hamvukile_named n;
    uint8_t room[HAMVUKILE_MAX_NAME + 1];
    int e;
    check("the label ' Latin1'", f.refusal == 0 && f.encoding == 21 && f.start == 1 && f.length == 6);
    f = hamvukile_label((const uint8_t *)"latin-1", 7);
    check("1: the label 'latin-1'", f.refusal == HAMVUKILE_UNKNOWN_LABEL && f.encoding == 0 && f.start == 0 && f.length == 0);
    check("1: no label", hamvukile_label(NULL, 0).refusal == HAMVUKILE_UNKNOWN_LABEL);
    for (e = 0; e <= HAMVUKILE_MAX_ENCODING; e++) {
        memset(room, 0x55, sizeof room);
        n = hamvukile_name((uint8_t)e, room, HAMVUKILE_MAX_NAME);
        f = hamvukile_label(room, n.length);
        check("a name is a label of its encoding", n.refusal == 0 && f.refusal == 0 && f.encoding == e && f.length == n.length && room[n.length] == 0x55);
        check("7: a room smaller than the name", hamvukile_name((uint8_t)e, room, n.length - 1).refusal == HAMVUKILE_SMALL_ROOM);
    }
    n = hamvukile_name(21, room, sizeof room);
    check("the name of encoding 21", n.length == 12 && memcmp(room, "windows-1252", 12) == 0);
    check("2: the name of encoding 40", hamvukile_name(40, room, 0).refusal == HAMVUKILE_UNKNOWN_ENCODING);
}

/* The names of index files. */
static void index_names(void) {
    static const struct { uint8_t encoding; const char *first; const char *second; } files[] = {
        { HAMVUKILE_UTF_8, "", "" },
        { HAMVUKILE_IBM866, "index-ibm866.txt", "" },
        { HAMVUKILE_ISO_8859_8_I, "index-iso-8859-8.txt", "" },
        { HAMVUKILE_WINDOWS_1252, "", "" },
        { HAMVUKILE_X_MAC_CYRILLIC, "index-x-mac-cyrillic.txt", "" },
        { HAMVUKILE_GBK, "index-gb18030.txt", "index-gb18030-ranges.txt" },
        { HAMVUKILE_BIG5, "index-big5.txt", "" },
        { HAMVUKILE_EUC_JP, "index-jis0208.txt", "index-jis0212.txt" },
        { HAMVUKILE_ISO_2022_JP, "index-jis0208.txt", "index-iso-2022-jp-katakana.txt" },
        { HAMVUKILE_SHIFT_JIS, "index-jis0208.txt", "" },
        { HAMVUKILE_EUC_KR, "index-euc-kr.txt", "" },
        { HAMVUKILE_X_USER_DEFINED, "", "" },
    };
    uint8_t room[HAMVUKILE_MAX_INDEX_NAME + 1];
    size_t i;
    for (i = 0; i < sizeof files / sizeof *files; i++) {
        int second;
        for (second = 0; second <= 1; second++) {
            const char *name = second ? files[i].second : files[i].first;
            hamvukile_named (*call)(uint8_t, uint8_t *, size_t) = second ? hamvukile_second_index_name : hamvukile_first_index_name;
            hamvukile_named n;
            memset(room, 0x55, sizeof room);
            n = call(files[i].encoding, room, HAMVUKILE_MAX_INDEX_NAME);
            check("the name of an index file", n.refusal == 0 && n.length == strlen(name) && memcmp(room, name, n.length) == 0 && room[n.length] == 0x55);
            if (n.length == 0) continue;
            check("7: a room smaller than the name of an index file", call(files[i].encoding, room, n.length - 1).refusal == HAMVUKILE_SMALL_ROOM);
        }
    }
    check("2: the index files of encoding 40", hamvukile_first_index_name(40, NULL, 0).refusal == HAMVUKILE_UNKNOWN_ENCODING &&
        hamvukile_second_index_name(40, NULL, 0).refusal == HAMVUKILE_UNKNOWN_ENCODING);
}

/* What was replaced, in two feeds and a finish: UTF-8, E2 82 FF EF BF BD, and then F0 9F. */
static void replaced(void) {
    const uint8_t text[] = { 0xE2, 0x82, 0xFF, 0xEF, 0xBF, 0xBD, 0xF0, 0x9F };
    uint32_t room[16], spans[24];
    hamvukile_decoder d = hamvukile_open(HAMVUKILE_UTF_8, HAMVUKILE_REPLACING, HAMVUKILE_DROP_MARK).decoder;
    hamvukile_replacing r;
    memset(spans, 0x55, sizeof spans);
    r = hamvukile_feed_replaced(d, text, 1, NULL, 0, NULL, 0, room, 16, spans, 2);
    check("nothing is replaced while a sequence is held", r.answer.refusal == 0 && r.count == 0 && r.answer.decoder.held == 1 && spans[0] == 0x55555555);
    d = r.answer.decoder;
    r = hamvukile_feed_replaced(d, text + 1, 7, NULL, 0, NULL, 0, room, 16, spans, 15);
    check("7: spans of a cell too few", r.answer.refusal == HAMVUKILE_SMALL_ROOM && r.count == 0 && spans[0] == 0x55555555);
    r = hamvukile_feed_replaced(d, text + 1, 7, NULL, 0, NULL, 0, room, 16, spans, 16);
    check("two errors side by side", r.answer.refusal == 0 && r.count == 2 && spans[0] == 0 && spans[1] == 2 && spans[2] == 2 && spans[3] == 1);
    check("a U+FFFD that is text is not told", r.answer.written == 3 && room[2] == 0xFFFD && spans[4] == 0x55555555);
    r = hamvukile_finish_replaced(r.answer.decoder, NULL, 0, NULL, 0, room, 3, spans, 6);
    check("the end", r.answer.refusal == 0 && r.count == 1 && spans[0] == 6 && spans[1] == 2 && r.answer.decoder.ended == 1);
    r = hamvukile_finish_replaced(r.answer.decoder, NULL, 0, NULL, 0, room, 3, spans, 6);
    check("6: after the end", r.answer.refusal == HAMVUKILE_ENDED_DECODER && r.count == 0);
}

/* The constants of the header: names, lengths of tables, version. */
static void constants(void) {
    static const struct { uint8_t encoding; const char *name; } named[] = {
        { HAMVUKILE_UTF_8, "UTF-8" },
        { HAMVUKILE_IBM866, "IBM866" },
        { HAMVUKILE_ISO_8859_2, "ISO-8859-2" },
        { HAMVUKILE_ISO_8859_3, "ISO-8859-3" },
        { HAMVUKILE_ISO_8859_4, "ISO-8859-4" },
        { HAMVUKILE_ISO_8859_5, "ISO-8859-5" },
        { HAMVUKILE_ISO_8859_6, "ISO-8859-6" },
        { HAMVUKILE_ISO_8859_7, "ISO-8859-7" },
        { HAMVUKILE_ISO_8859_8, "ISO-8859-8" },
        { HAMVUKILE_ISO_8859_8_I, "ISO-8859-8-I" },
        { HAMVUKILE_ISO_8859_10, "ISO-8859-10" },
        { HAMVUKILE_ISO_8859_13, "ISO-8859-13" },
        { HAMVUKILE_ISO_8859_14, "ISO-8859-14" },
        { HAMVUKILE_ISO_8859_15, "ISO-8859-15" },
        { HAMVUKILE_ISO_8859_16, "ISO-8859-16" },
        { HAMVUKILE_KOI8_R, "KOI8-R" },
        { HAMVUKILE_KOI8_U, "KOI8-U" },
        { HAMVUKILE_MACINTOSH, "macintosh" },
        { HAMVUKILE_WINDOWS_874, "windows-874" },
        { HAMVUKILE_WINDOWS_1250, "windows-1250" },
        { HAMVUKILE_WINDOWS_1251, "windows-1251" },
        { HAMVUKILE_WINDOWS_1252, "windows-1252" },
        { HAMVUKILE_WINDOWS_1253, "windows-1253" },
        { HAMVUKILE_WINDOWS_1254, "windows-1254" },
        { HAMVUKILE_WINDOWS_1255, "windows-1255" },
        { HAMVUKILE_WINDOWS_1256, "windows-1256" },
        { HAMVUKILE_WINDOWS_1257, "windows-1257" },
        { HAMVUKILE_WINDOWS_1258, "windows-1258" },
        { HAMVUKILE_X_MAC_CYRILLIC, "x-mac-cyrillic" },
        { HAMVUKILE_GBK, "GBK" },
        { HAMVUKILE_GB18030, "gb18030" },
        { HAMVUKILE_BIG5, "Big5" },
        { HAMVUKILE_EUC_JP, "EUC-JP" },
        { HAMVUKILE_ISO_2022_JP, "ISO-2022-JP" },
        { HAMVUKILE_SHIFT_JIS, "Shift_JIS" },
        { HAMVUKILE_EUC_KR, "EUC-KR" },
        { HAMVUKILE_REPLACEMENT, "replacement" },
        { HAMVUKILE_UTF_16BE, "UTF-16BE" },
        { HAMVUKILE_UTF_16LE, "UTF-16LE" },
        { HAMVUKILE_X_USER_DEFINED, "x-user-defined" }
    };
    char version[16];
    int e;
    for (e = 0; e <= HAMVUKILE_MAX_ENCODING; e++) {
        uint8_t room[HAMVUKILE_MAX_NAME];
        hamvukile_named n = hamvukile_name(named[e].encoding, room, sizeof room);
        hamvukile_decoder d = hamvukile_open((uint8_t)e, HAMVUKILE_REPLACING, HAMVUKILE_DROP_MARK).decoder;
        tables t = tables_of((uint8_t)e);
        check(named[e].name, named[e].encoding == e && n.length == strlen(named[e].name) && memcmp(room, named[e].name, n.length) == 0);
        if (e == HAMVUKILE_GB18030) t.second_length = HAMVUKILE_MAX_RANGES_CELLS;
        check("tables of the lengths that are asked for", feed(d, NULL, 0, t, NULL, 0).refusal == HAMVUKILE_ACCEPTED);
        t.second_length += 2;
        check("4: a second table that is longer", (e == HAMVUKILE_GBK) == (feed(d, NULL, 0, t, NULL, 0).refusal == HAMVUKILE_ACCEPTED));
        t.second_length -= 2;
        if (t.first_length == 0) continue;
        t.first_length--;
        check("4: a first table that is shorter", feed(d, NULL, 0, t, NULL, 0).refusal == HAMVUKILE_WRONG_TABLE);
    }
    sprintf(version, "%d.%d.%d", HAMVUKILE_VERSION_MAJOR, HAMVUKILE_VERSION_MINOR, HAMVUKILE_VERSION_PATCH);
    check("the version", strcmp(version, HAMVUKILE_VERSION) == 0);
    check("the version's number", HAMVUKILE_VERSION_NUMBER == 10000 * HAMVUKILE_VERSION_MAJOR + 100 * HAMVUKILE_VERSION_MINOR + HAMVUKILE_VERSION_PATCH);
    check("the library's version", hamvukile_version() == HAMVUKILE_VERSION_NUMBER);
    check("the sizes of the records", sizeof(hamvukile_decoder) == 20 && sizeof(hamvukile_answer) == 40 && sizeof(hamvukile_checked) == 12);
}

/* A line, and what the call answers. */
static void line(const char *text, uint32_t *table, size_t length, uint8_t refusal, uint8_t entry, uint32_t pointer) {
    hamvukile_line l = hamvukile_index_line((const uint8_t *)text, strlen(text), table, length);
    check(text, l.refusal == refusal && l.entry == entry && l.pointer == pointer);
}

static void index_lines(void) {
    static char spaces[1026];
    uint32_t table[4] = { 0, 0, 0x41, 0 };
    memset(spaces, ' ', 1025);
    line("", table, 4, 0, 0, 0);
    line("# a comment", table, 4, 0, 0, 0);
    line("  1\t0x00E9\t\xC3\xA9 (LATIN SMALL LETTER E WITH ACUTE)", table, 4, 0, 1, 1);
    line("0003\t0x1F4A9", table, 4, 0, 1, 3);
    check("the cells that the lines fill", table[0] == 0 && table[1] == 0xE9 && table[2] == 0x41 && table[3] == 0x1F4A9);
    line("1\t0x00E9", table, 4, HAMVUKILE_TAKEN_CELL, 0, 0);
    line("2\t0x00E9", table, 4, HAMVUKILE_TAKEN_CELL, 0, 0);
    line("4\t0x00E9", table, 4, HAMVUKILE_TAKEN_CELL, 0, 0);
    line("0\t0x0041", table, 4, HAMVUKILE_BAD_LINE, 0, 0);
    line("0\t0xD800", table, 4, HAMVUKILE_BAD_LINE, 0, 0);
    line("0\t0x00e9", table, 4, HAMVUKILE_BAD_LINE, 0, 0);
    line("0\t0x00E9\r", table, 4, HAMVUKILE_BAD_LINE, 0, 0);
    line("\t0\t0x00E9", table, 4, HAMVUKILE_BAD_LINE, 0, 0);
    line(" ", table, 4, HAMVUKILE_BAD_LINE, 0, 0);
    line(spaces, table, 4, HAMVUKILE_TOO_LONG, 0, 0);
    spaces[1024] = 0;
    line(spaces, table, 4, HAMVUKILE_BAD_LINE, 0, 0);
}

/* A line with an index, and what the call answers. */
static void indexed(const char *text, uint32_t *table, size_t length, uint32_t *index, size_t index_length, uint8_t refusal, uint8_t entry, uint32_t pointer) {
    hamvukile_line l = hamvukile_index_line_indexed((const uint8_t *)text, strlen(text), table, length, index, index_length);
    check(text, l.refusal == refusal && l.entry == entry && l.pointer == pointer);
}

/* A table of six cells. U+0100, U+0101 and U+010D are in its bucket 2, U+0110 in bucket 4. */
static void indexes(void) {
    static const uint32_t built[12] = { 0, 0, 1, 0, 6, 0, 3, 0, 5, 0, 0, 0 };
    static const uint32_t entered[12] = { 0, 0, 1, 0, 6, 0, 3, 0, 4, 5, 0, 0 };
    static const uint32_t zeros[12];
    uint32_t table[6] = { 0 }, index[12] = { 0 };
    static uint32_t first[HAMVUKILE_SINGLE_BYTE_CELLS], long_index[2 * HAMVUKILE_SINGLE_BYTE_CELLS + 1];
    size_t i;
    check("the size for no cells", hamvukile_index_size(0) == 0);
    check("the size for 23,940 cells", hamvukile_index_size(HAMVUKILE_GB18030_CELLS) == 47880);
    check("the size for 4,294,967,295 cells", hamvukile_index_size(4294967295u) == (size_t)4294967295u * 2);
    check("no index of 4,294,967,296 cells", hamvukile_index_size((size_t)4294967295u + 1) == 0);
    indexed("0\t0x0101", table, 6, index, 11, HAMVUKILE_WRONG_INDEX, 0, 0);
    indexed(" ", table, 6, index, 11, HAMVUKILE_WRONG_INDEX, 0, 0);
    indexed(" ", table, 6, index, 12, HAMVUKILE_BAD_LINE, 0, 0);
    indexed("6\t0x0101", table, 6, index, 12, HAMVUKILE_TAKEN_CELL, 0, 0);
    indexed("# a comment", table, 6, index, 12, 0, 0, 0);
    check("refused lines, and a comment, alter nothing", memcmp(index, zeros, sizeof index) == 0 && memcmp(table, zeros, sizeof table) == 0);
    indexed("4\t0x0100", table, 6, index, 12, 0, 1, 4);
    indexed("0\t0x0101", table, 6, index, 12, 0, 1, 0);
    indexed("5\t0x0110", table, 6, index, 12, 0, 1, 5);
    indexed("2\t0x0101", table, 6, index, 12, 0, 1, 2);
    check("the index of lines in any order", memcmp(index, built, sizeof index) == 0);
    indexed("3\t0x010D", table, 6, index, 12, 0, 1, 3);
    check("an entry between two of its bucket", memcmp(index, entered, sizeof index) == 0);
    memset(long_index, 0xFF, sizeof long_index);
    check("2", hamvukile_build_index(HAMVUKILE_MAX_ENCODING + 1, first, 0, long_index, 1) == HAMVUKILE_UNKNOWN_ENCODING);
    check("4 before 15", hamvukile_build_index(HAMVUKILE_IBM866, first, 127, long_index, 1) == HAMVUKILE_WRONG_TABLE);
    check("15", hamvukile_build_index(HAMVUKILE_IBM866, first, 128, long_index, 257) == HAMVUKILE_WRONG_INDEX);
    for (i = 0; i < 257; i++) check("a refused building alters nothing", long_index[i] == 0xFFFFFFFF);
    check("no table, no index", hamvukile_build_index(HAMVUKILE_UTF_8, NULL, 0, NULL, 0) == HAMVUKILE_ACCEPTED);
    check("15 without a table", hamvukile_build_index(HAMVUKILE_UTF_8, NULL, 0, long_index, 1) == HAMVUKILE_WRONG_INDEX);
    first[0] = first[127] = 0x2502;
    first[1] = 0x7F;
    check("built", hamvukile_build_index(HAMVUKILE_IBM866, first, 128, long_index, 256) == HAMVUKILE_ACCEPTED);
    for (i = 0; i < 256; i++) {
        uint32_t link = i == 0x2502 / 2 % 128 ? 1 : i == 128 ? 128 : 0;
        check("every cell is written", long_index[i] == link);
    }
    check("and no other", long_index[256] == 0xFFFFFFFF);
}

/* Writing with an index: a true one, other cells, the order of the refusals, and ISO-2022-JP's state. */
static void indexed_writing(void) {
    static const uint32_t text[] = { 0x41, 0x2502, 0x2503 }, surrogate[] = { 0xD800 }, han[] = { 0x4E00, 0xFF61 };
    static uint32_t first[HAMVUKILE_SINGLE_BYTE_CELLS], index[2 * HAMVUKILE_SINGLE_BYTE_CELLS];
    static uint32_t jis0208[HAMVUKILE_JIS0208_CELLS], katakana[HAMVUKILE_KATAKANA_CELLS], links[2 * HAMVUKILE_JIS0208_CELLS];
    static const uint32_t many[HAMVUKILE_MAX_SCALARS + 1] = { 0xD800 };
    uint8_t room[16];
    hamvukile_written w;
    first[5] = first[9] = 0x2502;
    check("an index", hamvukile_build_index(HAMVUKILE_IBM866, first, 128, index, 256) == HAMVUKILE_ACCEPTED);
    memset(room, 0x55, sizeof room);
    w = hamvukile_encode_indexed(HAMVUKILE_IBM866, HAMVUKILE_REFUSING, 0, text, 3, first, 128, NULL, 0, index, 256, room, 2);
    check("the first pointer by a true index", w.refusal == HAMVUKILE_MALFORMED && w.written == 2 && w.index == 2 && w.state == 0 && memcmp(room, "A\x85\x55", 3) == 0);
    index[0x2502 / 2 % 128] = 10;
    w = hamvukile_encode_indexed(HAMVUKILE_IBM866, HAMVUKILE_REFUSING, 0, text, 3, first, 128, NULL, 0, index, 256, room, 2);
    check("another pointer by other cells", w.refusal == HAMVUKILE_MALFORMED && w.written == 2 && w.index == 2 && memcmp(room, "A\x89\x55", 3) == 0);
    memset(index, 0, sizeof index);
    w = hamvukile_encode_indexed(HAMVUKILE_IBM866, HAMVUKILE_HTML, 0, text, 3, first, 128, NULL, 0, index, 256, room, 9);
    check("zeros, and html", w.refusal == 0 && w.written == 9 && memcmp(room, "A\x85&#9475;\x55", 10) == 0);
    check("4 before 15", hamvukile_encode_indexed(HAMVUKILE_IBM866, 0, 0, text, 3, first, 127, NULL, 0, index, 256, room, 9).refusal == HAMVUKILE_WRONG_TABLE);
    check("9 before 15", hamvukile_encode_indexed(HAMVUKILE_REPLACEMENT, 0, 0, text, 3, NULL, 0, NULL, 0, index, 1, room, 9).refusal == HAMVUKILE_NO_ENCODER);
    check("15 before 8", hamvukile_encode_indexed(HAMVUKILE_IBM866, 0, 0, many, HAMVUKILE_MAX_SCALARS + 1, first, 128, NULL, 0, index, 255, room, 0).refusal == HAMVUKILE_WRONG_INDEX);
    w = hamvukile_encode_indexed(HAMVUKILE_UTF_8, 0, 2, surrogate, 1, NULL, 0, NULL, 0, index, 1, room, 0);
    check("15 before 10, and the state back", w.refusal == HAMVUKILE_WRONG_INDEX && w.written == 0 && w.state == 2);
    check("no table, an index of no cells", hamvukile_encode_indexed(HAMVUKILE_UTF_8, 0, 0, text, 1, NULL, 0, NULL, 0, NULL, 0, room, 1).written == 1);
    jis0208[0] = 0x4E00;
    jis0208[1] = 0x30A2;
    katakana[0] = 0x30A2;
    check("ISO-2022-JP's index", hamvukile_build_index(33, jis0208, HAMVUKILE_JIS0208_CELLS, links, 2 * HAMVUKILE_JIS0208_CELLS) == HAMVUKILE_ACCEPTED);
    w = hamvukile_encode_indexed(33, HAMVUKILE_REFUSING, 0, han, 2, jis0208, HAMVUKILE_JIS0208_CELLS, katakana, HAMVUKILE_KATAKANA_CELLS, links, 2 * HAMVUKILE_JIS0208_CELLS, room, 7);
    check("ISO-2022-JP by its index", w.refusal == 0 && w.written == 7 && w.state == HAMVUKILE_TWO_BYTE_STATE && memcmp(room, "\x1B$B!!!\"", 7) == 0);
}

static void part(const char *what, void (*run)(void)) {
    int before = compared;
    run();
    printf("%s: %d compared\n", what, compared - before);
}

int main(void) {
    part("sample readings 1 to 14 in every cut", samples);
    part("user rows of Shift_JIS in every cut", user_rows);
    part("places and lines of errors in every cut", places);
    part("what was replaced", replaced);
    part("clean lists", lists);
    part("options lists", options);
    part("writing, with sample 15", writing);
    part("writing Shift_JIS and EUC-JP", japanese);
    part("writing GBK, gb18030, Big5 and EUC-KR", chinese);
    part("writing ISO-2022-JP in every cut", iso_2022_jp);
    part("marks that choose in every cut", choices);
    part("a decoder that is lent", in_place);
    part("refusals, with sample 16", refusals);
    part("labels and names", labels);
    part("names of index files", index_names);
    part("constants of the header", constants);
    part("index lines", index_lines);
    part("reverse indexes", indexes);
    part("writing with an index", indexed_writing);
    printf("%d compared, %d different\n", compared, different);
    return different != 0;
}
