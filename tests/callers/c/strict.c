/*
 * The strict entries against document 02's sentences, by code that has nothing of the library's: "A second entry refuses minutes
 * of 60 or more in positions and in Mic-E destinations; it also wants table bytes `/`, `\`, `0-9` or `A-Z`. .. minutes give 8, 9
 * or 11 after the digits and before the size test; the table byte gives 20, last of all."
 */
#include "check.h"

#include <ctype.h>
#include <stdio.h>
#include <string.h>

/* ---- the sentences */

static bool is_table(uint8_t byte) { return memchr("/\\0123456789ABCDEFGHIJKLMNOPQRSTUVWXYZ", byte, 38) != NULL; }

/* "Minutes are the two digits with blanks and discarded places as 0" */
static int digit(uint8_t byte) { return byte == ' ' ? 0 : byte - '0'; }

static bool are_minutes_over(const uint8_t *two, int discarded) {
    int tens = discarded >= 4 ? 0 : digit(two[0]), units = discarded >= 3 ? 0 : digit(two[1]);
    return 10 * tens + units >= 60;
}

/* How many of the last digits of a latitude that was read are blank. */
static int blanks_of(const uint8_t *latitude) {
    static const int digits[] = {6, 5, 3, 2, 1};
    int blanks = 0;
    while (blanks < 5 && latitude[digits[blanks]] == ' ') blanks++;
    return blanks;
}

/* "Latitude is done before longitude begins"; the table byte stands between them. */
static int position_judged(const uint8_t *position, int usual) {
    if (are_minutes_over(position + 2, 0)) return 8;
    if (usual != 0) return usual;
    if (are_minutes_over(position + 12, blanks_of(position))) return 9;
    return is_table(position[8]) ? 0 : 20;
}

/* `0-9`, `A-J` and `P-Y` are digits, `K`, `L` and `Z` blanks; a frame's letters may be small. */
static int destination_digit(uint8_t byte) {
    int capital = toupper(byte);
    if (capital <= '9') return capital - '0';
    return capital <= 'J' ? capital - 'A' : capital >= 'P' && capital <= 'Y' ? capital - 'P' : 0;
}

/* "Mic-E: the destination's minutes alone"; the table byte is the last of eight. */
static int report_judged(const uint8_t *to, const uint8_t *information, int usual) {
    if (10 * destination_digit(to[2]) + destination_digit(to[3]) >= 60) return 11;
    return usual != 0 || is_table(information[7]) ? usual : 20;
}

static size_t find(slice input, size_t at, uint8_t byte) {
    while (at < input.size && input.bytes[at] != byte) at++;
    return at;
}

/* The six characters of the destination in a header that was read, and the place of the body behind it. */
typedef struct {
    uint8_t to[6];
    size_t body;
} opened;

static opened open_frame(slice frame, size_t body) {
    opened found = {{0}, body};
    for (int at = 0; at < 6; at++) found.to[at] = frame.bytes[at] >> 1;
    return found;
}

static opened open_text(slice input, size_t header) {
    size_t to = find(input, header, '>') + 1;
    opened found = {{0}, find(input, to, ':') + 1};
    if (to + 6 <= input.size) memcpy(found.to, input.bytes + to, 6);
    return found;
}

/* "An inner body is judged strictly as an outer one." */
static opened open_innermost(slice input, size_t at, bool frame) {
    opened found = frame ? open_frame(input, at) : open_text(input, 0);
    while (found.body < input.size && input.bytes[found.body] == '}') found = open_text(input, found.body + 1);
    return found;
}

/* What an input is answered with strictly that is usually answered so. Of any other refusal than 9 and 12 it is not known how far
   the headers and the body can be read, and it stays. */
static int judged_strictly(int usual, slice input, size_t at, bool frame) {
    if (usual != 0 && usual != 9 && usual != 12) return usual;
    opened found = open_innermost(input, at, frame);
    if (found.body >= input.size) return usual;
    const uint8_t *behind = input.bytes + found.body + 1;
    switch (behind[-1]) {
        case '!': case '=': return position_judged(behind, usual);
        case '/': case '@': return position_judged(behind + 7, usual);
        case '`': case '\'': case 0x1c: case 0x1d: return report_judged(found.to, behind, usual);
        default: return usual;
    }
}

/* "What it accepts is the usual record, whole". */
bool is_read_strictly(const tusselgro_read *strict, const tusselgro_read *usual, slice input, size_t at, bool frame) {
    if (strict->refusal != judged_strictly(usual->refusal, input, at, frame)) return false;
    return strict->refusal == 0 ? same_record(&strict->record, &usual->record) : is_blank(&strict->record);
}

/* ---- one body in every packet that it may stand in */

enum { MOST = 640 };

typedef struct {
    uint8_t bytes[MOST];
    size_t size, body;
} packet;

static void put(packet *p, slice more) {
    if (more.size > 0) memcpy(p->bytes + p->size, more.bytes, more.size);
    p->size += more.size;
}

static void put_text(packet *p, const char *from, slice to) {
    put(p, (slice){(const uint8_t *)from, strlen(from)});
    put(p, to);
    put(p, SLICE(":"));
}

/* the form's own header, with another destination of at most six characters */
static void put_frame(packet *p, const form *f, slice to) {
    put(p, f->header);
    for (size_t at = 0; at < 6; at++) p->bytes[at] = (uint8_t)((at < to.size ? to.bytes[at] : ' ') << 1);
}

static bool is_frame(const form *f) { return f->read == tusselgro_read_frame; }

/* A packet to that destination; or one to B with so many others inside it, the innermost of which is that. */
static packet packed(const form *f, int inner, slice to, slice body) {
    packet p = {.size = 0};
    if (inner > 0) put(&p, f->header);
    else if (is_frame(f)) put_frame(&p, f, to);
    else put_text(&p, "A-0>", to);
    p.body = p.size;
    for (int level = 1; level < inner; level++) put(&p, SLICE("}E>S36P6T,F*:"));
    if (inner > 0) put_text(&p, "}C-0>", to);
    put(&p, body);
    return p;
}

/* without guards, where there is much to read */
static tusselgro_read read_plainly(reader *function, const uint8_t *bytes, size_t size) { return function(bytes, size); }

typedef tusselgro_read lender(reader *, const uint8_t *, size_t);

/* Reads it as a line and as a frame, by itself and inside one to four others: the usual answer, and the strict one. */
static void judges(lender *lend, slice to, slice body, int usual, int strict, const char *file, int line) {
    for (const form *f = forms; f < forms + 2; f++) {
        for (int inner = 0; inner <= TUSSELGRO_MOST_INNER; inner++) {
            packet p = packed(f, inner, to, body);
            tusselgro_read usually = lend(f->read, p.bytes, p.size), strictly = lend(f->read_strictly, p.bytes, p.size);
            bool whole = strictly.record.inner == inner && same_record(&strictly.record, &usually.record);
            refused(usually.refusal, usual, file, line);
            refused(strictly.refusal, strict, file, line);
            holds(strict == 0 ? whole : is_blank(&strictly.record), "the usual record or none", file, line);
            bool right = is_read_strictly(&strictly, &usually, (slice){p.bytes, p.size}, p.body, is_frame(f));
            holds(right, "as document 02 has it", file, line);
        }
    }
}

#define JUDGES(to, body, usual, strict) judges(read_lent, SLICE(to), SLICE(body), usual, strict, __FILE__, __LINE__)
#define ACCEPTS(to, body) JUDGES(to, body, 0, 0)
#define ONE_OF_MANY(to, body, usual, strict) judges(read_plainly, to, body, usual, strict, __FILE__, __LINE__)

/* A line or a frame as it stands. */
static void answers(const form *f, slice input, int usual, int strict, const char *file, int line) {
    refused(read_lent(f->read, input.bytes, input.size).refusal, usual, file, line);
    refused(read_lent(f->read_strictly, input.bytes, input.size).refusal, strict, file, line);
}

#define LINE(line, usual, strict) answers(&forms[0], SLICE(line), usual, strict, __FILE__, __LINE__)
#define FRAME(frame, usual, strict) answers(&forms[1], SLICE(frame), usual, strict, __FILE__, __LINE__)

/* Behind each type byte that a position has. */
#define PLACES(position, usual, strict)                  \
    do {                                                 \
        JUDGES("B", "!" position, usual, strict);        \
        JUDGES("B", "=" position, usual, strict);        \
        JUDGES("B", "/092345z" position, usual, strict); \
        JUDGES("B", "@234517h" position, usual, strict); \
    } while (0)

/* ---- minutes */

/* The examples of document 02 and of its readings. */
static void check_examples(void) {
    PLACES("8960.00N/00000.00E-", 0, 8);
    PLACES("8959.99N/00000.00E-", 0, 0);
    PLACES("9000.00N/18000.00E-", 0, 0);
    PLACES("006 .  N/00000.00E-", 0, 8);
    PLACES("005 .  N/00000.00E-", 0, 0);
    PLACES("00  .  N/00000.00E-", 0, 0);
    PLACES("00  .  N/00099.99E-", 0, 0);
    PLACES("000 .  N/0006x.xxE-", 0, 9);
    PLACES("000 .  N/0005x.xxE-", 0, 0);
    PLACES("0   .  N/00xxx.xxE-", 0, 0);
    PLACES("4960.00N/xxxxx.xxE-", 9, 8);
    PLACES("4959.00N/xxxxx.xxE-", 9, 9);
    PLACES("4959.99S/07260.00W-", 0, 9);
    PLACES("4999.99S/07259.99W-", 0, 8);
    PLACES("0060.00S/00000.00W-", 0, 8);
    PLACES("0000.00S/00060.00W-", 0, 9);
    PLACES("0000.00S/17960.00W-", 0, 9);
    PLACES("0000.99N/00000.99E-", 0, 0);
}

/* Blanks the last digits, or puts another byte there; their places are those of the text. */
static void blank(char *text, const int places[5], int blanks, char with) {
    for (int at = 0; at < blanks; at++) text[places[at]] = with;
}

static const int latitude_places[5] = {6, 5, 3, 2, 1}, longitude_places[5] = {7, 6, 4, 3, 2};

/* Of 100 minutes those from 60 on are refused; of tens alone 60 to 90; nothing of nothing. */
static bool is_over(int minutes, int blanks) { return blanks <= 3 && minutes / 10 >= 6; }

static void judges_position(const char *latitude, const char *longitude, int strict) {
    static const char *const starts[] = {"!", "=", "/092345z", "@092345/"};
    for (size_t which = 0; which < sizeof starts / sizeof *starts; which++) {
        char body[64];
        int size = snprintf(body, sizeof body, "%s%s/%s-Hi", starts[which], latitude, longitude);
        ONE_OF_MANY(SLICE("B"), ((slice){(const uint8_t *)body, (size_t)size}), 0, strict);
    }
}

static void check_latitudes(void) {
    for (int minutes = 0; minutes <= 99; minutes++) {
        for (int blanks = 0; blanks <= 5; blanks++) {
            char latitude[16];
            snprintf(latitude, sizeof latitude, "49%02d.00%c", minutes, minutes % 2 ? 'N' : 'S');
            blank(latitude, latitude_places, blanks, ' ');
            judges_position(latitude, "07200.00W", is_over(minutes, blanks) ? 8 : 0);
        }
    }
}

/* What is discarded may be any byte. */
static void check_longitudes(void) {
    for (int minutes = 0; minutes <= 99; minutes++) {
        for (int blanks = 0; blanks <= 5; blanks++) {
            char latitude[] = "4959.99N", longitude[16];
            blank(latitude, latitude_places, blanks, ' ');
            snprintf(longitude, sizeof longitude, "072%02d.99%c", minutes, minutes % 2 ? 'E' : 'W');
            for (const char *with = "0 x9"; *with; with++) {
                blank(longitude, longitude_places, blanks, *with);
                judges_position(latitude, longitude, is_over(minutes, blanks) ? 9 : 0);
            }
        }
    }
}

/* Each sort of digit in the third and the fourth character, and of blank: "`0-9` .. `A-J` .. `P-Y`", "`K` `L` `Z` blank"; the last
   three "refuse `A-K`". */
static void judges_destination(int minutes, int blanks, int third, int fourth) {
    char to[] = "3300P4";
    to[2] = (char)("0AP"[third] + minutes / 10);
    to[3] = (char)("0P"[fourth] + minutes % 10);
    for (int at = 6 - blanks; at < 6; at++) to[at] = at < 3 ? "LKZ"[third] : "LZ"[fourth];
    slice call = {(const uint8_t *)to, 6};
    int strict = is_over(minutes, blanks) ? 11 : 0;
    ONE_OF_MANY(call, SLICE("`(_fn\"Oj/Hi"), 0, strict);
    ONE_OF_MANY(call, SLICE("'(_fn\"Oj"), 12, strict == 0 ? 12 : 11);
    ONE_OF_MANY(call, SLICE("`(_fn\"Oj*"), 0, strict == 0 ? 20 : 11);
}

/* the source of a frame without hops, and the control pair */
#define FROM "\x82@@@@@\x61\x03\xf0"

/* The last two have small letters, which a frame raises. */
static void check_destinations(void) {
    for (int minutes = 0; minutes <= 99; minutes++)
        for (int blanks = 0; blanks <= 5; blanks++)
            for (int sorts = 0; sorts < 6; sorts++) judges_destination(minutes, blanks, sorts % 3, sorts / 3);
    ACCEPTS("S32U6T", "`(_fn\"Oj/");
    JUDGES("S36P6T", "`(_fn\"Oj/", 0, 11);
    ACCEPTS("S35Y6T", "`(_fn\"Oj/");
    JUDGES("L36P6T", "`(_fn\"Oj/", 11, 11);
    JUDGES("S36A6T", "`(_fn\"Oj/", 11, 11);
    JUDGES("Y060PP", "`vX\x1c\x1c\x1c\x1cj/", 11, 11);
    JUDGES("X960PP", "`vX\x1c\x1c\x1c\x1cj/", 0, 11);
    ACCEPTS("Y000PP", "`vX\x1c\x1c\x1c\x1cj/");
    JUDGES("B", "`(_fn\"Oj/", 11, 11);
    FRAME("\xe6\x66\x6c\xe0\x6c\xe8\xe0" FROM "`(_fn\"Oj/", 0, 11);
    FRAME("\xe6\x66\x6a\xf2\x6c\xe8\xe0" FROM "`(_fn\"Oj/", 0, 0);
}

/* "those in the information stay as they are, 60 and more after the subtraction included": any minutes and hundredths from 28
   on. */
static void check_information(void) {
    for (int byte = 0; byte <= 255; byte++) {
        uint8_t minutes[] = "`(_fn\"Oj/", hundredths[] = "`(_fn\"Oj/";
        minutes[2] = hundredths[3] = (uint8_t)byte;
        int expected = byte < 28 ? 12 : 0;
        ONE_OF_MANY(SLICE("S32U6T"), ((slice){minutes, 9}), expected, expected);
        ONE_OF_MANY(SLICE("S32U6T"), ((slice){hundredths, 9}), expected, expected);
    }
}

/* ---- the table byte */

typedef struct {
    slice to, body;
    size_t table, code;
} symbol;

static const symbol symbols[] = {
    {{BYTES("B")}, {BYTES("!4903.50N/07201.75W-Test")}, 9, 19},
    {{BYTES("B")}, {BYTES("=49  .  S/072  .  E-")}, 9, 19},
    {{BYTES("B")}, {BYTES("/092345z4903.50N/07201.75W>")}, 16, 26},
    {{BYTES("B")}, {BYTES("@092345/4903.50N/07201.75W>Test")}, 16, 26},
    {{BYTES("S32U6T")}, {BYTES("`(_fn\"Oj/Comment")}, 8, 7},
    {{BYTES("4LLLLL")}, {BYTES("'(_fn\"Oj/")}, 8, 7},
    {{BYTES("S32U6T")}, {BYTES("\x1c(_fn\"Oj/")}, 8, 7},
    {{BYTES("S32U6T")}, {BYTES("\x1d(_fn\"Oj/")}, 8, 7},
};

static void judges_symbol(const symbol *s, size_t place, uint8_t byte, int strict) {
    uint8_t body[64];
    memcpy(body, s->body.bytes, s->body.size);
    body[place] = byte;
    ONE_OF_MANY(s->to, ((slice){body, s->body.size}), 0, strict);
}

/* "`/`, `\`, `0` to `9`, `A` to `Z`; small letters are 20; the code byte is free": 38 bytes of 256. */
static void check_symbols(void) {
    int tables = 0;
    for (int byte = 0; byte <= 255; byte++) {
        bool table = byte == 0x2f || byte == 0x5c || (byte >= 0x30 && byte <= 0x39) || (byte >= 0x41 && byte <= 0x5a);
        tables += table;
        for (const symbol *s = symbols; s < symbols + sizeof symbols / sizeof *symbols; s++) {
            judges_symbol(s, s->table, (uint8_t)byte, table ? 0 : 20);
            judges_symbol(s, s->code, (uint8_t)byte, 0);
        }
    }
    HOLDS(tables == 38);
}

/* ---- the order of refusals; where there is a table byte it is '*', which is none */

static void check_order(void) {
    PLACES("/5L!!<*e7>7P[*4960.00N", 7, 7);
    PLACES("\xb2" "960.00N*07260.00W-", 8, 8);
    PLACES("4960.00N*07260.00W", 10, 10);
    PLACES("4960.00N*07260.00W-", 0, 8);
    PLACES("4960.00N*0726x.00W-", 9, 8);
    PLACES("4960.00X*07260.00W-", 8, 8);
    PLACES("9060.00N*07200.00W-", 8, 8);
    PLACES("8960.01N*07200.00W-", 8, 8);
    PLACES("4900.00N*07260.00W-", 0, 9);
    PLACES("4900.00N*07260.00X-", 9, 9);
    PLACES("4900.00N*17960.01W-", 9, 9);
    PLACES("4900.00N*18000.01W-", 9, 9);
    PLACES("8960.00N*18000.01W-", 9, 8);
    PLACES("4900.00N*07200.00W-", 0, 20);
    JUDGES("B", "/000000z4960.00N*07260.00W-", 17, 17);
    JUDGES("B", "@09234z4960.00N*07260.00W-", 17, 17);
    JUDGES("B", "/092345", 10, 10);
    JUDGES("S36P6T", "`(_fn\"Oj", 12, 11);
    JUDGES("S36P6T", "`\x1b_fn\"Oj*", 12, 11);
    JUDGES("S36P6T", "`", 12, 11);
    JUDGES("S36P6T", "`(_fn\"Oj*", 0, 11);
    JUDGES("S32U6T", "`\x1b_fn\"Oj*", 12, 12);
    JUDGES("S32U6T", "`(_f\x1c%\x1cj*", 12, 12);
    JUDGES("S32U6T", "`(_fn\"Oj", 12, 12);
    JUDGES("S32U6T", "`(_fn\"Oj*", 0, 20);
}

/* Refusals of a header come first, and 1 and 19 before what is looked at then. */
#define POOR "!4960.00N*07260.00W-"

static void check_headers(void) {
    LINE("", 2, 2);
    LINE("A>B", 2, 2);
    LINE("A:>B" POOR, 2, 2);
    LINE("A->B:" POOR, 3, 3);
    LINE("ABCDEFGHIJKLMNO-0>B:" POOR, 4, 4);
    LINE("A>B,1,2,3,4,5,6,7,8,9:" POOR, 5, 5);
    LINE("A>B,qAc:" POOR, 6, 6);
    LINE("A>B:}", 2, 2);
    LINE("A>B:}C->D:" POOR, 3, 3);
    LINE("A>B:}C>D:}E>F:}G>H:}I>J:}K>L:" POOR, 19, 19);
    FRAME("", 2, 2);
    FRAME("\x84@@@@@\xe0\x82@@@@@\x61\x03\xf1" POOR, 2, 2);
    FRAME("\x84@@@@@\xe0\x82 @@@@\x60\x83@@@@@\x61\x03\xf0" POOR, 3, 3);
    FRAME("\x84@@@@@\xe0" FROM "}C>D:}E>F:}G>H:}I>J:}K>L:" POOR, 19, 19);
    REFUSED(tusselgro_read_text_strictly(NULL, 0), 2);
    REFUSED(tusselgro_read_frame_strictly(NULL, 0), 2);
    for (const form *f = forms; f < forms + 2; f++) {
        packet p = packed(f, 0, SLICE("B"), SLICE(POOR));
        memset(p.bytes + p.size, 'x', MOST - p.size);
        REFUSED(read_lent(f->read_strictly, p.bytes, 512), 8);
        REFUSED(read_lent(f->read_strictly, p.bytes, 513), 1);
    }
}

/* ---- "Times, messages, status and Unknown have no strict rule" */

static void check_others(void) {
    ACCEPTS("B", "");
    ACCEPTS("B", "4960.00N*07260.00W-");
    ACCEPTS("S36P6T", "(_fn\"Oj*");
    ACCEPTS("S36P6T", "x`(_fn\"Oj*");
    ACCEPTS("S36P6T", "!4903.50N/07201.75W-");
    ACCEPTS("S36P6T", "@092345z4903.50N\\07201.75W-");
    ACCEPTS("S36P6T", ">x");
    ACCEPTS("S36P6T", ":WU2Z     :x");
    ACCEPTS("B", ":WU2Z     :4960.00N*07260.00W-");
    ACCEPTS("B", ":!4960.00N:*{4960");
    JUDGES("B", ":" POOR, 18, 18);
    ACCEPTS("B", ">" POOR);
    ACCEPTS("B", ">092345z4960.00N*07260.00W-");
    ACCEPTS("B", ">096060z4960.00N*07260.00W-");
    JUDGES("B", ">" X50 POOR, 18, 18);
    JUDGES("B", "/096060z4900.00N/07200.00W-", 17, 17);
    ACCEPTS("B", "/312359z4900.00N/07200.00W-");
    ACCEPTS("B", "@235959h4900.00N/07200.00W-");
    ACCEPTS("B", "!4903.50N/07201.75W-" POOR);
    ACCEPTS("B", "!4903.50N/07201.75W-}C>D:" POOR);
    ACCEPTS("S32U6T", "`(_fn\"Oj/" POOR);
}

/* ---- "What it accepts is the usual record, whole" */

/* Letters, marks, places, time and hops, and it is written as it stood, but for zeros. */
static void check_record(void) {
    tusselgro_read read = read_lent(tusselgro_read_text_strictly,
                                    BYTES("A-0>B,C-0,qAR,D*:}E>F-0,qAC,G-0*:@092345z0000.00S\\00000.00W_Hi"));
    tusselgro_record r = read.record;
    const tusselgro_body *b = &r.body;
    REFUSED(read, 0);
    HOLDS(b->kind == TUSSELGRO_POSITION && b->messaging && b->place.south && b->place.west && b->place.latitude == 0);
    HOLDS(b->place.table == '\\' && b->place.code == '_' && b->comment.at == 60 && b->comment.len == 2);
    HOLDS(same_time(b->time, (tusselgro_time){9, 23, 45, 0, TUSSELGRO_DHM_UTC}) && r.inner == 1);
    HOLDS(is_path_read(&r.header.path, SLICE(",C-0,qAR,D*")) && is_path_read(&r.innermost.path, SLICE(",qAC,G-0*")));
    for (size_t place = 0; place < MARKS; place++)
        HOLDS(*mark_of(&r, place) == (place == 0 || place == 2 || place == HEADER_MARKS + 1 || place == HEADER_MARKS + 3));
    read = read_lent(tusselgro_read_text_strictly, BYTES("A>S32U6T:`(_fn\"OjZComment"));
    REFUSED(read, 0);
    tusselgro_answer answer = write_lent(tusselgro_write_text, read.record, SLICE("Comment"), SLICE(""), 512);
    HOLDS(wrote(answer, BYTES("A>S32U6T:`(_fn\"OjZComment")));
}

void check_strict(void) {
    check_examples();
    check_latitudes();
    check_longitudes();
    check_destinations();
    check_information();
    check_symbols();
    check_order();
    check_headers();
    check_others();
    check_record();
}
