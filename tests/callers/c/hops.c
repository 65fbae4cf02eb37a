/* Hops against document 02's sentences on Q elements: "Such an element counts among the eight, never has a star, and is passed
   over when stars are carried back. In text it is written at its place; in a frame it is left out". */
#include "check.h"

#include <stdio.h>
#include <string.h>

/* ---- the sentences */

/* "The ten names are qAC, qAX, qAU, qAo, qAO, qAS, qAr, qAR, qAZ and qAI" */
static const char names[][4] = {"qAC", "qAX", "qAU", "qAo", "qAO", "qAS", "qAr", "qAR", "qAZ", "qAI"};

enum { NAMES = sizeof names / sizeof *names, ALL_BYTES = 256 };

static bool is_name(slice text) {
    for (size_t which = 0; which < NAMES; which++)
        if (text.size == 3 && memcmp(text.bytes, names[which], 3) == 0) return true;
    return false;
}

/* a name, no SSID, and nothing in the spare bytes; the mark is not looked at */
static bool is_named(const tusselgro_callsign *call) {
    uint8_t rest = call->ssid_len;
    for (size_t at = 3; at < TUSSELGRO_MOST_CALLSIGN; at++) rest |= call->text[at];
    return rest == 0 && is_name((slice){call->text, call->call_len});
}

static bool is_q_element(const tusselgro_hop *hop) { return hop->kind == TUSSELGRO_Q_CONSTRUCT; }

bool are_kinds_right(const tusselgro_path *path) {
    bool right = path->count <= TUSSELGRO_MOST_HOPS;
    for (size_t at = 0; at < TUSSELGRO_MOST_HOPS; at++) {
        const tusselgro_hop *hop = &path->hops[at];
        bool callsign = hop->kind == TUSSELGRO_NOT_HEARD || (at < path->count && hop->kind == TUSSELGRO_HEARD);
        right = right && (callsign || (at < path->count && is_q_element(hop) && is_named(&hop->call)));
    }
    return right;
}

/* the next hop, behind its comma */
static slice next_hop(slice typed, size_t *at) {
    size_t start = ++*at;
    while (*at < typed.size && typed.bytes[*at] != ',') ++*at;
    return (slice){typed.bytes + start, *at - start};
}

static uint8_t kind_as_typed(slice hop) {
    if (is_name(hop)) return TUSSELGRO_Q_CONSTRUCT;
    return hop.size > 0 && hop.bytes[hop.size - 1] == '*' ? TUSSELGRO_HEARD : TUSSELGRO_NOT_HEARD;
}

static void carry_back(uint8_t *kinds, size_t count) {
    bool heard = false;
    while (count-- > 0) {
        if (kinds[count] == TUSSELGRO_Q_CONSTRUCT) continue;
        heard = heard || kinds[count] == TUSSELGRO_HEARD;
        kinds[count] = heard ? TUSSELGRO_HEARD : TUSSELGRO_NOT_HEARD;
    }
}

bool is_path_read(const tusselgro_path *path, slice typed) {
    uint8_t kinds[TUSSELGRO_MOST_HOPS] = {0};
    size_t count = 0;
    bool same = true;
    for (size_t at = 0; at < typed.size; count++) {
        slice hop = next_hop(typed, &at);
        if (count == TUSSELGRO_MOST_HOPS) return false;
        kinds[count] = kind_as_typed(hop);
        const tusselgro_callsign *call = &path->hops[count].call;
        if (is_name(hop)) same = same && is_named(call) && memcmp(call->text, hop.bytes, 3) == 0 && !call->had_zero_ssid;
    }
    carry_back(kinds, count);
    for (size_t at = 0; at < TUSSELGRO_MOST_HOPS; at++) same = same && path->hops[at].kind == kinds[at];
    return same && path->count == count;
}

static int text_size(const tusselgro_callsign *call) { return call->call_len + (call->ssid_len > 0 ? 1 + call->ssid_len : 0); }

/* The place of the last that was heard, or past all. */
static size_t starred(const tusselgro_path *path) {
    size_t at = path->count;
    while (at > 0 && path->hops[at - 1].kind != TUSSELGRO_HEARD) at--;
    return at > 0 ? at - 1 : path->count;
}

bool is_path_text(const tusselgro_path *path, const uint8_t *text) {
    for (size_t at = 0; at < path->count; at++) {
        const tusselgro_callsign *call = &path->hops[at].call;
        size_t size = (size_t)text_size(call);
        if (*text++ != ',' || memcmp(text, call->text, size) != 0) return false;
        text += size;
        if (at == starred(path) && *text++ != '*') return false;
    }
    return *text == ':';
}

bool is_path_frame(const tusselgro_path *path, const uint8_t *source) {
    const uint8_t *seventh = source + 6;
    for (size_t at = 0; at < path->count; at++) {
        if (is_q_element(&path->hops[at])) continue;
        if ((*seventh & 1) != 0) return false;
        seventh += 7;
        if ((*seventh & 0x80) != (path->hops[at].kind == TUSSELGRO_HEARD ? 0x80 : 0)) return false;
    }
    return (*seventh & 1) == 1 && memcmp(seventh + 1, "\x03\xf0", 2) == 0;
}

void tell_hop(char told[HOP_TOLD], const tusselgro_hop *hop) {
    const char *before = is_q_element(hop) ? "[" : "", *behind = is_q_element(hop) ? "]" : hop->kind != 0 ? "*" : "";
    const char *zero = hop->call.had_zero_ssid ? "-0" : "";
    snprintf(told, HOP_TOLD, "%s%.*s%s%s", before, text_size(&hop->call), (const char *)hop->call.text, zero, behind);
}

/* ---- read */

enum { MOST = 256 };

static slice line_via(const char *hops, char *line) {
    return (slice){(const uint8_t *)line, (size_t)snprintf(line, MOST, "A>B%s:>x", hops)};
}

/* The hops of a line, and how they are told, a space between two; a number is a refusal. */
static void reads(const char *hops, const char *expected, const char *file, int line) {
    char bytes[MOST], told[MOST] = "", hop_told[HOP_TOLD];
    slice text = line_via(hops, bytes);
    tusselgro_read read = read_lent(tusselgro_read_text, text.bytes, text.size);
    const tusselgro_path *path = &read.record.header.path;
    for (size_t at = 0; at < path->count; at++) {
        tell_hop(hop_told, &path->hops[at]);
        strcat(strcat(told, at > 0 ? " " : ""), hop_told);
    }
    if (read.refusal != 0) snprintf(told, sizeof told, "%d", read.refusal);
    holds(strcmp(told, expected) == 0, told, file, line);
    if (read.refusal != 0) return;
    holds(is_path_read(path, (slice){(const uint8_t *)hops, strlen(hops)}), "as document 02 has it", file, line);
    holds(are_kinds_right(path), "in range", file, line);
}

#define READS(hops, expected) reads(hops, expected, __FILE__, __LINE__)

static void check_stars(void) {
    READS(",C,qAC,D*", "C* [qAC] D*");
    READS(",C*,qAC,D", "C* [qAC] D");
    READS(",qAC,C*", "[qAC] C*");
    READS(",qAC,C", "[qAC] C");
    READS(",C*,qAC", "C* [qAC]");
    READS(",C,qAC,qAR,D,qAo,E*,qAI,F", "C* [qAC] [qAR] D* [qAo] E* [qAI] F");
    READS(",,qAC,*,qAC,", "* [qAC] * [qAC] ");
    READS(",qAC,qAC,qAC", "[qAC] [qAC] [qAC]");
}

/* "`qAC*`, `qAC-0`, `QAC` are callsigns": a name and nothing else is a Q element. */
static void check_callsigns(void) {
    READS(",qAC*", "qAC*");
    READS(",C,qAC*,D", "C* qAC* D");
    READS(",qAC,qAC*,qAC", "[qAC] qAC* [qAC]");
    READS(",qAC**", "qAC**");
    READS(",qAC-0", "qAC-0");
    READS(",qAC-0*", "qAC-0*");
    READS(",qAC-1,qAC-00", "qAC-1 qAC-00");
    READS(",QAC,qaC,qac,AqC", "QAC qaC qac AqC");
    READS(",qA,q,qACC,qAC ", "qA q qACC qAC ");
    READS(", qAC,>qA", " qAC >qA");
    tusselgro_header h = tusselgro_read_text(BYTES("qAC>qAR,qAC:>x")).record.header;
    HOLDS(memcmp(h.from.text, "qAC", 4) == 0 && h.from.call_len == 3 && memcmp(h.to.text, "qAR", 4) == 0 && h.to.call_len == 3);
    HOLDS(h.path.count == 1 && is_q_element(&h.path.hops[0]));
}

/* "A hop: 5, 6, 4, 3", from the left. */
static void check_refusals(void) {
    READS(",qAc", "6");
    READS(",qA*", "6");
    READS(",qA-", "6");
    READS(",qA\xff", "6");
    READS(",C*,qAC,qAx,D", "6");
    READS(",qAc,C-", "6");
    READS(",C-,qAc", "3");
    READS(",qAC-", "3");
    READS(",qAC,C-", "3");
    READS(",qAC,ABCDEFGHIJKLMNOPQ", "4");
    READS(",1,2,3,4,5,6,7,qAC", "1 2 3 4 5 6 7 [qAC]");
    READS(",qAC,2,3,4,5,6,7,8*", "[qAC] 2* 3* 4* 5* 6* 7* 8*");
    READS(",qAC,qAX,qAU,qAo,qAO,qAS,qAr,qAR", "[qAC] [qAX] [qAU] [qAo] [qAO] [qAS] [qAr] [qAR]");
    READS(",qAC,qAX,qAU,qAo,qAO,qAS,qAr,qAR,qAZ", "5");
    READS(",qAC,qAX,qAU,qAo,qAO,qAS,qAr,qAR,C", "5");
    READS(",1,2,3,4,5,6,7,8,qAC", "5");
    READS(",1,2,3,4,5,6,7,8,qAc", "5");
    READS(",1,2,3,4,5,6,7,qAC,", "5");
    READS(",1,2,3,4,5,6,7,qAc,9", "6");
}

/* Each name in each of eight places, the others callsigns; it is written as it was read. */
static void check_names(void) {
    for (size_t which = 0; which < NAMES; which++) {
        for (size_t place = 0; place < TUSSELGRO_MOST_HOPS; place++) {
            char hops[MOST] = "", bytes[MOST];
            for (size_t at = 0; at < TUSSELGRO_MOST_HOPS; at++) strcat(strcat(hops, ","), at == place ? names[which] : "K1A");
            slice line = line_via(hops, bytes);
            tusselgro_read read = read_lent(tusselgro_read_text, line.bytes, line.size);
            tusselgro_callsign expected = {"", 3, 0, false};
            memcpy(expected.text, names[which], 3);
            REFUSED(read, 0);
            for (size_t at = 0; at < TUSSELGRO_MOST_HOPS; at++)
                HOLDS(read.record.header.path.hops[at].kind == (at == place ? TUSSELGRO_Q_CONSTRUCT : TUSSELGRO_NOT_HEARD));
            HOLDS(same_callsign(&read.record.header.path.hops[place].call, &expected));
            HOLDS(wrote(write_lent(tusselgro_write_text, read.record, SLICE("x"), SLICE(""), line.size), line.bytes, line.size));
        }
    }
}

/* Every byte in every place of a name: how many hops are Q elements, and how many lines are refused with 6. A comma and a colon end
   the hop before its third byte. */
static void check_bytes(void) {
    static const size_t elements[3] = {1, 1, NAMES}, refusals[3] = {0, 0, ALL_BYTES - NAMES - 2};
    for (size_t place = 0; place < 3; place++) {
        size_t found = 0, refused = 0;
        for (int byte = 0; byte < ALL_BYTES; byte++) {
            uint8_t line[] = "A>B,qAC:x";
            line[4 + place] = (uint8_t)byte;
            tusselgro_read read = read_lent(tusselgro_read_text, line, 9);
            for (size_t at = 0; at < read.record.header.path.count; at++) found += is_q_element(&read.record.header.path.hops[at]);
            refused += read.refusal == 6;
        }
        HOLDS(found == elements[place] && refused == refusals[place]);
    }
}

/* "letters are raised to capitals": an address is a callsign, whatever it spells. */
static void check_frames(void) {
    tusselgro_read read = read_lent(
        tusselgro_read_frame, BYTES("\x84@@@@@\xe0\x82@@@@@\x60\xe2\x82\x86@@@\xe0\xa2\x82\xa4@@@\x61\x03\xf0>x"));
    const tusselgro_hop *hops = read.record.header.path.hops;
    REFUSED(read, 0);
    HOLDS(read.record.header.path.count == 2 && hops[0].kind == TUSSELGRO_HEARD && hops[1].kind == TUSSELGRO_NOT_HEARD);
    HOLDS(memcmp(hops[0].call.text, "QAC", 4) == 0 && memcmp(hops[1].call.text, "QAR", 4) == 0);
}

/* ---- written */

/* A status from A to B whose hops are put together by hand: each a digit, its kind, and a text, with a space behind it. */
static tusselgro_record made(const char *hops) {
    tusselgro_record record = {.header = {.from = {"A", 1, 0, false}, .to = {"B", 1, 0, false}}};
    record.body.kind = TUSSELGRO_STATUS;
    for (; *hops != 0; record.header.path.count++) {
        tusselgro_hop *hop = &record.header.path.hops[record.header.path.count];
        size_t size = strcspn(hops, " ");
        hop->kind = (uint8_t)(hops[0] - '0');
        hop->call.call_len = (uint8_t)(size - 1);
        memcpy(hop->call.text, hops + 1, size - 1);
        hops += size + (hops[size] == ' ');
    }
    return record;
}

#define TO "\x84@@@@@\xe0"
#define FROM "\x82@@@@@\x60"
#define LAST_FROM "\x82@@@@@\x61"
#define BODY "\x03\xf0>x"

static void writes_with(tusselgro_record record, slice line, slice frame, const char *file, int at) {
    const slice expected[2] = {line, frame};
    for (int which = 0; which < 2; which++) {
        writer *function = forms[which].write;
        tusselgro_answer answer = write_lent(function, record, SLICE("x"), SLICE(""), expected[which].size);
        holds(wrote(answer, expected[which].bytes, expected[which].size), which == 0 ? "the line" : "the frame", file, at);
        answer = write_lent(function, record, SLICE("x"), SLICE(""), expected[which].size - 1);
        refused(answer.refusal, TUSSELGRO_NO_ROOM, file, at);
        holds(answer.needed == expected[which].size, "what is needed", file, at);
    }
    holds(is_path_text(&record.header.path, line.bytes + 3), "the line by document 02", file, at);
    holds(is_path_frame(&record.header.path, frame.bytes + 7), "the frame by document 02", file, at);
}

/* What is written of hops made by hand: in text, and in a frame the source and the hops. A mark changes nothing. */
static void writes(const char *hops, const char *text, slice addresses, const char *file, int line) {
    char bytes[MOST];
    uint8_t frame[MOST] = TO;
    memcpy(frame + 7, addresses.bytes, addresses.size);
    memcpy(frame + 7 + addresses.size, BODY, 4);
    tusselgro_record record = made(hops);
    writes_with(record, line_via(text, bytes), (slice){frame, 7 + addresses.size + 4}, file, line);
    for (size_t at = 0; at < record.header.path.count; at++) record.header.path.hops[at].call.had_zero_ssid = true;
    writes_with(record, line_via(text, bytes), (slice){frame, 7 + addresses.size + 4}, file, line);
}

#define WRITES(hops, text, addresses) writes(hops, text, SLICE(addresses), __FILE__, __LINE__)

static void check_writing_names(void) {
    for (size_t which = 0; which < NAMES; which++) {
        char hops[MOST], text[MOST];
        snprintf(hops, sizeof hops, "2%s", names[which]);
        snprintf(text, sizeof text, ",%s", names[which]);
        WRITES(hops, text, LAST_FROM);
    }
    WRITES("2qAC 2qAX 2qAU 2qAo 2qAO 2qAS 2qAr 2qAR", ",qAC,qAX,qAU,qAo,qAO,qAS,qAr,qAR", LAST_FROM);
}

/* C, D and E heard or not, and last or not */
#define C_ "\x86@@@@@\x60"
#define C_HEARD "\x86@@@@@\xe0"
#define D_ "\x88@@@@@\x60"
#define D_HEARD "\x88@@@@@\xe0"
#define E_LAST "\x8a@@@@@\x61"

static void check_writing_paths(void) {
    WRITES("", "", LAST_FROM);
    WRITES("1C 2qAC", ",C*,qAC", FROM "\x86@@@@@\xe1");
    WRITES("2qAC 0C", ",qAC,C", FROM "\x86@@@@@\x61");
    WRITES("2qAC 1C 2qAR", ",qAC,C*,qAR", FROM "\x86@@@@@\xe1");
    WRITES("0C 2qAC 1D 0E", ",C,qAC,D*,E", FROM C_ D_HEARD E_LAST);
    WRITES("1C 2qAC 0D 2qAo 0E", ",C*,qAC,D,qAo,E", FROM C_HEARD D_ E_LAST);
    WRITES("1C 2qAC 1D 2qAR 0E 2qAI", ",C,qAC,D*,qAR,E,qAI", FROM C_HEARD D_HEARD E_LAST);
    WRITES("2qAC 1C 1D 0E", ",qAC,C,D*,E", FROM C_HEARD D_HEARD E_LAST);
    WRITES("1C 1D 0E", ",C,D*,E", FROM C_HEARD D_HEARD E_LAST);
}

/* "A callsign `qAC` in a record stays in range": it is written as it stands, and in a frame it is an address. */
static void check_writing_callsigns(void) {
    WRITES("0qAC", ",qAC", FROM "\xa2\x82\x86@@@\x61");
    WRITES("1qAC", ",qAC*", FROM "\xa2\x82\x86@@@\xe1");
    WRITES("0qAc", ",qAc", FROM "\xa2\x82\x86@@@\x61");
    WRITES("1qAC 1X", ",qAC,X*", FROM "\xa2\x82\x86@@@\xe0\xb0@@@@@\xe1");
    WRITES("1X 1qAC 2qAC", ",X,qAC*,qAC", FROM "\xb0@@@@@\xe0\xa2\x82\x86@@@\xe1");
    tusselgro_record record = tusselgro_read_text(BYTES("A>B,qAC*,X*:>x")).record;
    HOLDS(wrote(write_lent(tusselgro_write_text, record, SLICE("x"), SLICE(""), 512), BYTES("A>B,qAC,X*:>x")));
    READS(",qAC*,X*", "qAC* X*");
    READS(",qAC,X*", "[qAC] X*");
}

/* A Q element is never 13; a callsign beside it may be. */
static void check_unframed(void) {
    tusselgro_record record = made("2qAC 0ABCDEFG 2qAR");
    HOLDS(wrote(write_lent(tusselgro_write_text, record, SLICE("x"), SLICE(""), 512), BYTES("A>B,qAC,ABCDEFG,qAR:>x")));
    REFUSED(write_lent(tusselgro_write_frame, record, SLICE("x"), SLICE(""), 512), 13);
    record.header.path.hops[1] = record.header.path.hops[0];
    REFUSED(write_lent(tusselgro_write_frame, record, SLICE("x"), SLICE(""), 512), 0);
}

/* 512 bytes, of which Q elements take theirs in a line alone: 36 and 20 before the comment, in a frame 16 and 20. */
static void check_longest(void) {
    tusselgro_record record = tusselgro_read_text(BYTES("A>B,qAC,qAX,qAU,qAo,qAO,qAS,qAr,qAR:!0000.00N/00000.00E-")).record;
    static const size_t comments[2] = {512 - 36 - 20, 512 - 16 - 20};
    uint8_t comment[512];
    memset(comment, 'x', sizeof comment);
    for (int which = 0; which < 2; which++) {
        tusselgro_answer answer = write_lent(forms[which].write, record, (slice){comment, comments[which]}, SLICE(""), 512);
        HOLDS(answer.refusal == 0 && answer.reported == 512);
        REFUSED(write_lent(forms[which].write, record, (slice){comment, comments[which] + 1}, SLICE(""), 513), 1);
    }
}

typedef struct {
    slice with, without;
} pair;

/* What was read is written as it stood, whatever the body; its frame is that of the line without Q elements. */
static void check_bodies(void) {
    static const pair pairs[] = {
        {{BYTES("A>B,C*,qAC,D:!4903.50N/07201.75W-Hi")}, {BYTES("A>B,C*,D:!4903.50N/07201.75W-Hi")}},
        {{BYTES("A>B,qAR,C:@092345z4903.50N/07201.75W>")}, {BYTES("A>B,C:@092345z4903.50N/07201.75W>")}},
        {{BYTES("A>S32U6T,C,qAX,D*,qAU:`(_fn\"Oj/Hi")}, {BYTES("A>S32U6T,C,D*:`(_fn\"Oj/Hi")}},
        {{BYTES("A>B,qAo::WU2Z     :Testing{003")}, {BYTES("A>B::WU2Z     :Testing{003")}},
        {{BYTES("A>B,C,qAI,qAZ:>092345zhi")}, {BYTES("A>B,C:>092345zhi")}},
    };
    for (size_t which = 0; which < sizeof pairs / sizeof *pairs; which++) {
        uint8_t frames[2][512];
        size_t sizes[2];
        for (int side = 0; side < 2; side++) {
            slice line = side == 0 ? pairs[which].with : pairs[which].without;
            tusselgro_read read = read_lent(tusselgro_read_text, line.bytes, line.size);
            tusselgro_span at = read.record.body.comment, id = read.record.body.identifier;
            slice comment = {line.bytes + at.at, at.len}, identifier = {line.bytes + id.at, id.len};
            REFUSED(read, 0);
            HOLDS(wrote(write_lent(tusselgro_write_text, read.record, comment, identifier, 512), line.bytes, line.size));
            tusselgro_answer answer = write_lent(tusselgro_write_frame, read.record, comment, identifier, 512);
            REFUSED(answer, 0);
            sizes[side] = answer.reported;
            memcpy(frames[side], written, sizes[side]);
        }
        HOLDS(sizes[0] == sizes[1] && memcmp(frames[0], frames[1], sizes[0]) == 0);
    }
}

/* ---- in no record: 15, before 14, 18 and 13 */

/* What is lent with the record would be 18, and its source 13. */
#define SPOILT(words, statement, expected)                            \
    do {                                                              \
        tusselgro_record r = made(words);                             \
        tusselgro_hop *hop = r.header.path.hops;                      \
        r.header.from = (tusselgro_callsign){"ABCDEFG", 7, 0, false}; \
        (void)hop;                                                    \
        statement;                                                    \
        REFUSES(r, "xx" X50 X10 "x", "", expected);                   \
        r.body.kind = TUSSELGRO_UNKNOWN;                              \
        REFUSES(r, "", "", (expected) == 15 ? 15 : 14);               \
    } while (0)

static void check_kinds(void) {
    SPOILT("0C 2qAC 1D", , 18);
    for (int kind = 3; kind <= 255; kind++) {
        SPOILT("0C 2qAC 1D", hop[0].kind = (uint8_t)kind, 15);
        SPOILT("0C 2qAC 1D", hop[1].kind = (uint8_t)kind, 15);
        SPOILT("0C 2qAC 1D", hop[2].kind = (uint8_t)kind, 15);
    }
    for (int kind = 1; kind <= 255; kind++) {
        SPOILT("0C 2qAC 1D", hop[3].kind = (uint8_t)kind, 15);
        SPOILT("0C 2qAC 1D", hop[7].kind = (uint8_t)kind, 15);
    }
    SPOILT("0C 2qAC 1D", hop[0].kind = 1; hop[1].kind = 0; hop[2].kind = 0, 18);
    SPOILT("0C 2qAC 1D", hop[3] = hop[1], 15);
    SPOILT("0C 2qAC 1D", hop[3].call = hop[1].call, 15);
    SPOILT("0C 2qAC 1D", r.header.path.count = 2, 15);
    SPOILT("0C 2qAC 1D", r.header.path.count = 9, 15);
}

/* A Q element of any other text. */
static void check_no_names(void) {
    static const char *const others[] = {
        "2", "2q", "2qA", "2qAc", "2qaC", "2QAC", "2qac", "2qACC", "2qAC*", "2qA*", "2C", "2WIDE1", "2TCPIP", "2AC",
    };
    for (size_t which = 0; which < sizeof others / sizeof *others; which++) SPOILT(others[which], , 15);
    SPOILT("", r.header.path.count = 1, 18);
    SPOILT("", r.header.path.count = 1; hop[0].kind = 2, 15);
    for (int byte = 0; byte <= 255; byte++) {
        bool third = byte != 0 && strchr("CXUoOSrRZI", byte) != NULL;
        SPOILT("2qAC", hop[0].call.text[0] = (uint8_t)byte, byte == 'q' ? 18 : 15);
        SPOILT("2qAC", hop[0].call.text[1] = (uint8_t)byte, byte == 'A' ? 18 : 15);
        SPOILT("2qAC", hop[0].call.text[2] = (uint8_t)byte, third ? 18 : 15);
        SPOILT("2qAC", hop[0].call.call_len = (uint8_t)byte, byte == 3 ? 18 : 15);
        SPOILT("2qAC", hop[0].call.ssid_len = (uint8_t)byte, byte == 0 ? 18 : 15);
    }
    for (int at = 3; at < TUSSELGRO_MOST_CALLSIGN; at++) {
        SPOILT("2qAC", hop[0].call.text[at] = 1, 15);
        SPOILT("2qAC", hop[0].call.text[at] = ' ', 15);
        SPOILT("2qAC", hop[0].call.text[at] = 255, 15);
    }
}

/* "marked with an SSID"; the callsigns alone are in range, but for an SSID 0 */
static void check_ssids(void) {
    static const tusselgro_callsign one = {"qAC-1", 3, 1, false}, zero = {"qAC-0", 3, 1, false}, dashed = {"q-C", 1, 1, false};
    SPOILT("2qAC", hop[0].call = one, 15);
    SPOILT("2qAC", hop[0].call = zero, 15);
    SPOILT("2qAC", hop[0].call = dashed, 15);
    SPOILT("2qAC", hop[0].call.call_len = 1; hop[0].call.ssid_len = 1, 15);
    SPOILT("2qAC", hop[0].call.call_len = 0; hop[0].call.ssid_len = 2, 15);
    SPOILT("0qAC", hop[0].call = one, 18);
    SPOILT("1qAC", hop[0].call = dashed, 18);
    SPOILT("0qAC", hop[0].call = zero, 15);
    SPOILT("2qAC", hop[0].call.had_zero_ssid = true, 18);
}

void check_hops(void) {
    check_stars();
    check_callsigns();
    check_refusals();
    check_names();
    check_bytes();
    check_frames();
    check_writing_names();
    check_writing_paths();
    check_writing_callsigns();
    check_unframed();
    check_longest();
    check_bodies();
    check_kinds();
    check_no_names();
    check_ssids();
}
