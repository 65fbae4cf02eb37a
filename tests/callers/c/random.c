/*
 * Random calls: lines, frames, records, parts and list targets of any content, good ones damaged among them. What is held is what
 * every call must keep to: it ends, without a signal, answers within its bounds, and leaves alone what it may not change.
 */
#include "check.h"

#include <signal.h>
#include <stdio.h>
#include <string.h>
#include <time.h>
#include <unistd.h>

static uint64_t state, seed, turn;

/* splitmix64 */
static uint64_t next(void) {
    uint64_t z = (state += 0x9e3779b97f4a7c15u);
    z = (z ^ (z >> 30)) * 0xbf58476d1ce4e5b9u;
    z = (z ^ (z >> 27)) * 0x94d049bb133111ebu;
    return z ^ (z >> 31);
}

static size_t below(size_t n) { return (size_t)(next() % n); }

static bool one_in(size_t n) { return below(n) == 0; }

static size_t any_bytes(uint8_t *bytes, size_t size) {
    for (size_t at = 0; at < size; at++) bytes[at] = (uint8_t)next();
    return size;
}

/* ---- lines and frames */

enum { MOST = 640 };

/* the bodies of the first of them go into frames too */
enum { FRAMED = 19 };

static const char *const lines[] = {
    "N0CALL-01>APRS,WIDE1-1,WIDE2-2*,K1A:!4903.50N/07201.75W-Test",
    "A>B,1,2*,3,4,5,6,7,8:=49  .  N/072  .  W-",
    "A>S32UVT:`(_fn\"Oj/Hello",
    "A>4LLLLL,WIDE2*:'(_fn\"Oj/",
    "A>B:!0000.  S/00000.00W-",
    "A>0000PP:`vX\x1cn\"Oj/",
    "A>B:!8960.00N/07201.75W-",
    "A>B:@092345z490 .  S*0726x.xxE>",
    "N0CALL>APRS,K1A*:/092345z4903.50N/07201.75W>Test1234",
    "A>B:@312359/49  .  S/072  .  E-",
    "A>B,C:@234517h0000.00N/00000.00W>",
    "A>B:/010000z/5L!!<*e7>7P[",
    "A>B:@010000z",
    "N0CALL>APRS,K1A*::WU2Z     :Testing{003",
    "A>B:::  :: :  :Testing",
    "A-0>B::         :{a{b",
    "N0CALL>APRS:>092345zNet Control Center",
    "A>B,C:>Net Control Center",
    "A>B:>",
    "ABCDEFGHIJKLMN-0>B,qAC,*,:>hi",
    "\xc3\xa9-00>\xe2\x82\xac*:!9000.00S/18000.00W!",
    "N0CALL-0>APRS-0,WIDE1-0,WIDE2-0*,K1A-00:!4903.50N/07201.75W-",
    "A-0>S32U6T-0,B-0,C*:`(_fn\"Oj/",
    "A>B:}C>D:}E>F:}G>H:}I>J:",
    "N0CALL>APRS,TCPIP*,qAC,T2TEXAS:!4903.50N/07201.75W-Test",
    "A-0>B,qAR,C-0,qAC*,D,qAo:>hi",
    "A>S32U6T,qAC,qAX,qAU,qAo,qAO,qAS,qAr:`(_fn\"Oj/",
    "A>S36P6T:`(_fn\"Oj/",
    "A>S35Y6T:'(_fn\"Oj*",
};

static const char *any_of_lines(void) { return lines[below(sizeof lines / sizeof *lines)]; }

/* the three bytes of a Q element, or now and then of none */
static void any_name(uint8_t *three) {
    three[0] = 'q';
    three[1] = 'A';
    three[2] = one_in(8) ? (uint8_t)next() : (uint8_t)"CXUoOSrRZI"[below(10)];
}

/* with some of them put in, each before a comma or a colon */
static size_t with_names(uint8_t *bytes, size_t size) {
    while (one_in(3) && size + 4 < MOST) {
        size_t at = below(size + 1);
        while (at < size && bytes[at] != ',' && bytes[at] != ':') at++;
        memmove(bytes + at + 4, bytes + at, size - at);
        bytes[at] = ',';
        any_name(bytes + at + 1);
        size += 4;
    }
    return size;
}

static size_t damaged(uint8_t *bytes, size_t size) {
    for (size_t edits = below(4); edits > 0; edits--) {
        size_t at = below(size + 1);
        if (one_in(3) && size < MOST) {
            memmove(bytes + at + 1, bytes + at, size - at);
            bytes[at] = (uint8_t)next();
            size++;
        } else if (one_in(2) && at < size) {
            memmove(bytes + at, bytes + at + 1, size - at - 1);
            size--;
        } else if (at < size) {
            static const char telling[] = "*-,:>!=`'@ 012356789ACKLPRZoqhz/.{|~}";
            bytes[at] = one_in(2) ? (uint8_t)next() : (uint8_t)telling[below(sizeof telling - 1)];
        }
    }
    return size;
}

static size_t comment_behind(uint8_t *bytes, size_t size) {
    return one_in(4) ? size + any_bytes(bytes + size, below(MOST - size)) : size;
}

/* a line, or one inside others: their headers, each with a '}' behind it */
static size_t line_inside(uint8_t *bytes, size_t around) {
    size_t size = 0;
    for (; around > 0; around--) {
        const char *line = any_of_lines();
        size_t header = (size_t)(strchr(line, ':') + 1 - line);
        memcpy(bytes + size, line, header);
        size += header;
        bytes[size++] = '}';
    }
    const char *line = any_of_lines();
    memcpy(bytes + size, line, strlen(line));
    return size + strlen(line);
}

static size_t any_line(uint8_t *bytes) {
    if (one_in(8)) return any_bytes(bytes, below(MOST));
    size_t size = with_names(bytes, line_inside(bytes, one_in(3) ? below(6) : 0));
    return damaged(bytes, comment_behind(bytes, size));
}

static size_t any_frame(uint8_t *bytes) {
    if (one_in(8)) return any_bytes(bytes, below(MOST));
    size_t size = 0, addresses = 2 + below(10);
    for (size_t at = 0; at < addresses; at++) {
        for (int place = 0; place < 6; place++)
            bytes[size++] = (uint8_t)(2 * "ABCKLPZ0159 "[below(place < 3 ? 11 : 12)]);
        bytes[size++] = (uint8_t)((next() & 0xfe) | (at + 1 == addresses));
    }
    bytes[size++] = 0x03;
    bytes[size++] = 0xf0;
    if (one_in(3)) {
        bytes[size++] = '}';
        size += line_inside(bytes + size, below(5));
    } else {
        const char *body = strchr(lines[below(FRAMED)], ':') + 1;
        memcpy(bytes + size, body, strlen(body));
        size += strlen(body);
    }
    return damaged(bytes, comment_behind(bytes, size));
}

/* ---- what is called */

/* a letter beside an angle that is not 0 and lies on the other side */
static bool contradicts(bool minus, int32_t angle) { return angle != 0 && minus != (angle < 0); }

static bool contradicted(tusselgro_place p) {
    return contradicts(p.south, p.latitude) || contradicts(p.west, p.longitude);
}

/* none but that of the angle, and none in a kind without a position */
static bool lettered(const tusselgro_body *b) {
    bool placed = b->kind == TUSSELGRO_POSITION || b->kind == TUSSELGRO_MIC_E;
    return !contradicted(b->place) && (placed || (!b->place.south && !b->place.west));
}

/* Document 02's R-2, of a callsign's text: the SSID, once the star is off, is the one byte '0'. */
static bool has_zero(const uint8_t *text, size_t size) {
    if (size > 0 && text[size - 1] == '*') size--;
    const uint8_t *dash = memchr(text, '-', size);
    return dash != NULL && dash + 2 == text + size && dash[1] == '0';
}

/* Of the outermost header: what is inside a frame is text. */
static bool is_unmarked(tusselgro_record record) {
    bool none = true;
    for (size_t place = 0; place < HEADER_MARKS; place++) none = none && !*mark_of(&record, place);
    return none;
}

/* The bytes before the first of these two, one of which must be there. */
static size_t before(const uint8_t *bytes, uint8_t one, uint8_t other) {
    size_t size = 0;
    while (bytes[size] != one && bytes[size] != other) size++;
    return size;
}

/* The marks of the outermost header are those of the line that it was read from, but for the destination that Mic-E has not. */
static bool is_marked_by(tusselgro_record record, const uint8_t *line) {
    bool same = true, ended = false, mic_e = record.body.kind == TUSSELGRO_MIC_E && record.inner == 0;
    for (size_t place = 0; place < HEADER_MARKS; place++) {
        size_t size = ended ? 0 : before(line, place == 0 ? '>' : ',', ':');
        bool marked = !ended && !(mic_e && place == 1) && has_zero(line, size);
        same = same && *mark_of(&record, place) == marked;
        ended = ended || line[size] == ':';
        line += ended ? 0 : size + 1;
    }
    return same && ended;
}

/* The hops of a line that was read, from the first comma behind its '>' to its ':'. */
static slice hops_of(const uint8_t *line) {
    while (*line != '>') line++;
    line += before(line, ',', ':');
    return (slice){line, before(line, ':', ':')};
}

/* Neither a kind that is none nor a Q element, which a frame has not. */
static bool are_addresses(const tusselgro_path *path) {
    bool all = are_kinds_right(path);
    for (size_t at = 0; at < path->count; at++) all = all && path->hops[at].kind != TUSSELGRO_Q_CONSTRUCT;
    return all;
}

/* none, or one in a position, or one with 'z' in a status */
static bool timed_rightly(const tusselgro_body *b) {
    bool status = b->kind == TUSSELGRO_STATUS && b->time.form == TUSSELGRO_DHM_UTC;
    return is_no_time(b->time) || (is_time(b->time) && (b->kind == TUSSELGRO_POSITION || status));
}

/* an addressee in a message alone */
static bool addressed_rightly(const tusselgro_body *b) {
    static const uint8_t none[TUSSELGRO_ADDRESSEE_BYTES];
    return b->kind == TUSSELGRO_MESSAGE || memcmp(b->addressee, none, sizeof none) == 0;
}

static bool is_right(const tusselgro_body *b) {
    return b->kind <= TUSSELGRO_STATUS && lettered(b) && timed_rightly(b) && addressed_rightly(b);
}

/* Whether a position's type byte and its time, which end where its 19 bytes start, are those of its record. */
static bool starts_rightly(const uint8_t *position, const tusselgro_body *b) {
    char text[TIME_TEXT];
    size_t size = time_text(b->time, text);
    const char *types = size > 0 ? "/@" : "!=";
    return memcmp(position - size, text, size) == 0 && position[-1 - (ptrdiff_t)size] == (uint8_t)types[b->messaging];
}

/* The refusal of a position behind its type byte, in document 02's order, by its parts. */
static uint8_t position_refusal(bool timed, const uint8_t *text, size_t size) {
    if (!timed) return tusselgro_read_position(text, size).refusal;
    if (size < 7) return 10;
    return is_time_text(text) ? tusselgro_read_position(text + 7, size - 7).refusal : 17;
}

/* Whether a body was read as document 02 has it, or refused as that has it; of a Mic-E body the refusals that there are. */
static bool is_body(const tusselgro_read *read, slice input, size_t at) {
    const char *type = at < input.size && input.bytes[at] != 0 ? strchr("}!=/@:>", input.bytes[at]) : NULL;
    if (type != NULL && *type == '}') return is_read_around(read, input, at);
    if (read->record.inner != 0) return false;
    if (type == NULL) return read->refusal == 0 || read->refusal == 11 || read->refusal == 12;
    if (*type == ':' || *type == '>') return is_read_rightly(read, input, at);
    return read->refusal == position_refusal(*type == '/' || *type == '@', input.bytes + at + 1, input.size - at - 1);
}

/* Where the body of a line or of a frame would start: behind the first ':', or behind the last address and two bytes. */
static size_t body_at(slice input, bool frame) {
    size_t at = 0;
    if (frame) {
        while (at + 7 <= input.size && (input.bytes[at + 6] & 1) == 0) at += 7;
        return at + 9;
    }
    while (at < input.size && input.bytes[at] != ':') at++;
    return at + 1;
}

/* Whether its header by itself, with an empty body, is read. */
static bool is_header(slice input, bool frame) {
    size_t size = body_at(input, frame);
    if (size > input.size || input.size > TUSSELGRO_MOST_BYTES) return false;
    return (frame ? tusselgro_read_frame : tusselgro_read_text)(input.bytes, size).refusal == 0;
}

static bool is_within(tusselgro_span span, size_t size) { return span.at <= size && span.len <= size - span.at; }

/* A message or a status that was read comes out with the very bytes that stood behind the header, in a line and, if the
   callsigns can go there, in a frame. */
static bool is_body_again(tusselgro_record record, slice text, slice identifier, slice body) {
    bool same = true;
    for (int frame = 0; frame < 2; frame++) {
        tusselgro_answer answer = write_lent(frame ? tusselgro_write_frame : tusselgro_write_text, record, text, identifier, 512);
        bool put = answer.refusal == 0 && memcmp(written + answer.reported - body.size, body.bytes, body.size) == 0;
        same = same && (put || (frame && answer.refusal == 13));
    }
    return same;
}

static void any_read(void) {
    uint8_t bytes[MOST + 8] = {0};
    bool frame = one_in(2);
    slice input = {bytes, frame ? any_frame(bytes) : any_line(bytes)};
    tusselgro_read read = read_lent(frame ? tusselgro_read_frame : tusselgro_read_text, bytes, input.size);
    tusselgro_body *b = &read.record.body;
    size_t at = body_at(input, frame);
    HOLDS(is_header(input, frame) ? is_body(&read, input, at) : read.refusal >= 1 && read.refusal <= 6);
    tusselgro_read strict = read_lent(frame ? tusselgro_read_frame_strictly : tusselgro_read_text_strictly, bytes, input.size);
    HOLDS(is_read_strictly(&strict, &read, input, at, frame));
    HOLDS(is_within(b->comment, input.size) && is_within(b->identifier, input.size));
    HOLDS(read.record.header.path.count <= TUSSELGRO_MOST_HOPS && is_right(b));
    HOLDS(read.record.innermost.path.count <= TUSSELGRO_MOST_HOPS && read.record.inner <= TUSSELGRO_MOST_INNER);
    if (read.refusal != 0) return;
    if (b->kind == TUSSELGRO_POSITION) HOLDS(starts_rightly(bytes + b->comment.at - 19, b));
    HOLDS(frame ? is_unmarked(read.record) : is_marked_by(read.record, bytes));
    const tusselgro_path *path = &read.record.header.path;
    HOLDS(frame ? are_addresses(path) : is_path_read(path, hops_of(bytes)));
    HOLDS(are_kinds_right(&read.record.innermost.path));
    slice text = {bytes + b->comment.at, b->comment.len}, identifier = {bytes + b->identifier.at, b->identifier.len};
    write_lent(tusselgro_write_text, read.record, text, identifier, below(MOST));
    write_lent(tusselgro_write_frame, read.record, text, identifier, below(MOST));
    if (read.record.inner == 0 && (b->kind == TUSSELGRO_MESSAGE || b->kind == TUSSELGRO_STATUS))
        HOLDS(is_body_again(read.record, text, identifier, (slice){bytes + at, input.size - at}));
}

/* any bytes at all, but for a bool, which C holds to false or true */
static tusselgro_record wild_record(void) {
    tusselgro_record record;
    any_bytes((uint8_t *)&record, sizeof record);
    memset(&record.body.place.south, one_in(2), 1);
    memset(&record.body.place.west, one_in(2), 1);
    memset(&record.body.messaging, one_in(2), 1);
    memset(&record.body.report.current, one_in(2), 1);
    for (size_t place = 0; place < MARKS; place++) memset(mark_of(&record, place), one_in(2), 1);
    return record;
}

static uint8_t often_zero(size_t n) { return one_in(2) ? 0 : (uint8_t)below(n); }

/* a time, most often near one that is in range */
static tusselgro_time any_time(void) {
    static const uint8_t forms[] = {TUSSELGRO_NO_TIME, TUSSELGRO_DHM_UTC, TUSSELGRO_DHM_LOCAL, TUSSELGRO_HMS_UTC};
    uint8_t form = one_in(8) ? (uint8_t)next() : forms[below(4)];
    return (tusselgro_time){often_zero(34), often_zero(26), often_zero(62), often_zero(62), form};
}

/* a hop near a Q element: its name, its kind, or both, and now and then another byte of it */
static void change_hop(tusselgro_path *path) {
    tusselgro_hop *hop = &path->hops[below(one_in(2) ? 2 : TUSSELGRO_MOST_HOPS)];
    if (one_in(2)) {
        hop->call = (tusselgro_callsign){"", 3, 0, false};
        any_name(hop->call.text);
    }
    if (one_in(8)) hop->call.text[below(TUSSELGRO_MOST_CALLSIGN)] = (uint8_t)next();
    if (one_in(8)) hop->call.call_len = (uint8_t)below(6);
    if (one_in(8)) hop->call.ssid_len = (uint8_t)below(3);
    if (one_in(2)) hop->kind = (uint8_t)(one_in(4) ? next() : TUSSELGRO_Q_CONSTRUCT);
}

/* a record that was read, with some part of it changed, or none */
static tusselgro_record near_record(void) {
    uint8_t bytes[MOST + 8];
    tusselgro_record record = tusselgro_read_text(bytes, any_line(bytes)).record;
    tusselgro_place *place = &record.body.place;
    switch (below(26)) {
        case 0: record.body.kind = (uint8_t)below(7); break;
        case 1: record.body.report.message = (uint8_t)below(20); break;
        case 2: place->blanks = (uint8_t)below(8); break;
        case 3:
            place->latitude = (int32_t)below(1100000) - 550000;
            place->south = one_in(8) ? one_in(2) : place->latitude < 0;
            break;
        case 4:
            place->longitude = (int32_t)below(2200000) - 1100000;
            place->west = one_in(8) ? one_in(2) : place->longitude < 0;
            break;
        case 5: record.body.report.speed = (uint32_t)below(900); break;
        case 6: record.header.path.count = below(12); break;
        case 7: record.header.from.call_len = (uint8_t)(one_in(2) ? below(20) : next()); break;
        case 8: place->south = !place->south; break;
        case 9: place->west = !place->west; break;
        case 10: case 11: record.body.time = any_time(); break;
        case 12: record.body.messaging = !record.body.messaging; break;
        case 13: record.body.addressee[below(TUSSELGRO_ADDRESSEE_BYTES)] = (uint8_t)next(); break;
        case 14: case 15: break;
        case 17: record.inner = (uint8_t)(one_in(4) ? next() : below(6)); break;
        case 18: record.innermost = record.header; break;
        case 19: record.innermost.path.count = below(12); break;
        case 20: record.innermost.to.call_len = (uint8_t)(one_in(2) ? below(20) : next()); break;
        case 21: case 22: case 23: change_hop(&record.header.path); break;
        case 24: case 25: change_hop(&record.innermost.path); break;
        default: record.header.to.ssid_len = (uint8_t)(one_in(2) ? below(20) : next()); break;
    }
    return record;
}

static size_t size_of(tusselgro_callsign c) { return c.call_len + (size_t)(c.ssid_len > 0 ? 1 + c.ssid_len : 0); }

static bool fits(tusselgro_callsign c) { return size_of(c) <= TUSSELGRO_MOST_CALLSIGN; }

/* a text near what a message or a status may have: its length, its bytes, a time that it starts with */
static slice any_text(uint8_t *bytes) {
    size_t size = one_in(4) ? 50 + below(20) : below(70);
    for (size_t at = 0; at < size; at++) bytes[at] = (uint8_t)(one_in(200) ? next() : ' ' + below('{' - ' '));
    if (one_in(3) && size >= 7) memcpy(bytes, one_in(2) ? "092345z" : "092345/", 7);
    return (slice){bytes, size};
}

static slice any_identifier(uint8_t *bytes) { return (slice){bytes, any_bytes(bytes, below(one_in(4) ? 20 : 7))}; }

/* The innermost header, and the number of inner packets. */
static bool is_inner_right(const tusselgro_record *record) {
    static const tusselgro_record zeros;
    tusselgro_record unmarked = {.innermost = record->innermost};
    for (size_t place = 0; place < MARKS; place++) *mark_of(&unmarked, place) = false;
    if (record->inner == 0) return same_record(&unmarked, &zeros);
    return record->inner <= TUSSELGRO_MOST_INNER && are_kinds_right(&record->innermost.path) &&
           fits(record->innermost.from) && fits(record->innermost.to);
}

/* Whether the path was written rightly; in a line it stands behind the source, '>' and the destination, which Mic-E makes of six
   bytes. */
static bool has_path(const tusselgro_record *record, bool frame) {
    const tusselgro_header *h = &record->header;
    size_t to = record->body.kind == TUSSELGRO_MIC_E ? 6 : size_of(h->to);
    return frame ? is_path_frame(&h->path, written + 7) : is_path_text(&h->path, written + size_of(h->from) + 1 + to);
}

/* What is lent with a record: "18 what was handed over with it". */
static bool is_malformed(const tusselgro_body *b, slice text, slice identifier) {
    if (b->kind == TUSSELGRO_MESSAGE) return !is_message_text(text) || identifier.size > 5;
    return b->kind == TUSSELGRO_STATUS && !is_status_text(text, !is_no_time(b->time));
}

/* Whether a line or a frame ends with the text, and with the identifier that a message has. */
static bool ends_rightly(const tusselgro_body *b, slice text, slice identifier, size_t size) {
    if (b->kind == TUSSELGRO_MESSAGE && identifier.size > 0) {
        size -= identifier.size + 1;
        if (written[size] != '{' || memcmp(written + size + 1, identifier.bytes, identifier.size) != 0) return false;
    }
    return text.size == 0 || memcmp(written + size - text.size, text.bytes, text.size) == 0;
}

static void any_write(void) {
    uint8_t comment[MOST], id[32], other[32];
    slice text = one_in(2) ? any_text(comment) : (slice){comment, any_bytes(comment, below(MOST))};
    slice identifier = any_identifier(id), ignored = any_identifier(other);
    tusselgro_record record = one_in(4) ? wild_record() : near_record();
    const tusselgro_body *b = &record.body;
    writer *function = one_in(2) ? tusselgro_write_frame : tusselgro_write_text;
    size_t room = below(MOST);
    tusselgro_answer answer = write_lent(function, record, text, identifier, room);
    bool right = is_right(b) && are_kinds_right(&record.header.path) && is_inner_right(&record);
    HOLDS(right || answer.refusal == 15);
    if (record.inner != 0) {
        HOLDS(answer.refusal == 14 || answer.refusal == 15);
    } else {
        HOLDS(is_malformed(b, text, identifier) ? answer.refusal == 15 || answer.refusal == 18 : answer.refusal != 18);
    }
    if (answer.refusal == 0) HOLDS(ends_rightly(b, text, identifier, answer.reported));
    if (answer.refusal == 0) HOLDS(has_path(&record, function == tusselgro_write_frame));
    if (answer.refusal == 0 && b->kind == TUSSELGRO_POSITION)
        HOLDS(starts_rightly(written + answer.reported - text.size - 19, b));
    HOLDS((fits(record.header.from) && fits(record.header.to)) || answer.refusal == 15);
    uint8_t unchanged[sizeof written];
    memcpy(unchanged, written, sizeof written);
    for (size_t place = 0; place < MARKS; place++) *mark_of(&record, place) = one_in(2);
    record.body.comment = record.body.identifier = (tusselgro_span){(size_t)next(), (size_t)next()};
    if (b->kind != TUSSELGRO_MESSAGE) identifier = ignored;
    HOLDS(same_answer(answer, write_lent(function, record, text, identifier, room)));
    HOLDS(memcmp(unchanged, written, sizeof written) == 0);
}

/* ---- the parts of a packet: what is read of one can be written, and reads as the same again */

static const char *const parts[] = {
    "N0CALL-01*", "\x9c\x60\x86\x82\x98\x98\xe3", "4903.50N", "07201.75W", "092345z", "4903.50N/07201.75W-Test", "S32U6T",
    "(_fn\"Oj/",  "WU2Z     :Testing{003",          "092345zNet Control Center",
};

static void callsign_again(const uint8_t *bytes, size_t size) {
    static const tusselgro_callsign blank;
    tusselgro_callsign_read r = tusselgro_read_callsign(bytes, size);
    HOLDS(r.refusal == 0 || ((r.refusal == 3 || r.refusal == 4) && same_callsign(&r.call, &blank)));
    if (r.refusal != 0) return;
    HOLDS(r.call.had_zero_ssid == has_zero(bytes, size));
    r.call.had_zero_ssid = one_in(2);
    uint8_t out[17];
    tusselgro_answer answer = tusselgro_write_callsign(r.call, r.starred, out, sizeof out);
    tusselgro_callsign_read again = tusselgro_read_callsign(out, answer.reported);
    HOLDS(answer.refusal == 0 && again.refusal == 0 && again.starred == r.starred);
    r.call.had_zero_ssid = false;
    HOLDS(same_callsign(&again.call, &r.call));
}

static void address_again(const uint8_t *bytes, size_t size) {
    tusselgro_address_read r = tusselgro_read_address(bytes, size);
    HOLDS(r.refusal == 0 || r.refusal == 3);
    if (r.refusal != 0) return;
    HOLDS(!r.call.had_zero_ssid);
    uint8_t field = r.heard ? TUSSELGRO_HEARD_HOP : TUSSELGRO_HOP;
    r.call.had_zero_ssid = one_in(2);
    tusselgro_address written = tusselgro_write_address(r.call, field, r.last);
    tusselgro_address_read again = tusselgro_read_address(written.bytes, 7);
    HOLDS(written.refusal == 0 && again.refusal == 0 && again.heard == r.heard && again.last == r.last);
    r.call.had_zero_ssid = false;
    HOLDS(same_callsign(&again.call, &r.call));
}

static void latitude_again(const uint8_t *bytes, size_t size) {
    tusselgro_latitude_read r = tusselgro_read_latitude(bytes, size);
    HOLDS(r.refusal == 0 || r.refusal == 8);
    if (r.refusal != 0) return;
    uint8_t out[8];
    HOLDS(tusselgro_write_latitude(r.latitude, r.blanks, out, 8).refusal == 0);
    tusselgro_latitude_read again = tusselgro_read_latitude(out, 8);
    HOLDS(again.refusal == 0 && again.latitude == r.latitude && again.blanks == r.blanks);
    HOLDS(!contradicts(r.south, r.latitude) && again.south == (r.latitude < 0));
}

static void longitude_again(const uint8_t *bytes, size_t size) {
    uint8_t blanks = (uint8_t)below(7), out[9];
    tusselgro_longitude_read r = tusselgro_read_longitude(bytes, size, blanks);
    HOLDS(blanks > 5 ? r.refusal == 15 : r.refusal == 0 || r.refusal == 9);
    if (r.refusal != 0) return;
    HOLDS(tusselgro_write_longitude(r.longitude, out, 9).refusal == 0);
    tusselgro_longitude_read again = tusselgro_read_longitude(out, 9, blanks);
    HOLDS(again.refusal == 0 && again.longitude == r.longitude);
    HOLDS(!contradicts(r.west, r.longitude) && again.west == (r.longitude < 0));
}

static void time_again(const uint8_t *bytes, size_t size) {
    tusselgro_time_read r = tusselgro_read_time(bytes, size);
    uint8_t out[7];
    HOLDS(r.refusal == (size == 7 && is_time_text(bytes) ? 0 : 17));
    if (r.refusal != 0) {
        HOLDS(is_no_time(r.time));
        return;
    }
    HOLDS(tusselgro_write_time(r.time, out, 7).reported == 7 && memcmp(out, bytes, 7) == 0);
    tusselgro_time other = any_time();
    uint8_t expected = is_time(other) || is_no_time(other) ? 0 : 15;
    HOLDS(tusselgro_write_time(other, out, 7).refusal == expected);
}

static void position_again(const uint8_t *bytes, size_t size) {
    tusselgro_position_read r = tusselgro_read_position(bytes, size);
    HOLDS(r.refusal == 0 || (r.refusal >= 7 && r.refusal <= 10));
    if (r.refusal != 0) return;
    HOLDS(!contradicted(r.place));
    uint8_t out[19];
    tusselgro_answer answer = tusselgro_write_position(r.place, out, 19);
    if (r.place.table >= 128 || r.place.code >= 128) {
        HOLDS(answer.refusal == 15);
        return;
    }
    tusselgro_place again = tusselgro_read_position(out, 19).place;
    HOLDS(again.latitude == r.place.latitude && again.longitude == r.place.longitude);
    HOLDS(again.blanks == r.place.blanks && again.table == r.place.table && again.code == r.place.code);
    HOLDS(again.south == (r.place.latitude < 0) && again.west == (r.place.longitude < 0));
    r.place.south = !r.place.south;
    HOLDS(tusselgro_write_position(r.place, out, 19).refusal == (r.place.latitude == 0 ? 0 : 15));
}

static void destination_again(const uint8_t *bytes, size_t size) {
    tusselgro_destination_read r = tusselgro_read_destination(bytes, size);
    HOLDS(r.refusal == 0 || r.refusal == 11);
    if (r.refusal != 0) return;
    tusselgro_destination written = tusselgro_write_destination(r.latitude, r.blanks, r.message, r.west ? -1 : 1);
    tusselgro_destination_read again = tusselgro_read_destination(written.bytes, 6);
    HOLDS(written.refusal == 0 && again.refusal == 0 && again.latitude == r.latitude);
    HOLDS(again.message == r.message && again.blanks == r.blanks && again.west == r.west);
    HOLDS(!contradicts(r.south, r.latitude) && again.south == (r.latitude < 0));
}

static void information_again(const uint8_t *bytes, size_t size) {
    tusselgro_information_read r = tusselgro_read_information(bytes, size, one_in(2), one_in(2));
    tusselgro_information i = r.information;
    HOLDS(r.refusal == 0 || r.refusal == 12);
    if (r.refusal != 0) return;
    uint8_t out[8];
    tusselgro_answer answer = tusselgro_write_information(i, out, 8);
    tusselgro_destination to = tusselgro_write_destination(0, 0, 0, i.longitude);
    if (i.longitude == 1080000 || i.longitude == -1080000) {
        HOLDS(answer.refusal == 15 && to.refusal == 15);
        return;
    }
    tusselgro_destination_read d = tusselgro_read_destination(to.bytes, 6);
    tusselgro_information again = tusselgro_read_information(out, 8, d.hundred, d.west).information;
    HOLDS(again.longitude == i.longitude && again.speed == i.speed && again.course == i.course);
    HOLDS(again.code == i.code && again.table == i.table);
}

static void message_again(const uint8_t *bytes, size_t size) {
    static const uint8_t none[TUSSELGRO_ADDRESSEE_BYTES];
    tusselgro_message_read r = tusselgro_read_message(bytes, size);
    size_t text = 0, identifier = 0;
    if (!is_message((slice){bytes, size}, &text, &identifier)) {
        HOLDS(r.refusal == 18 && r.text_len == 0 && r.identifier_len == 0 && memcmp(r.addressee, none, 9) == 0);
        return;
    }
    HOLDS(r.refusal == 0 && r.text_len == text && r.identifier_len == identifier && memcmp(r.addressee, bytes, 9) == 0);
    uint8_t out[83];
    const uint8_t *behind = bytes + size - identifier;
    HOLDS(tusselgro_write_message(r.addressee, 9, bytes + 10, text, behind, identifier, out, 83).reported == size);
    HOLDS(memcmp(out, bytes, size) == 0);
}

static void status_again(const uint8_t *bytes, size_t size) {
    tusselgro_status_read r = tusselgro_read_status(bytes, size);
    size_t time = status_time((slice){bytes, size});
    if (!is_status((slice){bytes, size})) {
        HOLDS(r.refusal == 18 && is_no_time(r.time));
        return;
    }
    uint8_t out[62];
    HOLDS(r.refusal == 0 && is_no_time(r.time) == (time == 0));
    HOLDS(tusselgro_write_status(r.time, bytes + time, size - time, out, 62).reported == size);
    HOLDS(size == 0 || memcmp(out, bytes, size) == 0);
}

static void any_part(void) {
    static void (*const again[])(const uint8_t *, size_t) = {
        callsign_again, address_again,     latitude_again,    longitude_again, time_again,
        position_again, destination_again, information_again, message_again,   status_again,
    };
    uint8_t bytes[MOST + 8];
    size_t which = below(sizeof parts / sizeof *parts), size = strlen(parts[which]);
    memcpy(bytes, parts[which], size);
    if (one_in(8)) size += any_text(bytes + size).size;
    size = one_in(8) ? any_bytes(bytes, below(32)) : damaged(bytes, size);
    const uint8_t *lent = lend_input(0, (slice){bytes, size}, one_in(2));
    again[which](lent, size);
    HOLDS(input_kept(0, lent, (slice){bytes, size}));
}

/* ---- lists, bounds and boxes */

typedef struct {
    uint32_t speed, course;
    int32_t longitude;
    bool hundred, west;
} setting;

static tusselgro_answer motion_fields(const void *target, uint8_t *out, size_t room) {
    const setting *s = target;
    return tusselgro_list_motion(s->speed, s->course, out, room);
}

static tusselgro_answer longitude_fields(const void *target, uint8_t *out, size_t room) {
    const setting *s = target;
    return tusselgro_list_longitude(s->longitude, s->hundred, s->west, out, room);
}

static void any_list(void) {
    setting s = {(uint32_t)below(810), (uint32_t)below(370), (int32_t)below(2200000) - 1100000, one_in(2), one_in(2)};
    if (one_in(8)) s = (setting){(uint32_t)next(), (uint32_t)next(), (int32_t)next(), one_in(2), one_in(2)};
    tusselgro_answer answer = fill_lent(one_in(2) ? motion_fields : longitude_fields, &s, 3, below(130));
    for (size_t at = 3; at < 3 * answer.reported; at += 3) HOLDS(memcmp(written + at - 3, written + at, 3) < 0);
}

/* Document 02's R-1, of an angle of at most that size: from the angle outward, on the side of its letter. */
static bool is_box(tusselgro_box box, int32_t most, int64_t angle, uint8_t blanks, bool minus) {
    static const int32_t widths[6] = {1, 10, 100, 1000, 6000, 60000};
    if (angle < -most || angle > most || blanks > 5 || contradicts(minus, (int32_t)angle))
        return box.refusal == 15 && box.lower == 0 && box.upper == 0;
    int64_t lower = minus ? angle - widths[blanks] : angle, upper = minus ? angle : angle + widths[blanks];
    return box.refusal == 0 && box.lower == 2 * lower && box.upper == 2 * upper;
}

static void any_bounds(void) {
    int32_t angle = one_in(4) ? (int32_t)next() : (int32_t)below(2200000) - 1100000;
    if (one_in(4)) angle = (int32_t)below(3) - 1;
    uint8_t blanks = (uint8_t)below(8);
    bool minus = one_in(8) ? one_in(2) : angle == 0 ? one_in(2) : angle < 0;
    tusselgro_bounds bounds = one_in(2) ? tusselgro_latitude_bounds(angle, blanks) : tusselgro_longitude_bounds(angle, blanks);
    HOLDS(bounds.refusal == 0 ? bounds.lower < bounds.upper : bounds.refusal == 15 && bounds.lower == 0 && bounds.upper == 0);
    HOLDS(is_box(tusselgro_latitude_box(angle, blanks, minus), 540000, angle, blanks, minus));
    HOLDS(is_box(tusselgro_longitude_box(angle, blanks, minus), 1080000, angle, blanks, minus));
}

/* ---- turns */

static void say_turn(void) { printf("seed %llu, turn %llu\n", (unsigned long long)seed, (unsigned long long)turn); }

static void ended(int signal) {
    printf("ended by signal %d (%d: no answer within ten seconds): ", signal, SIGALRM);
    say_turn();
    fflush(stdout);
    _exit(1);
}

static void one_turn(void) {
    state = seed * 0x100000001b3u + turn;
    switch (below(10)) {
        case 0: case 1: case 2: any_read(); break;
        case 3: case 4: case 5: any_write(); break;
        case 6: case 7: any_part(); break;
        case 8: any_bounds(); break;
        default: any_list(); break;
    }
}

void check_random(uint64_t chosen, uint64_t first, unsigned seconds) {
    static const int signals[] = {SIGSEGV, SIGBUS, SIGILL, SIGFPE, SIGABRT, SIGALRM};
    for (size_t at = 0; at < sizeof signals / sizeof *signals; at++) signal(signals[at], ended);
    time_t end = time(NULL) + (time_t)seconds;
    seed = chosen;
    for (turn = first;; turn++) {
        if (turn % 64 == 0) alarm(10);
        one_turn();
        if (any_fault()) {
            say_turn();
            return;
        }
        if (seconds == 0 || (turn % 64 == 63 && time(NULL) >= end)) break;
    }
    printf("random calls of the boundary: seed %llu, %llu turns\n", (unsigned long long)seed, (unsigned long long)(turn - first + 1));
}
