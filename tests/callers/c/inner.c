/*
 * Packets inside packets against document 02's sentences, by code that has nothing of the library's but what it reads of a
 * text: "A body starting `}` holds a complete textual header and body; the inner packet's body may itself be a third-party body.
 * Up to four inner packets are read, and the record shows the outermost header, the innermost header and body, and their
 * number".
 */
#include "check.h"

#include <stdarg.h>
#include <stdio.h>
#include <stdlib.h>
#include <string.h>

/* ---- the sentences */

/* How many bodies start '}', of a text and of what they hold, be their headers good or not. */
static size_t openings(slice text) {
    size_t found = 0;
    for (size_t at = 0; at + 1 < text.size; at++) {
        if (text.bytes[at] != ':') continue;
        if (text.bytes[at + 1] != '}') break;
        found++;
    }
    return found;
}

/* "places counted in the whole input"; what is not there has none */
static tusselgro_span moved(tusselgro_span span, size_t by) {
    if (span.at > 0) span.at += by;
    return span;
}

bool is_read_around(const tusselgro_read *read, slice input, size_t at) {
    slice inside = {input.bytes + at + 1, input.size - at - 1};
    tusselgro_read inner = tusselgro_read_text(inside.bytes, inside.size);
    if (inner.refusal != 0)
        return read->refusal == inner.refusal || (read->refusal == 19 && openings(inside) >= TUSSELGRO_MOST_INNER);
    if (inner.record.inner == TUSSELGRO_MOST_INNER) return read->refusal == 19;
    tusselgro_body body = inner.record.body;
    body.comment = moved(body.comment, at + 1);
    body.identifier = moved(body.identifier, at + 1);
    return read->refusal == 0 && read->record.inner == inner.record.inner + 1 && same_body(&read->record.body, &body) &&
           same_header(&read->record.innermost, inner.record.inner == 0 ? &inner.record.header : &inner.record.innermost);
}

/* ---- a record in words: how many inner packets, the innermost header, the kind and its parts; places are told as those
   behind the outermost header */

enum { MOST = 640, TOLD = 256 };

static void tell(char told[TOLD], const char *format, ...) {
    size_t used = strlen(told);
    va_list rest;
    va_start(rest, format);
    vsnprintf(told + used, TOLD - used, format, rest);
    va_end(rest);
}

/* as it was typed: with the zero that was dropped */
static void tell_call(char told[TOLD], const tusselgro_callsign *c) {
    int size = c->call_len + (c->ssid_len > 0 ? 1 + c->ssid_len : 0);
    tell(told, "%.*s%s", size, (const char *)c->text, c->had_zero_ssid ? "-0" : "");
}

static void tell_header(char told[TOLD], const tusselgro_header *h) {
    tell_call(told, &h->from);
    tell(told, ">");
    tell_call(told, &h->to);
    for (size_t hop = 0; hop < h->path.count; hop++) {
        char hop_told[HOP_TOLD];
        tell_hop(hop_told, &h->path.hops[hop]);
        tell(told, ",%s", hop_told);
    }
}

static void tell_body(char told[TOLD], const tusselgro_body *b, size_t header) {
    static const char *const kinds[] = {"unknown", "position", "mic-e", "message", "status"};
    char time[TIME_TEXT] = "";
    time_text(b->time, time);
    tell(told, "%s", kinds[b->kind]);
    if (b->kind == TUSSELGRO_UNKNOWN) return;
    if (b->kind == TUSSELGRO_POSITION) tell(told, b->messaging ? " messaging" : "");
    if (time[0]) tell(told, " %s", time);
    if (b->kind <= TUSSELGRO_MIC_E) tell(told, " %d %d", b->place.latitude, b->place.longitude);
    if (b->kind == TUSSELGRO_MIC_E) tell(told, " %u knots %u degrees", b->report.speed, b->report.course);
    if (b->kind == TUSSELGRO_MESSAGE) tell(told, " %.9s", (const char *)b->addressee);
    tell(told, " %zu+%zu", b->comment.at - header, b->comment.len);
    if (b->identifier.at > 0) tell(told, " %zu+%zu", b->identifier.at - header, b->identifier.len);
}

static void tell_record(char told[TOLD], const tusselgro_record *r, size_t header) {
    told[0] = 0;
    tell(told, "%d ", r->inner);
    if (r->inner > 0) {
        tell_header(told, &r->innermost);
        tell(told, " ");
    }
    tell_body(told, &r->body, header);
}

/* Behind the header of a line and of a frame, which keeps its own source and destination. A number alone is a refusal. */
static void reads(slice body, const char *expected, const char *file, int line) {
    for (const form *f = forms; f < forms + 2; f++) {
        uint8_t bytes[MOST];
        char told[TOLD];
        slice packet = behind_header(f, body, bytes);
        tusselgro_read read = read_lent(f->read, packet.bytes, packet.size);
        refused(read.refusal, strchr(expected, ' ') ? 0 : atoi(expected), file, line);
        if (body.bytes[0] == '}') holds(is_read_around(&read, packet, f->header.size), "as document 02 has it", file, line);
        if (read.refusal != 0) continue;
        tusselgro_header alone = f->read(f->header.bytes, f->header.size).record.header;
        tell_record(told, &read.record, f->header.size);
        holds(strcmp(told, expected) == 0, told, file, line);
        holds(read.record.inner == 0 || same_header(&read.record.header, &alone), "the outermost header", file, line);
    }
}

#define READS(string, expected) reads(SLICE(string), expected, __FILE__, __LINE__)
#define POINT "!0000.01N/00000.02E-"

static void check_levels(void) {
    READS(POINT "Hi", "0 position 1 2 20+2");
    READS("}C>D:" POINT "Hi", "1 C>D position 1 2 25+2");
    READS("}E>F:}C>D:" POINT "Hi", "2 C>D position 1 2 30+2");
    READS("}G>H:}E>F:}C>D:" POINT "Hi", "3 C>D position 1 2 35+2");
    READS("}I>J:}G>H:}E>F:}C>D:" POINT "Hi", "4 C>D position 1 2 40+2");
    READS("}K>L:}I>J:}G>H:}E>F:}C>D:" POINT "Hi", "19");
    READS("}M>N:}K>L:}I>J:}G>H:}E>F:}C>D:" POINT "Hi", "19");
    READS("}I>J:}G>H:}E>F:}C>D:}", "19");
    READS("}I>J:}G>H:}E>F:}C>D:}x", "19");
    READS("}I>J:}G>H:}E>F:}C>D:}C->D:", "19");
    READS("}I>J:}G>H:}E>F:}C>D:", "4 C>D unknown");
    READS("}I>J:}G>H:}E>F:}C>D:x}", "4 C>D unknown");
}

/* "An inner body is judged by the same rules as an outer one." */
static void check_kinds(void) {
    READS("}C>D:", "1 C>D unknown");
    READS("}C>D:x", "1 C>D unknown");
    READS("}C>D:E>F:x", "1 C>D unknown");
    READS("}C>D:x}E>F:", "1 C>D unknown");
    READS("}E>F:}C>D:", "2 C>D unknown");
    READS("}C>D:=49  .  N/072  .  W-", "1 C>D position messaging 294000 -432000 25+0");
    READS("}C>D:@092345z4903.50N/07201.75W>Test1234", "1 C>D position messaging 092345z 294350 -432175 32+8");
    READS("}C>D:/234517h4903.50N/07201.75W>", "1 C>D position 234517h 294350 -432175 32+0");
    READS("}C>S32U6T:`(_fn\"Oj/Comment", "1 C> mic-e 200564 -72774 20 knots 251 degrees 19+7");
    READS("}E>LLLLLL:}C>4LLLLL-7,F*:'(_fn\"Oj/", "2 C>,F* mic-e -240000 72774 20 knots 251 degrees 34+0");
    READS("}C>D::WU2Z     :Testing", "1 C>D message WU2Z      16+7");
    READS("}C>D::WU2Z     :Testing{003", "1 C>D message WU2Z      16+7 24+3");
    READS("}E>F:}C>D::}E>F:    :}{}", "2 C>D message }E>F:     21+1 23+1");
    READS("}C>D:>Net Control Center", "1 C>D status 6+18");
    READS("}C>D:>092345zNet Control Center", "1 C>D status 092345z 13+18");
    READS("}E>F:}C>D:>", "2 C>D status 11+0");
    READS("}C>D:!0000.00S\xff" "00000.00W\x80", "1 C>D position 0 0 25+0");
    READS("}C>S32UVT:`kW\x80n\"Oj/", "1 C> mic-e 200564 -1080000 20 knots 251 degrees 19+0");
}

/* Its own callsigns, hops, stars and marks; those of a header between are gone. */
static void check_headers(void) {
    READS("}C-1>D-01,E,F*,G:>hi", "1 C-1>D-01,E*,F*,G status 18+2");
    READS("}C-0>D-0,E-0,F-0*,G:>hi", "1 C-0>D-0,E-0*,F-0*,G status 21+2");
    READS("}C-00>D-0-0,E-+0:>", "1 C-00>D-0-0,E-+0 status 18+0");
    READS("}C*>D-0*:x", "1 C>D-0 unknown");
    READS("}C-0>S32U6T-0,E-0:`(_fn\"Oj/", "1 C-0>,E-0 mic-e 200564 -72774 20 knots 251 degrees 27+0");
    READS("}C>D,1,2,3,4,5,6,7,8*:>", "1 C>D,1*,2*,3*,4*,5*,6*,7*,8* status 23+0");
    READS("}C-0>D-0,X-0*,Y:}E>F:>hi", "2 E>F status 22+2");
    READS("}C>D,qAC,E*:>hi", "1 C>D,[qAC],E* status 13+2");
    READS("}C>D,E,qAR,F*,qAC*,qAo,G:>hi", "1 C>D,E*,[qAR],F*,qAC*,[qAo],G status 26+2");
    READS("}C>D,TCPIP*,qAC,T2TEXAS:" POINT, "1 C>D,TCPIP*,[qAC],T2TEXAS position 1 2 44+0");
    READS("}C>D,qAC,qAX,qAU,qAo,qAO,qAS,qAr,qAR:x", "1 C>D,[qAC],[qAX],[qAU],[qAo],[qAO],[qAS],[qAr],[qAR] unknown");
    READS("}C>S32U6T,qAZ,E-0:`(_fn\"Oj/", "1 C>,[qAZ],E-0 mic-e 200564 -72774 20 knots 251 degrees 27+0");
    READS("}C>D,qAC,X*:}E>F,qAI:>hi", "2 E>F,[qAI] status 22+2");
    READS("}C>D,qAC,X*:}E>F:>hi", "2 E>F status 18+2");
    READS("}qAC>qAR:x", "1 qAC>qAR unknown");
    READS("}c\xc3\xa9>d:x", "1 c\xc3\xa9>d unknown");
    READS("}>:", "1 > unknown");
    READS("}>:}>:}>:}>:", "4 > unknown");
    READS("}}C>D:x", "1 }C>D unknown");
    READS("}ABCDEFGHIJKLMN-1>B:x", "1 ABCDEFGHIJKLMN-1>B unknown");
}

/* Not a packet inside: a '}' further on, or where another type byte comes first. */
static void check_others(void) {
    READS("x}C>D:", "0 unknown");
    READS(" }C>D:", "0 unknown");
    READS("{C>D:x", "0 unknown");
    READS(POINT "}C>D:x", "0 position 1 2 20+6");
    READS(":WU2Z     :}C>D:x", "0 message WU2Z      11+6");
    READS(">}C>D:", "0 status 1+5");
    size_t inside = 0;
    for (int byte = 0; byte <= 255; byte++) {
        uint8_t body[] = "}C>D:x", bytes[MOST];
        body[0] = (uint8_t)byte;
        for (const form *f = forms; f < forms + 2; f++) {
            slice packet = behind_header(f, (slice){body, 6}, bytes);
            inside += f->read(packet.bytes, packet.size).record.inner;
        }
    }
    HOLDS(inside == 2);
}

/* ---- refused: "inner faults keep their numbers" */

typedef struct {
    slice packet;
    int refusal;
} fault;

#define FAULT(string, refusal) {{BYTES(string)}, refusal}

/* Each inside so many packets; inside four it would be a fifth, and so it is inside five. */
static void refuses_inside(const fault *f, size_t around) {
    uint8_t body[MOST];
    size_t size = 0;
    for (size_t level = 0; level < around; level++, size += 5) memcpy(body + size, "}E>F:", 5);
    body[size++] = '}';
    if (f->packet.size > 0) memcpy(body + size, f->packet.bytes, f->packet.size);
    char expected[8];
    snprintf(expected, sizeof expected, "%d", around < 4 ? f->refusal : 19);
    reads((slice){body, size + f->packet.size}, expected, __FILE__, __LINE__);
}

static void check_faults(void) {
    static const fault faults[] = {
        FAULT("", 2), FAULT("x", 2), FAULT("}", 2), FAULT(":", 2), FAULT("C>D", 2), FAULT("C:>D", 2),
        FAULT("C->D:", 3), FAULT("-1>D:", 3), FAULT("C>D-:", 3), FAULT("C>D,-:", 3), FAULT("C>D,\xff:x", 3),
        FAULT("ABCDEFGHIJKLMNOPQ>D:", 4), FAULT("ABCDEFGHIJKLMNO-0>D:", 4), FAULT("C>D,ABCDEFGHIJKLMNOPQ:", 4),
        FAULT("C>D,1,2,3,4,5,6,7,8,9:", 5), FAULT("C>D,1,2,3,4,5,6,7,8,qAC:", 5), FAULT("C>D,qAC,2,3,4,5,6,7,8,9:", 5),
        FAULT("C>D,qAc:", 6), FAULT("C>D,E*,qA*:}", 6), FAULT("C>D,qAC,qAx:x", 6),
        FAULT("C>D:!/5L!!<*e7>7P[", 7), FAULT("C>D:=", 7), FAULT("C>D:/010000z", 7),
        FAULT("C>D:!9000.01N/18000.01E-", 8), FAULT("C>D:!9000.00N/18000.01E-", 9), FAULT("C>D:@010000z0", 10),
        FAULT("C>D:!4903.50N/07201.75W", 10), FAULT("C>D:/", 10),
        FAULT("C>LLLLLL:`(_fn\"Oj/", 11), FAULT("C>D:'(_fn\"Oj/", 11), FAULT("C>S32U6T:`(_fn\"Oj", 12),
        FAULT("C>D:/000000z4903.50N/07201.75W>", 17), FAULT("C>D::", 18), FAULT("C>D::WU2Z:Testing", 18),
        FAULT("C>D:>" X50 X10 "123", 18),
    };
    for (size_t which = 0; which < sizeof faults / sizeof *faults; which++)
        for (size_t around = 0; around <= 5; around++) refuses_inside(&faults[which], around);
}

#define LINE(string) read_lent(tusselgro_read_text, BYTES(string))

/* "Faults come in reading order, outermost first"; 512 is tested once, of the whole. */
static void check_order(void) {
    REFUSED(LINE("A:}C>D:x"), 2);
    REFUSED(LINE("A->B:}C>D,qAc:"), 3);
    REFUSED(LINE("ABCDEFGHIJKLMNOPQ>B:}"), 4);
    REFUSED(LINE("A>B,1,2,3,4,5,6,7,8,9:}C->D:"), 5);
    REFUSED(LINE("A>B,qAc:}C->D:"), 6);
    REFUSED(LINE("A>B:}C->D:}E>F,qAc:"), 3);
    REFUSED(LINE("A>B:}C>D,qAc:}E->F:"), 6);
    REFUSED(LINE("A>B,qAC:}C>D,qAC:}E->F:"), 3);
    REFUSED(LINE("A>B:}C>D:}E>F:}G>H:}I->J:}K>L:x"), 3);
    REFUSED(LINE("A>B:}C>D:}E>F:}G>H,qAc:}I>J:}K>L:x"), 6);
    REFUSED(LINE("A>B:}C>D:}E>F:}G>H,qAC:}I>J:}K>L:x"), 19);
    REFUSED(LINE("A>B:}C>D:}E>F:}G>H:}I>J:}K->L:x"), 19);
    for (const form *f = forms; f < forms + 2; f++) {
        uint8_t packet[513];
        memset(packet, 'x', sizeof packet);
        memcpy(packet, f->header.bytes, f->header.size);
        memcpy(packet + f->header.size, "}C>D:", 5);
        REFUSED(read_lent(f->read, packet, 512), 0);
        REFUSED(read_lent(f->read, packet, 513), 1);
        packet[f->header.size + 4] = 'x';
        REFUSED(read_lent(f->read, packet, 512), 2);
        REFUSED(read_lent(f->read, packet, 513), 1);
    }
}

/* ---- whole lines and frames, with places as they stand in them */

static bool is_told(const tusselgro_header *h, const char *expected) {
    char told[TOLD] = "";
    tell_header(told, h);
    return strcmp(told, expected) == 0;
}

static bool is_span(tusselgro_span span, size_t at, size_t len) { return span.at == at && span.len == len; }

static void check_whole(void) {
    tusselgro_read read = LINE("A>B,C-0*:}E>F:>092345zhi");
    REFUSED(read, 0);
    HOLDS(read.record.inner == 1 && is_told(&read.record.header, "A>B,C-0*") && is_told(&read.record.innermost, "E>F"));
    HOLDS(read.record.body.kind == TUSSELGRO_STATUS && is_span(read.record.body.comment, 22, 2));
    HOLDS(same_time(read.record.body.time, (tusselgro_time){9, 23, 45, 0, TUSSELGRO_DHM_UTC}));
    read = LINE("N0CALL-01>APRS,WIDE1-1*:}W1AW-0>APZ,TCPIP,N0CALL*::WU2Z     :Testing{003");
    REFUSED(read, 0);
    HOLDS(read.record.inner == 1 && is_told(&read.record.header, "N0CALL-01>APRS,WIDE1-1*"));
    HOLDS(is_told(&read.record.innermost, "W1AW-0>APZ,TCPIP*,N0CALL*"));
    HOLDS(is_span(read.record.body.comment, 61, 7) && is_span(read.record.body.identifier, 69, 3));
    read = LINE("A-0>S32U6T-0,X-0,Y:}C>D:}E>S32U6T-0,Z-0*:`(_fn\"Oj/Hi");
    REFUSED(read, 0);
    HOLDS(read.record.inner == 2 && is_told(&read.record.header, "A-0>S32U6T-0,X-0,Y"));
    HOLDS(is_told(&read.record.innermost, "E>,Z-0*") && read.record.body.kind == TUSSELGRO_MIC_E);
    HOLDS(read.record.body.place.latitude == 200564 && is_span(read.record.body.comment, 50, 2));
    read = LINE("A>B,X,qAR,Y*,qAC:}C>D,qAC,Z:>hi");
    REFUSED(read, 0);
    HOLDS(is_told(&read.record.header, "A>B,X*,[qAR],Y*,[qAC]") && is_told(&read.record.innermost, "C>D,[qAC],Z"));
    HOLDS(read.record.inner == 1 && is_span(read.record.body.comment, 29, 2));
    REFUSED(LINE("A>S32U6T:}C>LLLLLL:`(_fn\"Oj/"), 11);
    REFUSED(LINE("A>LLLLLL:}C>S32U6T:`(_fn\"Oj/"), 0);
    read = read_lent(tusselgro_read_frame, BYTES("\x82\xa0\xa4\xa6@@\xe0\x9c\x60\x86\x82\x98\x98\x62\x9c\x60\x86\x82\x98\x98\xe3"
                                                 "\x03\xf0}n0call-0>S32U6T,qa1*:`(_fn\"Oj/Hi"));
    REFUSED(read, 0);
    HOLDS(read.record.inner == 1 && is_told(&read.record.header, "N0CALL-1>APRS,N0CALL-1*"));
    HOLDS(is_told(&read.record.innermost, "n0call-0>,qa1*") && is_span(read.record.body.comment, 54, 2));
    HOLDS(read.record.body.kind == TUSSELGRO_MIC_E && read.record.body.place.longitude == -72774);
}

/* ---- written: "Writing them remains refused with 14", and 15 before that */

static tusselgro_record record_of(const char *line) {
    return tusselgro_read_text((const uint8_t *)line, strlen(line)).record;
}

static const char *const kinds[] = {
    "C>D:",    "C>D:" POINT, "C>D:@092345z0000.01N/00000.02E-", "C-0>S32U6T-0,E*:`(_fn\"Oj/", "C>D::WU2Z     :",
    "C>D:>hi", "C>D,E,qAC,F*,qAR:>092345z", "C>D,1,2,3,4,5,6,7,8-0*:>",
};

enum { KINDS = sizeof kinds / sizeof *kinds };

static tusselgro_record inside(const char *packet, int levels) {
    char line[MOST] = "A>B,X:";
    for (int level = 1; level < levels; level++) strcat(line, "}E>F:");
    strcat(strcat(line, "}"), packet);
    return record_of(line);
}

/* What is lent with the record would be 18 or 1, its callsigns 13. */
#define SPOILT(record, statement, expected)     \
    do {                                        \
        tusselgro_record r = record;            \
        statement;                              \
        REFUSES(r, "|" X50 X50, X10, expected); \
    } while (0)

static void check_unwritten(void) {
    static const tusselgro_record zeros;
    for (int levels = 1; levels <= 4; levels++) {
        for (size_t which = 0; which < KINDS; which++) {
            tusselgro_record record = inside(kinds[which], levels);
            HOLDS(record.inner == levels);
            SPOILT(record, , 14);
            SPOILT(record, r.header.from = record_of("ABCDEFG>B:").header.from, 14);
            SPOILT(record, for (size_t place = 0; place < MARKS; place++) *mark_of(&r, place) = true, 14);
            SPOILT(record, r.body.comment = r.body.identifier = ((tusselgro_span){(size_t)-1, 1}), 14);
        }
        SPOILT(zeros, r.inner = (uint8_t)levels, 14);
    }
    static const uint8_t many[600];
    for (const form *f = forms; f < forms + 2; f++) {
        tusselgro_record record = inside(kinds[1], 1);
        REFUSED(write_lent(f->write, record, (slice){many, sizeof many}, SLICE(""), 0), 14);
        REFUSED(f->write(record, NULL, 0, NULL, 0, NULL, 0), 14);
    }
}

/* The numbers are 0 to 4. */
static void check_numbers(void) {
    for (int number = 1; number <= 255; number++)
        SPOILT(inside("C>D:" POINT, 1), r.inner = (uint8_t)number, number <= 4 ? 14 : 15);
    for (size_t which = 0; which < KINDS; which++) {
        SPOILT(inside(kinds[which], 1), r.inner = 4, 14);
        SPOILT(inside(kinds[which], 4), r.inner = 5, 15);
        SPOILT(inside(kinds[which], 1), r.inner = 255, 15);
    }
}

/* At number 0 the innermost header is blank, but for marks: those are not judged, and the packet is written. */
static void check_blank(void) {
    for (size_t which = 0; which < KINDS; which++) {
        tusselgro_record record = record_of(kinds[which]);
        SPOILT(record, r.innermost = record_of("C>D:").header, 15);
        SPOILT(record, r.innermost.from.text[0] = 'C', 15);
        SPOILT(record, r.innermost.from.text[15] = 1, 15);
        SPOILT(record, r.innermost.from.call_len = 1, 15);
        SPOILT(record, r.innermost.from.ssid_len = 255, 15);
        SPOILT(record, r.innermost.to.text[0] = 'D', 15);
        SPOILT(record, r.innermost.to.call_len = 255, 15);
        SPOILT(record, r.innermost.to.ssid_len = 1, 15);
        SPOILT(record, r.innermost.path.count = 1, 15);
        SPOILT(record, r.innermost.path.count = 9, 15);
        SPOILT(record, r.innermost.path.count = (size_t)-1, 15);
        for (int at = 0; at < TUSSELGRO_MOST_HOPS; at++) {
            SPOILT(record, r.innermost.path.hops[at].call.text[0] = 1, 15);
            SPOILT(record, r.innermost.path.hops[at].call.call_len = 1, 15);
            SPOILT(record, r.innermost.path.hops[at].call.ssid_len = 1, 15);
            SPOILT(record, r.innermost.path.hops[at].kind = TUSSELGRO_HEARD, 15);
            SPOILT(record, r.innermost.path.hops[at].kind = TUSSELGRO_Q_CONSTRUCT, 15);
            SPOILT(record, r.innermost.path.hops[at].kind = 255, 15);
        }
    }
    for (size_t place = HEADER_MARKS; place < MARKS; place++) {
        tusselgro_record record = record_of("C>D:" POINT), unknown = record_of("C>D:x");
        *mark_of(&record, place) = *mark_of(&unknown, place) = true;
        HOLDS(wrote(write_lent(tusselgro_write_text, record, SLICE(""), SLICE(""), 24), BYTES("C>D:" POINT)));
        REFUSED(write_lent(tusselgro_write_frame, record, SLICE(""), SLICE(""), 36), 0);
        REFUSES(unknown, "", "", 14);
    }
}

/* Above 0 both headers are in range, and the body beside the innermost. */
#define IN_EITHER(statement)                            \
    SPOILT(record, h = &r.header; statement, 15);       \
    SPOILT(record, h = &r.innermost; statement, 15)

static void check_ranges(void) {
    static const tusselgro_callsign zero_ssid = {"C-0", 1, 1, false}, none;
    for (size_t which = 0; which < KINDS - 1; which++) {
        tusselgro_record record = inside(kinds[which], 1 + (int)which % 4);
        bool mic_e = record.body.kind == TUSSELGRO_MIC_E;
        tusselgro_header *h;
        IN_EITHER(h->from.text[15] = 'x');
        IN_EITHER(h->from.text[0] = 0xff);
        IN_EITHER(h->from.call_len = 17);
        IN_EITHER(h->from.ssid_len = 255);
        IN_EITHER(h->from = zero_ssid);
        IN_EITHER(h->to = zero_ssid);
        IN_EITHER(h->path.count = 9);
        IN_EITHER(h->path.count = (size_t)-1);
        IN_EITHER(h->path.hops[7].call.text[0] = 'E');
        IN_EITHER(h->path.hops[7].kind = TUSSELGRO_HEARD);
        IN_EITHER(h->path.hops[7].kind = TUSSELGRO_Q_CONSTRUCT);
        IN_EITHER(h->path.hops[7].kind = 255);
        IN_EITHER(h->path.hops[0].kind = TUSSELGRO_Q_CONSTRUCT);
        IN_EITHER(h->path.hops[0].kind = 3);
        IN_EITHER(h->path.hops[0].call = zero_ssid);
        SPOILT(record, r.header.path.count = 0, 15);
        SPOILT(record, r.header.path.count = 2, 14);
        SPOILT(record, r.header.to = none, 14);
        SPOILT(record, r.header = record_of("1>2,3,4,5,6,7,8,9,10*:").header, 14);
        SPOILT(record, r.innermost.from = none, 14);
        SPOILT(record, r.innermost.to = none, 14);
        SPOILT(record, r.innermost.to = r.header.from, mic_e ? 15 : 14);
        SPOILT(record, r.body.kind = TUSSELGRO_STATUS + 1, 15);
        SPOILT(record, r.body.kind = 255, 15);
        SPOILT(record, r.body.report.message = 16, 15);
        SPOILT(record, r.body.report.course = 361, 15);
        SPOILT(record, r.body.place.latitude = 540001; r.body.place.south = false, 15);
        SPOILT(record, r.body.place.blanks = 6, 15);
        SPOILT(record, r.body.time.second = 1, 15);
        if (record.body.kind != TUSSELGRO_MESSAGE) SPOILT(record, r.body.addressee[8] = ' ', 15);
        if (record.body.kind != TUSSELGRO_POSITION) SPOILT(record, r.body.messaging = true, 15);
    }
    SPOILT(inside("C>D,1,2,3,4,5,6,7,8*:x", 2), r.innermost.path.count = 7, 15);
    SPOILT(record_of("C>S32U6T:`(_fn\"Oj/"), r.header.to = r.header.from, 15);
    SPOILT(inside("C>D:!0000.00N\x7f" "00000.00E\x7f", 1), , 14);
    SPOILT(inside("C>D:!0000.00N\x80" "00000.00E-", 1), , 15);
    SPOILT(inside("C>D:!0000.00N/00000.00E\xff", 4), , 15);
    SPOILT(inside("C>S32UVT:`kW\x7fn\"Oj/", 1), , 14);
    SPOILT(inside("C>S32UVT:`kW\x80n\"Oj/", 1), , 15);
}

void check_inner(void) {
    check_levels();
    check_kinds();
    check_headers();
    check_others();
    check_faults();
    check_order();
    check_whole();
    check_unwritten();
    check_numbers();
    check_blank();
    check_ranges();
}
