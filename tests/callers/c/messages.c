/*
 * Messages and status lines against document 02's sentences, by code that has nothing of the library's: "nine addressee
 * characters padded with spaces, `:`, up to 67 bytes of text without `|`, `~` or `{`, and optionally `{` with an identifier of
 * 1 to 5 bytes. A status is up to 62 bytes, or a `z` time as in R-3 and up to 55."
 */
#include "check.h"

#include <stdio.h>
#include <string.h>

/* ---- the sentences */

bool is_message_text(slice text) {
    bool allowed = text.size <= 67;
    for (size_t at = 0; at < text.size; at++) allowed = allowed && memchr("|~{", text.bytes[at], 3) == NULL;
    return allowed;
}

bool is_message(slice body, size_t *text, size_t *identifier) {
    if (body.size < 10 || body.bytes[9] != ':') return false;
    const uint8_t *behind = body.bytes + 10, *brace = memchr(behind, '{', body.size - 10);
    *text = brace ? (size_t)(brace - behind) : body.size - 10;
    *identifier = brace ? body.size - 10 - *text - 1 : 0;
    return is_message_text((slice){behind, *text}) && (brace == NULL || (*identifier >= 1 && *identifier <= 5));
}

size_t status_time(slice body) {
    return body.size >= 7 && body.bytes[6] == 'z' && is_time_text(body.bytes) ? 7 : 0;
}

bool is_status(slice body) {
    size_t time = status_time(body);
    return time == 0 ? body.size <= 62 : body.size - time <= 55;
}

bool is_status_text(slice text, bool timed) {
    return timed ? text.size <= 55 : text.size <= 62 && status_time(text) == 0;
}

static bool is_span(tusselgro_span span, size_t at, size_t len) { return span.at == at && span.len == len; }

/* nothing but a header, the kind, and what messages and status lines have */
static bool is_bare(tusselgro_record record) {
    tusselgro_record bare = {.header = record.header};
    bare.body.comment = record.body.comment;
    bare.body.identifier = record.body.identifier;
    bare.body.time = record.body.time;
    memcpy(bare.body.addressee, record.body.addressee, sizeof bare.body.addressee);
    bare.body.kind = record.body.kind;
    return same_record(&bare, &record);
}

static bool is_read_message(const tusselgro_read *read, slice input, size_t at) {
    const tusselgro_body *b = &read->record.body;
    size_t text, identifier;
    if (!is_message((slice){input.bytes + at, input.size - at}, &text, &identifier)) return read->refusal == 18;
    return read->refusal == 0 && b->kind == TUSSELGRO_MESSAGE && memcmp(b->addressee, input.bytes + at, 9) == 0 &&
           is_span(b->comment, at + 10, text) && is_no_time(b->time) &&
           is_span(b->identifier, identifier == 0 ? 0 : at + 10 + text + 1, identifier);
}

static bool is_read_status(const tusselgro_read *read, slice input, size_t at) {
    static const uint8_t none[TUSSELGRO_ADDRESSEE_BYTES];
    const tusselgro_body *b = &read->record.body;
    slice behind = {input.bytes + at, input.size - at};
    char text[TIME_TEXT];
    size_t time = status_time(behind);
    if (!is_status(behind)) return read->refusal == 18;
    return read->refusal == 0 && b->kind == TUSSELGRO_STATUS && time_text(b->time, text) == time &&
           memcmp(text, behind.bytes, time) == 0 && is_span(b->comment, at + time, behind.size - time) &&
           is_span(b->identifier, 0, 0) && memcmp(b->addressee, none, sizeof none) == 0;
}

bool is_read_rightly(const tusselgro_read *read, slice input, size_t at) {
    bool message = input.bytes[at] == ':';
    return is_bare(read->record) && (message ? is_read_message : is_read_status)(read, input, at + 1);
}

/* ---- bodies in a line and in a frame, from A to B */

enum { MOST = 128, TOLD = 64 };

static slice part_of(slice input, tusselgro_span span) { return (slice){input.bytes + span.at, span.len}; }

/* What was read is written as it stood, whatever its places say by then. */
static bool is_written_again(const form *f, tusselgro_record record, slice packet) {
    slice text = part_of(packet, record.body.comment), identifier = part_of(packet, record.body.identifier);
    uint8_t out[MOST];
    record.body.comment = record.body.identifier = (tusselgro_span){(size_t)-1, (size_t)-1};
    tusselgro_answer answer = f->write(record, text.bytes, text.size, identifier.bytes, identifier.size, out, packet.size);
    return answer.reported == packet.size && memcmp(out, packet.bytes, packet.size) == 0;
}

/* ---- read: places are told as those behind the header */

static void tell(const tusselgro_body *b, size_t header, char told[TOLD]) {
    char time[TIME_TEXT] = "";
    size_t text = b->comment.at - header, identifier = b->identifier.at - header;
    time_text(b->time, time);
    if (b->kind == TUSSELGRO_STATUS) {
        snprintf(told, TOLD, "status %s %zu+%zu", time, text, b->comment.len);
    } else if (b->identifier.at == 0) {
        snprintf(told, TOLD, "message %.9s %zu+%zu", (const char *)b->addressee, text, b->comment.len);
    } else {
        snprintf(told, TOLD, "message %.9s %zu+%zu %zu+%zu", (const char *)b->addressee, text, b->comment.len, identifier,
                 b->identifier.len);
    }
}

static void reads(slice body, const char *expected, const char *file, int line) {
    for (const form *f = forms; f < forms + 2; f++) {
        uint8_t bytes[MOST];
        char told[TOLD];
        slice packet = behind_header(f, body, bytes);
        tusselgro_read read = read_lent(f->read, packet.bytes, packet.size);
        refused(read.refusal, strcmp(expected, "18") == 0 ? 18 : 0, file, line);
        holds(is_read_rightly(&read, packet, f->header.size), "as document 02 has it", file, line);
        if (read.refusal != 0) continue;
        tell(&read.record.body, f->header.size, told);
        holds(strcmp(told, expected) == 0, told, file, line);
        holds(is_written_again(f, read.record, packet), "written as it stood", file, line);
    }
}

#define READS(string, expected) reads(SLICE(string), expected, __FILE__, __LINE__)

/* The first two are of APRS 1.0.1, chapter 14. */
static void check_messages_read(void) {
    READS(":WU2Z     :Testing", "message WU2Z      11+7");
    READS(":WU2Z     :Testing{003", "message WU2Z      11+7 19+3");
    READS(":EMAIL    :msmith@isp.net Test email", "message EMAIL     11+25");
    READS(":KB2ICI-14:ack003", "message KB2ICI-14 11+6");
    READS(":KB2ICI-14:rej003", "message KB2ICI-14 11+6");
    READS(":WU2Z     :", "message WU2Z      11+0");
    READS(":WU2Z     :{1", "message WU2Z      11+0 12+1");
    READS(":         :hi", "message           11+2");
    READS("::::::::::::", "message ::::::::: 11+1");
    READS(":: WU2Z : :hi{:", "message : WU2Z :  11+2 14+1");
    READS(":a|~{\xff\x01 zz:x", "message a|~{\xff\x01 zz 11+1");
    READS(":WU2Z     :" X50 X10 "1234567", "message WU2Z      11+67");
    READS(":WU2Z     :" X50 X10 "1234567{12345", "message WU2Z      11+67 79+5");
    READS(":WU2Z     :x{a{b", "message WU2Z      11+1 13+3");
    READS(":WU2Z     :{{", "message WU2Z      11+0 12+1");
    READS(":WU2Z     :{|~{}|", "message WU2Z      11+0 12+5");
    READS(":WU2Z     :}092345z", "message WU2Z      11+8");
}

/* "18 for a malformed message or status, in place of the body's other numbers". */
static void check_messages_refused(void) {
    READS(":", "18");
    READS(":WU2Z", "18");
    READS(":WU2Z     ", "18");
    READS(":WU2Z:Testing", "18");
    READS(":WU2Z      :Testing", "18");
    READS(":WU2Z    :Testing", "18");
    READS(":WU2Z     ;Testing", "18");
    READS(":/092345z!", "18");
    READS(":WU2Z     :{", "18");
    READS(":WU2Z     :Testing{", "18");
    READS(":WU2Z     :Testing{123456", "18");
    READS(":WU2Z     :{a{bcde", "18");
    READS(":WU2Z     :|", "18");
    READS(":WU2Z     :a~b", "18");
    READS(":WU2Z     :Testing|{1", "18");
    READS(":WU2Z     :" X50 X10 "12345678", "18");
    READS(":WU2Z     :" X50 X10 "12345678{1", "18");
    READS(":WU2Z     :" X50 X10 "1234567{", "18");
}

/* The first two are of APRS 1.0.1, chapter 16. */
static void check_statuses_read(void) {
    READS(">Net Control Center", "status  1+18");
    READS(">092345zNet Control Center", "status 092345z 8+18");
    READS(">IO91SX/G", "status  1+8");
    READS(">IO91SX/- My house", "status  1+17");
    READS(">", "status  1+0");
    READS(">092345z", "status 092345z 8+0");
    READS(">010000z010000z", "status 010000z 8+7");
    READS(">312359z|", "status 312359z 8+1");
    READS(">092345/x", "status  1+8");
    READS(">234517hx", "status  1+8");
    READS(">000000zx", "status  1+8");
    READS(">092345Zx", "status  1+8");
    READS(">320000zx", "status  1+8");
    READS(">012400zx", "status  1+8");
    READS(">010060zx", "status  1+8");
    READS(">09 345zx", "status  1+8");
    READS("> 092345zx", "status  1+9");
    READS(">092345", "status  1+6");
    READS(">|~{\xff:", "status  1+5");
    READS(">" X50 X10 "12", "status  1+62");
    READS(">" X50 X10 "123", "18");
    READS(">092345z" X50 "12345", "status 092345z 8+55");
    READS(">092345z" X50 "123456", "18");
    READS(">000000z" X50 "12345", "status  1+62");
    READS(">092345Z" X50 "12345", "status  1+62");
    READS(">092345/" X50 "123456", "18");
}

static bool is_to(tusselgro_callsign call, const char *text) {
    return call.call_len == strlen(text) && memcmp(call.text, text, strlen(text)) == 0;
}

#define LINE(string) read_lent(tusselgro_read_text, BYTES(string))

/* What is wrong with the header comes first. Both kinds keep their destination, and the marks of dropped zeros. */
static void check_headers(void) {
    uint8_t line[513];
    memset(line, 'x', sizeof line);
    memcpy(line, "A>B:>", 5);
    REFUSED(read_lent(tusselgro_read_text, line, 513), 1);
    REFUSED(read_lent(tusselgro_read_text, line, 512), 18);
    line[4] = ':';
    REFUSED(read_lent(tusselgro_read_text, line, 513), 1);
    REFUSED(read_lent(tusselgro_read_text, line, 512), 18);
    REFUSED(LINE("A->B::x"), 3);
    REFUSED(LINE("ABCDEFGHIJKLMNOPQ>B::x"), 4);
    REFUSED(LINE("A>B,1,2,3,4,5,6,7,8,9::x"), 5);
    REFUSED(LINE("A>B,qAc::x"), 6);
    REFUSED(LINE("A>B,qAC::x"), 18);
    tusselgro_read read = LINE("N0CALL>APRS:>hi");
    REFUSED(read, 0);
    HOLDS(is_to(read.record.header.from, "N0CALL") && is_to(read.record.header.to, "APRS"));
    HOLDS(read.record.header.path.count == 0 && is_span(read.record.body.comment, 13, 2));
    read = LINE("N0CALL-0>S32U6T-0,WIDE1-0*::WU2Z     :Testing{003");
    REFUSED(read, 0);
    HOLDS(is_to(read.record.header.to, "S32U6T") && read.record.header.path.hops[0].kind == TUSSELGRO_HEARD);
    for (size_t place = 0; place < MARKS; place++) HOLDS(*mark_of(&read.record, place) == (place < 3));
    HOLDS(is_span(read.record.body.comment, 38, 7) && is_span(read.record.body.identifier, 46, 3));
}

/* ---- every byte in every place */

/* how many inputs, how many of them were accepted, how many have a time or an identifier, and how many were answered otherwise than
   the sentences have it */
typedef struct {
    size_t inputs, accepted, extra, wrong;
} tally;

static bool is_same_part(const tusselgro_read *read, slice behind, bool message) {
    const tusselgro_body *b = &read->record.body;
    if (!message) {
        tusselgro_status_read status = tusselgro_read_status(behind.bytes, behind.size);
        return status.refusal == read->refusal && same_time(status.time, b->time);
    }
    tusselgro_message_read part = tusselgro_read_message(behind.bytes, behind.size);
    return part.refusal == read->refusal && memcmp(part.addressee, b->addressee, sizeof part.addressee) == 0 &&
           part.text_len == b->comment.len && part.identifier_len == b->identifier.len;
}

static void note(tally *sum, slice body) {
    for (const form *f = forms; f < forms + 2; f++) {
        uint8_t bytes[MOST];
        slice packet = behind_header(f, body, bytes);
        tusselgro_read read = f->read(packet.bytes, packet.size);
        bool right = is_read_rightly(&read, packet, f->header.size) &&
                     is_same_part(&read, (slice){body.bytes + 1, body.size - 1}, body.bytes[0] == ':') &&
                     (read.refusal != 0 || is_written_again(f, read.record, packet));
        if (!right && sum->wrong == 0)
            printf("otherwise than document 02: the body %.*s\n", (int)body.size, (const char *)body.bytes);
        sum->inputs++;
        sum->accepted += read.refusal == 0;
        sum->extra += read.record.body.identifier.len > 0 || !is_no_time(read.record.body.time);
        sum->wrong += !right;
    }
}

static tally note_bytes(slice body) {
    tally sum = {0, 0, 0, 0};
    for (size_t at = 1; at < body.size; at++) {
        for (int byte = 0; byte <= 255; byte++) {
            uint8_t bytes[MOST];
            memcpy(bytes, body.bytes, body.size);
            bytes[at] = (uint8_t)byte;
            note(&sum, (slice){bytes, body.size});
        }
    }
    return sum;
}

/* Each of its beginnings, from the type byte alone to all of it. */
static tally note_lengths(slice body) {
    tally sum = {0, 0, 0, 0};
    for (size_t size = 1; size <= body.size; size++) note(&sum, (slice){body.bytes, size});
    return sum;
}

/* How many are accepted, and how many have an identifier or a time, is counted by hand; each in a line and in a frame. */
static void check_bytes(void) {
    tally t = note_bytes(SLICE(":WU2Z     :abc"));
    /* any addressee; one tenth byte; no '|' and '~', and no '{' at the end, but before it {bc and {c */
    HOLDS(t.inputs == 2 * 13 * 256 && t.accepted == 2 * (9 * 256 + 1 + 3 * 256 - 3 * 2 - 1) && t.wrong == 0);
    HOLDS(t.extra == 2 * 2);
    t = note_bytes(SLICE(":WU2Z     :a{123"));
    /* '{' for the a: {{123; any other byte for the '{': a text of five bytes */
    HOLDS(t.inputs == 2 * 15 * 256 && t.accepted == 2 * (9 * 256 + 1 + 2 * (256 - 2) + 3 * 256) && t.wrong == 0);
    HOLDS(t.extra == 2 * (9 * 256 + 1 + (256 - 2) + 1 + 3 * 256));
    t = note_bytes(SLICE(">092345zabc"));
    /* 09 to 29, 01 to 09, 03 to 23, 20 to 23, 05 to 55, 40 to 49, z */
    HOLDS(t.inputs == 2 * 10 * 256 && t.accepted == t.inputs && t.wrong == 0);
    HOLDS(t.extra == 2 * (3 + 9 + 3 + 4 + 6 + 10 + 1 + 3 * 256));
    t = note_lengths(SLICE(":WU2Z     :" X50 X50));
    HOLDS(t.accepted == 2 * 68 && t.extra == 0 && t.wrong == 0);
    t = note_lengths(SLICE(":WU2Z     :a{" X10));
    HOLDS(t.accepted == 2 * (2 + 5) && t.extra == 2 * 5 && t.wrong == 0);
    t = note_lengths(SLICE(">" X50 X50));
    HOLDS(t.accepted == 2 * 63 && t.extra == 0 && t.wrong == 0);
    t = note_lengths(SLICE(">092345z" X50 X50));
    HOLDS(t.accepted == 2 * 63 && t.extra == 2 * 56 && t.wrong == 0);
}

/* All six digits with 'z' in front of a text: 31 days, 24 hours and 60 minutes are a time. */
static void check_digits(void) {
    size_t times = 0, wrong = 0;
    uint8_t text[9] = "000000zx";
    for (int number = 0; number < 1000000; number++) {
        for (int at = 5, rest = number; at >= 0; at--, rest /= 10) text[at] = (uint8_t)('0' + rest % 10);
        tusselgro_status_read r = tusselgro_read_status(text, 8);
        times += !is_no_time(r.time);
        wrong += r.refusal != 0 || is_no_time(r.time) == is_time_text(text);
    }
    HOLDS(times == 31 * 24 * 60 && wrong == 0);
}

/* ---- written */

static tusselgro_record record_of(uint8_t kind) {
    tusselgro_record record = tusselgro_read_text(BYTES("A>B:x")).record;
    record.body.kind = kind;
    return record;
}

static tusselgro_record message_to(const char *addressee) {
    tusselgro_record record = record_of(TUSSELGRO_MESSAGE);
    memcpy(record.body.addressee, addressee, TUSSELGRO_ADDRESSEE_BYTES);
    return record;
}

static tusselgro_record status_at(uint8_t day, uint8_t hour, uint8_t minute) {
    tusselgro_record record = record_of(TUSSELGRO_STATUS);
    record.body.time = (tusselgro_time){day, hour, minute, 0, TUSSELGRO_DHM_UTC};
    return record;
}

static void writes(tusselgro_record record, slice text, slice identifier, slice body, const char *file, int line) {
    for (const form *f = forms; f < forms + 2; f++) {
        uint8_t bytes[MOST];
        slice packet = behind_header(f, body, bytes);
        tusselgro_answer answer = write_lent(f->write, record, text, identifier, packet.size);
        holds(wrote(answer, packet.bytes, packet.size), "these bytes are written", file, line);
        answer = write_lent(f->write, record, text, identifier, 512);
        holds(wrote(answer, packet.bytes, packet.size), "these bytes are written with room to spare", file, line);
        answer = write_lent(f->write, record, text, identifier, packet.size - 1);
        refused(answer.refusal, 16, file, line);
        holds(answer.needed == packet.size, "the bytes needed", file, line);
        refused(write_lent(f->write, record, text, identifier, 0).refusal, 16, file, line);
    }
}

#define WRITES(record, text, identifier, body) \
    writes(record, SLICE(text), SLICE(identifier), SLICE(body), __FILE__, __LINE__)

static const char wu2z[] = "WU2Z     ";

static void check_messages_written(void) {
    WRITES(message_to(wu2z), "Testing", "", ":WU2Z     :Testing");
    WRITES(message_to(wu2z), "Testing", "003", ":WU2Z     :Testing{003");
    WRITES(message_to("KB2ICI-14"), "ack003", "", ":KB2ICI-14:ack003");
    WRITES(message_to(wu2z), "", "", ":WU2Z     :");
    WRITES(message_to(wu2z), "", "1", ":WU2Z     :{1");
    WRITES(message_to("         "), "hi", "", ":         :hi");
    WRITES(message_to(":::::::::"), ":", ":", "::::::::::::{:");
    WRITES(message_to("  |~{ : z"), "\xff\x01}", "{|~{|", ":  |~{ : z:\xff\x01}{{|~{|");
    WRITES(message_to("\0\0\0\0\0\0\0\0\0"), "x", "", ":\0\0\0\0\0\0\0\0\0:x");
    WRITES(message_to(wu2z), X50 X10 "1234567", "12345", ":WU2Z     :" X50 X10 "1234567{12345");
    REFUSES(message_to(wu2z), X50 X10 "12345678", "", 18);
    REFUSES(message_to(wu2z), X50 X10 "12345678", "1", 18);
    REFUSES(message_to(wu2z), "Testing", "123456", 18);
    REFUSES(message_to(wu2z), "|", "", 18);
    REFUSES(message_to(wu2z), "ab~", "1", 18);
    REFUSES(message_to(wu2z), "{", "", 18);
    REFUSES(message_to(wu2z), "Testing{003", "", 18);
    for (const form *f = forms; f < forms + 2; f++)
        REFUSED(f->write(message_to(wu2z), NULL, 0, NULL, 0, NULL, 0), 16);
}

static void check_statuses_written(void) {
    tusselgro_record untimed = record_of(TUSSELGRO_STATUS);
    WRITES(untimed, "Net Control Center", "", ">Net Control Center");
    WRITES(status_at(9, 23, 45), "Net Control Center", "", ">092345zNet Control Center");
    WRITES(untimed, "", "", ">");
    WRITES(status_at(1, 0, 0), "", "", ">010000z");
    WRITES(status_at(31, 23, 59), "010000z", "", ">312359z010000z");
    WRITES(untimed, "|~{\xff:", "", ">|~{\xff:");
    WRITES(untimed, "010000", "", ">010000");
    WRITES(untimed, "010000Z", "", ">010000Z");
    WRITES(untimed, "010000/", "", ">010000/");
    WRITES(untimed, "010000h", "", ">010000h");
    WRITES(untimed, "000000z", "", ">000000z");
    WRITES(untimed, "320000zx", "", ">320000zx");
    WRITES(untimed, " 010000z", "", "> 010000z");
    WRITES(untimed, X50 X10 "12", "", ">" X50 X10 "12");
    WRITES(status_at(9, 23, 45), X50 "12345", "", ">092345z" X50 "12345");
    REFUSES(untimed, X50 X10 "123", "", 18);
    REFUSES(status_at(9, 23, 45), X50 "123456", "", 18);
    REFUSES(untimed, "010000z", "", 18);
    REFUSES(untimed, "312359zx", "", 18);
    REFUSES(untimed, "092345z" X50 "12345", "", 18);
}

/* ---- refused: "15, 14, 18, 13, 1, 16" */

static tusselgro_record from_seven_letters(tusselgro_record record) {
    record.header.from = tusselgro_read_text(BYTES("ABCDEFG>B:")).record.header.from;
    return record;
}

static tusselgro_record out_of_range(tusselgro_record record) {
    record.header.path.count = 9;
    return record;
}

static void check_order(void) {
    static const uint8_t many[600];
    slice long_text = {many, sizeof many};
    tusselgro_record unknown = record_of(TUSSELGRO_UNKNOWN), message = message_to(wu2z), status = record_of(TUSSELGRO_STATUS);
    tusselgro_record position = tusselgro_read_text(BYTES("A>B:!0000.00N/00000.00E-")).record;
    REFUSES(out_of_range(unknown), "|", "123456", 15);
    REFUSES(unknown, "|", "123456", 14);
    REFUSES(from_seven_letters(unknown), "|", "123456", 14);
    REFUSES(out_of_range(message), "|", "123456", 15);
    REFUSES(out_of_range(from_seven_letters(message)), "hi", "", 15);
    REFUSES(out_of_range(status), "010000z", "", 15);
    for (const form *f = forms; f < forms + 2; f++) {
        int seven = f == forms ? 0 : 13;
        tusselgro_record m = from_seven_letters(message), s = from_seven_letters(status), p = from_seven_letters(position);
        REFUSED(write_lent(f->write, m, SLICE("|"), SLICE(""), 512), 18);
        REFUSED(write_lent(f->write, m, SLICE("hi"), SLICE("123456"), 512), 18);
        REFUSED(write_lent(f->write, m, SLICE("hi"), SLICE("1"), 512), seven);
        REFUSED(write_lent(f->write, m, SLICE("hi"), SLICE("1"), 0), seven == 0 ? 16 : 13);
        REFUSED(write_lent(f->write, s, SLICE("010000z"), SLICE(""), 512), 18);
        REFUSED(write_lent(f->write, s, SLICE("hi"), SLICE(""), 512), seven);
        REFUSED(write_lent(f->write, message, long_text, SLICE(""), 0), 18);
        REFUSED(write_lent(f->write, message, SLICE(""), long_text, 0), 18);
        REFUSED(write_lent(f->write, status, long_text, long_text, 0), 18);
        REFUSED(write_lent(f->write, p, long_text, long_text, 0), seven == 0 ? 1 : 13);
        REFUSED(write_lent(f->write, position, long_text, long_text, 0), 1);
    }
}

/* Both are taken for their kind alone, and places are not judged in any. */
static void check_ignored(void) {
    static const char *const lines[] = {"A>B:!0000.00N/00000.00E-", "A>B:@092345z0000.00N/00000.00E-", "A>S32U6T:`(_fn\"Oj/",
                                        "A>B:>hi", "A>B:>092345z"};
    for (size_t which = 0; which < sizeof lines / sizeof *lines; which++) {
        const uint8_t *line = (const uint8_t *)lines[which];
        tusselgro_record r = tusselgro_read_text(line, strlen(lines[which])).record;
        slice text = part_of((slice){line, 0}, r.body.comment);
        r.body.comment = r.body.identifier = (tusselgro_span){(size_t)-1, (size_t)-1};
        HOLDS(wrote(write_lent(tusselgro_write_text, r, text, SLICE("{"), 512), line, strlen(lines[which])));
        HOLDS(wrote(write_lent(tusselgro_write_text, r, text, SLICE(X50 X50), 512), line, strlen(lines[which])));
        REFUSED(write_lent(tusselgro_write_frame, r, text, SLICE(X50 X50), 512), 0);
    }
    tusselgro_record unknown = record_of(TUSSELGRO_UNKNOWN), message = message_to(wu2z);
    unknown.body.comment = unknown.body.identifier = (tusselgro_span){1, 1};
    message.body.comment = message.body.identifier = (tusselgro_span){1, 0};
    REFUSES(unknown, "", "", 14);
    WRITES(message, "hi", "", ":WU2Z     :hi");
}

/* Each statement spoils one part of a record that was in range; what is lent with it would be 18. */
#define SPOILT(record, statement)         \
    do {                                  \
        tusselgro_record r = record;      \
        statement;                        \
        REFUSES(r, "|" X50 X50, X10, 15); \
    } while (0)

/* "All parts of a position, letters and flag are 0", and a report's. */
static void check_bare(tusselgro_record record) {
    SPOILT(record, r.body.place.latitude = 1);
    SPOILT(record, r.body.place.latitude = -1; r.body.place.south = true);
    SPOILT(record, r.body.place.longitude = INT32_MIN);
    SPOILT(record, r.body.place.blanks = 1);
    SPOILT(record, r.body.place.table = '/');
    SPOILT(record, r.body.place.code = 255);
    SPOILT(record, r.body.place.south = true);
    SPOILT(record, r.body.place.west = true);
    SPOILT(record, r.body.report.speed = 1);
    SPOILT(record, r.body.report.course = 1);
    SPOILT(record, r.body.report.message = TUSSELGRO_M1);
    SPOILT(record, r.body.report.message = 16);
    SPOILT(record, r.body.report.current = true);
    SPOILT(record, r.body.messaging = true);
    SPOILT(record, r.body.time.form = TUSSELGRO_DHM_LOCAL);
    SPOILT(record, r.body.time.form = 'Z');
    SPOILT(record, r.body.time.second = 1);
    SPOILT(record, r.header.from.call_len = 17);
    SPOILT(record, r.header.to.text[15] = 1);
    SPOILT(record, r.body.kind = TUSSELGRO_STATUS + 1);
    SPOILT(record, r.body.kind = 255);
}

static void check_ranges(void) {
    static const tusselgro_time z = {9, 23, 45, 0, TUSSELGRO_DHM_UTC}, local = {9, 23, 45, 0, TUSSELGRO_DHM_LOCAL},
                                h = {0, 23, 45, 17, TUSSELGRO_HMS_UTC}, midnight = {0, 0, 0, 0, TUSSELGRO_HMS_UTC};
    tusselgro_record unknown = record_of(TUSSELGRO_UNKNOWN), message = message_to(wu2z), status = record_of(TUSSELGRO_STATUS);
    tusselgro_record position = tusselgro_read_text(BYTES("A>B:!0000.00N/00000.00E-")).record;
    tusselgro_record mic_e = tusselgro_read_text(BYTES("A>S32U6T:`(_fn\"Oj/")).record;
    check_bare(message);
    check_bare(message_to("\0\0\0\0\0\0\0\0\0"));
    check_bare(status);
    SPOILT(message, r.body.time = z);
    SPOILT(message, r.body.time = local);
    SPOILT(message, r.body.time = h);
    SPOILT(message, r.body.time.day = 1);
    SPOILT(message, r.body.kind = TUSSELGRO_STATUS);
    SPOILT(message, r.body.kind = TUSSELGRO_UNKNOWN);
    SPOILT(status, r.body.time = local);
    SPOILT(status, r.body.time = h);
    SPOILT(status, r.body.time = midnight);
    SPOILT(status, r.body.time = z; r.body.time.day = 0);
    SPOILT(status, r.body.time = z; r.body.time.day = 32);
    SPOILT(status, r.body.time = z; r.body.time.hour = 24);
    SPOILT(status, r.body.time = z; r.body.time.minute = 60);
    SPOILT(status, r.body.time = z; r.body.time.second = 1);
    SPOILT(status, r.body.time = z; r.body.kind = TUSSELGRO_MESSAGE);
    for (int at = 0; at < TUSSELGRO_ADDRESSEE_BYTES; at++) {
        SPOILT(unknown, r.body.addressee[at] = 1);
        SPOILT(position, r.body.addressee[at] = ' ');
        SPOILT(mic_e, r.body.addressee[at] = 255);
        SPOILT(status, r.body.addressee[at] = ' ');
    }
}

void check_messages(void) {
    check_messages_read();
    check_messages_refused();
    check_statuses_read();
    check_headers();
    check_bytes();
    check_digits();
    check_messages_written();
    check_statuses_written();
    check_order();
    check_ignored();
    check_ranges();
}
