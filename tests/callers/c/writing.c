/* Records written: document 01's values, document 02's letters, marks and times, every refusal of a writer, and wild records.
   hops.c has Q elements, messages.c messages and status lines, inner.c packets inside packets. */
#include "check.h"

#include <stdio.h>
#include <string.h>

#define TEXT(record, comment, room) write_lent(tusselgro_write_text, record, SLICE(comment), SLICE(""), room)
#define FRAME(record, comment, room) write_lent(tusselgro_write_frame, record, SLICE(comment), SLICE(""), room)
#define READ(string) tusselgro_read_text(BYTES(string)).record

static const char position_line[] = "N0CALL-01>APRS,WIDE1-1,WIDE2-2*,K1A:!4903.50N/07201.75W-Test";
static const char timed_line[] = "A>B:@092345z4903.50N/07201.75W>Test1234";
static const char clock_line[] = "A>B:/234517h4903.50N/07201.75W>";
static const char mic_e_line[] = "A>S32U6T:`(_fn\"Oj/";

static tusselgro_record read_record(const char *line) {
    return tusselgro_read_text((const uint8_t *)line, strlen(line)).record;
}

/* What was read is written as it stood: a position with its comment, a Mic-E report, and stars (P11). */
static void check_round(void) {
    tusselgro_record r = read_record(position_line);
    HOLDS(wrote(TEXT(r, "Test", 512), BYTES("N0CALL-01>APRS,WIDE1-1,WIDE2-2*,K1A:!4903.50N/07201.75W-Test")));
    r.body.comment.at = (size_t)-1;
    r.body.comment.len = (size_t)-1;
    HOLDS(wrote(TEXT(r, "", 512), BYTES("N0CALL-01>APRS,WIDE1-1,WIDE2-2*,K1A:!4903.50N/07201.75W-")));
    HOLDS(wrote(TEXT(read_record(mic_e_line), "", 512), BYTES("A>S32U6T:`(_fn\"Oj/")));
    HOLDS(wrote(TEXT(READ("X>Y,A,B*,C:=0000.00N/00000.00E-"), "", 512), BYTES("X>Y,A,B*,C:=0000.00N/00000.00E-")));
}

/* 0 is written N and E, whatever the letters say; in Mic-E P to Z fourth, a digit or L sixth. */
static void check_zeros(void) {
    HOLDS(wrote(TEXT(READ("A>B:!0000.00S/00000.00W-"), "", 512), BYTES("A>B:!0000.00N/00000.00E-")));
    HOLDS(wrote(TEXT(READ("A>0000PP:`vX\x1cn\"Oj/"), "", 512), BYTES("A>000PP0:`vX\x1cn\"Oj/")));
    HOLDS(wrote(TEXT(READ("A>0LLLLL:`(_fn\"Oj/"), "", 512), BYTES("A>0LLZLL:`(_fn\"Oj/")));
    for (int letters = 0; letters < 4; letters++) {
        tusselgro_record r = READ("A>B:!0000.00N/00000.00E-");
        r.body.place.south = letters & 1;
        r.body.place.west = letters & 2;
        HOLDS(wrote(TEXT(r, "", 24), BYTES("A>B:!0000.00N/00000.00E-")));
        REFUSED(FRAME(r, "", 36), 0);
        HOLDS(memcmp(written + 16, "!0000.00N/00000.00E-", 20) == 0);
        r = READ("A>000PP0:`vX\x1cn\"Oj/");
        r.body.place.south = letters & 1;
        r.body.place.west = letters & 2;
        HOLDS(wrote(TEXT(r, "", 18), BYTES("A>000PP0:`vX\x1cn\"Oj/")));
    }
}

static tusselgro_record marked(tusselgro_record record) {
    for (size_t place = 0; place < MARKS; place++) *mark_of(&record, place) = true;
    return record;
}

/* The bytes are those without marks. The position has calls with and without an SSID and five spare hops, the report a
   source alone. */
static void writes_unmarked(tusselgro_record position, tusselgro_record mic_e) {
    HOLDS(wrote(TEXT(position, "Test", 60), BYTES("N0CALL-01>APRS,WIDE1-1,WIDE2-2*,K1A:!4903.50N/07201.75W-Test")));
    HOLDS(wrote(FRAME(position, "", 57),
                BYTES("\x82\xa0\xa4\xa6@@\xe0\x9c\x60\x86\x82\x98\x98\x62\xae\x92\x88\x8a\x62@\xe2\xae\x92\x88\x8a\x64@\xe4"
                      "\x96\x62\x82@@@\x61\x03\xf0!4903.50N/07201.75W-")));
    HOLDS(wrote(TEXT(mic_e, "", 18), BYTES("A>S32U6T:`(_fn\"Oj/")));
    HOLDS(wrote(FRAME(mic_e, "", 25), BYTES("\xa6\x66\x64\xaa\x6c\xa8\xe0\x82@@@@@\x61\x03\xf0`(_fn\"Oj/")));
}

/* writers ignore the mark, wherever it is. */
static void check_marks(void) {
    tusselgro_record position = read_record(position_line), mic_e = read_record(mic_e_line);
    writes_unmarked(position, mic_e);
    for (size_t place = 0; place < MARKS; place++) {
        tusselgro_record p = position, m = mic_e;
        *mark_of(&p, place) = *mark_of(&m, place) = true;
        writes_unmarked(p, m);
    }
    writes_unmarked(marked(position), marked(mic_e));
    HOLDS(wrote(TEXT(READ("A-0>B-0,C-0,D-0*:!0000.00N/00000.00E-"), "", 512), BYTES("A>B,C,D*:!0000.00N/00000.00E-")));
    HOLDS(wrote(TEXT(READ("A-0>S32U6T-0,B-0:`(_fn\"Oj/"), "", 512), BYTES("A>S32U6T,B:`(_fn\"Oj/")));
}

static void check_marked_refusals(void) {
    static const tusselgro_record zeros;
    tusselgro_record r = marked(read_record(position_line));
    tusselgro_answer answer = TEXT(r, "Test", 59);
    REFUSED(answer, 16);
    HOLDS(answer.needed == 60);
    answer = FRAME(r, "", 56);
    REFUSED(answer, 16);
    HOLDS(answer.needed == 57);
    uint8_t comment[512];
    memset(comment, 'x', sizeof comment);
    REFUSED(write_lent(tusselgro_write_text, r, (slice){comment, 512 - 56}, SLICE(""), 512), 0);
    REFUSED(write_lent(tusselgro_write_text, r, (slice){comment, 512 - 55}, SLICE(""), 512), 1);
    REFUSED(FRAME(marked(READ("ABCDEFG>B:!0000.00N/00000.00E-")), "", 512), 13);
    REFUSED(TEXT(READ("A-0>B-0,C-0:hello"), "", 512), 14);
    for (size_t place = 0; place < MARKS; place++) {
        tusselgro_record blank = zeros;
        *mark_of(&blank, place) = true;
        REFUSED(TEXT(blank, "", 0), 14);
        REFUSED(FRAME(blank, "", 0), 14);
    }
}

typedef struct {
    bool messaging;
    tusselgro_time time;
    const char *body; /* its type byte and its time */
} timed_body;

/* The same position as a line and as a frame behind each type byte; both come back. */
static void writes_timed(timed_body b) {
    tusselgro_record r = READ("A>B:!4903.50N/07201.75W>");
    uint8_t text[64] = "A>B:", frame[64] = "\x84@@@@@\xe0\x82@@@@@\x61\x03\xf0";
    size_t size = strlen(b.body) + 27;
    snprintf((char *)text + 4, 60, "%s4903.50N/07201.75W>Test1234", b.body);
    memcpy(frame + 16, text + 4, size);
    r.body.messaging = b.messaging;
    r.body.time = b.time;
    HOLDS(wrote(TEXT(r, "Test1234", 4 + size), text, 4 + size));
    HOLDS(wrote(FRAME(r, "Test1234", 16 + size), frame, 16 + size));
    r.body.comment = (tusselgro_span){size - 4, 8};
    tusselgro_read back = tusselgro_read_text(text, 4 + size);
    HOLDS(back.refusal == 0 && same_record(&back.record, &r));
    r.body.comment.at = size + 8;
    back = tusselgro_read_frame(frame, 16 + size);
    HOLDS(back.refusal == 0 && same_record(&back.record, &r));
}

/* the type byte is that of the flag, and of whether there is a time. */
static void check_timed(void) {
    static const timed_body bodies[] = {
        {false, {0, 0, 0, 0, TUSSELGRO_NO_TIME}, "!"},
        {true, {0, 0, 0, 0, TUSSELGRO_NO_TIME}, "="},
        {false, {9, 23, 45, 0, TUSSELGRO_DHM_UTC}, "/092345z"},
        {true, {9, 23, 45, 0, TUSSELGRO_DHM_UTC}, "@092345z"},
        {false, {9, 23, 45, 0, TUSSELGRO_DHM_LOCAL}, "/092345/"},
        {true, {9, 23, 45, 0, TUSSELGRO_DHM_LOCAL}, "@092345/"},
        {false, {0, 23, 45, 17, TUSSELGRO_HMS_UTC}, "/234517h"},
        {true, {0, 23, 45, 17, TUSSELGRO_HMS_UTC}, "@234517h"},
        {false, {0, 0, 0, 0, TUSSELGRO_HMS_UTC}, "/000000h"},
        {true, {0, 23, 59, 59, TUSSELGRO_HMS_UTC}, "@235959h"},
        {false, {1, 0, 0, 0, TUSSELGRO_DHM_UTC}, "/010000z"},
        {true, {31, 23, 59, 0, TUSSELGRO_DHM_LOCAL}, "@312359/"},
    };
    for (size_t which = 0; which < sizeof bodies / sizeof *bodies; which++) writes_timed(bodies[which]);
    HOLDS(wrote(TEXT(READ("A>B:@010000/0000.  S/00000.  W-"), "", 512), BYTES("A>B:@010000/0000.  N/00000.00E-")));
}

static void check_timed_refusals(void) {
    tusselgro_record r = read_record(timed_line);
    tusselgro_answer answer = TEXT(r, "Test1234", 38);
    REFUSED(answer, 16);
    HOLDS(answer.needed == 39);
    answer = FRAME(r, "Test1234", 50);
    REFUSED(answer, 16);
    HOLDS(answer.needed == 51);
    REFUSED(tusselgro_write_text(r, NULL, 0, NULL, 0, NULL, 0), 16);
    uint8_t comment[512];
    memset(comment, 'x', sizeof comment);
    REFUSED(write_lent(tusselgro_write_text, r, (slice){comment, 512 - 31}, SLICE(""), 512), 0);
    REFUSED(write_lent(tusselgro_write_text, r, (slice){comment, 512 - 30}, SLICE(""), 512), 1);
    REFUSED(write_lent(tusselgro_write_frame, r, (slice){comment, 512 - 43}, SLICE(""), 512), 0);
    REFUSED(write_lent(tusselgro_write_frame, r, (slice){comment, 512 - 42}, SLICE(""), 512), 1);
    r.header.from = READ("ABCDEFG>B:").header.from;
    REFUSED(FRAME(r, "", 512), 13);
    r.body.time.day = 32;
    REFUSED(FRAME(r, "", 0), 15);
    REFUSED(write_lent(tusselgro_write_text, r, (slice){comment, 512}, SLICE(""), 0), 15);
}

/* P4: 799 knots, course 360. P7: 105 degrees east. P10: a hop of a frame that is heard and last. */
static void check_values(void) {
    tusselgro_record r = read_record(mic_e_line);
    r.body.report.speed = 799;
    r.body.report.course = 360;
    r.body.place.longitude = 630000;
    r.body.place.west = false;
    tusselgro_answer answer = TEXT(r, "", 512);
    HOLDS(answer.refusal == 0 && answer.reported == 18);
    HOLDS(memcmp(written + 10, "\x71\x58\x1c\x6b\x7d\x58", 6) == 0);
    HOLDS(written[6] >= 'P' && written[6] <= 'Z');
    answer = FRAME(READ("A>B,N0CALL-1*:!0000.00N/00000.00E-"), "", 512);
    HOLDS(answer.refusal == 0 && answer.reported == 43);
    HOLDS(memcmp(written + 14, "\x9c\x60\x86\x82\x98\x98\xe3\x03\xf0!", 10) == 0);
    answer = FRAME(read_record(position_line), "Test", 512);
    REFUSED(answer, 0);
    tusselgro_read back = tusselgro_read_frame(written, answer.reported);
    HOLDS(back.refusal == 0 && back.record.body.place.latitude == 294350 && back.record.header.path.count == 3);
}

static void check_refusals(void) {
    tusselgro_record r = read_record(position_line);
    tusselgro_answer answer = TEXT(r, "Test", 59);
    REFUSED(answer, 16);
    HOLDS(answer.needed == 60);
    REFUSED(TEXT(r, "Test", 60), 0);
    answer = FRAME(r, "", 0);
    REFUSED(answer, 16);
    HOLDS(answer.needed == 57);
    REFUSED(FRAME(r, "", 57), 0);
    REFUSED(tusselgro_write_text(r, NULL, 0, NULL, 0, NULL, 0), 16);
    uint8_t comment[512];
    memset(comment, 'x', sizeof comment);
    REFUSED(write_lent(tusselgro_write_text, r, (slice){comment, 512 - 56}, SLICE(""), 512), 0);
    REFUSED(write_lent(tusselgro_write_text, r, (slice){comment, 512 - 55}, SLICE(""), 1000), 1);
    REFUSED(write_lent(tusselgro_write_frame, r, (slice){comment, 512 - 56}, SLICE(""), 1000), 1);
    REFUSED(FRAME(READ("ABCDEFG>B:!0000.00N/00000.00E-"), "", 512), 13);
    REFUSED(FRAME(READ("A-16>B:!0000.00N/00000.00E-"), "", 512), 13);
    REFUSED(TEXT(READ("A>B:hello"), "", 512), 14);
    static const tusselgro_record zeros;
    REFUSED(TEXT(zeros, "", 0), 14);
    REFUSED(FRAME(zeros, "", 0), 14);
}

/* Each statement spoils one part of a record that was in range. */
#define SPOILT(line, statement)                                   \
    do {                                                          \
        tusselgro_record r = read_record(line);                   \
        statement;                                                \
        REFUSED(TEXT(r, "", 512), TUSSELGRO_OUT_OF_RANGE);        \
        REFUSED(FRAME(r, "", 512), TUSSELGRO_OUT_OF_RANGE);       \
    } while (0)

static void check_range(void) {
    SPOILT(position_line, r.body.kind = 5);
    SPOILT(position_line, r.body.kind = 255);
    SPOILT(position_line, r.body.kind = TUSSELGRO_UNKNOWN);
    SPOILT(position_line, r.body.place.latitude = 540001);
    SPOILT(position_line, r.body.place.latitude = INT32_MIN; r.body.place.south = true);
    SPOILT(position_line, r.body.place.south = true);
    SPOILT(position_line, r.body.place.west = false);
    SPOILT(position_line, r.body.place.latitude = -1);
    SPOILT(position_line, r.body.place.longitude = 1);
    SPOILT(position_line, r.body.place.longitude = -1080001);
    SPOILT(position_line, r.body.place.blanks = 6);
    SPOILT(position_line, r.body.place.table = 128);
    SPOILT(position_line, r.body.place.code = 255);
    SPOILT(position_line, r.body.report.message = TUSSELGRO_M1);
    SPOILT(position_line, r.body.report.message = 16);
    SPOILT(position_line, r.body.report.speed = 1);
    SPOILT(position_line, r.body.report.current = true);
    SPOILT(position_line, r.header.path.count = 9);
    SPOILT(position_line, r.header.path.count = (size_t)-1);
    SPOILT(position_line, r.header.path.count = 2);
    SPOILT(position_line, r.header.path.hops[7].kind = TUSSELGRO_HEARD);
    SPOILT(position_line, r.header.path.hops[7].kind = TUSSELGRO_Q_CONSTRUCT);
    SPOILT(position_line, r.header.path.hops[0].kind = TUSSELGRO_Q_CONSTRUCT);
    SPOILT(position_line, r.header.path.hops[0].kind = 3);
    SPOILT(position_line, r.header.path.hops[2].kind = 255);
    SPOILT(position_line, r.header.path.hops[7].call.ssid_len = 255; r = marked(r));
    SPOILT(position_line, r.header.from.call_len = 255);
    SPOILT(position_line, r.header.from.ssid_len = 255);
    SPOILT(position_line, r.header.from.call_len = 255; r.header.from.ssid_len = 255);
    SPOILT(position_line, r.header.from.call_len = 253); /* 253 + 1 + 2 is 0 in a byte, and so is 6 + 1 + 249 */
    SPOILT(position_line, r.header.from.ssid_len = 249);
    SPOILT(position_line, r.header.from.call_len = 17);
    SPOILT(position_line, r.header.from.text[0] = 0xff);
    SPOILT(position_line, r.header.from.text[15] = 'x');
    static const tusselgro_callsign zero_ssid = {"A-0", 1, 1, false}, marked_zero_ssid = {"A-0", 1, 1, true};
    SPOILT(position_line, r.header.to = zero_ssid);
    SPOILT(position_line, r.header.to = marked_zero_ssid);
    SPOILT(mic_e_line, r.body.report.message = 16);
    SPOILT(mic_e_line, r.body.report.message = 255);
    SPOILT(mic_e_line, r.body.place.longitude = 1080000; r.body.place.west = false);
    SPOILT(mic_e_line, r.body.place.longitude = -1080000);
    SPOILT(mic_e_line, r.body.place.south = true);
    SPOILT(mic_e_line, r.body.place.west = false);
    SPOILT(mic_e_line, r.body.place.latitude = -1);
    SPOILT(mic_e_line, r.body.place.longitude = 1);
    SPOILT(mic_e_line, r.body.report.speed = 800);
    SPOILT(mic_e_line, r.body.report.course = 361);
    SPOILT(mic_e_line, r.body.messaging = true);
    SPOILT(mic_e_line, r.header.to = r.header.from);
    SPOILT(mic_e_line, r.header.to.call_len = 255; r = marked(r));
    SPOILT("A>B:", r.body.place.latitude = 1);
    SPOILT("A>B:", r.body.place.south = true);
    SPOILT("A>B:", r.body.place.west = true);
    SPOILT("A>B:", r.body.messaging = true);
}

/* A time that is none, in a position; and any in another kind, where it is 15 before 14. */
static void check_time_range(void) {
    for (int form = 1; form <= 255; form++) {
        if (form == TUSSELGRO_DHM_UTC || form == TUSSELGRO_DHM_LOCAL || form == TUSSELGRO_HMS_UTC) continue;
        SPOILT(timed_line, r.body.time.form = (uint8_t)form);
        SPOILT(position_line, r.body.time.form = (uint8_t)form);
    }
    SPOILT(timed_line, r.body.time.form = TUSSELGRO_NO_TIME);
    SPOILT(timed_line, r.body.time.form = TUSSELGRO_HMS_UTC);
    SPOILT(timed_line, r.body.time.day = 0);
    SPOILT(timed_line, r.body.time.day = 32);
    SPOILT(timed_line, r.body.time.day = 255);
    SPOILT(timed_line, r.body.time.hour = 24);
    SPOILT(timed_line, r.body.time.minute = 60);
    SPOILT(timed_line, r.body.time.second = 1);
    SPOILT(timed_line, r.body.time.form = TUSSELGRO_DHM_LOCAL; r.body.time.day = 0);
    SPOILT(timed_line, r.body.time.form = TUSSELGRO_DHM_LOCAL; r.body.time.second = 59);
    SPOILT(clock_line, r.body.time.form = TUSSELGRO_NO_TIME);
    SPOILT(clock_line, r.body.time.form = TUSSELGRO_DHM_UTC);
    SPOILT(clock_line, r.body.time.day = 1);
    SPOILT(clock_line, r.body.time.hour = 24);
    SPOILT(clock_line, r.body.time.minute = 60);
    SPOILT(clock_line, r.body.time.second = 60);
    SPOILT(clock_line, r.body.time.second = 255);
    static const tusselgro_time times[] = {
        {9, 23, 45, 0, TUSSELGRO_DHM_UTC}, {9, 23, 45, 0, TUSSELGRO_DHM_LOCAL}, {0, 23, 45, 17, TUSSELGRO_HMS_UTC},
        {0, 0, 0, 0, TUSSELGRO_HMS_UTC},   {0, 0, 0, 0, TUSSELGRO_DHM_UTC},     {1, 0, 0, 0, TUSSELGRO_NO_TIME},
        {0, 1, 0, 0, TUSSELGRO_NO_TIME},   {0, 0, 1, 0, TUSSELGRO_NO_TIME},     {0, 0, 0, 1, TUSSELGRO_NO_TIME},
        {0, 0, 0, 0, 255},
    };
    for (size_t which = 0; which < sizeof times / sizeof *times; which++) {
        SPOILT(mic_e_line, r.body.time = times[which]);
        SPOILT("A>B:", r.body.time = times[which]);
        if (!is_time(times[which])) SPOILT(position_line, r.body.time = times[which]);
    }
}

/* Every message of Mic-E goes out and comes back. */
static void check_mic_e_messages(void) {
    for (uint8_t message = 0; message <= 15; message++) {
        tusselgro_record r = read_record(mic_e_line);
        r.body.report.message = message;
        tusselgro_answer answer = TEXT(r, "", 512);
        REFUSED(answer, 0);
        tusselgro_read back = tusselgro_read_text(written, answer.reported);
        HOLDS(back.refusal == 0 && back.record.body.report.message == message);
    }
}

void check_writing(void) {
    check_round();
    check_zeros();
    check_marks();
    check_values();
    check_timed();
    check_refusals();
    check_marked_refusals();
    check_timed_refusals();
    check_range();
    check_time_range();
    check_mic_e_messages();
}
