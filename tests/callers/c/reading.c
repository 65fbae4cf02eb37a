/* Lines and frames read: document 01's values, document 02's letters, marks and times, every refusal that a reader can give.
   hops.c has Q elements, messages.c messages and status lines, inner.c packets inside packets, strict.c the strict entries. */
#include "check.h"

#include <string.h>

#define LINE(string) read_lent(tusselgro_read_text, BYTES(string))
#define FRAME(string) read_lent(tusselgro_read_frame, BYTES(string))

static bool is_call(tusselgro_callsign callsign, const char *call, const char *ssid) {
    size_t call_len = strlen(call), ssid_len = strlen(ssid);
    return callsign.call_len == call_len && callsign.ssid_len == ssid_len &&
           memcmp(callsign.text, call, call_len) == 0 &&
           (ssid_len == 0 ||
            (callsign.text[call_len] == '-' && memcmp(callsign.text + call_len + 1, ssid, ssid_len) == 0));
}

/* a digit for each hop: its kind; that of a spare hop is 0 */
static bool has_kinds(tusselgro_path path, const char *digits) {
    bool same = path.count == strlen(digits);
    for (size_t at = 0; at < TUSSELGRO_MOST_HOPS; at++)
        same = same && path.hops[at].kind == (at < strlen(digits) ? digits[at] - '0' : 0);
    return same;
}

/* The first line of the listing: every part of a position. */
static void check_position(void) {
    tusselgro_read read = LINE("N0CALL-01>APRS,WIDE1-1,WIDE2-2*,K1A:!4903.50N/07201.75W-Test");
    tusselgro_header h = read.record.header;
    tusselgro_body b = read.record.body;
    REFUSED(read, 0);
    HOLDS(b.kind == TUSSELGRO_POSITION && !b.messaging && !b.report.current && b.report.message == 0);
    HOLDS(b.place.latitude == 294350 && b.place.longitude == -432175 && b.place.blanks == 0);
    HOLDS(b.place.table == '/' && b.place.code == '-' && b.report.speed == 0 && b.report.course == 0);
    HOLDS(!b.place.south && b.place.west);
    HOLDS(b.comment.at == 56 && b.comment.len == 4);
    HOLDS(is_call(h.from, "N0CALL", "01") && is_call(h.to, "APRS", ""));
    HOLDS(has_kinds(h.path, "110") && is_call(h.path.hops[0].call, "WIDE1", "1") && is_call(h.path.hops[2].call, "K1A", ""));
    b = LINE("A>B:=49  .  N/072  .  W-").record.body;
    HOLDS(b.messaging && b.place.blanks == 4 && b.place.latitude == 294000 && b.place.longitude == -432000);
    read = LINE("A>B:");
    REFUSED(read, 0);
    HOLDS(read.record.body.kind == TUSSELGRO_UNKNOWN && !read.record.body.place.south && !read.record.body.place.west);
    HOLDS(is_call(read.record.header.from, "A", "") && read.record.header.path.count == 0);
}

static bool is_still(tusselgro_read read) {
    return read.refusal == 0 && read.record.body.report.speed == 0 && read.record.body.report.course == 0;
}

/* P1 to P9: motion, longitude and destination of Mic-E lines. */
static void check_mic_e(void) {
    tusselgro_read read = LINE("A>S32U6T:`(_fn\"Oj/Comment");
    tusselgro_body b = read.record.body;
    REFUSED(read, 0);
    HOLDS(b.kind == TUSSELGRO_MIC_E && !b.messaging && is_call(read.record.header.to, "", ""));
    HOLDS(b.place.latitude == 200564 && b.place.longitude == -72774 && b.place.blanks == 0);
    HOLDS(b.place.code == 'j' && b.place.table == '/');
    HOLDS(b.report.message == TUSSELGRO_M3 && b.report.speed == 20 && b.report.course == 251 && b.report.current);
    HOLDS(b.comment.at == 18 && b.comment.len == 7);

    read = LINE("A>S32U6T:'(_fl \x1cj/");
    HOLDS(is_still(read) && !read.record.body.report.current);
    HOLDS(is_still(LINE("A>S32U6T:'(_f\x1c\x1c\x1cj/")));
    REFUSED(LINE("A>S32U6T:'(_f\x1b\x1c\x1cj/"), 12);
    REFUSED(LINE("A>S32U6T:'(_f\x1c%\x1cj/"), 12);
    read = LINE("A>S32UVT:`vX\x1c\x1c\x1c\x1cj/");
    HOLDS(read.refusal == 0 && read.record.body.place.longitude == 0);
    REFUSED(LINE("A>LLLLLL:`(_fn\"Oj/"), 11);
    read = LINE("A>4LLLLL:`(_fn\"Oj/");
    HOLDS(read.refusal == 0 && read.record.body.place.latitude == -240000 && read.record.body.place.blanks == 5);
    HOLDS(read.record.body.report.message == TUSSELGRO_EMERGENCY);
    read = LINE("A>PALLLL:`(_fn\"Oj/");
    HOLDS(read.refusal == 0 && read.record.body.report.message == TUSSELGRO_MESSAGE_UNKNOWN);
    read = LINE("A>AAA000:`(_fn\"Oj/");
    HOLDS(read.refusal == 0 && read.record.body.report.message == TUSSELGRO_C0);
}

static bool has_letters(tusselgro_read read, bool south, bool west) {
    return read.refusal == 0 && read.record.body.place.south == south && read.record.body.place.west == west;
}

/* R-1: as they stand in a position; in Mic-E N and W where the fourth and the sixth character are P to Z. */
static void check_letters(void) {
    HOLDS(has_letters(LINE("A>B:!0000.00N/00000.00E-"), false, false));
    HOLDS(has_letters(LINE("A>B:!0000.00S/00000.00E-"), true, false));
    HOLDS(has_letters(LINE("A>B:=0000.00N/00000.00W-"), false, true));
    tusselgro_read read = LINE("A>B:!0000.00S/00000.00W-");
    HOLDS(has_letters(read, true, true));
    HOLDS(read.record.body.place.latitude == 0 && read.record.body.place.longitude == 0);
    HOLDS(has_letters(LINE("A>B:!9000.00S/18000.00E-"), true, false));
    read = LINE("A>0LLLLL:`(_fn\"Oj/");
    HOLDS(has_letters(read, true, false) && read.record.body.place.latitude == 0);
    HOLDS(has_letters(LINE("A>000PLZ:`(_fn\"Oj/"), false, true));
    HOLDS(has_letters(LINE("A>0000PL:`vX\x1c\x1c\x1c\x1cj/"), true, false));
    read = LINE("A>0000PP:`vX\x1c\x1c\x1c\x1cj/");
    HOLDS(has_letters(read, true, true));
    HOLDS(read.record.body.place.latitude == 0 && read.record.body.place.longitude == 0);
    HOLDS(has_letters(LINE("A>S32U6T:`(_fn\"Oj/"), false, true));
}

/* a digit for the source, one for the destination, one for each hop: 1 where it is marked; a spare hop is not */
static bool has_marks(tusselgro_read read, const char *digits) {
    size_t used = strlen(digits);
    bool same = read.refusal == 0 && used == 2 + read.record.header.path.count;
    for (size_t place = 0; place < MARKS; place++)
        same = same && *mark_of(&read.record, place) == (place < used && digits[place] == '1');
    return same;
}

/* R-2: where the SSID, once the star is off, is the one byte '0'. A Mic-E record has no destination; a refusal leaves none. */
static void check_marks(void) {
    tusselgro_read read = LINE("N0CALL-0>APRS-0,WIDE1-0,WIDE2-0*,K1A-0:!4903.50N/07201.75W-Test");
    tusselgro_header h = read.record.header;
    HOLDS(has_marks(read, "11111"));
    HOLDS(is_call(h.from, "N0CALL", "") && is_call(h.to, "APRS", "") && is_call(h.path.hops[0].call, "WIDE1", ""));
    HOLDS(is_call(h.path.hops[1].call, "WIDE2", "") && is_call(h.path.hops[2].call, "K1A", ""));
    HOLDS(has_kinds(h.path, "110"));
    HOLDS(has_marks(LINE("A-0>B,C,D:"), "1000"));
    HOLDS(has_marks(LINE("A>B-0,C,D:"), "0100"));
    HOLDS(has_marks(LINE("A>B,C-0,D*:"), "0010"));
    HOLDS(has_marks(LINE("A>B,C,D-0*:"), "0001"));
    HOLDS(has_marks(LINE("A>B,1,2-0,3,4,5,6,7,8-0:=0000.00N/00000.00E-"), "0001000001"));
    HOLDS(has_marks(LINE("A-0*>B-0*:"), "11"));
    HOLDS(has_marks(LINE("0-0>ABCDEFGHIJKLMN-0:"), "11"));
    HOLDS(has_marks(LINE("A-00>B-0-0,C-+0,D-01,E-10,F0,0:"), "0000000"));
    HOLDS(has_marks(LINE("A-0>S32U6T-0,B-0:`(_fn\"Oj/"), "101"));
    HOLDS(has_marks(LINE("A>S32U6T-0,B:'(_fn\"Oj/"), "000"));
    HOLDS(has_marks(LINE("A-0>B,qAC,C-0,qAR,qAC-0,qAC:>x"), "1001010"));
    REFUSED(LINE("A-0>B-0,C-0,D-:"), 3);
    REFUSED(LINE("A-0>-0:"), 3);
    REFUSED(LINE("A-0>B-0,ABCDEFGHIJKLMNO-0:"), 4);
    REFUSED(LINE("A-0>B-0,1-0,2,3,4,5,6,7,8-0,9-0:"), 5);
    REFUSED(LINE("A-0>B-0,C-0,qAc:"), 6);
    REFUSED(LINE("A-0>B-0,C-0:!/5L!!<*e7>7P["), 7);
    REFUSED(LINE("A-0>B-0,C-0:!9000.01N/00000.00E-"), 8);
    REFUSED(LINE("A-0>LLLLLL-0,C-0:`(_fn\"Oj/"), 11);
    REFUSED(LINE("A-0>S32U6T-0,C-0:`(_fn\"Oj"), 12);
}

/* P11 and P12. */
static void check_values(void) {
    HOLDS(has_kinds(LINE("X>Y,A,B*,C:").record.header.path, "110"));
    HOLDS(LINE("A>B:!9000.00N/00000.00E-").record.body.place.latitude == 540000);
    HOLDS(LINE("A>B:!8960.00N/00000.00E-").record.body.place.latitude == 540000);
    REFUSED(LINE("A>B:!9000.01N/00000.00E-"), 8);
}

static void check_line_refusals(void) {
    uint8_t line[513];
    memset(line, 'x', sizeof line);
    memcpy(line, "A>B:", 4);
    REFUSED(read_lent(tusselgro_read_text, line, 512), 0);
    REFUSED(read_lent(tusselgro_read_text, line, 513), 1);
    REFUSED(tusselgro_read_text(NULL, 0), 2);
    REFUSED(LINE("A>B"), 2);
    REFUSED(LINE("A:>B"), 2);
    REFUSED(LINE("A->B:"), 3);
    REFUSED(LINE("A>B,\xff:"), 3);
    REFUSED(LINE("ABCDEFGHIJKLMNO-0>B:"), 4);
    REFUSED(LINE("A>B,1,2,3,4,5,6,7,8:"), 0);
    REFUSED(LINE("A>B,1,2,3,4,5,6,7,8,:"), 5);
    REFUSED(LINE("A>B,qA*:"), 6);
    REFUSED(LINE("A>B:!/5L!!<*e7>7P["), 7);
    REFUSED(LINE("A>B:!00 0.00N/00000.00E-"), 8);
    REFUSED(LINE("A>B:!0000.00N/000 0.00E-"), 9);
    REFUSED(LINE("A>B:!4903.50N/07201.75"), 10);
    REFUSED(LINE("A>0000L:`(_fn\"Oj/"), 11);
    REFUSED(LINE("A>S32U6T:`(_fn\"Oj"), 12);
    REFUSED(LINE("A>B::x"), 18);
}

#define TO "\x82\xa0\xa4\xa6@@\xe0"
#define MIC_E_TO "\xa6\x66\x64\xaa\x6c\xa8\xe0"
#define FROM "\x9c\x60\x86\x82\x98\x98\x62"
#define LAST_FROM "\x9c\x60\x86\x82\x98\x98\x63"
#define HOP "\xae\x92\x88\x8a\x62\x40\xe2"
#define LAST_HOP "\x9c\x60\x86\x82\x98\x98\xe3"
#define ZERO_FROM "\x9c\x6e\x98\x8a\x9a\x40\x60"
#define ZERO_HOP "\x9c\x94\x6e\xa0\x40\x40\xe0"
#define LAST_ZERO_HOP "\x9c\x6e\x9e\x9e\x40\x40\x61"
#define PAIR "\x03\xf0"

static void check_frames(void) {
    tusselgro_read read = FRAME(TO FROM LAST_HOP PAIR "!4903.50N/07201.75W-Test");
    REFUSED(read, 0);
    tusselgro_header h = read.record.header;
    HOLDS(read.record.body.kind == TUSSELGRO_POSITION && read.record.body.place.latitude == 294350);
    HOLDS(has_letters(read, false, true));
    HOLDS(has_letters(FRAME(TO LAST_FROM PAIR "!0000.00S/00000.00W-"), true, true));
    HOLDS(is_call(h.from, "N0CALL", "1") && is_call(h.to, "APRS", "") && has_kinds(h.path, "1"));
    HOLDS(is_call(h.path.hops[0].call, "N0CALL", "1") && read.record.body.comment.at == 43);
    REFUSED(FRAME(MIC_E_TO LAST_FROM PAIR "`(_fn\"Oj/"), 0);
    HOLDS(has_marks(FRAME(TO ZERO_FROM ZERO_HOP LAST_ZERO_HOP PAIR "!4903.50N/07201.75W-"), "0000"));
    HOLDS(has_marks(FRAME(MIC_E_TO ZERO_FROM LAST_ZERO_HOP PAIR "`(_fn\"Oj/"), "000"));
    HOLDS(has_marks(FRAME(TO ZERO_FROM LAST_ZERO_HOP PAIR), "000"));
    REFUSED(tusselgro_read_frame(NULL, 0), 2);
    REFUSED(FRAME("\x82\xa0\xa4\xa6@@"), 2);
    REFUSED(FRAME("\x82\xa0\xa4\xa6@@\xe1" LAST_FROM PAIR), 2);
    REFUSED(FRAME(TO LAST_FROM "\x03\xf1"), 2);
    REFUSED(FRAME(TO "\x9d\x60\x86\x82\x98\x98\x63" PAIR), 3);
    REFUSED(FRAME(TO FROM HOP HOP HOP HOP HOP HOP HOP LAST_HOP PAIR), 0);
    REFUSED(FRAME(TO FROM HOP HOP HOP HOP HOP HOP HOP HOP), 5);
    REFUSED(FRAME(TO LAST_FROM PAIR "!/5L!!<*e7>7P["), 7);
    REFUSED(FRAME(TO LAST_FROM PAIR "!9000.01N/00000.00E-"), 8);
    REFUSED(FRAME(TO LAST_FROM PAIR "!9000.00N/18000.01E-"), 9);
    REFUSED(FRAME(TO LAST_FROM PAIR "!9000.00N/"), 10);
    REFUSED(FRAME(TO LAST_FROM PAIR "`(_fn\"Oj/"), 11);
    REFUSED(FRAME(MIC_E_TO LAST_FROM PAIR "`(_fn\"Oj"), 12);
    REFUSED(FRAME(TO LAST_FROM PAIR ":x"), 18);
    uint8_t frame[513] = TO LAST_FROM PAIR;
    REFUSED(read_lent(tusselgro_read_frame, frame, 512), 0);
    REFUSED(read_lent(tusselgro_read_frame, frame, 513), 1);
}

static bool has_time(tusselgro_read read, uint8_t day, uint8_t hour, uint8_t minute, uint8_t second, uint8_t form) {
    tusselgro_body b = read.record.body;
    return read.refusal == 0 && b.kind == TUSSELGRO_POSITION && b.place.latitude == 294350 && b.place.longitude == -432175 &&
           same_time(b.time, (tusselgro_time){day, hour, minute, second, form});
}

/* R-3: '/' and '@' have a time, '@' says messaging, the comment starts 27 bytes behind the type byte. The examples are those
   of APRS 1.0.1, chapter 8. */
static void check_timed(void) {
    tusselgro_read read = LINE("A>B:/092345z4903.50N/07201.75W>Test1234");
    tusselgro_body b = read.record.body;
    HOLDS(has_time(read, 9, 23, 45, 0, TUSSELGRO_DHM_UTC) && !b.messaging && has_letters(read, false, true));
    HOLDS(b.place.table == '/' && b.place.code == '>' && b.place.blanks == 0 && b.comment.at == 31 && b.comment.len == 8);
    HOLDS(b.report.speed == 0 && b.report.course == 0 && b.report.message == 0 && !b.report.current);
    read = LINE("A>B:@092345/4903.50N/07201.75W>Test1234");
    HOLDS(has_time(read, 9, 23, 45, 0, TUSSELGRO_DHM_LOCAL) && read.record.body.messaging);
    read = LINE("A>B:/234517h4903.50N/07201.75W>");
    HOLDS(has_time(read, 0, 23, 45, 17, TUSSELGRO_HMS_UTC) && !read.record.body.messaging);
    HOLDS(read.record.body.comment.at == 31 && read.record.body.comment.len == 0);
    HOLDS(has_time(LINE("A>B:@000000h4903.50N/07201.75W>"), 0, 0, 0, 0, TUSSELGRO_HMS_UTC));
    HOLDS(has_time(LINE("A>B:@312359z4903.50N/07201.75W>"), 31, 23, 59, 0, TUSSELGRO_DHM_UTC));
    read = FRAME(TO FROM LAST_HOP PAIR "@092345z4903.50N/07201.75W>Test1234");
    HOLDS(has_time(read, 9, 23, 45, 0, TUSSELGRO_DHM_UTC) && read.record.body.messaging);
    HOLDS(read.record.body.comment.at == 50 && read.record.body.comment.len == 8);
    HOLDS(has_time(FRAME(TO LAST_FROM PAIR "/234517h4903.50N/07201.75W>"), 0, 23, 45, 17, TUSSELGRO_HMS_UTC));
    read = LINE("A-0>B,C-0*:@010000/0000.  S/000  .  W-");
    REFUSED(read, 9);
    read = LINE("A-0>B,C-0*:@010000/0000.  S/00000.  W-");
    b = read.record.body;
    HOLDS(has_marks(read, "101") && has_letters(read, true, true) && b.place.blanks == 2);
    HOLDS(same_time(b.time, (tusselgro_time){1, 0, 0, 0, TUSSELGRO_DHM_LOCAL}));
    HOLDS(is_no_time(LINE("A>B:!4903.50N/07201.75W-092345z").record.body.time));
    HOLDS(is_no_time(LINE("A>B:=4903.50N/07201.75W-/092345z").record.body.time));
    HOLDS(is_no_time(LINE("A>S32U6T:`(_fn\"Oj/@092345z").record.body.time));
    HOLDS(is_no_time(LINE("A>B:x092345z").record.body.time));
}

/* Reads these bytes behind either type byte, in a line and in a frame; 0 is to be accepted. */
static void timed(const uint8_t *bytes, size_t size, int expected, const char *file, int line) {
    for (const char *type = "/@"; *type; type++) {
        uint8_t text[64] = "A>B:", frame[64] = TO LAST_FROM PAIR;
        text[4] = frame[16] = (uint8_t)*type;
        memcpy(text + 5, bytes, size);
        memcpy(frame + 17, bytes, size);
        refused(read_lent(tusselgro_read_text, text, 5 + size).refusal, expected, file, line);
        refused(read_lent(tusselgro_read_frame, frame, 17 + size).refusal, expected, file, line);
    }
}

#define TIMED(string, expected) timed(BYTES(string), expected, __FILE__, __LINE__)
#define POSITION "4903.50N/07201.75W-"
#define COMPRESSED "/5L!!<*e7>7P["

/* "10 when the seven bytes are missing stands before" 17, "and 7, 10, 8, 9 follow". */
static void check_time_refusals(void) {
    TIMED("", 10);
    TIMED("010000", 10);
    TIMED("xxxxxx", 10);
    TIMED("xxxxxxx", 17);
    TIMED("000000z" COMPRESSED, 17);
    TIMED("xxxxxxx" POSITION, 17);
    TIMED("010000z", 7);
    TIMED("010000z" COMPRESSED, 7);
    TIMED("010000z" COMPRESSED "xxxxxxxx", 7);
    TIMED("010000z0", 10);
    TIMED("010000z4903.50N/07201.75W", 10);
    TIMED("010000z9000.01N/18000.01E-", 8);
    TIMED("010000z9000.00N/18000.01E-", 9);
    TIMED("010000z" POSITION, 0);
    TIMED("000000z" POSITION, 17);
    TIMED("310000z" POSITION, 0);
    TIMED("320000z" POSITION, 17);
    TIMED("012300z" POSITION, 0);
    TIMED("012400z" POSITION, 17);
    TIMED("010059z" POSITION, 0);
    TIMED("010060z" POSITION, 17);
    TIMED("010000/" POSITION, 0);
    TIMED("000000/" POSITION, 17);
    TIMED("310000/" POSITION, 0);
    TIMED("320000/" POSITION, 17);
    TIMED("012300/" POSITION, 0);
    TIMED("012400/" POSITION, 17);
    TIMED("010059/" POSITION, 0);
    TIMED("010060/" POSITION, 17);
    TIMED("000000h" POSITION, 0);
    TIMED("230000h" POSITION, 0);
    TIMED("240000h" POSITION, 17);
    TIMED("005900h" POSITION, 0);
    TIMED("006000h" POSITION, 17);
    TIMED("000059h" POSITION, 0);
    TIMED("000060h" POSITION, 17);
    TIMED("010000Z" POSITION, 17);
    TIMED("000000H" POSITION, 17);
    TIMED("010000x" POSITION, 17);
    TIMED("      /" POSITION, 17);
    TIMED("01 000z" POSITION, 17);
    TIMED("+1+1+1z" POSITION, 17);
    REFUSED(LINE("A->B:/xxxxxxx"), 3);
    REFUSED(LINE("A>B,qAc:/xxxxxxx"), 6);
    REFUSED(LINE("A>B,qAC:/xxxxxxx"), 17);
}

void check_reading(void) {
    check_position();
    check_mic_e();
    check_letters();
    check_marks();
    check_values();
    check_line_refusals();
    check_frames();
    check_timed();
    check_time_refusals();
}
