/*
 * The parts of a packet read and written one by one: document 01's values, the published examples, and every refusal of each.
 * What a reader answers is told in words, all of its parts, and held to the words expected.
 */
#include "check.h"

#include <stdio.h>
#include <string.h>

/* Tells in words what a reader makes of bytes under a setting; 0 where it has none. */
typedef void teller(const uint8_t *bytes, size_t size, unsigned setting, char *told);

enum { TOLD = 128 };

static void tells(teller *function, const uint8_t *bytes, size_t size, unsigned setting, const char *expected,
                  const char *file, int line) {
    for (int side = 0; side < 2; side++) {
        char told[TOLD] = "";
        const uint8_t *lent = lend_input(0, (slice){bytes, size}, side);
        function(lent, size, setting, told);
        holds(input_kept(0, lent, (slice){bytes, size}), "the input is left alone", file, line);
        holds(strcmp(told, expected) == 0, told, file, line);
    }
}

#define TELLS(function, string, setting, expected) \
    tells(function, BYTES(string), setting, expected, __FILE__, __LINE__)

/* Holds the bytes and the refusal of an answer that has no buffer. */
#define IS(answer, string, expected) \
    HOLDS((answer).refusal == (expected) && memcmp((answer).bytes, string, sizeof (answer).bytes) == 0)

static const char zeros[8];

/* ---- callsigns */

static tusselgro_callsign call_of(const char *text) {
    return tusselgro_read_callsign((const uint8_t *)text, strlen(text)).call;
}

/* call/SSID, that text holds nothing else, and the mark of a dropped zero */
static int tell_call(char *told, int refusal, tusselgro_callsign c) {
    int call = c.call_len, ssid = c.ssid_len, used = call + (ssid > 0 ? 1 + ssid : 0);
    if (used > 16 || (ssid > 0 && c.text[call] != '-')) return snprintf(told, TOLD, "no callsign");
    bool tidy = memcmp(c.text + used, (uint8_t[16]){0}, 16 - (size_t)used) == 0;
    const char *from = ssid > 0 ? (const char *)c.text + call + 1 : "";
    return snprintf(told, TOLD, "%d %.*s/%.*s%s%s", refusal, call, (const char *)c.text, ssid, from, tidy ? "" : " spare",
                    c.had_zero_ssid ? " zero" : "");
}

static void callsign(const uint8_t *bytes, size_t size, unsigned setting, char *told) {
    tusselgro_callsign_read r = tusselgro_read_callsign(bytes, size);
    (void)setting;
    told += tell_call(told, r.refusal, r.call);
    sprintf(told, "%s", r.starred ? " starred" : "");
}

static void check_callsigns_read(void) {
    TELLS(callsign, "N0CALL-01", 0, "0 N0CALL/01");
    TELLS(callsign, "WIDE2-2*", 0, "0 WIDE2/2 starred");
    TELLS(callsign, "", 0, "0 /");
    TELLS(callsign, "*", 0, "0 / starred");
    TELLS(callsign, "A-0", 0, "0 A/ zero");
    TELLS(callsign, "A-0*", 0, "0 A/ zero starred");
    TELLS(callsign, "0-0", 0, "0 0/ zero");
    TELLS(callsign, "ABCDEFGHIJKLMN-0*", 0, "0 ABCDEFGHIJKLMN/ zero starred");
    TELLS(callsign, "A-00", 0, "0 A/00");
    TELLS(callsign, "A-0-0", 0, "0 A/0-0");
    TELLS(callsign, "A-+0", 0, "0 A/+0");
    TELLS(callsign, "A-0**", 0, "0 A/0* starred");
    TELLS(callsign, "0", 0, "0 0/");
    TELLS(callsign, "A-1-2", 0, "0 A/1-2");
    TELLS(callsign, "X**", 0, "0 X*/ starred");
    TELLS(callsign, "ABCDEFGHIJKLMN-1*", 0, "0 ABCDEFGHIJKLMN/1 starred");
    TELLS(callsign, "ABCDEFGHIJKLMNO-0", 0, "4 /");
    TELLS(callsign, "ABCDEFGHIJKLMNOP\xff", 0, "4 /");
    TELLS(callsign, "A-", 0, "3 /");
    TELLS(callsign, "-1", 0, "3 /");
    TELLS(callsign, "-0", 0, "3 /");
    TELLS(callsign, "\xff-0", 0, "3 /");
    TELLS(callsign, "A-*", 0, "3 /");
    TELLS(callsign, "\xff*", 0, "3 /");
    HOLDS(tusselgro_read_callsign(NULL, 0).refusal == 0);
}

typedef struct {
    tusselgro_callsign call;
    bool starred;
} spelled;

static tusselgro_answer spell(const void *what, uint8_t *out, size_t room) {
    const spelled *s = what;
    return tusselgro_write_callsign(s->call, s->starred, out, room);
}

static tusselgro_answer write_callsign(tusselgro_callsign call, bool starred, size_t room) {
    return fill_lent(spell, &(spelled){call, starred}, 1, room);
}

static void check_callsigns_written(void) {
    HOLDS(wrote(write_callsign(call_of("N0CALL-01"), false, 9), BYTES("N0CALL-01")));
    HOLDS(wrote(write_callsign(call_of("N0CALL-01"), true, 100), BYTES("N0CALL-01*")));
    HOLDS(wrote(write_callsign(call_of(""), false, 0), BYTES("")));
    HOLDS(wrote(write_callsign(call_of("A-0"), true, 2), BYTES("A*")));
    HOLDS(wrote(write_callsign((tusselgro_callsign){"A-1", 1, 1, true}, false, 3), BYTES("A-1")));
    HOLDS(wrote(write_callsign((tusselgro_callsign){"", 0, 0, true}, false, 0), BYTES("")));
    tusselgro_answer answer = write_callsign(call_of("N0CALL-01"), true, 9);
    REFUSED(answer, 16);
    HOLDS(answer.needed == 10);
    REFUSED(write_callsign((tusselgro_callsign){"A-0", 1, 1, false}, false, 100), 15);
    REFUSED(write_callsign((tusselgro_callsign){"A-0", 1, 1, true}, false, 100), 15);
    REFUSED(write_callsign((tusselgro_callsign){"A", 17, 0, false}, false, 100), 15);
    REFUSED(write_callsign((tusselgro_callsign){"A", 255, 255, false}, true, 100), 15);
    REFUSED(write_callsign((tusselgro_callsign){"A-1", 1, 254, false}, true, 100), 15);
    REFUSED(write_callsign((tusselgro_callsign){"A-1", 255, 1, false}, true, 100), 15);
    REFUSED(write_callsign((tusselgro_callsign){"\xff", 1, 0, false}, false, 0), 15);
}

/* ---- addresses */

static void address(const uint8_t *bytes, size_t size, unsigned setting, char *told) {
    tusselgro_address_read r = tusselgro_read_address(bytes, size);
    (void)setting;
    told += tell_call(told, r.refusal, r.call);
    sprintf(told, "%s%s", r.heard ? " heard" : "", r.last ? " last" : "");
}

/* P10 and AX.25 2.2, 3.12. */
static void check_addresses_read(void) {
    TELLS(address, "\x9c\x60\x86\x82\x98\x98\xe3", 0, "0 N0CALL/1 heard last");
    TELLS(address, "\x9c\x94\x6e\xa0\x40\x40\xe0", 0, "0 NJ7P/ heard");
    TELLS(address, "\x9c\x6e\x98\x8a\x9a\x40\x61", 0, "0 N7LEM/ last");
    TELLS(address, "\x9c\x6e\x9e\x9e\x40\x40\xe3", 0, "0 N7OO/1 heard last");
    TELLS(address, "\xc2\x40\x40\x40\x40\x40\x1e", 0, "0 A/15");
    TELLS(address, "\x40\x40\x40\x40\x40\x40\x6a", 0, "0 /5");
    TELLS(address, "\x9d\x60\x86\x82\x98\x98\xe3", 0, "3 /");
    TELLS(address, "\x9c\x40\x86\x82\x98\x98\xe3", 0, "3 /");
    TELLS(address, "\x9c\x5a\x86\x82\x98\x98\xe3", 0, "3 /");
    TELLS(address, "\x9c\x60\x86\x82\x98\x98", 0, "3 /");
    TELLS(address, "\x9c\x60\x86\x82\x98\x98\xe3\x03", 0, "3 /");
    TELLS(address, "", 0, "3 /");
}

static void check_addresses_written(void) {
    tusselgro_callsign n0call = call_of("N0CALL-1"), n7lem = call_of("n7lem");
    IS(tusselgro_write_address(n0call, TUSSELGRO_HEARD_HOP, true), "\x9c\x60\x86\x82\x98\x98\xe3", 0);
    IS(tusselgro_write_address(n0call, TUSSELGRO_HOP, true), "\x9c\x60\x86\x82\x98\x98\x63", 0);
    IS(tusselgro_write_address(call_of("NJ7P"), TUSSELGRO_DESTINATION, false), "\x9c\x94\x6e\xa0\x40\x40\xe0", 0);
    IS(tusselgro_write_address(n7lem, TUSSELGRO_SOURCE, true), "\x9c\x6e\x98\x8a\x9a\x40\x61", 0);
    IS(tusselgro_write_address(n7lem, TUSSELGRO_SOURCE, false), "\x9c\x6e\x98\x8a\x9a\x40\x60", 0);
    IS(tusselgro_write_address(call_of("N7OO-+1"), TUSSELGRO_HEARD_HOP, true), "\x9c\x6e\x9e\x9e\x40\x40\xe3", 0);
    IS(tusselgro_write_address(call_of("N7LEM-0"), TUSSELGRO_SOURCE, true), "\x9c\x6e\x98\x8a\x9a\x40\x61", 0);
    n0call.had_zero_ssid = true;
    IS(tusselgro_write_address(n0call, TUSSELGRO_HEARD_HOP, true), "\x9c\x60\x86\x82\x98\x98\xe3", 0);
    IS(tusselgro_write_address(call_of("ABCDEFG"), TUSSELGRO_SOURCE, false), zeros, 13);
    IS(tusselgro_write_address(call_of("A-16"), TUSSELGRO_SOURCE, false), zeros, 13);
    IS(tusselgro_write_address(call_of("A/"), TUSSELGRO_SOURCE, false), zeros, 13);
    IS(tusselgro_write_address(n0call, 4, false), zeros, 15);
    IS(tusselgro_write_address(call_of("ABCDEFG"), 255, true), zeros, 15);
    IS(tusselgro_write_address((tusselgro_callsign){"ABCDEFG", 17, 0, false}, TUSSELGRO_HOP, true), zeros, 15);
    IS(tusselgro_write_address((tusselgro_callsign){"A-1", 1, 254, false}, TUSSELGRO_HOP, true), zeros, 15);
}

/* ---- angles, times and positions */

static void latitude(const uint8_t *bytes, size_t size, unsigned setting, char *told) {
    tusselgro_latitude_read r = tusselgro_read_latitude(bytes, size);
    (void)setting;
    sprintf(told, "%d %d %d%s%s", r.refusal, r.latitude, r.blanks, r.south ? " south" : "", r.sixty ? " sixty" : "");
}

static void longitude(const uint8_t *bytes, size_t size, unsigned blanks, char *told) {
    tusselgro_longitude_read r = tusselgro_read_longitude(bytes, size, (uint8_t)blanks);
    sprintf(told, "%d %d%s%s", r.refusal, r.longitude, r.west ? " west" : "", r.sixty ? " sixty" : "");
}

/* P12 and APRS 1.0.1, chapter 6. */
static void check_angles_read(void) {
    TELLS(latitude, "4903.50N", 0, "0 294350 0");
    TELLS(latitude, "4903.5 N", 0, "0 294350 1");
    TELLS(latitude, "4903.  N", 0, "0 294300 2");
    TELLS(latitude, "490 .  N", 0, "0 294000 3");
    TELLS(latitude, "49  .  N", 0, "0 294000 4");
    TELLS(latitude, "4   .  S", 0, "0 -240000 5 south");
    TELLS(latitude, "0000.00S", 0, "0 0 0 south");
    TELLS(latitude, "9000.00N", 0, "0 540000 0");
    TELLS(latitude, "8960.00N", 0, "0 540000 0 sixty");
    TELLS(latitude, "9000.01N", 0, "8 0 0");
    TELLS(latitude, "    .  S", 0, "8 0 0");
    TELLS(latitude, "49 3.50S", 0, "8 0 0");
    TELLS(latitude, "4903.50E", 0, "8 0 0");
    TELLS(latitude, "4903,50N", 0, "8 0 0");
    TELLS(latitude, "4903.50", 0, "8 0 0");
    TELLS(latitude, "4903.50N/", 0, "8 0 0");
    TELLS(latitude, "", 0, "8 0 0");
    TELLS(longitude, "07201.75W", 0, "0 -432175 west");
    TELLS(longitude, "072  .  W", 4, "0 -432000 west");
    TELLS(longitude, "072xx.\xff\x01" "E", 4, "0 432000");
    TELLS(longitude, "07260.00E", 0, "0 438000 sixty");
    TELLS(longitude, "00000.00W", 0, "0 0 west");
    TELLS(longitude, "18000.00W", 5, "0 -1080000 west");
    TELLS(longitude, "18000.01E", 0, "9 0");
    TELLS(longitude, "072  .  W", 3, "9 0");
    TELLS(longitude, "07201.75N", 0, "9 0");
    TELLS(longitude, "07201.75", 0, "9 0");
    TELLS(longitude, "07201.75W-", 0, "9 0");
    TELLS(longitude, "07201.75W", 6, "15 0");
    TELLS(longitude, "", 255, "15 0");
}

typedef struct {
    int32_t angle;
    uint8_t blanks;
} blanked;

static tusselgro_answer put_latitude(const void *what, uint8_t *out, size_t room) {
    const blanked *b = what;
    return tusselgro_write_latitude(b->angle, b->blanks, out, room);
}

static tusselgro_answer put_longitude(const void *what, uint8_t *out, size_t room) {
    const blanked *b = what;
    return tusselgro_write_longitude(b->angle, out, room);
}

static tusselgro_answer write_latitude(int32_t angle, uint8_t blanks, size_t room) {
    return fill_lent(put_latitude, &(blanked){angle, blanks}, 1, room);
}

static tusselgro_answer write_longitude(int32_t angle, size_t room) {
    return fill_lent(put_longitude, &(blanked){angle, 0}, 1, room);
}

static void check_angles_written(void) {
    HOLDS(wrote(write_latitude(294350, 0, 8), BYTES("4903.50N")));
    HOLDS(wrote(write_latitude(294359, 1, 100), BYTES("4903.5 N")));
    HOLDS(wrote(write_latitude(-294350, 5, 8), BYTES("4   .  S")));
    HOLDS(wrote(write_latitude(-50, 2, 8), BYTES("0000.  S")));
    HOLDS(wrote(write_latitude(0, 0, 8), BYTES("0000.00N")));
    REFUSED(write_latitude(540001, 0, 8), 15);
    REFUSED(write_latitude(INT32_MIN, 0, 8), 15);
    REFUSED(write_latitude(0, 6, 0), 15);
    tusselgro_answer answer = write_latitude(540000, 0, 7);
    REFUSED(answer, 16);
    HOLDS(answer.needed == 8);
    HOLDS(wrote(write_longitude(-432175, 9), BYTES("07201.75W")));
    HOLDS(wrote(write_longitude(0, 100), BYTES("00000.00E")));
    HOLDS(wrote(write_longitude(1080000, 9), BYTES("18000.00E")));
    REFUSED(write_longitude(1080001, 9), 15);
    REFUSED(write_longitude(INT32_MIN, 0), 15);
    answer = write_longitude(-1080000, 8);
    REFUSED(answer, 16);
    HOLDS(answer.needed == 9);
}

static void moment(const uint8_t *bytes, size_t size, unsigned setting, char *told) {
    tusselgro_time_read r = tusselgro_read_time(bytes, size);
    tusselgro_time t = r.time;
    (void)setting;
    sprintf(told, "%d %d %d %d %d %d", r.refusal, t.day, t.hour, t.minute, t.second, t.form);
}

static tusselgro_answer put_time(const void *what, uint8_t *out, size_t room) {
    return tusselgro_write_time(*(const tusselgro_time *)what, out, room);
}

static tusselgro_answer write_time(tusselgro_time time, size_t room) { return fill_lent(put_time, &time, 1, room); }

/* R-3, with the examples of APRS 1.0.1, chapter 6; 122 is the letter 'z', 47 '/', 104 'h'. */
static void check_times_read(void) {
    TELLS(moment, "092345z", 0, "0 9 23 45 0 122");
    TELLS(moment, "092345/", 0, "0 9 23 45 0 47");
    TELLS(moment, "234517h", 0, "0 0 23 45 17 104");
    TELLS(moment, "010000z", 0, "0 1 0 0 0 122");
    TELLS(moment, "312359/", 0, "0 31 23 59 0 47");
    TELLS(moment, "000000h", 0, "0 0 0 0 0 104");
    TELLS(moment, "235959h", 0, "0 0 23 59 59 104");
    TELLS(moment, "000000z", 0, "17 0 0 0 0 0");
    TELLS(moment, "320000z", 0, "17 0 0 0 0 0");
    TELLS(moment, "012400/", 0, "17 0 0 0 0 0");
    TELLS(moment, "010060/", 0, "17 0 0 0 0 0");
    TELLS(moment, "240000h", 0, "17 0 0 0 0 0");
    TELLS(moment, "006000h", 0, "17 0 0 0 0 0");
    TELLS(moment, "000060h", 0, "17 0 0 0 0 0");
    TELLS(moment, "010000Z", 0, "17 0 0 0 0 0");
    TELLS(moment, "000000H", 0, "17 0 0 0 0 0");
    TELLS(moment, "01 000z", 0, "17 0 0 0 0 0");
    TELLS(moment, "+1+1+1z", 0, "17 0 0 0 0 0");
    TELLS(moment, "092345", 0, "17 0 0 0 0 0");
    TELLS(moment, "092345z4", 0, "17 0 0 0 0 0");
    TELLS(moment, "", 0, "17 0 0 0 0 0");
    REFUSED(tusselgro_read_time(NULL, 0), 17);
}

static void check_times_written(void) {
    HOLDS(wrote(write_time((tusselgro_time){9, 23, 45, 0, TUSSELGRO_DHM_UTC}, 7), BYTES("092345z")));
    HOLDS(wrote(write_time((tusselgro_time){9, 23, 45, 0, TUSSELGRO_DHM_LOCAL}, 100), BYTES("092345/")));
    HOLDS(wrote(write_time((tusselgro_time){0, 23, 45, 17, TUSSELGRO_HMS_UTC}, 7), BYTES("234517h")));
    HOLDS(wrote(write_time((tusselgro_time){0, 0, 0, 0, TUSSELGRO_HMS_UTC}, 7), BYTES("000000h")));
    HOLDS(wrote(write_time((tusselgro_time){0, 0, 0, 0, TUSSELGRO_NO_TIME}, 0), BYTES("")));
    HOLDS(wrote(write_time((tusselgro_time){0, 0, 0, 0, TUSSELGRO_NO_TIME}, 100), BYTES("")));
    for (size_t room = 0; room < 7; room++) {
        tusselgro_answer answer = write_time((tusselgro_time){31, 0, 0, 0, TUSSELGRO_DHM_UTC}, room);
        REFUSED(answer, 16);
        HOLDS(answer.needed == 7);
    }
    REFUSED(write_time((tusselgro_time){0, 23, 45, 0, TUSSELGRO_DHM_UTC}, 7), 15);
    REFUSED(write_time((tusselgro_time){32, 23, 45, 0, TUSSELGRO_DHM_LOCAL}, 7), 15);
    REFUSED(write_time((tusselgro_time){9, 24, 45, 0, TUSSELGRO_DHM_UTC}, 7), 15);
    REFUSED(write_time((tusselgro_time){9, 23, 60, 0, TUSSELGRO_DHM_LOCAL}, 7), 15);
    REFUSED(write_time((tusselgro_time){0, 23, 45, 60, TUSSELGRO_HMS_UTC}, 7), 15);
    REFUSED(write_time((tusselgro_time){9, 23, 45, 17, TUSSELGRO_DHM_UTC}, 7), 15);
    REFUSED(write_time((tusselgro_time){9, 23, 45, 17, TUSSELGRO_HMS_UTC}, 7), 15);
    REFUSED(write_time((tusselgro_time){9, 23, 45, 0, 'Z'}, 7), 15);
    REFUSED(write_time((tusselgro_time){9, 23, 45, 0, TUSSELGRO_NO_TIME}, 7), 15);
    REFUSED(write_time((tusselgro_time){255, 255, 255, 255, 255}, 0), 15);
}

static void position(const uint8_t *bytes, size_t size, unsigned setting, char *told) {
    tusselgro_position_read r = tusselgro_read_position(bytes, size);
    tusselgro_place p = r.place;
    (void)setting;
    sprintf(told, "%d %d %d %d %d %d%s%s%s%s", r.refusal, p.latitude, p.longitude, p.blanks, p.table, p.code,
            p.south ? " south" : "", p.west ? " west" : "", r.latitude_sixty ? " latitude-sixty" : "",
            r.longitude_sixty ? " longitude-sixty" : "");
}

static tusselgro_answer put_position(const void *what, uint8_t *out, size_t room) {
    return tusselgro_write_position(*(const tusselgro_place *)what, out, room);
}

static tusselgro_answer write_position(tusselgro_place place, size_t room) {
    return fill_lent(put_position, &place, 1, room);
}

/* APRS 1.0.1, chapter 8; 47 is the table '/', 45 the code '-'. */
static void check_positions(void) {
    TELLS(position, "4903.50N/07201.75W-Test 001234", 0, "0 294350 -432175 0 47 45 west");
    TELLS(position, "49  .  N/072  .  W-", 0, "0 294000 -432000 4 47 45 west");
    TELLS(position, "0060.00S\xff" "00060.00E\x80", 0, "0 -6000 6000 0 255 128 south latitude-sixty longitude-sixty");
    TELLS(position, "0060.00S/00000.00W-", 0, "0 -6000 0 0 47 45 south west latitude-sixty");
    TELLS(position, "0000.00S/00000.00W-", 0, "0 0 0 0 47 45 south west");
    TELLS(position, "0000.00N/00000.00W-", 0, "0 0 0 0 47 45 west");
    TELLS(position, "0000.  S/000xx.xxE-", 0, "9 0 0 0 0 0");
    TELLS(position, "0000.  S/00000.  E-", 0, "0 0 0 2 47 45 south");
    TELLS(position, "0000.00N/00000.00E-", 0, "0 0 0 0 47 45");
    TELLS(position, "", 0, "7 0 0 0 0 0");
    TELLS(position, "/5L!!<*e7>7P[xxxxxxxx", 0, "7 0 0 0 0 0");
    TELLS(position, "4903.50N/07201.75W", 0, "10 0 0 0 0 0");
    TELLS(position, "\xb2", 0, "10 0 0 0 0 0");
    TELLS(position, "\xb2" "903.50N/07201.75W-", 0, "8 0 0 0 0 0");
    TELLS(position, "4903.50N/072  .  W-", 0, "9 0 0 0 0 0");
    tusselgro_place place = {294350, -432175, 0, '/', '-', false, true};
    HOLDS(wrote(write_position(place, 19), BYTES("4903.50N/07201.75W-")));
    tusselgro_answer answer = write_position(place, 18);
    REFUSED(answer, 16);
    HOLDS(answer.needed == 19);
    place.blanks = 4;
    HOLDS(wrote(write_position(place, 100), BYTES("49  .  N/07201.75W-")));
    REFUSED(write_position((tusselgro_place){294350, -432175, 6, '/', '-', false, true}, 19), 15);
    REFUSED(write_position((tusselgro_place){294350, -432175, 0, 128, '-', false, true}, 19), 15);
    REFUSED(write_position((tusselgro_place){294350, -432175, 0, '/', 255, false, true}, 19), 15);
    REFUSED(write_position((tusselgro_place){540001, 0, 0, '/', '-', false, false}, 19), 15);
    REFUSED(write_position((tusselgro_place){0, INT32_MIN, 0, '/', '-', false, true}, 0), 15);
}

/* at 0 any two letters are in range, and N and E are written; elsewhere the letters must be the angles' own. */
static void check_letters(void) {
    for (int letters = 0; letters < 4; letters++) {
        bool south = letters & 1, west = letters & 2;
        tusselgro_answer answer = write_position((tusselgro_place){0, 0, 0, '/', '-', south, west}, 19);
        HOLDS(wrote(answer, BYTES("0000.00N/00000.00E-")));
        answer = write_position((tusselgro_place){-50, 1, 2, '/', '-', south, west}, 19);
        if (south && !west) {
            HOLDS(wrote(answer, BYTES("0000.  S/00000.01E-")));
        } else {
            REFUSED(answer, 15);
        }
        answer = write_position((tusselgro_place){1, -1, 0, '/', '-', south, west}, 100);
        if (!south && west) {
            HOLDS(wrote(answer, BYTES("0000.01N/00000.01W-")));
        } else {
            REFUSED(answer, 15);
        }
    }
}

/* ---- Mic-E */

static void destination(const uint8_t *bytes, size_t size, unsigned setting, char *told) {
    tusselgro_destination_read r = tusselgro_read_destination(bytes, size);
    (void)setting;
    sprintf(told, "%d %d %d %d%s%s%s%s", r.refusal, r.latitude, r.message, r.blanks, r.south ? " south" : "",
            r.hundred ? " hundred" : "", r.west ? " west" : "", r.sixty ? " sixty" : "");
}

/* P7 to P9 and APRS 1.0.1, chapter 10. */
static void check_destinations(void) {
    TELLS(destination, "S32U6T", 0, "0 200564 3 0 west");
    TELLS(destination, "S32UVT", 0, "0 200564 3 0 hundred west");
    TELLS(destination, "4LLLLL", 0, "0 -240000 14 5 south");
    TELLS(destination, "0LLLLL", 0, "0 0 14 5 south");
    TELLS(destination, "000PPP", 0, "0 0 14 0 hundred west");
    TELLS(destination, "AAA000", 0, "0 0 7 0 south");
    TELLS(destination, "336000", 0, "0 -204000 14 0 south sixty");
    TELLS(destination, "PAP000", 0, "0 0 15 0 south");
    TELLS(destination, "LLLLLL", 0, "11 0 0 0");
    TELLS(destination, "S32A6T", 0, "11 0 0 0");
    TELLS(destination, "s32u6t", 0, "11 0 0 0");
    TELLS(destination, "S32U6", 0, "11 0 0 0");
    TELLS(destination, "S32U6T-", 0, "11 0 0 0");
    TELLS(destination, "", 0, "11 0 0 0");
    IS(tusselgro_write_destination(200564, 0, TUSSELGRO_M3, -72774), "S32U6T", 0);
    IS(tusselgro_write_destination(200564, 0, TUSSELGRO_M3, -672774), "S32UVT", 0);
    IS(tusselgro_write_destination(-240000, 5, TUSSELGRO_EMERGENCY, 60000), "4LLLLL", 0);
    IS(tusselgro_write_destination(0, 5, TUSSELGRO_EMERGENCY, 60000), "0LLZLL", 0);
    IS(tusselgro_write_destination(0, 0, TUSSELGRO_EMERGENCY, 0), "000PP0", 0);
    IS(tusselgro_write_destination(0, 0, 16, 0), zeros, 15);
    IS(tusselgro_write_destination(0, 0, 255, 0), zeros, 15);
    IS(tusselgro_write_destination(540001, 0, 0, 0), zeros, 15);
    IS(tusselgro_write_destination(0, 6, 0, 0), zeros, 15);
    IS(tusselgro_write_destination(0, 0, 0, -1080000), zeros, 15);
    for (uint8_t message = 0; message <= 15; message++) {
        tusselgro_destination written = tusselgro_write_destination(1, 0, message, 0);
        HOLDS(written.refusal == 0 && tusselgro_read_destination(written.bytes, 6).message == message);
    }
}

enum { HUNDRED = 2, WEST = 1 };

static void information(const uint8_t *bytes, size_t size, unsigned setting, char *told) {
    tusselgro_information_read r = tusselgro_read_information(bytes, size, setting & HUNDRED, setting & WEST);
    tusselgro_information i = r.information;
    sprintf(told, "%d %d %u %u %d %d", r.refusal, i.longitude, i.speed, i.course, i.code, i.table);
}

static tusselgro_answer put_information(const void *what, uint8_t *out, size_t room) {
    return tusselgro_write_information(*(const tusselgro_information *)what, out, room);
}

static tusselgro_answer write_information(int32_t angle, uint32_t speed, uint32_t course, size_t room) {
    return fill_lent(put_information, &(tusselgro_information){angle, speed, course, 'j', '/'}, 1, room);
}

/* P1 to P7 and APRS 1.0.1, chapter 10; 106 is the code 'j', 47 the table '/'. */
static void check_information(void) {
    TELLS(information, "(_fn\"Oj/", HUNDRED | WEST, "0 -672774 20 251 106 47");
    TELLS(information, "(_fn\"Oj/Comment", WEST, "0 -72774 20 251 106 47");
    TELLS(information, "(_fn\"Oj/", 0, "0 72774 20 251 106 47");
    TELLS(information, "vX\x1cl \x1c\x01\xff", HUNDRED, "0 0 0 0 1 255");
    TELLS(information, "vX\x1c\x1c\x1c\x1cj/", HUNDRED, "0 0 0 0 106 47");
    TELLS(information, "vX\x1c\x1b\x1c\x1cj/", HUNDRED, "12 0 0 0 0 0");
    TELLS(information, "vX\x1c\x1c%\x1cj/", HUNDRED, "12 0 0 0 0 0");
    TELLS(information, "\x1bX\x1c\x1c\x1c\x1cj/", HUNDRED, "12 0 0 0 0 0");
    TELLS(information, "(_fn\"Oj", WEST, "12 0 0 0 0 0");
    TELLS(information, "", WEST, "12 0 0 0 0 0");
    HOLDS(wrote(write_information(-72774, 20, 251, 8), BYTES("(_fn\"Oj/")));
    HOLDS(wrote(write_information(630000, 799, 360, 100), BYTES("\x71\x58\x1c\x6b\x7d\x58j/")));
    tusselgro_answer answer = write_information(0, 0, 0, 7);
    REFUSED(answer, 16);
    HOLDS(answer.needed == 8);
    REFUSED(write_information(1080000, 0, 0, 8), 15);
    REFUSED(write_information(INT32_MIN, 0, 0, 8), 15);
    REFUSED(write_information(0, 800, 0, 8), 15);
    REFUSED(write_information(0, 0, 361, 8), 15);
    REFUSED(write_information(0, UINT32_MAX, UINT32_MAX, 0), 15);
}

/* ---- messages and status lines */

static void message(const uint8_t *bytes, size_t size, unsigned setting, char *told) {
    tusselgro_message_read r = tusselgro_read_message(bytes, size);
    (void)setting;
    sprintf(told, "%d %zu %zu <%.9s>", r.refusal, r.text_len, r.identifier_len, (const char *)r.addressee);
}

/* R-5, the first two with the examples of APRS 1.0.1, chapter 14. */
static void check_messages_read(void) {
    TELLS(message, "WU2Z     :Testing", 0, "0 7 0 <WU2Z     >");
    TELLS(message, "WU2Z     :Testing{003", 0, "0 7 3 <WU2Z     >");
    TELLS(message, "WU2Z     :", 0, "0 0 0 <WU2Z     >");
    TELLS(message, ": : : : ::{a{b", 0, "0 0 3 <: : : : :>");
    TELLS(message, "         :x{|~{|~", 0, "0 1 5 <         >");
    TELLS(message, "", 0, "18 0 0 <>");
    TELLS(message, "WU2Z     ", 0, "18 0 0 <>");
    TELLS(message, "WU2Z    :Testing", 0, "18 0 0 <>");
    TELLS(message, "WU2Z     :Testing{", 0, "18 0 0 <>");
    TELLS(message, "WU2Z     :Testing{123456", 0, "18 0 0 <>");
    TELLS(message, "WU2Z     :a|b", 0, "18 0 0 <>");
    TELLS(message, "WU2Z     :a~b{1", 0, "18 0 0 <>");
    REFUSED(tusselgro_read_message(NULL, 0), 18);
    uint8_t bytes[9 + 1 + 68] = ":::::::::";
    memset(bytes + 9, ':', sizeof bytes - 9);
    REFUSED(tusselgro_read_message(bytes, sizeof bytes - 1), 0);
    REFUSED(tusselgro_read_message(bytes, sizeof bytes), 18);
    memset(bytes, 0, 9);
    HOLDS(memcmp(tusselgro_read_message(bytes, 10).addressee, bytes, 9) == 0);
}

typedef struct {
    slice addressee, text, identifier;
} addressed;

/* lends each on both sides; the bytes that are put are the same, so the buffer is as after one call */
static tusselgro_answer put_message(const void *what, uint8_t *out, size_t room) {
    const addressed *m = what;
    tusselgro_answer answer[2];
    for (int side = 0; side < 2; side++) {
        const uint8_t *to = lend_input(0, m->addressee, side), *text = lend_input(1, m->text, side),
                      *id = lend_input(2, m->identifier, side);
        answer[side] = tusselgro_write_message(to, m->addressee.size, text, m->text.size, id, m->identifier.size, out, room);
        HOLDS(input_kept(0, to, m->addressee) && input_kept(1, text, m->text) && input_kept(2, id, m->identifier));
    }
    HOLDS(same_answer(answer[0], answer[1]));
    return answer[0];
}

static tusselgro_answer write_message(slice addressee, slice text, slice identifier, size_t room) {
    return fill_lent(put_message, &(addressed){addressee, text, identifier}, 1, room);
}

#define X66 "xxxxxxxxxxxxxxxxxxxxxxxxxxxxxxxxxxxxxxxxxxxxxxxxxxxxxxxxxxxxxxxxxx"
_Static_assert(sizeof X66 - 1 == 66, "the letters of X66");

static void check_messages_written(void) {
    slice to = SLICE("WU2Z     "), none = SLICE("");
    HOLDS(wrote(write_message(to, SLICE("Testing"), none, 17), BYTES("WU2Z     :Testing")));
    HOLDS(wrote(write_message(to, SLICE("Testing"), SLICE("003"), 100), BYTES("WU2Z     :Testing{003")));
    HOLDS(wrote(write_message(to, none, none, 10), BYTES("WU2Z     :")));
    HOLDS(wrote(write_message(to, none, SLICE("{"), 12), BYTES("WU2Z     :{{")));
    HOLDS(wrote(write_message(SLICE("::: : :::"), SLICE(":"), SLICE(":"), 13), BYTES("::: : :::::{:")));
    HOLDS(wrote(write_message(SLICE("\0\0\0\0\0\0\0\0\0"), none, none, 10), BYTES("\0\0\0\0\0\0\0\0\0:")));
    HOLDS(wrote(write_message(to, SLICE(X66 "7"), SLICE("12345"), 83), BYTES("WU2Z     :" X66 "7{12345")));
    for (size_t room = 0; room < 21; room++) {
        tusselgro_answer answer = write_message(to, SLICE("Testing"), SLICE("003"), room);
        REFUSED(answer, 16);
        HOLDS(answer.needed == 21);
    }
    REFUSED(write_message(to, SLICE(X66 "78"), none, 100), 18);
    REFUSED(write_message(to, SLICE("Testing"), SLICE("123456"), 100), 18);
    REFUSED(write_message(to, SLICE("a|"), none, 100), 18);
    REFUSED(write_message(to, SLICE("~b"), none, 100), 18);
    REFUSED(write_message(to, SLICE("Testing{003"), none, 0), 18);
    REFUSED(write_message(SLICE("WU2Z    "), SLICE("Testing"), none, 100), 18);
    REFUSED(write_message(SLICE("WU2Z      "), SLICE("Testing"), none, 100), 18);
    REFUSED(write_message(none, none, none, 0), 18);
    REFUSED(tusselgro_write_message(NULL, 0, NULL, 0, NULL, 0, NULL, 0), 18);
    REFUSED(tusselgro_write_message(to.bytes, 9, NULL, 0, NULL, 0, NULL, 0), 16);
}

static void status(const uint8_t *bytes, size_t size, unsigned setting, char *told) {
    tusselgro_status_read r = tusselgro_read_status(bytes, size);
    tusselgro_time t = r.time;
    (void)setting;
    sprintf(told, "%d %d %d %d %d %d", r.refusal, t.day, t.hour, t.minute, t.second, t.form);
}

/* R-5, the first two with the examples of APRS 1.0.1, chapter 16; 122 is the letter 'z'. */
static void check_statuses_read(void) {
    TELLS(status, "Net Control Center", 0, "0 0 0 0 0 0");
    TELLS(status, "092345zNet Control Center", 0, "0 9 23 45 0 122");
    TELLS(status, "", 0, "0 0 0 0 0 0");
    TELLS(status, "010000z", 0, "0 1 0 0 0 122");
    TELLS(status, "312359z|~{", 0, "0 31 23 59 0 122");
    TELLS(status, "010000", 0, "0 0 0 0 0 0");
    TELLS(status, "000000z", 0, "0 0 0 0 0 0");
    TELLS(status, "092345/x", 0, "0 0 0 0 0 0");
    TELLS(status, "234517hx", 0, "0 0 0 0 0 0");
    TELLS(status, "092345Zx", 0, "0 0 0 0 0 0");
    TELLS(status, X66, 0, "18 0 0 0 0 0");
    TELLS(status, "092345z" X66, 0, "18 0 0 0 0 0");
    REFUSED(tusselgro_read_status(NULL, 0), 0);
    uint8_t bytes[63] = "092345z";
    REFUSED(tusselgro_read_status(bytes, 62), 0);
    REFUSED(tusselgro_read_status(bytes, 63), 18);
    bytes[6] = 'Z';
    REFUSED(tusselgro_read_status(bytes, 62), 0);
    REFUSED(tusselgro_read_status(bytes, 63), 18);
}

typedef struct {
    tusselgro_time time;
    slice text;
} stated;

/* as put_message */
static tusselgro_answer put_status(const void *what, uint8_t *out, size_t room) {
    const stated *s = what;
    tusselgro_answer answer[2];
    for (int side = 0; side < 2; side++) {
        const uint8_t *text = lend_input(0, s->text, side);
        answer[side] = tusselgro_write_status(s->time, text, s->text.size, out, room);
        HOLDS(input_kept(0, text, s->text));
    }
    HOLDS(same_answer(answer[0], answer[1]));
    return answer[0];
}

static tusselgro_answer write_status(tusselgro_time time, slice text, size_t room) {
    return fill_lent(put_status, &(stated){time, text}, 1, room);
}

static void check_statuses_written(void) {
    static const tusselgro_time never = {0, 0, 0, 0, TUSSELGRO_NO_TIME}, z = {9, 23, 45, 0, TUSSELGRO_DHM_UTC};
    static const uint8_t many[63] = "x";
    HOLDS(wrote(write_status(never, SLICE("Net Control Center"), 18), BYTES("Net Control Center")));
    HOLDS(wrote(write_status(z, SLICE("Net Control Center"), 100), BYTES("092345zNet Control Center")));
    HOLDS(wrote(write_status(never, SLICE(""), 0), BYTES("")));
    HOLDS(wrote(write_status(z, SLICE(""), 7), BYTES("092345z")));
    HOLDS(wrote(write_status(z, SLICE("010000z"), 14), BYTES("092345z010000z")));
    HOLDS(wrote(write_status(never, SLICE("010000/|~{"), 10), BYTES("010000/|~{")));
    HOLDS(wrote(write_status(never, (slice){many, 62}, 62), many, 62));
    REFUSED(write_status(z, (slice){many, 55}, 62), 0);
    REFUSED(write_status(z, (slice){many, 56}, 100), 18);
    REFUSED(write_status(never, (slice){many, 63}, 100), 18);
    REFUSED(write_status(never, SLICE("010000z"), 100), 18);
    REFUSED(write_status(never, SLICE("312359zx"), 0), 18);
    REFUSED(write_status((tusselgro_time){9, 23, 45, 0, TUSSELGRO_DHM_LOCAL}, SLICE("x"), 100), 15);
    REFUSED(write_status((tusselgro_time){0, 23, 45, 17, TUSSELGRO_HMS_UTC}, SLICE("x"), 100), 15);
    REFUSED(write_status((tusselgro_time){0, 0, 0, 0, TUSSELGRO_HMS_UTC}, (slice){many, 63}, 0), 15);
    REFUSED(write_status((tusselgro_time){32, 0, 0, 0, TUSSELGRO_DHM_UTC}, (slice){many, 63}, 0), 15);
    REFUSED(write_status((tusselgro_time){9, 23, 45, 17, TUSSELGRO_DHM_UTC}, SLICE("x"), 100), 15);
    REFUSED(write_status((tusselgro_time){1, 0, 0, 0, TUSSELGRO_NO_TIME}, SLICE("010000z"), 100), 15);
    for (size_t room = 0; room < 8; room++) {
        tusselgro_answer answer = write_status(z, SLICE("x"), room);
        REFUSED(answer, 16);
        HOLDS(answer.needed == 8);
    }
    REFUSED(tusselgro_write_status(never, NULL, 0, NULL, 0), 0);
}

void check_parts(void) {
    check_callsigns_read();
    check_callsigns_written();
    check_addresses_read();
    check_addresses_written();
    check_angles_read();
    check_angles_written();
    check_times_read();
    check_times_written();
    check_positions();
    check_letters();
    check_destinations();
    check_information();
    check_messages_read();
    check_messages_written();
    check_statuses_read();
    check_statuses_written();
}
