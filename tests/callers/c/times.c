/*
 * Times against document 02's sentence, by code that has nothing of the library's: "day, hour, minute with `z` (UTC) or `/`
 * (local), or hour, minute, second with `h` (UTC). Days 1 to 31, hours 0 to 23, minutes and seconds 0 to 59, two digits each,
 * zeros kept."
 */
#include "check.h"

#include <stdio.h>
#include <string.h>

/* ---- the sentence */

enum { SIX_DIGITS = 1000000 };

/* Which six digits are a day, an hour and a minute; which an hour, a minute and a second. */
static bool is_dhm[SIX_DIGITS], is_hms[SIX_DIGITS];

static void note_times(void) {
    for (int hour = 0; hour <= 23; hour++) {
        for (int minute = 0; minute <= 59; minute++) {
            for (int day = 1; day <= 31; day++) is_dhm[10000 * day + 100 * hour + minute] = true;
            for (int second = 0; second <= 59; second++) is_hms[10000 * hour + 100 * minute + second] = true;
        }
    }
}

bool is_time_text(const uint8_t *seven) {
    int number = 0;
    if (!is_hms[0]) note_times();
    for (int at = 0; at < 6; at++) {
        if (seven[at] < '0' || seven[at] > '9') return false;
        number = 10 * number + seven[at] - '0';
    }
    return seven[6] == 'h' ? is_hms[number] : (seven[6] == 'z' || seven[6] == '/') && is_dhm[number];
}

bool is_no_time(tusselgro_time t) {
    return t.day == 0 && t.hour == 0 && t.minute == 0 && t.second == 0 && t.form == 0;
}

size_t time_text(tusselgro_time t, char text[TIME_TEXT]) {
    if (is_no_time(t)) return 0;
    bool hms = t.form == 'h';
    int first = hms ? t.hour : t.day, second = hms ? t.minute : t.hour, third = hms ? t.second : t.minute;
    return (size_t)snprintf(text, TIME_TEXT, "%02d%02d%02d%c", first, second, third, t.form);
}

bool is_time(tusselgro_time t) {
    char text[TIME_TEXT];
    uint8_t lacking = t.form == 'h' ? t.day : t.second;
    return lacking == 0 && time_text(t, text) == 7 && is_time_text((const uint8_t *)text);
}

/* ---- every text */

static uint8_t pair(const uint8_t *digits) { return (uint8_t)(10 * (digits[0] - '0') + digits[1] - '0'); }

static tusselgro_time time_of(const uint8_t *seven) {
    uint8_t first = pair(seven), second = pair(seven + 2), third = pair(seven + 4);
    return seven[6] == 'h' ? (tusselgro_time){0, first, second, third, 'h'}
                           : (tusselgro_time){first, second, third, 0, seven[6]};
}

/* how many inputs, how many of them are times, and how many were answered otherwise than the sentence has it */
typedef struct {
    size_t inputs, times, wrong;
} tally;

static void note(tally *sum, bool time, bool right) {
    sum->inputs++;
    sum->times += time;
    sum->wrong += !right;
}

/* as the numbers of its digits, which are written as those digits again */
static bool is_read(const uint8_t *seven, tusselgro_time_read r) {
    uint8_t again[7];
    return r.refusal == 0 && same_time(r.time, time_of(seven)) &&
           tusselgro_write_time(r.time, again, 7).reported == 7 && memcmp(again, seven, 7) == 0;
}

static void note_text(tally *sum, const uint8_t *seven) {
    tusselgro_time_read r = tusselgro_read_time(seven, 7);
    bool expected = is_time_text(seven);
    bool right = expected ? is_read(seven, r) : r.refusal == TUSSELGRO_TIME && is_no_time(r.time);
    if (!right && sum->wrong == 0) printf("otherwise than document 02: the time %.7s\n", (const char *)seven);
    note(sum, expected, right);
}

/* All six digits with each letter. */
static tally note_digits(void) {
    tally sum = {0, 0, 0};
    for (uint32_t number = 0; number < SIX_DIGITS; number++) {
        uint8_t seven[7];
        uint32_t rest = number;
        for (int at = 5; at >= 0; at--, rest /= 10) seven[at] = (uint8_t)('0' + rest % 10);
        for (const char *letter = "z/h"; *letter; letter++) {
            seven[6] = (uint8_t)*letter;
            note_text(&sum, seven);
        }
    }
    return sum;
}

/* Each byte in each place of a time. */
static tally note_bytes(void) {
    static const char *const times[] = {"092345z", "092345/", "234517h", "312359z", "010000/", "235959h", "000000h"};
    tally sum = {0, 0, 0};
    for (size_t which = 0; which < sizeof times / sizeof *times; which++) {
        for (int at = 0; at < 7; at++) {
            for (int byte = 0; byte <= 255; byte++) {
                uint8_t seven[7];
                memcpy(seven, times[which], 7);
                seven[at] = (uint8_t)byte;
                note_text(&sum, seven);
            }
        }
    }
    return sum;
}

/* ---- every record */

static void note_record(tally *sum, tusselgro_time t) {
    uint8_t bytes[9];
    char text[TIME_TEXT];
    memset(bytes, 0xaa, sizeof bytes);
    bool none = is_no_time(t), expected = is_time(t);
    size_t size = expected ? time_text(t, text) : 0;
    tusselgro_answer answer = tusselgro_write_time(t, bytes + 1, 7);
    bool right = answer.refusal == (none || expected ? 0 : TUSSELGRO_OUT_OF_RANGE) && answer.reported == size &&
                 answer.needed == 0 && memcmp(bytes + 1, text, size) == 0 && bytes[0] == 0xaa;
    for (size_t at = 1 + size; at < sizeof bytes; at++) right = right && bytes[at] == 0xaa;
    if (!right && sum->wrong == 0)
        printf("otherwise than document 02: day %d, %d:%d:%d, form %d\n", t.day, t.hour, t.minute, t.second, t.form);
    note(sum, expected, right);
}

/* Each letter with numbers at their limits and past them. */
static tally note_letters(void) {
    static const uint8_t days[] = {0, 1, 31, 32}, hours[] = {0, 23, 24}, sixties[] = {0, 59, 60};
    tally sum = {0, 0, 0};
    for (int form = 0; form <= 255; form++) {
        for (int n = 0; n < 4 * 3 * 3 * 3; n++) {
            tusselgro_time t = {days[n / 27], hours[n / 9 % 3], sixties[n / 3 % 3], sixties[n % 3], (uint8_t)form};
            note_record(&sum, t);
        }
    }
    return sum;
}

/* Each number in each place, with each form and with none. */
static tally note_numbers(void) {
    static const uint8_t beside[4][4] = {{0, 0, 0, 0}, {1, 0, 0, 0}, {31, 23, 59, 0}, {0, 23, 59, 59}};
    static const uint8_t forms[4] = {TUSSELGRO_NO_TIME, TUSSELGRO_DHM_UTC, TUSSELGRO_DHM_LOCAL, TUSSELGRO_HMS_UTC};
    tally sum = {0, 0, 0};
    for (int which = 0; which < 4; which++) {
        for (int form = 0; form < 4; form++) {
            for (int place = 0; place < 4; place++) {
                for (int number = 0; number <= 255; number++) {
                    uint8_t n[4];
                    memcpy(n, beside[which], 4);
                    n[place] = (uint8_t)number;
                    note_record(&sum, (tusselgro_time){n[0], n[1], n[2], n[3], forms[form]});
                }
            }
        }
    }
    return sum;
}

/* How many of the inputs are times is counted by hand, so that a slip in the code above shows. */
void check_times(void) {
    tally digits = note_digits(), bytes = note_bytes(), letters = note_letters(), numbers = note_numbers();
    HOLDS(digits.inputs == 3000000 && digits.times == 2 * 31 * 24 * 60 + 24 * 60 * 60 && digits.wrong == 0);
    HOLDS(bytes.inputs == 7 * 7 * 256 && bytes.times == 38 + 38 + 40 + 31 + 45 + 40 + 46 && bytes.wrong == 0);
    HOLDS(letters.inputs == 256 * 4 * 3 * 3 * 3 && letters.times == 2 * (2 * 2 * 2) + 2 * 2 * 2 && letters.wrong == 0);
    HOLDS(numbers.inputs == 4 * 4 * 4 * 256 && numbers.wrong == 0);
    HOLDS(numbers.times == 2 * (31 + 2 * (31 + 24 + 60 + 1)) + 2 * (1 + 24 + 60 + 60) + 2);
    printf("times: %zu texts of six digits and a letter, %zu with any byte in a place; %zu records\n", digits.inputs,
           bytes.inputs, letters.inputs + numbers.inputs);
}
