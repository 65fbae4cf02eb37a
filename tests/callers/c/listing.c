/* Fields listed and bounds: document 01's values. Boxes: document 02's rule. What a refusal means, in words. */
#include "check.h"

#include <string.h>

typedef struct {
    uint32_t speed, course;
} motion;

typedef struct {
    int32_t longitude;
    bool hundred, west;
} meridian;

static tusselgro_answer by_motion(const void *target, uint8_t *out, size_t room) {
    const motion *m = target;
    return tusselgro_list_motion(m->speed, m->course, out, room);
}

static tusselgro_answer by_longitude(const void *target, uint8_t *out, size_t room) {
    const meridian *m = target;
    return tusselgro_list_longitude(m->longitude, m->hundred, m->west, out, room);
}

static tusselgro_answer list_motion(uint32_t speed, uint32_t course, size_t room) {
    return fill_lent(by_motion, &(motion){speed, course}, 3, room);
}

static tusselgro_answer list_longitude(int32_t longitude, bool hundred, bool west, size_t room) {
    return fill_lent(by_longitude, &(meridian){longitude, hundred, west}, 3, room);
}

/* "All fields for 0 knots, course 0, sixteen" */
static const uint8_t sixteen[48] = {
    28,  28,  28, 28,  30,  228, 28,  31,  128, 28,  32,  28, 106, 228, 28, 106, 230, 228, 106, 231, 128, 106, 232, 28,
    107, 128, 28, 107, 130, 228, 107, 131, 128, 107, 132, 28, 108, 28,  28, 108, 30,  228, 108, 31,  128, 108, 32,  28,
};

void check_listing(void) {
    tusselgro_answer answer = list_motion(0, 0, 48);
    REFUSED(answer, 0);
    HOLDS(answer.reported == 16 && memcmp(written, sixteen, 48) == 0);
    HOLDS(list_motion(0, 0, 512).reported == 16);
    answer = list_motion(0, 0, 47);
    REFUSED(answer, 16);
    HOLDS(answer.needed == 48);
    REFUSED(list_motion(800, 0, 512), 15);
    REFUSED(list_motion(0, 361, 512), 15);
    REFUSED(list_motion(UINT32_MAX, UINT32_MAX, 0), 15);
    REFUSED(list_motion(799, 360, 512), 0);

    answer = list_longitude(0, true, false, 6);
    HOLDS(answer.refusal == 0 && answer.reported == 2 && memcmp(written, "\x76\x1c\x1c\x76\x58\x1c", 6) == 0);
    answer = list_longitude(270000, true, false, 0);
    REFUSED(answer, 0);
    HOLDS(answer.reported == 0);
    answer = list_longitude(-1, true, false, 0);
    HOLDS(answer.refusal == 0 && answer.reported == 0);
    answer = list_longitude(1, true, true, 0);
    HOLDS(answer.refusal == 0 && answer.reported == 0);
    REFUSED(list_longitude(1080000, true, false, 512), 0);
    REFUSED(list_longitude(1080001, true, false, 512), 15);
    REFUSED(list_longitude(INT32_MIN, true, true, 512), 15);
    REFUSED(list_longitude(0, true, false, 5), 16);
    answer = list_longitude(0, true, true, 6);
    HOLDS(answer.refusal == 0 && answer.reported == 2 && memcmp(written, "\x76\x1c\x1c\x76\x58\x1c", 6) == 0);
}

static bool is_box(tusselgro_box box, int32_t lower, int32_t upper) {
    return box.refusal == 0 && box.lower == lower && box.upper == upper;
}

static bool is_no_box(tusselgro_box box) { return box.refusal == 15 && box.lower == 0 && box.upper == 0; }

enum { NORTH = 0, EAST = 0, SOUTH = 1, WEST = 1 };

/* from the angle outward, on the side of its letter. */
static void check_boxes(void) {
    static const int32_t widths[6] = {1, 10, 100, 1000, 6000, 60000};
    for (uint8_t blanks = 0; blanks <= 5; blanks++) {
        int32_t twice = 2 * widths[blanks];
        HOLDS(is_box(tusselgro_latitude_box(540000, blanks, NORTH), 1080000, 1080000 + twice));
        HOLDS(is_box(tusselgro_latitude_box(-540000, blanks, SOUTH), -1080000 - twice, -1080000));
        HOLDS(is_box(tusselgro_longitude_box(1080000, blanks, EAST), 2160000, 2160000 + twice));
        HOLDS(is_box(tusselgro_longitude_box(-1080000, blanks, WEST), -2160000 - twice, -2160000));
        HOLDS(is_box(tusselgro_longitude_box(0, blanks, EAST), 0, twice));
        HOLDS(is_box(tusselgro_longitude_box(0, blanks, WEST), -twice, 0));
    }
    HOLDS(is_box(tusselgro_latitude_box(540000, 0, NORTH), 1080000, 1080002));
    HOLDS(is_box(tusselgro_latitude_box(0, 2, NORTH), 0, 200));
    HOLDS(is_box(tusselgro_latitude_box(0, 2, SOUTH), -200, 0));
    HOLDS(is_box(tusselgro_latitude_box(-50, 2, SOUTH), -300, -100));
    HOLDS(is_no_box(tusselgro_latitude_box(-50, 2, NORTH)));
    HOLDS(is_no_box(tusselgro_latitude_box(5, 2, SOUTH)));
    HOLDS(is_no_box(tusselgro_longitude_box(-1, 0, EAST)));
    HOLDS(is_no_box(tusselgro_longitude_box(1, 0, WEST)));
    HOLDS(is_no_box(tusselgro_latitude_box(540001, 0, NORTH)));
    HOLDS(is_no_box(tusselgro_latitude_box(-540001, 0, SOUTH)));
    HOLDS(is_no_box(tusselgro_latitude_box(0, 6, NORTH)));
    HOLDS(is_no_box(tusselgro_longitude_box(1080001, 0, EAST)));
    HOLDS(is_no_box(tusselgro_longitude_box(INT32_MIN, 255, WEST)));
}

static bool is_none(tusselgro_bounds bounds) { return bounds.lower == 0 && bounds.upper == 0; }

/* The bounds take no side: those of either 0 are the same. */
void check_bounds(void) {
    check_boxes();
    tusselgro_bounds bounds = tusselgro_latitude_bounds(294350, 0);
    double center = 49.0 + 3.0 / 60.0 + 50.0 / 6000.0, half = 1.0 / 6000.0 / 2.0;
    REFUSED(bounds, 0);
    HOLDS(bounds.lower == center - half && bounds.upper == center + half);
    bounds = tusselgro_longitude_bounds(-432000, 5);
    HOLDS(bounds.refusal == 0 && bounds.lower == -77.0 && bounds.upper == -67.0);
    bounds = tusselgro_latitude_bounds(0, 2);
    HOLDS(bounds.refusal == 0 && bounds.lower == -1.0 / 60.0 / 2.0 && bounds.upper == 1.0 / 60.0 / 2.0);
    bounds = tusselgro_latitude_bounds(540001, 0);
    REFUSED(bounds, 15);
    HOLDS(is_none(bounds));
    bounds = tusselgro_longitude_bounds(0, 6);
    REFUSED(bounds, 15);
    HOLDS(is_none(bounds));
}

/* tests/refusals holds each of the words to docs/refusals.txt. */
void check_meanings(void) {
    HOLDS(strcmp(tusselgro_meaning(TUSSELGRO_DONE), "no refusal") == 0);
    HOLDS(strcmp(tusselgro_meaning(TUSSELGRO_TOO_MANY_HOPS), "a ninth hop") == 0);
    HOLDS(strncmp(tusselgro_meaning(TUSSELGRO_NO_ROOM), "output buffer too short", 23) == 0);
    HOLDS(strcmp(tusselgro_meaning(TUSSELGRO_TIME), "time cannot be read") == 0);
    HOLDS(strncmp(tusselgro_meaning(TUSSELGRO_MALFORMED), "a message or status is malformed", 32) == 0);
    HOLDS(strncmp(tusselgro_meaning(TUSSELGRO_TOO_MANY_INNER), "a fifth inner packet", 20) == 0);
    HOLDS(strstr(tusselgro_meaning(TUSSELGRO_SYMBOL_TABLE), " not '/', '\\', a digit or a capital letter") != NULL);
    HOLDS(strcmp(tusselgro_meaning(REFUSALS), "no such refusal") == 0);
    HOLDS(strcmp(tusselgro_meaning(255), "no such refusal") == 0);
}
