/* Guarded memory, the count of what holds, and which checks run. */
#include "check.h"

#include <stdio.h>
#include <stdlib.h>
#include <string.h>
#include <sys/mman.h>

enum { PAGE = 4096, GUARD = 0xaa };

static unsigned facts, faults;
static bool met[REFUSALS];
uint8_t written[1024];

void holds(bool fact, const char *text, const char *file, int line) {
    facts++;
    if (!fact) {
        faults++;
        printf("%s:%d: does not hold: %s\n", file, line, text);
    }
}

void refused(int refusal, int expected, const char *file, int line) {
    facts++;
    if (refusal >= 0 && refusal < REFUSALS) met[refusal] = true;
    if (refusal != expected) {
        faults++;
        printf("%s:%d: refusal %d, expected %d\n", file, line, refusal, expected);
    }
}

/* A page between two that nobody may touch. */
static uint8_t *lent_page(void) {
    uint8_t *pages = mmap(NULL, 3 * PAGE, PROT_NONE, MAP_PRIVATE | MAP_ANONYMOUS, -1, 0);
    if (pages == MAP_FAILED || mprotect(pages + PAGE, PAGE, PROT_READ | PROT_WRITE) != 0) {
        perror("memory with guards");
        exit(2);
    }
    return pages + PAGE;
}

/* Where `size` bytes of the page stand: at its end on side 0, at its start on side 1. */
static uint8_t *place(uint8_t *page, size_t size, int side) { return side == 0 ? page + PAGE - size : page; }

static uint8_t *input_page(int page) {
    static uint8_t *pages[INPUTS];
    return pages[page] ? pages[page] : (pages[page] = lent_page());
}

static uint8_t *output_page(void) {
    static uint8_t *page;
    return page ? page : (page = lent_page());
}

uint8_t *lend_input(int page, slice input, int side) {
    uint8_t *lent = place(input_page(page), input.size, side);
    memset(input_page(page), GUARD, PAGE);
    if (input.size > 0) memcpy(lent, input.bytes, input.size);
    return lent;
}

static bool unchanged(const uint8_t *from, const uint8_t *to) {
    while (from < to && *from == GUARD) from++;
    return from >= to;
}

bool input_kept(int page, const uint8_t *lent, slice input) {
    return unchanged(input_page(page), lent) && (input.size == 0 || memcmp(lent, input.bytes, input.size) == 0) &&
           unchanged(lent + input.size, input_page(page) + PAGE);
}

static uint8_t *lend_output(size_t room, int side) {
    memset(output_page(), GUARD, PAGE);
    return place(output_page(), room, side);
}

/* Whether only the first bytes of the output changed; they are kept in `written`. */
static bool output_kept(const uint8_t *lent, size_t room, size_t changed) {
    memset(written, 0, sizeof written);
    if (changed > room || changed > sizeof written) return false;
    memcpy(written, lent, changed);
    return unchanged(output_page(), lent) && unchanged(lent + changed, output_page() + PAGE);
}

bool same_answer(tusselgro_answer a, tusselgro_answer b) {
    return a.refusal == b.refusal && a.reported == b.reported && a.needed == b.needed;
}

tusselgro_read read_lent(reader *function, const uint8_t *bytes, size_t size) {
    tusselgro_read read[2];
    for (int side = 0; side < 2; side++) {
        const uint8_t *lent = lend_input(0, (slice){bytes, size}, side);
        memset(&read[side], GUARD, sizeof read[side]);
        read[side] = function(lent, size);
        HOLDS(input_kept(0, lent, (slice){bytes, size}));
    }
    HOLDS(read[0].refusal == read[1].refusal && same_record(&read[0].record, &read[1].record));
    HOLDS(read[0].refusal == 0 || is_blank(&read[0].record));
    return read[0];
}

tusselgro_answer write_lent(writer *function, tusselgro_record record, slice comment, slice identifier, size_t room) {
    tusselgro_answer answer[2];
    for (int side = 0; side < 2; side++) {
        const uint8_t *first = lend_input(0, comment, side), *second = lend_input(1, identifier, side);
        uint8_t *out = lend_output(room, side);
        answer[side] = function(record, first, comment.size, second, identifier.size, out, room);
        HOLDS(input_kept(0, first, comment) && input_kept(1, second, identifier));
        HOLDS(output_kept(out, room, answer[side].reported));
    }
    HOLDS(same_answer(answer[0], answer[1]));
    HOLDS(answer[0].refusal == 0 || answer[0].reported == 0);
    HOLDS(answer[0].refusal == TUSSELGRO_NO_ROOM ? answer[0].needed > room : answer[0].needed == 0);
    return answer[0];
}

tusselgro_answer fill_lent(filler *function, const void *what, size_t width, size_t room) {
    tusselgro_answer answer[2];
    for (int side = 0; side < 2; side++) {
        uint8_t *out = lend_output(room, side);
        answer[side] = function(what, out, room);
        HOLDS(output_kept(out, room, width * answer[side].reported));
    }
    HOLDS(same_answer(answer[0], answer[1]));
    HOLDS(answer[0].refusal == 0 || answer[0].reported == 0);
    HOLDS(answer[0].refusal == TUSSELGRO_NO_ROOM ? answer[0].needed > room : answer[0].needed == 0);
    return answer[0];
}

bool wrote(tusselgro_answer answer, const uint8_t *bytes, size_t size) {
    return answer.refusal == 0 && answer.reported == size && memcmp(written, bytes, size) == 0;
}

const form forms[2] = {
    {tusselgro_read_text, tusselgro_read_text_strictly, tusselgro_write_text, {BYTES("A>B:")}},
    {tusselgro_read_frame, tusselgro_read_frame_strictly, tusselgro_write_frame,
     {BYTES("\x84@@@@@\xe0\x82@@@@@\x61\x03\xf0")}},
};

slice behind_header(const form *f, slice body, uint8_t *packet) {
    memcpy(packet, f->header.bytes, f->header.size);
    if (body.size > 0) memcpy(packet + f->header.size, body.bytes, body.size);
    return (slice){packet, f->header.size + body.size};
}

void refuses(tusselgro_record record, slice text, slice identifier, int expected, const char *file, int line) {
    for (const form *f = forms; f < forms + 2; f++) {
        refused(write_lent(f->write, record, text, identifier, 512).refusal, expected, file, line);
        refused(write_lent(f->write, record, text, identifier, 0).refusal, expected, file, line);
    }
}

bool *mark_of(tusselgro_record *record, size_t place) {
    tusselgro_header *h = place < HEADER_MARKS ? &record->header : &record->innermost;
    place %= HEADER_MARKS;
    tusselgro_callsign *call = place == 0 ? &h->from : place == 1 ? &h->to : &h->path.hops[place - 2].call;
    return &call->had_zero_ssid;
}

bool same_callsign(const tusselgro_callsign *a, const tusselgro_callsign *b) {
    return memcmp(a->text, b->text, sizeof a->text) == 0 && a->call_len == b->call_len && a->ssid_len == b->ssid_len &&
           a->had_zero_ssid == b->had_zero_ssid;
}

static bool same_path(const tusselgro_path *a, const tusselgro_path *b) {
    bool same = a->count == b->count;
    for (int at = 0; at < TUSSELGRO_MOST_HOPS; at++)
        same = same && same_callsign(&a->hops[at].call, &b->hops[at].call) && a->hops[at].kind == b->hops[at].kind;
    return same;
}

static bool same_place(const tusselgro_place *a, const tusselgro_place *b) {
    return a->latitude == b->latitude && a->longitude == b->longitude && a->blanks == b->blanks &&
           a->table == b->table && a->code == b->code && a->south == b->south && a->west == b->west;
}

static bool same_report(const tusselgro_report *a, const tusselgro_report *b) {
    return a->speed == b->speed && a->course == b->course && a->message == b->message && a->current == b->current;
}

bool same_time(tusselgro_time a, tusselgro_time b) {
    return a.day == b.day && a.hour == b.hour && a.minute == b.minute && a.second == b.second && a.form == b.form;
}

static bool same_span(tusselgro_span a, tusselgro_span b) { return a.at == b.at && a.len == b.len; }

bool same_body(const tusselgro_body *a, const tusselgro_body *b) {
    return same_place(&a->place, &b->place) && same_report(&a->report, &b->report) &&
           same_span(a->comment, b->comment) && same_span(a->identifier, b->identifier) && same_time(a->time, b->time) &&
           memcmp(a->addressee, b->addressee, sizeof a->addressee) == 0 && a->messaging == b->messaging &&
           a->kind == b->kind;
}

bool same_header(const tusselgro_header *a, const tusselgro_header *b) {
    return same_callsign(&a->from, &b->from) && same_callsign(&a->to, &b->to) && same_path(&a->path, &b->path);
}

bool same_record(const tusselgro_record *a, const tusselgro_record *b) {
    return same_header(&a->header, &b->header) && same_body(&a->body, &b->body) &&
           same_header(&a->innermost, &b->innermost) && a->inner == b->inner;
}

bool is_blank(const tusselgro_record *record) {
    static const tusselgro_record zeros;
    return same_record(record, &zeros);
}

bool any_fault(void) { return faults > 0; }

static void check_all(void) {
    check_reading();
    check_writing();
    check_hops();
    check_parts();
    check_times();
    check_messages();
    check_inner();
    check_strict();
    check_listing();
    check_bounds();
    check_meanings();
    for (int refusal = 0; refusal < REFUSALS; refusal++) {
        if (!met[refusal]) printf("refusal %d was never met\n", refusal);
        HOLDS(met[refusal]);
    }
}

int main(int count, char **words) {
    if (count == 1) {
        check_all();
    } else if (count == 5 && strcmp(words[1], "random") == 0) {
        check_random(strtoull(words[2], NULL, 10), strtoull(words[3], NULL, 10), (unsigned)strtoul(words[4], NULL, 10));
    } else {
        fprintf(stderr, "usage: %s [random SEED FIRST-TURN SECONDS]\n", words[0]);
        return 2;
    }
    printf("C caller: %u facts, %u do not hold\n", facts, faults);
    return faults == 0 ? 0 : 1;
}
