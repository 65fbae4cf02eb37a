/* What the parts of the caller share: counting what holds, and lending memory that is guarded on both sides. */
#ifndef CHECK_H
#define CHECK_H

#include "tusselgro.h"

/* Counts one fact; prints where it stands if it does not hold. */
#define HOLDS(fact) holds((fact), #fact, __FILE__, __LINE__)
void holds(bool fact, const char *text, const char *file, int line);

enum { REFUSALS = TUSSELGRO_SYMBOL_TABLE + 1 };

/* Counts a refusal as met, and whether it is the one expected. */
#define REFUSED(answer, expected) refused((answer).refusal, (expected), __FILE__, __LINE__)
void refused(int refusal, int expected, const char *file, int line);

/* A string as bytes and their number, without the zero at its end; and as a slice, bytes and number in one. */
#define BYTES(string) (const uint8_t *)("" string), sizeof(string) - 1
#define SLICE(string) ((slice){BYTES(string)})
typedef struct {
    const uint8_t *bytes;
    size_t size;
} slice;

typedef tusselgro_read reader(const uint8_t *, size_t);
typedef tusselgro_answer writer(tusselgro_record, const uint8_t *, size_t, const uint8_t *, size_t, uint8_t *, size_t);
typedef tusselgro_answer filler(const void *what, uint8_t *, size_t);

/*
 * Each calls a function twice: its memory ends where a page begins that nobody may touch, then starts where one ends.
 * Both calls must answer the same, leave their input alone, and change no byte of the output but those reported. A filler
 * reports things of so many bytes: fields of 3, or bytes.
 */
tusselgro_read read_lent(reader *function, const uint8_t *bytes, size_t size);
tusselgro_answer write_lent(writer *function, tusselgro_record record, slice comment, slice identifier, size_t room);
tusselgro_answer fill_lent(filler *function, const void *what, size_t width, size_t room);

/* Lends a copy of the bytes, at the end of a guarded page on side 0, at its start on side 1; and whether it was left alone.
   Each of a call's inputs has a page of its own. */
enum { INPUTS = 3 };
uint8_t *lend_input(int page, slice input, int side);
bool input_kept(int page, const uint8_t *lent, slice input);

/* The first bytes of the output of the call before. */
extern uint8_t written[1024];

/* Whether those bytes are these, as many as were reported. */
bool wrote(tusselgro_answer answer, const uint8_t *bytes, size_t size);

/* A line and a frame from A to B: what reads it, usually and strictly, what writes it, and its header. */
typedef struct {
    reader *read, *read_strictly;
    writer *write;
    slice header;
} form;
extern const form forms[2];

/* The packet of that header and a body. */
slice behind_header(const form *f, slice body, uint8_t *packet);

/* Counts whether both writers refuse a record with that number, whatever room they have. */
#define REFUSES(record, text, identifier, expected) \
    refuses(record, SLICE(text), SLICE(identifier), expected, __FILE__, __LINE__)
void refuses(tusselgro_record record, slice text, slice identifier, int expected, const char *file, int line);

#define X10 "xxxxxxxxxx"
#define X50 X10 X10 X10 X10 X10

/* The marks of dropped zeros in a record by their places: the source's, the destination's, those of all eight hops; those of
   the outermost header, and then of the innermost. */
enum { HEADER_MARKS = 2 + TUSSELGRO_MOST_HOPS, MARKS = 2 * HEADER_MARKS };
bool *mark_of(tusselgro_record *record, size_t place);

/* What document 02 says of hops: whether each kind in a path may stand there; whether a path is that of a header with these hops
   typed, each behind its comma; whether it is written rightly, in a line from its first comma on, in a frame from the source
   on. */
bool are_kinds_right(const tusselgro_path *path);
bool is_path_read(const tusselgro_path *path, slice typed);
bool is_path_text(const tusselgro_path *path, const uint8_t *text);
bool is_path_frame(const tusselgro_path *path, const uint8_t *source);

/* A hop in words: as it was typed, with the zero that was dropped; a star where it was heard, a Q element in brackets. */
enum { HOP_TOLD = 32 };
void tell_hop(char told[HOP_TOLD], const tusselgro_hop *hop);

/* What document 02 says of times: whether seven bytes are one, and whether the numbers of a record are one, or none. */
bool is_time_text(const uint8_t *seven);
bool is_time(tusselgro_time time);
bool is_no_time(tusselgro_time time);

/* The bytes of a record's time, whatever its numbers are, and how many: none where there is no time. */
enum { TIME_TEXT = 16 };
size_t time_text(tusselgro_time time, char text[TIME_TEXT]);

/* What document 02 says of messages and status lines, of bytes behind the type byte: whether they are a message, and its
   lengths; how many of them are the time of a status, none or seven, and whether they are a status. */
bool is_message(slice body, size_t *text, size_t *identifier);
size_t status_time(slice body);
bool is_status(slice body);

/* And of what a writer is lent: whether it may be the text of a message, and of a status with a time or without. */
bool is_message_text(slice text);
bool is_status_text(slice text, bool timed);

/* Whether what was read of an input is what those say of its body, which starts there with ':' or '>'. */
bool is_read_rightly(const tusselgro_read *read, slice input, size_t at);

/* Whether what was read of an input is what document 02 says of its body, which starts there with '}', given what its inner
   packet is read as by itself. */
bool is_read_around(const tusselgro_read *read, slice input, size_t at);

/* Whether what was read strictly of an input, a frame or a line, is what document 02 says of its body, which starts there, given
   what it is usually read as. */
bool is_read_strictly(const tusselgro_read *strict, const tusselgro_read *usual, slice input, size_t at, bool frame);

bool same_answer(tusselgro_answer a, tusselgro_answer b);
bool same_callsign(const tusselgro_callsign *a, const tusselgro_callsign *b);
bool same_time(tusselgro_time a, tusselgro_time b);
bool same_header(const tusselgro_header *a, const tusselgro_header *b);
bool same_body(const tusselgro_body *a, const tusselgro_body *b);
bool same_record(const tusselgro_record *a, const tusselgro_record *b);
bool is_blank(const tusselgro_record *record);

void check_reading(void);
void check_writing(void);
void check_hops(void);
void check_parts(void);
void check_times(void);
void check_messages(void);
void check_inner(void);
void check_strict(void);
void check_listing(void);
void check_bounds(void);
void check_meanings(void);

/* Random calls for so many seconds, from a turn on; for 0 seconds that turn alone. Stops at the first fault. */
void check_random(uint64_t seed, uint64_t first, unsigned seconds);
bool any_fault(void);

#endif
