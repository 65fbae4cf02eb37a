/*
 * Tusselgro for C: APRS packets and their parts read and written, Mic-E fields listed, the bounds of a position.
 *
 * Link with the static libraries of the crates boundary (packets, fields, bounds) and parts (the parts of a packet), for
 * x86-64 Linux: `tools/libraries` writes target/staticlib/libboundary.a, and libparts.a beside it.
 * They need only memcpy and memset of the C library. Every function is proved to end, to read only the bytes that it is
 * lent, and to change only the output bytes that it reports.
 */
#ifndef TUSSELGRO_H
#define TUSSELGRO_H

#include <stdbool.h>
#include <stddef.h>
#include <stdint.h>

#ifdef __cplusplus
extern "C" {
#endif

/*
 * Who owns what. The caller owns all memory. A function keeps no pointer after it returns, allocates nothing and
 * frees nothing. Records go in and come out by value. A length of 0 may go with any pointer, NULL included. An output
 * buffer must not overlap an input, or anything else that is lent in the same call.
 *
 * Threads. There is no state: any number of threads may call any function at once, each with its own output buffer.
 *
 * What is asked of a caller is that a pointer has as many bytes behind it as its length says, and that a bool is false
 * or true. All else is judged: a record of any other contents may be given to a writer, and one that is out of range is
 * refused.
 */

/* The refusals. Each answer carries one; the first that applies is given. tusselgro_meaning says each in words. */
enum {
    TUSSELGRO_DONE = 0,
    TUSSELGRO_TOO_LONG = 1,
    TUSSELGRO_FRAMING = 2,
    TUSSELGRO_CALLSIGN = 3,
    TUSSELGRO_CALLSIGN_TOO_LONG = 4,
    TUSSELGRO_TOO_MANY_HOPS = 5,
    TUSSELGRO_Q_ELEMENT = 6,
    TUSSELGRO_NOT_CARRIED = 7,
    TUSSELGRO_LATITUDE = 8,
    TUSSELGRO_LONGITUDE = 9,
    TUSSELGRO_POSITION_TOO_SHORT = 10,
    TUSSELGRO_MIC_E_DESTINATION = 11,
    TUSSELGRO_MIC_E_INFORMATION = 12,
    TUSSELGRO_NOT_AX25 = 13,
    TUSSELGRO_UNKNOWN_KIND = 14,
    TUSSELGRO_OUT_OF_RANGE = 15,
    TUSSELGRO_NO_ROOM = 16,
    TUSSELGRO_TIME = 17,
    TUSSELGRO_MALFORMED = 18,
    TUSSELGRO_TOO_MANY_INNER = 19,
    TUSSELGRO_SYMBOL_TABLE = 20
};

/* What a refusal means. The text is never freed. */
static inline const char *tusselgro_meaning(uint8_t refusal) {
    static const char *const meanings[] = {
        "no refusal",
        "input over 512 bytes, or output would be",
        "no ':'; no '>' before the first ':'; frame ends inside an address; destination is marked last; "
        "control pair wrong",
        "a callsign or hop is malformed",
        "callsign text over 16 bytes",
        "a ninth hop",
        "a textual hop of three bytes that starts qA and is none of the ten Q elements",
        "not carried: body starts '!' '=' '/' '@' with a compressed position",
        "latitude cannot be read; strictly read, also minutes of 60 or more",
        "longitude cannot be read; strictly read, also minutes of 60 or more",
        "position under 19 bytes after its type byte or time; time under 7 bytes",
        "Mic-E destination cannot be read; strictly read, also minutes of 60 or more",
        "Mic-E information cannot be read",
        "callsign cannot go into AX.25",
        "record of Unknown kind, or with an inner packet, to be written",
        "record, angle, time, blanks or list target out of range",
        "output buffer too short; the bytes needed are returned",
        "time cannot be read",
        "a message or status is malformed: no ':' after nine addressee bytes; text too long or not allowed; "
        "identifier not of 1 to 5 bytes",
        "a fifth inner packet; four are read, each in a body that starts '}'",
        "strictly read, a symbol table byte that is not '/', '\\', a digit or a capital letter",
    };
    return refusal < sizeof meanings / sizeof meanings[0] ? meanings[refusal] : "no such refusal";
}

/* The kinds of a record. A writer refuses any other number with 15. */
enum {
    TUSSELGRO_UNKNOWN = 0,
    TUSSELGRO_POSITION = 1,
    TUSSELGRO_MIC_E = 2,
    TUSSELGRO_MESSAGE = 3,
    TUSSELGRO_STATUS = 4
};

/* The messages of a Mic-E report; other kinds, TUSSELGRO_MESSAGE among them, have 0. M0 to M6 are 0 to 6, C0 to C6 are 7
   to 13. A writer refuses a number over 15 with 15. */
enum {
    TUSSELGRO_M0 = 0,
    TUSSELGRO_M1 = 1,
    TUSSELGRO_M2 = 2,
    TUSSELGRO_M3 = 3,
    TUSSELGRO_M4 = 4,
    TUSSELGRO_M5 = 5,
    TUSSELGRO_M6 = 6,
    TUSSELGRO_C0 = 7,
    TUSSELGRO_C1 = 8,
    TUSSELGRO_C2 = 9,
    TUSSELGRO_C3 = 10,
    TUSSELGRO_C4 = 11,
    TUSSELGRO_C5 = 12,
    TUSSELGRO_C6 = 13,
    TUSSELGRO_EMERGENCY = 14,
    TUSSELGRO_MESSAGE_UNKNOWN = 15
};

/* The forms of a time, by the letter behind its digits. A writer refuses any other with 15. */
enum { TUSSELGRO_NO_TIME = 0, TUSSELGRO_DHM_UTC = 'z', TUSSELGRO_DHM_LOCAL = '/', TUSSELGRO_HMS_UTC = 'h' };

enum {
    TUSSELGRO_MOST_BYTES = 512,
    TUSSELGRO_MOST_HOPS = 8,
    TUSSELGRO_MOST_CALLSIGN = 16,
    TUSSELGRO_MOST_INNER = 4
};

/* The bytes of an addressee; the most bytes of a message's text and of its identifier, and of a status, its time among
   them. */
enum {
    TUSSELGRO_ADDRESSEE_BYTES = 9,
    TUSSELGRO_MOST_TEXT = 67,
    TUSSELGRO_MOST_IDENTIFIER = 5,
    TUSSELGRO_MOST_STATUS = 62
};

/*
 * A callsign as it is written. text holds the call; then, if there is an SSID, a dash and the SSID; the rest is 0.
 * Its length is call_len, and 1 + ssid_len more if ssid_len is not 0. An empty callsign is all zeros. 19 bytes.
 *
 * had_zero_ssid is a mark: the text that was read had the SSID '0', which is dropped. N0CALL-0 is read as N0CALL with
 * the mark, and written as N0CALL. It is set where the SSID, once the star is off, is the one byte '0': of A-0 and
 * A-0*, not of A-00, A-0-0 or A-+0. A frame's addresses never set it, nor does a Q element or anything that is refused.
 * A Mic-E body's header has no destination, and no mark of one. Writers ignore the mark wherever it is: beside an SSID,
 * in a Q element, and in a destination, a hop or an innermost header that must otherwise be all zeros. Two callsigns that
 * differ in it alone are the same callsign.
 *
 * Both lengths are bytes. A length over 255 must be tested before it is put here: C keeps its last eight bits, which
 * may be in range. Before the mark was here the lengths were size_t, and tusselgro_callsign_read had the mark as zero;
 * what was compiled with that header must be compiled again, since every record with a callsign in it has changed.
 */
typedef struct {
    uint8_t text[TUSSELGRO_MOST_CALLSIGN];
    uint8_t call_len;
    uint8_t ssid_len;
    bool had_zero_ssid;
} tusselgro_callsign;

/* What a hop is: a callsign that was not heard, one that was, or a Q element. A writer refuses any other number with
   15. TUSSELGRO_Q_ELEMENT is none of them: it is refusal 6. */
enum { TUSSELGRO_NOT_HEARD = 0, TUSSELGRO_HEARD = 1, TUSSELGRO_Q_CONSTRUCT = 2 };

/*
 * A hop of the path. 20 bytes.
 *
 * A Q element is what a server of APRS-IS puts into a path: qAC, qAX, qAU, qAo, qAO, qAS, qAr, qAR, qAZ or qAI. Its name
 * stands in call as a callsign would: call_len is 3, there is no SSID, and had_zero_ssid is false. A hop in text is read
 * as a Q element where it is just the three bytes of a name. Any other three bytes that start qA are refused with 6, qAc
 * and qA* among them. qAC*, qAC-0 and QAC are callsigns, and so are qAC as source or destination and every address of a
 * frame.
 *
 * In text a star says that its callsign was heard, and every callsign before it. A Q element has no star and is never
 * heard, but stars count past it: of A,qAC,B* both A and B were heard.
 *
 * As text a Q element is written at its place, and the star behind the last callsign that was heard. In a frame Q
 * elements are left out, so none is ever refused with 13; the last callsign that is left is marked last, or the source
 * where none is left.
 *
 * A writer refuses with 15 a kind over 2, and a Q element whose callsign is out of range or is none of the ten names, as
 * one with an SSID. A callsign that is spelt as a name is in range and written as it stands: A>B,qAC*,X* is read as two
 * callsigns that were heard, and written as A>B,qAC,X*, which is read as a Q element and a callsign.
 *
 * Before Q elements were here a line with one was refused with 6, and kind was a bool, heard. No size has changed, and 0
 * and 1 mean what false and true did, but a bool must not hold 2: what was compiled with that header must be compiled
 * again.
 */
typedef struct {
    tusselgro_callsign call; /* or the name of a Q element */
    uint8_t kind;            /* TUSSELGRO_NOT_HEARD, .._HEARD or .._Q_CONSTRUCT */
} tusselgro_hop;

/* How many hops there are, Q elements among them, and the hops in their order; those past count are all zeros, their
   kind too. 168 bytes. */
typedef struct {
    size_t count;
    tusselgro_hop hops[TUSSELGRO_MOST_HOPS];
} tusselgro_path;

/* Where a packet comes from, where it goes to, and its path; that of a Mic-E body has no destination. 208 bytes. */
typedef struct {
    tusselgro_callsign from;
    tusselgro_callsign to;
    tusselgro_path path;
} tusselgro_header;

/*
 * Where something is. Angles are signed hundredths of a minute, north and east positive: at most 540000 and 1080000;
 * a Mic-E longitude to be written is short of 1080000 on either side.
 *
 * south and west are the letters: S where south is true, else N; W where west is true, else E. A reader fills them as
 * they stand in the text, of a Mic-E report as its destination says them. At 0 the letter alone tells the side, and
 * either may stand. At any other angle it is that of the sign, and a letter that contradicts it is refused with 15.
 * Writers look at the angle alone: 0 is written N and E, whatever the letters are. A kind without a position has no
 * letters: both are false, and a writer refuses a true one with 15. 16 bytes.
 */
typedef struct {
    int32_t latitude;
    int32_t longitude;
    uint8_t blanks; /* last digits of the latitude that are blank, 0 to 5 */
    uint8_t table;  /* symbol table; a position with 128 or more is read and not written */
    uint8_t code;   /* symbol code; the same */
    bool south;     /* the latitude's letter is S, not N */
    bool west;      /* the longitude's letter is W, not E */
} tusselgro_place;

/* What only a Mic-E report has. 12 bytes. */
typedef struct {
    uint32_t speed;  /* knots, at most 799 */
    uint32_t course; /* degrees, at most 360; 0 is an unknown one */
    uint8_t message; /* TUSSELGRO_M0 to .._MESSAGE_UNKNOWN */
    bool current;    /* not old */
} tusselgro_report;

/* Where a part of the input that was read stands, and its length; writers ignore both. 16 bytes. It was called
   tusselgro_comment while a comment was the only such part. */
typedef struct {
    size_t at;
    size_t len;
} tusselgro_span;

/*
 * The time of a position that starts '/' or '@', or of a status: seven bytes behind the type byte, two digits a number,
 * zeros kept, and the letter of the form. 092345z is day 9, 23:45 UTC; 092345/ is the same in local time; 234517h is
 * 23:45:17 UTC. A status has the first form alone.
 *
 * A number that the form lacks is 0. Where there is no time all is 0; the form tells that from 000000h, which is one.
 * A writer refuses with 15 a number that is out of range, that the form lacks or that has no form, another form than
 * .._DHM_UTC in a status, and any time in another kind than these two. No month is known, so day 31 is always in range.
 * 5 bytes.
 */
typedef struct {
    uint8_t day;    /* of the month, 1 to 31; .._HMS_UTC lacks it */
    uint8_t hour;   /* 0 to 23 */
    uint8_t minute; /* 0 to 59 */
    uint8_t second; /* 0 to 59; .._DHM_UTC and .._DHM_LOCAL lack it */
    uint8_t form;   /* TUSSELGRO_NO_TIME, .._DHM_UTC, .._DHM_LOCAL or .._HMS_UTC */
} tusselgro_time;

/*
 * What a packet says. A writer gives a position the type byte '!', with messaging '=', with a time '/', with both '@'; a
 * message ':', a status '>'. 80 bytes.
 *
 * A message is an addressee of nine bytes, ':', a text of up to 67 bytes without '|', '~' and '{', and, if it has one,
 * '{' and an identifier of 1 to 5 bytes, which may be any. A shorter addressee is filled up with spaces at its end: WU2Z
 * is "WU2Z     ", and is kept so. Any nine bytes are an addressee, ':' and spaces in any place among them. A writer puts
 * them as they are: of one that was never filled in, nine zeros.
 *
 * A status is a text of up to 62 bytes, which may be any, or a time and up to 55. Where it starts with seven bytes that
 * are a time of the form .._DHM_UTC, they are read as one; 000000z, 092345Z, 092345/ and 234517h are none, and text.
 *
 * The text of either stands where the others have their comment, and is read as a place in the input as that is. An
 * empty one has a place too: behind the ':', the time or the type byte. The identifier's place is behind the '{'; where
 * there is none, at and len are 0. Writers are lent the bytes of both, and ignore both places.
 *
 * Before messages and status lines were here there was no identifier and no addressee: a body had 56 bytes, a record 264
 * and tusselgro_read 272, and the writers of packets were lent no identifier. Before the time was here, messaging and
 * kind stood in its place. What was compiled with either header must be compiled again.
 */
typedef struct {
    tusselgro_report report;
    tusselgro_place place;
    tusselgro_span comment;                       /* of a message or a status: its text */
    tusselgro_span identifier;                    /* of a message */
    tusselgro_time time;                          /* of a position or a status */
    uint8_t addressee[TUSSELGRO_ADDRESSEE_BYTES]; /* of a message */
    bool messaging;                               /* a position that starts '=' or '@' */
    uint8_t kind;                                 /* TUSSELGRO_UNKNOWN to .._STATUS */
} tusselgro_body;

/*
 * A packet. What its kind lacks is 0: an Unknown one has its headers alone, and no kind but a message has an addressee. A
 * writer refuses with 15 any of it that is not 0, but for places and marks. A record of zeros is the blank one. 504
 * bytes.
 *
 * A body that starts '}' holds an inner packet: behind the '}' its header and its body, to the end of the input, as text
 * in a line and in a frame alike. Its body may start '}' too, and so on, up to four inner packets. inner is their number.
 * Where there are any, header is the outermost header, innermost and body are those of the innermost packet; headers
 * between the two are judged and not kept. Places are those in the whole input. A Mic-E body is read with the innermost
 * destination, which that header then has not; the outermost keeps its own. Where there are none, inner is 0 and
 * innermost is all zeros.
 *
 * What has an inner packet is read and not written: a writer refuses it with 14. It looks for 15 before that, in both
 * headers and in the body, which belongs to the innermost. A number over 4 is 15 as well, and where it is 0 an innermost
 * header that is not all zeros, but for marks.
 *
 * Before inner packets were here a body that starts '}' was Unknown, a record had 288 bytes and tusselgro_read 296. Then,
 * and in the first header that had them, a path's count stood behind its hops and a body's report behind its place. What
 * was compiled with either header must be compiled again.
 */
typedef struct {
    tusselgro_header header;    /* the outermost */
    tusselgro_body body;        /* the innermost packet's */
    tusselgro_header innermost; /* where there is an inner packet */
    uint8_t inner;              /* inner packets, 0 to TUSSELGRO_MOST_INNER */
} tusselgro_record;

/* What reading gives: 0 and the record, or the refusal and the blank record (Unknown kind, all zeros). 512 bytes. */
typedef struct {
    tusselgro_record record;
    uint8_t refusal;
} tusselgro_read;

/*
 * What writing gives: 0 and the number of bytes written, or the refusal and 0. A lister reports the number of fields
 * instead, of three bytes each. needed is the bytes that the buffer must have at TUSSELGRO_NO_ROOM, else 0. Bytes past
 * those written are not changed, and none is at a refusal. 24 bytes.
 */
typedef struct {
    uint8_t refusal;
    size_t reported;
    size_t needed;
} tusselgro_answer;

/* ---- packets */

/* Reads a line of text, without its line end. Refusals: 1 to 12 and 17 to 19. Of a position with a time, and in this
   order: 10 for under seven bytes behind the type byte, 17, then 7, 10, 8 and 9 of what follows the time. Of a body that
   starts ':' or '>' no other than 18. Of one that starts '}' those of the inner packet, outermost first: 2 where nothing
   follows it, 19 where it would hold a fifth, whatever follows it. 1 is about the whole line alone. */
tusselgro_read tusselgro_read_text(const uint8_t *line, size_t line_len);

/* Reads an AX.25 frame, from the destination's address to the last byte of the body, without flags and checksum.
   Refusals: 1, 2, 3, 5, 7 to 12 and 17 to 19; those of a body in the same order; 4 and 6 of an inner packet alone. */
tusselgro_read tusselgro_read_frame(const uint8_t *frame, size_t frame_len);

/*
 * The same two, strictly, for proof sheets. What is accepted gives the record that the usual entry gives, all of it.
 * What the usual entry refuses is refused here too, and so are minutes of 60 or more and a byte that names no symbol
 * table:
 *
 * 8 and 9 are also for minutes of 60 or more in a position's latitude and longitude. 8960.00N, usually read as 90
 * degrees, is 8. Blank and discarded digits count as 0: 006 .  N is 8, and 00  .  N is read; with three blanks
 * 0006x.xxE is 9, and with four 00099.99E is read.
 *
 * 11 is also for minutes of 60 or more in a Mic-E destination. Those in the information are not judged.
 *
 * 20 is for the table byte of a position or a Mic-E report that is not '/', '\', a digit or a capital letter. It comes
 * last of all, so after 9 and after 12. The code byte may be any.
 *
 * A latitude is done before its longitude begins, a destination before its information. So what is usually 9 may be 8
 * here, and what is usually 12 may be 11; any other refusal is the same. Times, messages, status lines and the Unknown
 * kind have no strict rule. The body of an inner packet is judged as an outer one.
 */
tusselgro_read tusselgro_read_text_strictly(const uint8_t *line, size_t line_len);
tusselgro_read tusselgro_read_frame_strictly(const uint8_t *frame, size_t frame_len);

/*
 * Writes a record as a line of text, without a line end. comment is what stands at the end of a position or a Mic-E
 * report, and the text of a message or a status. identifier is what a message has behind its text and a '{', which is
 * written with it; an empty one is none. Other kinds ignore it.
 *
 * Refusals, the first that applies: 15, 14, 18, 1, 16. 15 and 14 are about the record alone, 18 about what is lent with
 * it: a text that is too long, or a message's with '|', '~' or '{'; an identifier over five bytes; in a status without a
 * time a text that starts with one, since it would be read as the time. Behind a time it may start with another.
 */
tusselgro_answer tusselgro_write_text(tusselgro_record record, const uint8_t *comment, size_t comment_len,
                                      const uint8_t *identifier, size_t identifier_len, uint8_t *out, size_t out_len);

/* Writes a record as an AX.25 frame, without flags and checksum, and without the Q elements of its path. Refusals: 15,
   14, 18, 13, 1, 16. */
tusselgro_answer tusselgro_write_frame(tusselgro_record record, const uint8_t *comment, size_t comment_len,
                                       const uint8_t *identifier, size_t identifier_len, uint8_t *out, size_t out_len);

/*
 * ---- the parts of a packet, one by one
 *
 * A reader says all that it saw, also what a record does not keep; at a refusal all else is 0 or false.
 */

/* A callsign, with its mark; whether a star followed it. 21 bytes. */
typedef struct {
    tusselgro_callsign call;
    bool starred;
    uint8_t refusal;
} tusselgro_callsign_read;

/* Reads a callsign's text, with or without a star behind it; qAC too, which as a hop is a Q element. Refusals: 4, 3. */
tusselgro_callsign_read tusselgro_read_callsign(const uint8_t *text, size_t text_len);

/* Writes a callsign as text, with a star behind it if starred. Refusals: 15, 16. */
tusselgro_answer tusselgro_write_callsign(tusselgro_callsign call, bool starred, uint8_t *out, size_t out_len);

/* An AX.25 address as it was read, with the two flags of its seventh byte. 22 bytes. */
typedef struct {
    tusselgro_callsign call;
    bool heard;
    bool last;
    uint8_t refusal;
} tusselgro_address_read;

/* An AX.25 address to be sent; at a refusal its bytes are 0. 8 bytes. */
typedef struct {
    uint8_t bytes[7];
    uint8_t refusal;
} tusselgro_address;

/* The field of a frame that an address goes into. A writer refuses any other number with 15. */
enum { TUSSELGRO_DESTINATION = 0, TUSSELGRO_SOURCE = 1, TUSSELGRO_HOP = 2, TUSSELGRO_HEARD_HOP = 3 };

/* Reads the seven bytes of an AX.25 address. Refusal: 3. */
tusselgro_address_read tusselgro_read_address(const uint8_t *address, size_t address_len);

/* Writes a callsign as an AX.25 address in a field, marked last or not. Refusals: 15, 13. */
tusselgro_address tusselgro_write_address(tusselgro_callsign call, uint8_t field, bool last);

/* A latitude; the last digits that are blank; whether its letter is S, also at 0; whether its minutes, blanks as 0, are
   60 or more. 8 bytes. */
typedef struct {
    int32_t latitude;
    uint8_t blanks;
    bool south;
    bool sixty;
    uint8_t refusal;
} tusselgro_latitude_read;

/* A longitude; whether its letter is W, also at 0; whether its minutes, discarded digits as 0, are 60 or more. 8
   bytes. */
typedef struct {
    int32_t longitude;
    bool west;
    bool sixty;
    uint8_t refusal;
} tusselgro_longitude_read;

/* Reads the eight bytes ddmm.hhN, or S; the last 0 to 5 digits may be blank. Refusal: 8. */
tusselgro_latitude_read tusselgro_read_latitude(const uint8_t *text, size_t text_len);

/* Reads the nine bytes dddmm.hhE, or W; the last digits, as many as blanks says, count as 0, whichever bytes stand
   there. Refusals: 15 for more than five blanks, 9. */
tusselgro_longitude_read tusselgro_read_longitude(const uint8_t *text, size_t text_len, uint8_t blanks);

/* Writes those eight bytes, 0 as N; the digits that are blank are cut off. Refusals: 15, 16. */
tusselgro_answer tusselgro_write_latitude(int32_t latitude, uint8_t blanks, uint8_t *out, size_t out_len);

/* Writes those nine bytes, in full, 0 as E. Refusals: 15, 16. */
tusselgro_answer tusselgro_write_longitude(int32_t longitude, uint8_t *out, size_t out_len);

/* A time as it was read. 6 bytes. */
typedef struct {
    tusselgro_time time;
    uint8_t refusal;
} tusselgro_time_read;

/* Reads the seven bytes of a time, no more and no fewer; Z and H are no letters of a form. Refusal: 17. */
tusselgro_time_read tusselgro_read_time(const uint8_t *text, size_t text_len);

/* Writes those seven bytes, or none where there is no time. Refusals: 15, 16. */
tusselgro_answer tusselgro_write_time(tusselgro_time time, uint8_t *out, size_t out_len);

/* A place with its letters; whether the minutes of its angles are 60 or more, as above. 20 bytes. */
typedef struct {
    tusselgro_place place;
    bool latitude_sixty;
    bool longitude_sixty;
    uint8_t refusal;
} tusselgro_position_read;

/* Reads a position, from the byte behind its type byte, or behind its time, on: 19 bytes, and what follows them is the
   comment. Refusals: 7, 10, 8, 9. */
tusselgro_position_read tusselgro_read_position(const uint8_t *text, size_t text_len);

/* Writes those 19 bytes, 0 as N and E. Refusals: 15, also for a letter that contradicts its angle; 16. */
tusselgro_answer tusselgro_write_position(tusselgro_place place, uint8_t *out, size_t out_len);

/* What a Mic-E destination says: a latitude, as above, whose letter is S unless the fourth character is P to Z, and a
   message; of the longitude that goes with it, whether its offset is 100 and its letter W, also at 0. 12 bytes. */
typedef struct {
    int32_t latitude;
    uint8_t message;
    uint8_t blanks;
    bool south;
    bool hundred;
    bool west;
    bool sixty;
    uint8_t refusal;
} tusselgro_destination_read;

/* The characters of a Mic-E destination; at a refusal they are 0. 7 bytes. */
typedef struct {
    uint8_t bytes[6];
    uint8_t refusal;
} tusselgro_destination;

/* Reads the six call characters of a Mic-E destination; its SSID is no part of them. Refusal: 11. */
tusselgro_destination_read tusselgro_read_destination(const uint8_t *call, size_t call_len);

/* Writes the destination of a latitude with its blanks, a message, and a longitude, whose offset and side it carries;
   angles of 0 as N and E. Refusal: 15. */
tusselgro_destination tusselgro_write_destination(int32_t latitude, uint8_t blanks, uint8_t message,
                                                  int32_t longitude);

/* What the information of a Mic-E report says: knots, degrees, and the symbol. 16 bytes. */
typedef struct {
    int32_t longitude;
    uint32_t speed;
    uint32_t course;
    uint8_t code;
    uint8_t table;
} tusselgro_information;

/* The same as it was read. 20 bytes. */
typedef struct {
    tusselgro_information information;
    uint8_t refusal;
} tusselgro_information_read;

/* Reads the information behind the type byte, under the offset and the side that the destination gave: eight bytes, and
   what follows them is the comment. Refusal: 12. */
tusselgro_information_read tusselgro_read_information(const uint8_t *bytes, size_t bytes_len, bool hundred, bool west);

/* Writes those eight bytes. Refusals: 15, 16. */
tusselgro_answer tusselgro_write_information(tusselgro_information information, uint8_t *out, size_t out_len);

/* A message as it was read: its text starts at the place 10, its identifier one byte behind the text's end, where
   identifier_len is not 0. 32 bytes. */
typedef struct {
    size_t text_len;
    size_t identifier_len;
    uint8_t addressee[TUSSELGRO_ADDRESSEE_BYTES];
    uint8_t refusal;
} tusselgro_message_read;

/* Reads a message, from the byte behind its type byte to the end. Refusal: 18. */
tusselgro_message_read tusselgro_read_message(const uint8_t *bytes, size_t bytes_len);

/* Writes a message from the byte behind its type byte on, at most 83 bytes; an empty identifier is none. The addressee
   has nine bytes, no fewer. Refusals: 18, 16. */
tusselgro_answer tusselgro_write_message(const uint8_t *addressee, size_t addressee_len, const uint8_t *text,
                                         size_t text_len, const uint8_t *identifier, size_t identifier_len,
                                         uint8_t *out, size_t out_len);

/* A status as it was read: its time, or none. Its text is all that follows the time. 6 bytes. */
typedef struct {
    tusselgro_time time;
    uint8_t refusal;
} tusselgro_status_read;

/* Reads a status, from the byte behind its type byte to the end. Refusal: 18. */
tusselgro_status_read tusselgro_read_status(const uint8_t *bytes, size_t bytes_len);

/* Writes a status from the byte behind its type byte on: its time, if it has one, and its text. Refusals: 15 for a time
   that no status has, 18, 16. */
tusselgro_answer tusselgro_write_status(tusselgro_time time, const uint8_t *text, size_t text_len, uint8_t *out,
                                        size_t out_len);

/* ---- lists of Mic-E fields */

/* Lists every Mic-E field of three bytes that means this speed and course, in ascending order. Refusals: 15, 16. */
tusselgro_answer tusselgro_list_motion(uint32_t speed, uint32_t course, uint8_t *out, size_t out_len);

/* Lists every Mic-E field of three bytes that means this longitude under a destination whose offset is 100 (hundred) or
   0, and whose side is west or east. There may be none, as for a longitude on the other side, which is no refusal.
   Refusals: 15, 16. */
tusselgro_answer tusselgro_list_longitude(int32_t longitude, bool hundred, bool west, uint8_t *out, size_t out_len);

/* ---- bounds and boxes */

/* The lower and upper bound of an angle in degrees; at a refusal (15) both are 0. 24 bytes. */
typedef struct {
    uint8_t refusal;
    double lower;
    double upper;
} tusselgro_bounds;

/* The lower and upper side of the page's box in half hundredths of a minute; at a refusal (15) both are 0. 12 bytes. */
typedef struct {
    uint8_t refusal;
    int32_t lower;
    int32_t upper;
} tusselgro_box;

/* The bounds of an angle some of whose last digits are blank, 0 to 5 of them. Refusal: 15. */
tusselgro_bounds tusselgro_latitude_bounds(int32_t latitude, uint8_t blanks);
tusselgro_bounds tusselgro_longitude_bounds(int32_t longitude, uint8_t blanks);

/*
 * The page's box of such an angle. Blanked digits are cut off, not rounded, so the angle T is the box's inner edge: it
 * runs from 2T to 2(T + w) north and east, from 2(T - w) to 2T south and west, where w is the width that 0 to 5 blanks
 * leave, 1, 10, 100, 1000, 6000 or 60000 hundredths. Nothing is cut off at 90 or 180 degrees. The side is that of the
 * letter, a place's south or west. Refusal: 15, also for a letter that contradicts an angle that is not 0.
 */
tusselgro_box tusselgro_latitude_box(int32_t latitude, uint8_t blanks, bool south);
tusselgro_box tusselgro_longitude_box(int32_t longitude, uint8_t blanks, bool west);

#ifdef __cplusplus
}
#endif

#endif
