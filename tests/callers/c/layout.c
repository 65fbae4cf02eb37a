/* The sizes that the header gives its records, and where their parts start. */
#include "tusselgro.h"

#define SIZE(type, size) _Static_assert(sizeof(tusselgro_##type) == (size), "the size of tusselgro_" #type)
#define STARTS(type, part, at) _Static_assert(offsetof(tusselgro_##type, part) == (at), #part " in tusselgro_" #type)

SIZE(callsign, 19);
SIZE(hop, 20);
SIZE(path, 168);
SIZE(header, 208);
SIZE(place, 16);
SIZE(report, 12);
SIZE(span, 16);
SIZE(time, 5);
SIZE(body, 80);
SIZE(record, 504);
SIZE(read, 512);
SIZE(answer, 24);
SIZE(callsign_read, 21);
SIZE(address_read, 22);
SIZE(address, 8);
SIZE(latitude_read, 8);
SIZE(longitude_read, 8);
SIZE(time_read, 6);
SIZE(position_read, 20);
SIZE(destination_read, 12);
SIZE(destination, 7);
SIZE(information, 16);
SIZE(information_read, 20);
SIZE(message_read, 32);
SIZE(status_read, 6);
SIZE(bounds, 24);
SIZE(box, 12);

STARTS(callsign, text, 0);
STARTS(callsign, call_len, 16);
STARTS(callsign, ssid_len, 17);
STARTS(callsign, had_zero_ssid, 18);

STARTS(hop, call, 0);
STARTS(hop, kind, 19);

STARTS(path, count, 0);
STARTS(path, hops, 8);

STARTS(header, from, 0);
STARTS(header, to, 19);
STARTS(header, path, 40);

STARTS(place, latitude, 0);
STARTS(place, longitude, 4);
STARTS(place, blanks, 8);
STARTS(place, table, 9);
STARTS(place, code, 10);
STARTS(place, south, 11);
STARTS(place, west, 12);

STARTS(report, speed, 0);
STARTS(report, course, 4);
STARTS(report, message, 8);
STARTS(report, current, 9);

STARTS(span, at, 0);
STARTS(span, len, 8);

STARTS(time, day, 0);
STARTS(time, hour, 1);
STARTS(time, minute, 2);
STARTS(time, second, 3);
STARTS(time, form, 4);

STARTS(body, report, 0);
STARTS(body, place, 12);
STARTS(body, comment, 32);
STARTS(body, identifier, 48);
STARTS(body, time, 64);
STARTS(body, addressee, 69);
STARTS(body, messaging, 78);
STARTS(body, kind, 79);

STARTS(record, header, 0);
STARTS(record, body, 208);
STARTS(record, innermost, 288);
STARTS(record, inner, 496);

STARTS(read, record, 0);
STARTS(read, refusal, 504);

STARTS(answer, refusal, 0);
STARTS(answer, reported, 8);
STARTS(answer, needed, 16);

STARTS(callsign_read, call, 0);
STARTS(callsign_read, starred, 19);
STARTS(callsign_read, refusal, 20);

STARTS(address_read, call, 0);
STARTS(address_read, heard, 19);
STARTS(address_read, last, 20);
STARTS(address_read, refusal, 21);

STARTS(address, bytes, 0);
STARTS(address, refusal, 7);

STARTS(latitude_read, latitude, 0);
STARTS(latitude_read, blanks, 4);
STARTS(latitude_read, south, 5);
STARTS(latitude_read, sixty, 6);
STARTS(latitude_read, refusal, 7);

STARTS(longitude_read, longitude, 0);
STARTS(longitude_read, west, 4);
STARTS(longitude_read, sixty, 5);
STARTS(longitude_read, refusal, 6);

STARTS(time_read, time, 0);
STARTS(time_read, refusal, 5);

STARTS(position_read, place, 0);
STARTS(position_read, latitude_sixty, 16);
STARTS(position_read, longitude_sixty, 17);
STARTS(position_read, refusal, 18);

STARTS(destination_read, latitude, 0);
STARTS(destination_read, message, 4);
STARTS(destination_read, blanks, 5);
STARTS(destination_read, south, 6);
STARTS(destination_read, hundred, 7);
STARTS(destination_read, west, 8);
STARTS(destination_read, sixty, 9);
STARTS(destination_read, refusal, 10);

STARTS(destination, bytes, 0);
STARTS(destination, refusal, 6);

STARTS(information, longitude, 0);
STARTS(information, speed, 4);
STARTS(information, course, 8);
STARTS(information, code, 12);
STARTS(information, table, 13);

STARTS(information_read, information, 0);
STARTS(information_read, refusal, 16);

STARTS(message_read, text_len, 0);
STARTS(message_read, identifier_len, 8);
STARTS(message_read, addressee, 16);
STARTS(message_read, refusal, 25);

STARTS(status_read, time, 0);
STARTS(status_read, refusal, 5);

STARTS(bounds, refusal, 0);
STARTS(bounds, lower, 8);
STARTS(bounds, upper, 16);

STARTS(box, refusal, 0);
STARTS(box, lower, 4);
STARTS(box, upper, 8);
