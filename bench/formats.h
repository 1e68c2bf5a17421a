/* Readers of three single formats. */
#ifndef FORMATS_H
#define FORMATS_H

#include <stddef.h>
#include <stdint.h>

enum kind {
    TRACE_N, TRACE_PTS,
    RECORDS_M, RECORDS_K, RECORDS_VALS,
    LOOKUPS_M, LOOKUPS_PAD, LOOKUPS_FLAG, LOOKUPS_ITEMS_U8, LOOKUPS_ITEMS_U16
};

/* One value of a message; i and j number the elements that it stands in. */
struct piece {
    enum kind kind;
    uint16_t i, j;
    uint16_t place;
    uint8_t width;
};

/* The number of pieces, 0 if the message is cut or there is no room for all. Only the first 65,535 bytes count. */
size_t trace_lay(const uint8_t *m, size_t n, struct piece *out, size_t room);
size_t records_lay(const uint8_t *m, size_t n, struct piece *out, size_t room);
size_t lookups_lay(const uint8_t *m, size_t n, struct piece *out, size_t room);

/* The length of the listing, 0 if the message is cut or there is no room. Up to 64 more places than it has may be asked for. */
size_t trace_list(const uint8_t *m, size_t n, char *out, size_t room);
size_t records_list(const uint8_t *m, size_t n, char *out, size_t room);
size_t lookups_list(const uint8_t *m, size_t n, char *out, size_t room);

#endif
