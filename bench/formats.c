#include "formats.h"

#include <string.h>

enum { MOST = 65535, LINE = 64 };

static size_t shortened(size_t n) { return n < MOST ? n : MOST; }

static size_t u16_at(const uint8_t *m, size_t k) { return (size_t)m[k] << 8 | m[k + 1]; }

/* Laying */

static struct piece piece(enum kind kind, size_t i, size_t j, size_t place, size_t width)
{
    return (struct piece){kind, (uint16_t)i, (uint16_t)j, (uint16_t)place, (uint8_t)width};
}

size_t trace_lay(const uint8_t *m, size_t n, struct piece *out, size_t room)
{
    n = shortened(n);
    if (n < 2)
        return 0;
    size_t count = u16_at(m, 0);
    if (2 + 2 * count > n || 1 + count > room)
        return 0;
    *out++ = piece(TRACE_N, 0, 0, 0, 2);
    for (size_t i = 0; i < count; i++)
        *out++ = piece(TRACE_PTS, i, 0, 2 + 2 * i, 2);
    return 1 + count;
}

size_t records_lay(const uint8_t *m, size_t n, struct piece *out, size_t room)
{
    n = shortened(n);
    if (n < 2 || room < 1)
        return 0;
    size_t count = u16_at(m, 0), place = 2, pieces = 0;
    out[pieces++] = piece(RECORDS_M, 0, 0, 0, 2);
    for (size_t i = 0; i < count; i++) {
        if (place + 1 > n)
            return 0;
        size_t values = m[place];
        if (place + 1 + 2 * values > n || pieces + 1 + values > room)
            return 0;
        out[pieces++] = piece(RECORDS_K, i, 0, place, 1);
        place += 1;
        for (size_t j = 0; j < values; j++) {
            out[pieces++] = piece(RECORDS_VALS, i, j, place, 2);
            place += 2;
        }
    }
    return pieces;
}

size_t lookups_lay(const uint8_t *m, size_t n, struct piece *out, size_t room)
{
    n = shortened(n);
    if (n < 2)
        return 0;
    size_t count = u16_at(m, 0), flag = 2 + count;
    if (flag + 1 > n)
        return 0;
    size_t width = m[flag] ? 1 : 2;
    enum kind kind = m[flag] ? LOOKUPS_ITEMS_U8 : LOOKUPS_ITEMS_U16;
    if (flag + 1 + width * count > n || 2 + 2 * count > room)
        return 0;
    *out++ = piece(LOOKUPS_M, 0, 0, 0, 2);
    for (size_t i = 0; i < count; i++)
        *out++ = piece(LOOKUPS_PAD, i, 0, 2 + i, 1);
    *out++ = piece(LOOKUPS_FLAG, 0, 0, flag, 1);
    for (size_t i = 0; i < count; i++)
        *out++ = piece(kind, i, 0, flag + 1 + width * i, width);
    return 2 + 2 * count;
}

/* Listing */

static char *add_text(char *p, const char *text, size_t length)
{
    memcpy(p, text, length);
    return p + length;
}

#define ADD(p, text) add_text(p, text, sizeof(text) - 1)

static char *add_number(char *p, size_t number)
{
    char digits[20];
    size_t first = sizeof digits;
    do {
        digits[--first] = (char)('0' + number % 10);
        number /= 10;
    } while (number);
    return add_text(p, digits + first, sizeof digits - first);
}

static char *add_hex(char *p, const uint8_t *m, size_t width)
{
    static const char digit[] = "0123456789abcdef";
    for (size_t k = 0; k < width; k++) {
        *p++ = digit[m[k] >> 4];
        *p++ = digit[m[k] & 15];
    }
    return p;
}

/* The end of a line: place, width and bytes. */
static char *add_cells(char *p, const uint8_t *m, size_t place, size_t width)
{
    *p++ = ',';
    p = add_number(p, place);
    *p++ = ',';
    p = add_number(p, width);
    *p++ = ',';
    if (width == 0)
        *p++ = '-';
    p = add_hex(p, m + place, width);
    *p++ = '\n';
    return p;
}

static const char head[] = "path,word,place,width,bytes\n";

/* Adds the last line; null if there is no room. */
static char *add_rest(char *p, const char *end, const uint8_t *m, size_t n, size_t place)
{
    if ((size_t)(end - p) < LINE + 2 * (n - place))
        return NULL;
    return add_cells(ADD(p, "rest,-"), m, place, n - place);
}

size_t trace_list(const uint8_t *m, size_t n, char *out, size_t room)
{
    n = shortened(n);
    if (n < 2 || room < LINE)
        return 0;
    size_t count = u16_at(m, 0), place = 2;
    if (place + 2 * count > n)
        return 0;
    char *p = out, *end = out + room;
    p = ADD(p, head);
    p = add_cells(ADD(p, "root.n,u16"), m, 0, 2);
    for (size_t i = 0; i < count; i++, place += 2) {
        if (end - p < LINE)
            return 0;
        p = add_number(ADD(p, "root.pts["), i);
        p = add_cells(ADD(p, "],i16"), m, place, 2);
    }
    p = add_rest(p, end, m, n, place);
    return p ? (size_t)(p - out) : 0;
}

size_t records_list(const uint8_t *m, size_t n, char *out, size_t room)
{
    n = shortened(n);
    if (n < 2 || room < LINE)
        return 0;
    size_t count = u16_at(m, 0), place = 2;
    char *p = out, *end = out + room;
    p = ADD(p, head);
    p = add_cells(ADD(p, "root.m,u16"), m, 0, 2);
    for (size_t i = 0; i < count; i++) {
        if (place + 1 > n || end - p < LINE)
            return 0;
        size_t values = m[place];
        if (place + 1 + 2 * values > n)
            return 0;
        p = add_number(ADD(p, "root.recs["), i);
        p = add_cells(ADD(p, "].k,u8"), m, place, 1);
        place += 1;
        for (size_t j = 0; j < values; j++, place += 2) {
            if (end - p < LINE)
                return 0;
            p = add_number(ADD(p, "root.recs["), i);
            p = add_number(ADD(p, "].vals["), j);
            p = add_cells(ADD(p, "],u16"), m, place, 2);
        }
    }
    p = add_rest(p, end, m, n, place);
    return p ? (size_t)(p - out) : 0;
}

size_t lookups_list(const uint8_t *m, size_t n, char *out, size_t room)
{
    n = shortened(n);
    if (n < 2 || room < LINE)
        return 0;
    size_t count = u16_at(m, 0), flag = 2 + count;
    if (flag + 1 > n)
        return 0;
    size_t width = m[flag] ? 1 : 2, place = flag + 1;
    if (place + width * count > n)
        return 0;
    char *p = out, *end = out + room;
    p = ADD(p, head);
    p = add_cells(ADD(p, "root.m,u16"), m, 0, 2);
    for (size_t i = 0; i < count; i++) {
        if (end - p < LINE)
            return 0;
        p = add_number(ADD(p, "root.pad["), i);
        p = add_cells(ADD(p, "],u8"), m, 2 + i, 1);
    }
    if (end - p < LINE)
        return 0;
    p = add_cells(ADD(p, "root.flag,bool"), m, flag, 1);
    for (size_t i = 0; i < count; i++, place += width) {
        if (end - p < LINE)
            return 0;
        p = add_number(ADD(p, "root.items["), i);
        p = m[flag] ? ADD(p, "],u8") : ADD(p, "],u16");
        p = add_cells(p, m, place, width);
    }
    p = add_rest(p, end, m, n, place);
    return p ? (size_t)(p - out) : 0;
}
