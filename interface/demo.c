/* Lists a small message, puts values into it, and meets refusals. */
#include <stdio.h>
#include <string.h>

#include "balskif.h"

static const char sheet[] =
    "row,word,name,one,two,three\n"
    "0,rec,-,1,-,-\n"
    "1,fld,n,3,2,-\n"
    "2,fld,pts,4,-,-\n"
    "3,u8,-,-,-,-\n"
    "4,arr,-,8,5,-\n"
    "5,loc,-,6,-,-\n"
    "6,from,-,0,7,-\n"
    "7,dot,n,-,-,-\n"
    "8,i16,-,-,-,-\n";

/* The field `n` names a number as its type. */
static const char wrong[] =
    "row,word,name,one,two,three\n"
    "0,rec,-,1,-,-\n"
    "1,fld,n,2,-,-\n"
    "2,lit,-,1,-,-\n";

static uint8_t message[] = {0x02, 0xff, 0xec, 0x00, 0x0a, 0x7f};

static void check(const char *text) {
    uint64_t line;
    uint8_t number = balskif_check((const uint8_t *)text, strlen(text), &line);
    printf("check: %d, line %d\n", (int)number, (int)line);
}

static void list(size_t places, size_t room) {
    uint8_t out[4096];
    size_t length = balskif_list((const uint8_t *)sheet, strlen(sheet), message, sizeof message, places, out, room);
    if (length == 0) {
        printf("list: does not fit into %d bytes\n", (int)room);
        return;
    }
    printf("list: %d bytes\n", (int)length);
    fwrite(out, 1, length, stdout);
}

static void put(const char *path, const uint8_t *value, size_t length) {
    uint8_t number = balskif_put((const uint8_t *)sheet, strlen(sheet), message, sizeof message, BALSKIF_PLACES_SHORT,
                                 (const uint8_t *)path, strlen(path), value, length);
    printf("put %s: %d\n", path, (int)number);
}

int main(void) {
    static const uint8_t one[] = {0x01};
    static const uint8_t ones[] = {0xff, 0xff};

    check(sheet);
    check(wrong);
    list(BALSKIF_PLACES_SHORT, 4096);
    list(BALSKIF_PLACES_SHORT, 20);
    list(2, 4096);
    put("root.pts[1]", ones, 2);
    put("root.pts[2]", ones, 2);
    put("root.pts[1]", one, 1);
    put("root.n", one, 1);
    list(BALSKIF_PLACES_SHORT, 4096);
    return 0;
}
