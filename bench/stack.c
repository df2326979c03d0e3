/* The deepest stack of each call: the stack below is painted, the call is made, and what is no longer paint is counted. Groups to eight levels, a field of
 * every kind in the innermost; the writer is given the list that was read, then values that it has to convert; two Decimals behind the groups are summed in a
 * window; a record whose fields stand apart is converted to the other page, with tables of one for its groups and the last field, so that the lists compared
 * are as deep as a layout's can be; the layout's text has 512 entries. */
#include "../include/fixedformat.h"
#include <stdio.h>
#include <string.h>

#define PAINT 65536
#define MOST 6144

static uint32_t words[512 * 12];
static uint8_t masks[4096];
static uint8_t record[4096];
static uint64_t items[8192], back_items[8192];
static uint8_t text[4096], back_text[4096], made[4096];
static int64_t counts[1024];
static char form[131072];
static size_t used, formed;

static void entry(uint32_t name, uint32_t offset, uint32_t width, uint32_t kind, uint32_t span, uint32_t p, uint32_t q, uint32_t r)
{
    uint32_t w[12] = {name, offset, width, kind, 0xFFFFFFFFu, 0xFFFFFFFFu, span, p, q, r, 0, 0};
    memcpy(words + used, w, sizeof w);
    used += 12;
}

/* One field of each kind: name, offset, offset where they stand apart, width, kind, p, q, r. */
static const uint32_t leaf[13][8] = {
    {20, 0, 0, 8, 0, 0, 1, 32}, {21, 0, 8, 4, 1, 1, 2, 0},   {22, 0, 12, 4, 2, 0, 1, 0}, {23, 0, 16, 2, 3, 0, 16, 0}, {24, 0, 18, 4, 3, 1, 32, 0},
    {25, 0, 22, 8, 3, 0, 64, 0}, {26, 0, 30, 8, 4, 0, 0, 0}, {27, 0, 38, 1, 5, 0, 0, 0}, {28, 0, 39, 5, 7, 0, 1, 2},  {29, 8, 44, 5, 7, 1, 1, 2},
    {30, 16, 49, 5, 7, 2, 1, 2}, {31, 24, 54, 7, 8, 1, 0, 2}, {32, 32, 61, 4, 1, 1, 1, 0}};

static void leaves(int apart)
{
    size_t i;
    for (i = 0; i < 13; i++)
        entry(leaf[i][0], leaf[i][1 + apart], leaf[i][3], leaf[i][4], 1, leaf[i][5], leaf[i][6], leaf[i][7]);
}

static void lines(uint32_t name, uint32_t width, uint32_t kind, const char *depending, uint32_t span, uint32_t p, uint32_t r, const char *mask)
{
    formed += (size_t)sprintf(form + formed, "name=a-name-of-thirty-letters-%04u\noffset=0\nwidth=%u\nkind=%u\noccurs=\ndepending=", name, width, kind);
    if (*depending)
        formed += (size_t)sprintf(form + formed, "%s-%04u", depending, name);
    formed += (size_t)sprintf(form + formed, "\nspan=%u\np=%u\nq=0\nr=%u\nmask=%s\n", span, p, r, mask);
}

static __attribute__((noinline)) size_t paint(int look)
{
    volatile uint8_t low[PAINT];
    size_t i;
    if (!look) {
        for (i = 0; i < PAINT; i++)
            low[i] = 0xA5;
        return 0;
    }
    for (i = 0; i < PAINT && low[i] == 0xA5; i++)
        ;
    return PAINT - i;
}

static uint32_t number, page;
static uint64_t a, b, window[2 * 4 + 5];
static int64_t one, two;
static size_t deepest;
static int refused;

static __attribute__((noinline)) void decode(void) { number = ff_decode_record(words, used, masks, 64, page, record, 4096, items, 8192, text, 4096, counts, 1024, &a, &b); }
static __attribute__((noinline)) void encode(void) { number = ff_encode_record(words, used, masks, 64, page, items, a, text, b, record, 4096, counts, 1024, &b); }
static __attribute__((noinline)) void window_start(void) { number = ff_window_start(words, used, masks, 64, page, 4, used / 12 - 2, used / 12 - 1, 1, window, 13, counts, 1024); }
static __attribute__((noinline)) void window_change(void) { number = ff_window_change(words, used, masks, 64, page, 4, used / 12 - 2, used / 12 - 1, window, 13, counts, 1024); }
static __attribute__((noinline)) void window_add(void) { number = ff_window_add(words, used, masks, 64, page, record, 4096, 4, used / 12 - 2, used / 12 - 1, window, 13, items, 8192, text, 4096, counts, 1024, &one, &two); }
static __attribute__((noinline)) void convert_record(void) { number = ff_convert_record(words, used, masks, 64, page, record, 4096, words, used, masks, 64, 1 - page, made, 4096, items, 8192, text, 4096, back_items, 8192, back_text, 4096, counts, 1024, &a); }
static __attribute__((noinline)) void read_layout(void) { number = ff_read_layout((const uint8_t *)form, formed, words, 512 * 12, masks, 4096, &page, &a, &b); }

static void measure(const char *name, void (*call)(void))
{
    paint(0);
    call();
    size_t n = paint(1);
    printf("%s, page %u: number %u, stack %zu bytes\n", name, page, number, n);
    if (n > deepest)
        deepest = n;
    if (number)
        refused = 1;
}

/* A Decimal into the Text, a Text into Ints and Binaries, Floats into Decimals. */
static void convert(void)
{
    static const double number_of = 1.25;
    size_t i;
    for (i = 0; i < a; i += 4)
        switch (items[i] < 20 ? 0 : items[i + 1]) {
        case 1:
            if (items[i] == 20)
                items[i + 1] = 3, items[i + 2] = (uint64_t)-123, items[i + 3] = 2;
            break;
        case 2:
            items[i + 1] = 1, items[i + 2] = 0, items[i + 3] = 1;
            break;
        case 3:
            items[i + 1] = 4, items[i + 3] = 0;
            memcpy(items + i + 2, &number_of, 8);
            break;
        }
}

int main(void)
{
    uint32_t level;
    uint64_t kept;
    memcpy(masks, "ZZ9.99-", 7);
    for (page = 0; page < 2; page++) {
        used = 0;
        for (level = 0; level < 7; level++)
            entry(level, 0, 64, 9, 20 - level, 0, 0, 0);
        leaves(0);
        memset(record, page ? 0xF0 : '0', sizeof record);
        memcpy(record + 8, "\x12\x34\x56\x78\x9C", 5);
        record[35] = page ? 0xD1 : 'J';
        measure("decode_record", decode);
        kept = b;
        measure("encode_record", encode);
        convert();
        b = kept;
        measure("encode_record, converting", encode);
        entry(32, 8, 5, 7, 1, 1, 1, 2);
        entry(33, 8, 5, 7, 1, 1, 1, 2);
        memset(record, page ? 0xF0 : '0', sizeof record);
        memcpy(record + 8, "\x12\x34\x56\x78\x9C", 5);
        measure("window_start", window_start);
        measure("window_change", window_change);
        measure("window_add", window_add);
        used = 0;
        for (level = 0; level < 7; level++) {
            entry(level, 0, 65, 9, 20 - level, 0, 0, 0);
            words[used - 8] = 1;
        }
        leaves(1);
        words[used - 8] = 1;
        memset(record, page ? 0xF0 : '0', sizeof record);
        memcpy(record + 44, "\x12\x34\x56\x78\x9C", 5);
        measure("convert_record", convert_record);
    }
    formed = (size_t)sprintf(form, "page=0\n");
    for (level = 0; level < 7; level++)
        lines(level, 0, 9, "", 512 - level, 0, 0, "");
    for (; level < 512; level++)
        if (level % 2)
            lines(level, 7, 8, "", 1, 1, 2, "ZZ9.99-");
        else
            lines(level, 4, 1, "another-name", 1, 1, 0, "");
    measure("read_layout", read_layout);
    return refused || deepest > MOST;
}
