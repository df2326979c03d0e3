/* price FOLDER: reads FOLDER/layout.txt and FOLDER/record.bin, prints the record's first PRICE, writes a tally of it by another layout, and reads the
 * tally back; then sums the scrap of the last three of five jobs. No heap: all buffers are lent. */
#include "../../include/fixedformat.h"
#include <inttypes.h>
#include <stdio.h>
#include <string.h>
#include <strings.h>

enum { TEXT = 1, DECIMAL = 3 };

/* The layout of a tally, page 1: JOB, a text of 8 bytes, and PRICE, a packed decimal of 5 bytes and scale 2. */
static const char tally_text[] = "page=1\n"
                                 "name=JOB\noffset=0\nwidth=8\nkind=0\noccurs=\ndepending=\nspan=1\np=0\nq=1\nr=32\nmask=\n"
                                 "name=PRICE\noffset=8\nwidth=5\nkind=7\noccurs=\ndepending=\nspan=1\np=1\nq=1\nr=2\nmask=\n";
enum { JOB = 0, PRICE = 1 }; /* names are numbered by first sight */

/* The layout of a job's scrap, page 0: JOB, a text of 4 bytes, then LENSES and GRAMS, packed decimals of 3 bytes and scale 1: entries 1 and 2. */
static const char scrap_text[] = "page=0\n"
                                 "name=JOB\noffset=0\nwidth=4\nkind=0\noccurs=\ndepending=\nspan=1\np=0\nq=1\nr=32\nmask=\n"
                                 "name=LENSES\noffset=4\nwidth=3\nkind=7\noccurs=\ndepending=\nspan=1\np=1\nq=1\nr=1\nmask=\n"
                                 "name=GRAMS\noffset=7\nwidth=3\nkind=7\noccurs=\ndepending=\nspan=1\np=1\nq=1\nr=1\nmask=\n";
enum { LENSES = 1, GRAMS = 2, LAST = 3 };

struct layout {
    uint32_t words[512 * 12], page;
    uint8_t masks[4096];
    uint64_t used, masks_used;
};

static struct layout job, tally, scrap;
static uint8_t text[65536], record[65536], said[65536];
static uint64_t items[8192];
static int64_t counts[1024];

static uint32_t read_layout(struct layout *l, const uint8_t *t, size_t n)
{
    return ff_read_layout(t, n, l->words, sizeof l->words / sizeof *l->words, l->masks, sizeof l->masks, &l->page, &l->used, &l->masks_used);
}

static int load(const char *folder, const char *name, uint8_t *into, size_t room, size_t *n)
{
    char path[512];
    FILE *f;
    snprintf(path, sizeof path, "%s/%s", folder, name);
    f = fopen(path, "rb");
    if (!f)
        return 0;
    *n = fread(into, 1, room, f);
    fclose(f);
    return 1;
}

static void print_decimal(int64_t unscaled, uint64_t scale)
{
    uint64_t size = unscaled < 0 ? 0 - (uint64_t)unscaled : (uint64_t)unscaled, unit = 1, i;
    for (i = 0; i < scale; i++)
        unit *= 10;
    printf("%s%" PRIu64, unscaled < 0 ? "-" : "", size / unit);
    if (scale)
        printf(".%0*" PRIu64, (int)scale, size % unit);
}

/* The number of a name in a layout text that was accepted: names are numbered by first sight, letter case ignored. */
static uint64_t number_of(const char *name, const char *t, size_t n)
{
    static struct { const char *at; size_t n; } seen[1024];
    uint64_t count = 0, k;
    size_t i = 0;
    while (i < n) {
        const char *line = t + i, *end = memchr(line, 10, n - i);
        size_t head = !strncmp(line, "name=", 5) ? 5 : !strncmp(line, "depending=", 10) ? 10 : 0, len = end - line - head;
        if (head && len) {
            for (k = 0; k < count && (seen[k].n != len || strncasecmp(seen[k].at, line + head, len)); k++)
                ;
            if (k == count) {
                seen[count].at = line + head;
                seen[count++].n = len;
                if (len == strlen(name) && !strncasecmp(name, line + head, len))
                    return k;
            }
        }
        i += end - line + 1;
    }
    return 65536;
}

static int refused(const char *what, uint32_t number)
{
    if (number)
        printf("%s: refused=%" PRIu32 "\n", what, number);
    return number != 0;
}

/* Five records through a window of three; the third is refused, and the window stays as it was. With a display word, a scale plus 1, the values come in at that
 * scale: cut, and from the fourth record on, behind a changeover, to the nearest. */
static int sum_scrap(uint64_t display)
{
    static const uint8_t jobs[5][10] = {
        {'J', '1', '0', '1', 0x00, 0x02, 0x0C, 0x00, 0x31, 0x5C}, /* 2.0 and 31.5 */
        {'J', '1', '0', '2', 0x00, 0x01, 0x0C, 0x00, 0x12, 0x0C}, /* 1.0 and 12.0 */
        {'J', '1', '0', '3', 0x00, 0x04, 0x0C, 0x00, 0x3A, 0x0C}, /* a byte of GRAMS is damaged */
        {'J', '1', '0', '4', 0x00, 0x03, 0x0C, 0x00, 0x40, 0x5C}, /* 3.0 and 40.5 */
        {'J', '1', '0', '5', 0x00, 0x01, 0x0D, 0x00, 0x07, 0x5D}, /* taken back: -1.0 and -7.5 */
    };
    uint64_t window[2 * LAST + 5];
    int64_t lenses, grams;
    uint32_t number;
    size_t i;
    if (refused("scrap layout", read_layout(&scrap, (const uint8_t *)scrap_text, sizeof scrap_text - 1)))
        return 1;
    if (refused("window", ff_window_start(scrap.words, scrap.used, scrap.masks, scrap.masks_used, scrap.page, LAST, LENSES, GRAMS, display, window, 2 * LAST + 5, counts, 1024)))
        return 1;
    for (i = 0; i < 5; i++) {
        if (display && i == 3 && refused("changeover", ff_window_change(scrap.words, scrap.used, scrap.masks, scrap.masks_used, scrap.page, LAST, LENSES, GRAMS, window, 2 * LAST + 5, counts, 1024)))
            return 1;
        number = ff_window_add(scrap.words, scrap.used, scrap.masks, scrap.masks_used, scrap.page, jobs[i], sizeof jobs[i], LAST, LENSES, GRAMS, window, 2 * LAST + 5,
                               items, 8192, said, sizeof said, counts, 1024, &lenses, &grams);
        if (refused("scrap", number))
            continue;
        printf("scrap of the last %" PRIu64 ": lenses ", window[0]);
        print_decimal(lenses, display ? display - 1 : 1);
        printf(", grams ");
        print_decimal(grams, display ? display - 1 : 1);
        printf("\n");
    }
    return 0;
}

int main(int argc, char **argv)
{
    size_t n, length;
    uint64_t used, told, wanted, i;
    if (argc < 2 || !load(argv[1], "layout.txt", text, sizeof text, &n) || !load(argv[1], "record.bin", record, sizeof record, &length)) {
        fprintf(stderr, "price FOLDER: layout.txt and record.bin are read there\n");
        return 1;
    }
    if (refused("layout", read_layout(&job, text, n)))
        return 1;
    if (refused("record", ff_decode_record(job.words, job.used, job.masks, job.masks_used, job.page, record, length, items, 8192, said, sizeof said, counts, 1024, &used, &told)))
        return 1;
    wanted = number_of("PRICE", (const char *)text, n);
    for (i = 0; i < used && (items[i] != wanted || items[i + 1] != DECIMAL); i += 4)
        ;
    if (i == used) {
        printf("no price\n");
        return 1;
    }
    printf("price ");
    print_decimal((int64_t)items[i + 2], items[i + 3]);
    printf("\n");

    {
        static const uint8_t name[] = "JOB-1041";
        uint64_t list[8] = {JOB, TEXT, 0, 8, PRICE, DECIMAL, items[i + 2], items[i + 3]}, back[8], written;
        uint8_t bytes[13], again[8];
        if (refused("tally layout", read_layout(&tally, (const uint8_t *)tally_text, sizeof tally_text - 1)))
            return 1;
        if (refused("tally", ff_encode_record(tally.words, tally.used, tally.masks, tally.masks_used, tally.page, list, 8, name, 8, bytes, sizeof bytes, counts, 1024, &written)))
            return 1;
        printf("tally");
        for (i = 0; i < written; i++)
            printf(" %02x", bytes[i]);
        printf("\n");
        if (refused("tally", ff_decode_record(tally.words, tally.used, tally.masks, tally.masks_used, tally.page, bytes, written, back, 8, again, sizeof again, counts, 1024, &used, &told)))
            return 1;
        printf("read back: %s\n", used == 8 && told == 8 && !memcmp(back, list, sizeof list) && !memcmp(again, name, 8) ? "the same list" : "another list");
    }
    return sum_scrap(0) || sum_scrap(1);
}
