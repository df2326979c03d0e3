/* convert FOLDER..: converts FOLDER/record.bin, a record by the layout of FOLDER/old.txt, into a record by that of FOLDER/new.txt, and prints it, or the number
 * that refuses it. No heap: all buffers are lent.
 *
 * Both layouts must number their names alike, and a layout's text numbers them by first sight. So both texts begin with the same head: a Pad of no bytes
 * for each name, in one order. Behind it each text names its fields in an order of its own. The program checks that the numbers agree. */
#include "../../include/fixedformat.h"
#include <inttypes.h>
#include <stdio.h>
#include <string.h>
#include <strings.h>

enum { ENTRY = 12, MOST = 512, NAME = 5 };

struct layout {
    char text[65536];
    size_t n;
    uint32_t words[MOST * ENTRY], page;
    uint8_t masks[4096];
    uint64_t used, masks_used;
};

static struct layout old, new;
static uint8_t record[65536], made[65536], text[65536], back_text[65536];
static uint64_t items[8192], back_items[8192], length;
static int64_t counts[2 * MOST];

static size_t load(const char *folder, const char *name, void *into, size_t room)
{
    char path[512];
    size_t n = 0;
    FILE *f;
    snprintf(path, sizeof path, "%s/%s", folder, name);
    f = fopen(path, "rb");
    if (f) {
        n = fread(into, 1, room, f);
        fclose(f);
    }
    return n;
}

static uint32_t read_layout(struct layout *l, const char *folder, const char *name)
{
    l->n = load(folder, name, l->text, sizeof l->text - 1);
    l->text[l->n] = 0;
    return ff_read_layout((const uint8_t *)l->text, l->n, l->words, MOST * ENTRY, l->masks, sizeof l->masks, &l->page, &l->used, &l->masks_used);
}

/* The name of each entry: its line stands in the text in the entries' order. Gives the entry's line, or NULL behind the last. */
static const char *next_name(const char *line)
{
    line = strstr(line, "\nname=");
    return line ? line + 1 : NULL;
}

/* Whether a name that stands in both texts has one number. */
static int numbered_alike(void)
{
    const char *a, *b;
    size_t i, k, len;
    for (a = next_name(old.text), i = 0; a; a = next_name(a), i += ENTRY)
        for (b = next_name(new.text), k = 0; b; b = next_name(b), k += ENTRY) {
            len = strcspn(a + NAME, "\n");
            if (len == strcspn(b + NAME, "\n") && !strncasecmp(a + NAME, b + NAME, len) && old.words[i] != new.words[k])
                return 0;
        }
    return 1;
}

int main(int argc, char **argv)
{
    int i;
    for (i = 1; i < argc; i++) {
        const char *name = strrchr(argv[i], '/') ? strrchr(argv[i], '/') + 1 : argv[i];
        uint32_t number = read_layout(&old, argv[i], "old.txt");
        size_t n = load(argv[i], "record.bin", record, sizeof record);
        if (!number)
            number = read_layout(&new, argv[i], "new.txt");
        if (number) {
            printf("%s: layout refused=%" PRIu32 "\n", name, number);
            return 1;
        }
        if (!numbered_alike()) {
            printf("%s: the layouts number a name in two ways\n", name);
            return 1;
        }
        number = ff_convert_record(old.words, old.used, old.masks, old.masks_used, old.page, record, n, new.words, new.used, new.masks, new.masks_used, new.page, made, sizeof made, items, 8192,
                                   text, sizeof text, back_items, 8192, back_text, sizeof back_text, counts, 2 * MOST, &length);
        if (number)
            printf("%s: refused=%" PRIu32 "\n", name, number);
        else
            printf("%s: %.*s\n", name, (int)length, (const char *)made);
    }
    return 0;
}
