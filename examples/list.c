/* list UPPER LOWER: imports the two tables in these files and prints the root's listing and that of "styles", page by page. */
#include "overlay.h"

#include <inttypes.h>
#include <stdio.h>
#include <string.h>

static uint8_t state[OVERLAY_STATE_BYTES], upper[OVERLAY_TABLE_BYTES], lower[OVERLAY_TABLE_BYTES];

static uint64_t number(const uint8_t *b, int n)
{
    uint64_t x = 0;
    for (int i = n; i-- > 0;)
        x = x * 256 + b[i];
    return x;
}

/* Prints the dirents of a page and answers the offset in the last one. */
static uint64_t print_page(const uint8_t *page, uint32_t bytes, uint64_t offset)
{
    for (uint32_t a = 0; a < bytes;) {
        uint32_t length = (uint32_t)number(page + a + 16, 4);
        offset = number(page + a + 8, 8);
        printf("  %-10.*s type %2" PRIu64 "  inode %" PRIu64 "\n", (int)length, (const char *)page + a + 24, number(page + a + 20, 4),
               number(page + a, 8));
        a += 24 + (length + 7) / 8 * 8;
    }
    return offset;
}

static int list(uint64_t node)
{
    uint8_t page[96];
    uint64_t offset = 0, answer;
    do {
        answer = overlay_list(state, sizeof state, upper, sizeof upper, lower, sizeof lower, node, offset, sizeof page, page, sizeof page);
        if (overlay_errno(answer) != 0) {
            printf("  refused with errno %u\n", overlay_errno(answer));
            return 1;
        }
        offset = print_page(page, overlay_bytes(answer), offset);
    } while (overlay_remains(answer));
    return 0;
}

static uint64_t lookup(uint64_t parent, const char *name)
{
    return overlay_lookup(state, sizeof state, upper, sizeof upper, lower, sizeof lower, parent, (const uint8_t *)name, strlen(name));
}

/* Reads a table of 8192 bytes; 0 where the file does not have just these. */
static int read_table(const char *path, uint8_t *table)
{
    FILE *f = fopen(path, "rb");
    if (f == NULL) {
        fprintf(stderr, "list: %s cannot be read\n", path);
        return 0;
    }
    size_t n = fread(table, 1, OVERLAY_TABLE_BYTES, f);
    int more = fgetc(f) != EOF;
    fclose(f);
    if (n != OVERLAY_TABLE_BYTES || more) {
        fprintf(stderr, "list: %s has not 8192 bytes; make it with the program encode\n", path);
        return 0;
    }
    return 1;
}

int main(int argc, char **argv)
{
    if (argc != 3) {
        fprintf(stderr, "usage: list UPPER LOWER\n");
        return 2;
    }
    if (!read_table(argv[1], upper) || !read_table(argv[2], lower))
        return 2;
    uint32_t refused = overlay_import(state, sizeof state, upper, sizeof upper, lower, sizeof lower);
    if (refused != 0) {
        printf("import refused with errno %u\n", refused);
        return 1;
    }
    printf("the root\n");
    if (list(OVERLAY_ROOT) != 0)
        return 1;
    uint64_t styles = lookup(OVERLAY_ROOT, "styles");
    printf("styles, node %u\n", overlay_value(styles));
    if (list(overlay_value(styles)) != 0)
        return 1;
    uint64_t count = overlay_count(state, sizeof state, upper, sizeof upper, lower, sizeof lower, overlay_value(styles));
    printf("%u live, %u deleted\n", overlay_live(count), overlay_whiteouts(count));
    printf("lookup of sepia: errno %u\n", overlay_errno(lookup(overlay_value(styles), "sepia")));
    return 0;
}
