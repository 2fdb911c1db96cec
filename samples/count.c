/* Reads samples/count-end.message by samples/count.table through the static library, and writes what came back. Then
 * reads strictly what a till wrote that pads its varints: refused, so that equal counts have equal bytes. Then asks
 * whether a table of the form for large ones only appends to the first. */
#include <inttypes.h>
#include <stdio.h>

#include "reystavem.h"

static size_t load(const char *path, uint8_t *room, size_t size)
{
    FILE *file = fopen(path, "rb");
    size_t len = file ? fread(room, 1, size, file) : 0;
    if (file)
        fclose(file);
    return len;
}

/* Lent to the append question; it is zero again afterwards, and would do for the next one. */
static uint8_t area[REYSTAVEM_AREA];

int main(void)
{
    uint8_t table[4096], new_table[4096], message[4096];
    uint64_t store[3 * 64], place = 0, count = 0;
    size_t table_len = load("samples/count.table", table, sizeof table);
    size_t message_len = load("samples/count-end.message", message, sizeof message);
    uint64_t answer = reystavem_read(table, table_len, message, message_len, store, 3 * 64, &place, &count);
    printf("answer %" PRIu64 ", place %" PRIu64 ", entries %" PRIu64 "\n", answer, place, count);
    if (answer == 0 && count == 4)
        printf("store %" PRIu64 ", product %" PRIu64 ", count %" PRId64 " at byte %" PRIu64 "\n", store[3], store[6],
               (int64_t)store[9], store[11]);

    message_len = load("samples/count-padded.message", message, sizeof message);
    answer = reystavem_read_strict(table, table_len, message, message_len, store, 3 * 64, &place, &count);
    printf("padded, read strictly: answer %" PRIu64 ", place %" PRIu64 ", entries %" PRIu64 "\n", answer, place, count);

    uint64_t which = 0, yes = 0;
    size_t new_len = load("samples/count-large.table", new_table, sizeof new_table);
    answer = reystavem_append(table, table_len, new_table, new_len, area, sizeof area, &place, &which, &yes);
    printf("appends: answer %" PRIu64 ", %s\n", answer, yes ? "yes" : "no");
    return 0;
}
