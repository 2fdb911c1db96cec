/* Reystavem: reading and writing messages by a schema table, as a static library (libexports.a).
 *
 * Every call may be given any bytes. It returns the number that the documents give its answer:
 *
 *    0  done
 *    1  the table's trailer isn't good            7  a text isn't UTF-8
 *    2  a record of the table isn't good          8  an option is neither 0 nor 1
 *    3  the message ends inside an item           9  a variant's number isn't in the table
 *    4  a varint is too long or too large        10  the store has no room for an item's entry
 *    5  a bool is neither 0 nor 1                11  a value list doesn't fit the table
 *    6  a char isn't one                         12  the output is too short
 *   13  the path doesn't lead to an item that can be asked for
 *   14  an option on the path is absent
 *   15  the list is too short for the differences
 *   16  not shortest: an item's bytes aren't the ones that a writer writes for its value
 *   17  the key fields don't fit the table
 *   18  the batch is bad
 *   19  the batch has no such store and product
 *   20 to 24, a feed's answers: consumed, over-full, bad frame, frame, bad state
 *   20  of a row's export and import: the table has no rows
 *   21  of a row's import: the input isn't a row of the table
 *   22  of a reading with a list of open items: the list is too short
 *   25  the work area is too short
 *
 * A pointer with its length is a lent slice: it must be valid for that length and, where it isn't
 * const, overlap no other. A length may be 0; the pointer is then not read, but mustn't be null.
 */
#ifndef REYSTAVEM_H
#define REYSTAVEM_H

#include <stddef.h>
#include <stdint.h>

#ifdef __cplusplus
extern "C" {
#endif

/* Whether a table, of either form, is good: 0, 1 or 2. *place: the first bad node, else 0. A node is
 * bad if its record isn't good or its chain of children has more than 256 nodes, itself among them. */
uint64_t reystavem_check(const uint8_t *table, size_t table_len, uint64_t *place);

/* Reads a message into a store of u64 words, three an entry: an item's value in two words, and the
 * place of its first byte (for a struct or unit, the place reached). A store has room for a third of
 * its words, rounded down. *place: bytes read, or the place of the refusal. *count: entries made,
 * which stand in front in the store; later words are as before. On 0 the rest of the message begins
 * at *place. */
uint64_t reystavem_read(const uint8_t *table, size_t table_len,
                        const uint8_t *message, size_t message_len,
                        uint64_t *store, size_t store_words,
                        uint64_t *place, uint64_t *count);

/* The same, but an item is refused, 16, if its own bytes aren't the shortest that say its value: a
 * padded varint (a number, a count, a length, a variant's number), or a char whose length isn't its
 * own. So of two messages read strictly, those with the same values have the same bytes. An item's
 * other refusals come before 16; the refused item makes no entry, and its inside isn't looked at. */
uint64_t reystavem_read_strict(const uint8_t *table, size_t table_len,
                               const uint8_t *message, size_t message_len,
                               uint64_t *store, size_t store_words,
                               uint64_t *place, uint64_t *count);

/* As reystavem_read, with a lent list of open items in the place of calls of itself: four words each, of
 * which it wants room for 256. A shorter list is 22 at place 0, before all others, with nothing changed
 * and *count 0; on every other answer its first 1,024 words come back zero, and later ones are as before. */
uint64_t reystavem_read_open(const uint8_t *table, size_t table_len,
                             const uint8_t *message, size_t message_len,
                             uint64_t *store, size_t store_words,
                             uint64_t *open, size_t open_words,
                             uint64_t *place, uint64_t *count);

/* The same, as reystavem_read_strict. */
uint64_t reystavem_read_open_strict(const uint8_t *table, size_t table_len,
                                    const uint8_t *message, size_t message_len,
                                    uint64_t *store, size_t store_words,
                                    uint64_t *open, size_t open_words,
                                    uint64_t *place, uint64_t *count);

/* Writes a value list, three words an entry, whose texts and bytes stand in the pool; an entry's third
 * word isn't looked at. *place: bytes written, or the place of the refusal. On a refusal the output is
 * unchanged, on 0 only the bytes written changed. */
uint64_t reystavem_write(const uint8_t *table, size_t table_len,
                         const uint64_t *words, size_t words_len,
                         const uint8_t *pool, size_t pool_len,
                         uint8_t *out, size_t out_len, uint64_t *place);

/* The bytes of work area that the append question needs: a bit for each pair of nodes. */
#define REYSTAVEM_AREA 2097152

/* Whether a new table only appends to an old one; each may be of either form. *yes: 1 or 0, 0 on a
 * refusal. *which: the table that is refused, 0 old, 1 new. *place: its first bad node, else 0. The
 * area may hold anything, and its first REYSTAVEM_AREA bytes are zero afterwards, also when a table
 * is refused; later bytes are as before. A shorter area: 25, which comes before all else, names no
 * table (all three numbers are 0) and leaves the area as it was. */
uint64_t reystavem_append(const uint8_t *old_table, size_t old_len,
                          const uint8_t *new_table, size_t new_len,
                          uint8_t *area, size_t area_len,
                          uint64_t *place, uint64_t *which, uint64_t *yes);

/* How many bytes a frame may have, its closing zero among them. */
#define REYSTAVEM_ROOM 2048

/* Feeds a chunk to an accumulator: its array of REYSTAVEM_ROOM bytes, how much of that is filled, and
 * whether it waits for the end of an over-full frame: any number but 0, and 0 or 1 comes back. The
 * message (as many bytes) is written whole: a frame's message of *len bytes, and zeros behind it.
 * *rest_from: where the chunk's rest begins. *idx over REYSTAVEM_ROOM: 24, array, *idx and *waiting as
 * before. A slice of another length: 24, the message as before too.
 * An over-full chunk without a zero is 21 with an empty rest, and the state then waits: what comes is
 * dropped up to the first zero, and what follows that is a chunk of its own, in the same call. */
uint64_t reystavem_feed(uint8_t *array, size_t array_len,
                        const uint8_t *chunk, size_t chunk_len,
                        uint8_t *message, size_t message_len,
                        uint64_t *idx, uint64_t *waiting, uint64_t *len, uint64_t *rest_from);

/* The same for the label printers' bridge, whose filler has no zeros: an over-full chunk without a zero
 * hands back what does not fit, and nothing waits. *waiting is neither read nor changed. */
uint64_t reystavem_feed_bridge(uint8_t *array, size_t array_len,
                               const uint8_t *chunk, size_t chunk_len,
                               uint8_t *message, size_t message_len,
                               uint64_t *idx, uint64_t *waiting, uint64_t *len, uint64_t *rest_from);

/* Writes a message of any length as a COBS frame with its closing zero, which is its only zero; the empty
 * message is 01 00, and behind a last group of 254 bytes no empty one follows. A message of 2038 bytes or
 * fewer has a frame of at most REYSTAVEM_ROOM, and such a frame, fed in any chunks to an empty
 * accumulator, gives the message again. *place: bytes written, or 0 on a refusal. 12 exactly if the frame
 * is longer than the output, which is then unchanged; on 0 only the bytes written changed. */
uint64_t reystavem_frame(const uint8_t *message, size_t message_len,
                         uint8_t *out, size_t out_len, uint64_t *place);

/* Takes one item of kind 0 to 13 or 20 to 31 at *place: moved behind the item on 0, kept on a refusal.
 * *first, *second and *at: the item's entry, its value in two words and the place where it stands; each
 * 0 on a refusal. */
uint64_t reystavem_take(uint64_t kind, const uint8_t *message, size_t message_len,
                        uint64_t *place, uint64_t *first, uint64_t *second, uint64_t *at);

/* Finds one item of kind 0 to 13 or 20 to 31, with no store for the others. The path leads to it from
 * the root: at a struct a field's position, from 0 on, at an option 0; an empty one means the root.
 * *first, *second and *place: the item's entry, as reystavem_read puts it into a store of 16384
 * entries. What follows the item isn't looked at; what that reading refuses before the item or at it
 * is refused the same. 13, at place 0 and before the message is looked at: the path doesn't lead to
 * such an item. 14: an option on the path is absent; *place is the first such option's. *first and
 * *second are 0 on a refusal. */
uint64_t reystavem_find(const uint8_t *table, size_t table_len,
                        const uint64_t *path, size_t path_len,
                        const uint8_t *message, size_t message_len,
                        uint64_t *place, uint64_t *first, uint64_t *second);

/* Lists the items in which two messages differ, in reading order, two words each: the item's place in
 * the one message and in the other. *count: how many; 0 exactly if the values are the same. They stand
 * in front in the list; later words are as before. Where an option, a variant, or a number of elements
 * or pairs differs, that item is listed and its inside isn't compared. Texts and bytes compare by
 * content and floats by bits; how long a varint is, and a rest behind a message, don't count. *place
 * is 0 when done. Refusals: of the table; of the one message, then of the other, each read as with a
 * store of 16384 entries; then 15, at place 0, if the list has room for fewer pairs: half of its words,
 * rounded down. *which: 1 for a refusal of the other message, else 0. On a refusal *count is 0 and the
 * list unchanged. */
uint64_t reystavem_compare(const uint8_t *table, size_t table_len,
                           const uint8_t *one, size_t one_len,
                           const uint8_t *other, size_t other_len,
                           uint64_t *list, size_t list_words,
                           uint64_t *place, uint64_t *which, uint64_t *count);

/* Writes a night batch of messages that stand end to end: their bytes unchanged, then a row of 16 bytes
 * for each, sorted by store, then product, then offset, then a trailer of 12 bytes. The two fields are
 * positions in the root struct, of a u32 and a u64. *place: bytes written, or the place of the refusal.
 * Refusals: of the table; 17; a message's own, at its place among all of them, each read as with a store
 * of 16384 entries; 18 if an offset, the count or the rows' length leaves 32 bits; 12. On a refusal the
 * output is unchanged, on 0 only the bytes written changed. */
uint64_t reystavem_batch_write(const uint8_t *table, size_t table_len,
                               const uint8_t *messages, size_t messages_len,
                               uint64_t store_field, uint64_t product_field,
                               uint8_t *out, size_t out_len, uint64_t *place);

/* Whether a batch is good: it reads fully from its first byte to the rows, message after message, and
 * the rows are one for each message, in order, with its own key and offset. Refusals: of the table; 17,
 * but 18 first if the batch is shorter than a trailer; 18. *place: the table's first bad node, else 0.
 * From 32768 bytes of messages on it wants 256 KiB of stack; so does reystavem_batch_compact. */
uint64_t reystavem_batch_check(const uint8_t *table, size_t table_len,
                               const uint8_t *batch, size_t batch_len, uint64_t *place);

/* Finds the last message of a store and product from the rows, by halves. *from and *len: where it begins
 * in the batch and how long it is; 0 and 0 on a refusal. On a batch that reystavem_batch_check passes,
 * that is what reading every message from the front finds. On any other batch the call ends too: a part
 * that is found lies before the rows and is one message, but it may not be the last, and a message that is
 * there may not be found. Refusals: as reystavem_batch_check's, of the table, the fields and the trailer
 * alone; 19 if no row is found; 18 if the row's offset isn't before the rows or no message is read
 * there. */
uint64_t reystavem_batch_last(const uint8_t *table, size_t table_len,
                              const uint8_t *batch, size_t batch_len,
                              uint64_t store, uint64_t product,
                              uint64_t *place, uint64_t *from, uint64_t *len);

/* Writes a new batch that holds, for each store and product, only the last message of a batch, its bytes as
 * they were, in the old order, with rows of its own. Every reystavem_batch_last is answered with the same
 * bytes before and after, and doing it again changes nothing; the new batch is never the longer one. *place:
 * bytes written, or the place of the refusal. Refusals: as reystavem_batch_check's, then 12. On a refusal the
 * output is unchanged, on 0 only the bytes written changed. */
uint64_t reystavem_batch_compact(const uint8_t *table, size_t table_len,
                                 const uint8_t *batch, size_t batch_len,
                                 uint8_t *out, size_t out_len, uint64_t *place);

/* Writes a message as a row of CSV (RFC 4180): its fields in order with commas between them, then CR and LF.
 * The table's root is a struct of at most 1024 fields, all of kinds 0 to 13 or 20 to 31. Integers stand in
 * decimal, a bool as 0 or 1, a float as its bits in decimal, a char and a text in quotes with quotes doubled,
 * bytes in quotes as lower-case hex. *place: bytes written, or the place of the refusal. Refusals: of the
 * table; 20 at place 0 if it has no such root; the message's own, read as with a store of 16384 entries; 12
 * at place 0. On a refusal the output is unchanged, on 0 only the bytes written changed. */
uint64_t reystavem_csv_export(const uint8_t *table, size_t table_len,
                              const uint8_t *message, size_t message_len,
                              uint8_t *out, size_t out_len, uint64_t *place);

/* Writes the message of a row, in its shortest form. Only the one spelling is taken that
 * reystavem_csv_export writes. *place: bytes written, or the place of the refusal. Refusals: of the table;
 * 20 at place 0; 21 at the first byte where no exported row of that table goes on, at the row's length if it
 * ends early, at the first byte behind it if more follows; 12 at place 0. On a refusal the output is
 * unchanged, on 0 only the bytes written changed. */
uint64_t reystavem_csv_import(const uint8_t *table, size_t table_len,
                              const uint8_t *row, size_t row_len,
                              uint8_t *out, size_t out_len, uint64_t *place);

#ifdef __cplusplus
}
#endif

#endif
