/* Fixed-length records: layouts, value lists and record bytes.
 *
 * Every function answers 0 where it did its work, or the number of the first question that was answered no (the table in README.md). No function needs anything
 * of its arguments but that each pointer leads to as many elements as the length behind it says; buffers may hold anything before the call. After a refusal
 * every output buffer holds zeros and every length is 0; after success what is not used of an output buffer is zero. Buffers of one call do not overlap.
 *
 * layout: twelve 32-bit words an entry: name, offset, width, kind, occurs, depending, span, p, q, r, s, mask (4294967295 in occurs and depending: absent).
 *         depending: the name of the unrepeated Int, Binary or Decimal of scale 0 that holds the table's length.
 * masks:  the masks of the layout's Edited entries. page: 0 ASCII, 1 EBCDIC (code page 037).
 * items:  four 64-bit words an item: name, tag, and two words by the tag (0 Null, 1 Text: start and length in `text`, 2 Int, 3 Decimal: unscaled and scale,
 *         4 Float: bits, 5 Bool, 6 List and 7 Struct: member count and span).
 * counts: work space of two words an entry; it holds zeros after the call.
 */
#ifndef FIXEDFORMAT_H
#define FIXEDFORMAT_H

#include <stddef.h>
#include <stdint.h>

#ifdef __cplusplus
extern "C" {
#endif

/* Reads a layout's text form into words and masks, with the page and how many words and mask bytes there are.
 * Asks 17, 1, 2, 3, 16. At most 512 entries: 6144 words serve for every layout. */
uint32_t ff_read_layout(const uint8_t *text, size_t text_len, uint32_t *words, size_t words_len, uint8_t *masks, size_t masks_len,
                        uint32_t *page, uint64_t *words_used, uint64_t *masks_used);

/* Judges a layout's words. Asks 1, 2, 3; reading and writing a record ask them again. */
uint32_t ff_check_layout(const uint32_t *layout, size_t layout_len, const uint8_t *masks, size_t masks_len, uint32_t page);

/* Reads a record: its items, depth first, and their texts, one after the other, with how many item words and text bytes there are.
 * Asks 1, 2, 3, 16 (counts), 4, then field by field 5 to 10 and 16. */
uint32_t ff_decode_record(const uint32_t *layout, size_t layout_len, const uint8_t *masks, size_t masks_len, uint32_t page,
                          const uint8_t *record, size_t record_len, uint64_t *items, size_t items_len, uint8_t *text, size_t text_len,
                          int64_t *counts, size_t counts_len, uint64_t *item_words_used, uint64_t *text_used);

/* Writes a record from a value list, with its length. A Decimal of more scale than its field has, and a Float for a Decimal or Edited field, goes to the nearest
 * number that the field can hold, an exact half to the even one. So does a float that goes into 16 or 32 bits, by IEEE 754: 65520 into 16 bits is an infinity, 2^-24 is 0001, a NaN 7E00.
 * Asks 1, 2, 3, 16 (counts), 11, 12, 16 (the layout's length), then field by field 13, 15, 14, 15, 16. */
uint32_t ff_encode_record(const uint32_t *layout, size_t layout_len, const uint8_t *masks, size_t masks_len, uint32_t page,
                          const uint64_t *items, size_t items_len, const uint8_t *text, size_t text_len,
                          uint8_t *record, size_t record_len, int64_t *counts, size_t counts_len, uint64_t *record_length);

/* Starts a window: zeroes its 2 * w + 5 words but for the display word; words behind these are left alone. A window keeps the sums of two Decimals over the last
 * w accepted records: count, both sums, the display word, a word that is 0 or, once passed to half-even rounding, 1, then the pairs held, oldest first; the sums
 * and numbers are two's complement words, unscaled, at the display scale or, without one, at the entries' common scale. It is neither output nor work space:
 * after a refusal it is unchanged. w is from 1 to 4,096; `first` and `second` are the numbers, from 0 and all entries counted, of two different unrepeated
 * Decimals of the layout's top level with the same scale; `display`, the display word, is 0, or a display scale plus 1, and at most that
 * scale.
 * Asks 1, 2, 3, 16 (counts), 18, 16 (window). */
uint32_t ff_window_start(const uint32_t *layout, size_t layout_len, const uint8_t *masks, size_t masks_len, uint32_t page,
                         uint64_t w, uint64_t first, uint64_t second, uint64_t display, uint64_t *window, size_t window_len, int64_t *counts, size_t counts_len);

/* Passes a window from cutting to half-even rounding: later values come in to the nearest, a half to the even neighbour; the pairs held stay. A second call
 * changes nothing. Asks 1, 2, 3, 16 (counts), 18, 16 (window), 24. */
uint32_t ff_window_change(const uint32_t *layout, size_t layout_len, const uint8_t *masks, size_t masks_len, uint32_t page,
                          uint64_t w, uint64_t first, uint64_t second, uint64_t *window, size_t window_len, int64_t *counts, size_t counts_len);

/* Reads a record and takes the values of the two entries into the window, brought to the display scale by cutting or, once passed, by half-even rounding; the
 * oldest pair goes where there were w. The sums are those of the pairs then held, and 0 after a refusal, which leaves the window unchanged. items, text and counts
 * are work space: they hold zeros after the call. Asks 1, 2, 3, 16 (counts), 18, 16 (window), 24, then as ff_decode_record does from 4 on, then 19, of the values
 * as they are read. */
uint32_t ff_window_add(const uint32_t *layout, size_t layout_len, const uint8_t *masks, size_t masks_len, uint32_t page,
                       const uint8_t *record, size_t record_len, uint64_t w, uint64_t first, uint64_t second, uint64_t *window, size_t window_len,
                       uint64_t *items, size_t items_len, uint8_t *text, size_t text_len, int64_t *counts, size_t counts_len,
                       int64_t *first_sum, int64_t *second_sum);

/* Converts a record under the old layout and page into a record under the new ones: reads the old record, writes the new one from that list, reads it back, and
 * compares every item read back with the first of its name in the old list: an Int or Decimal by its exact value, whatever the scales, a Text by its bytes, a Bool, a
 * Float by its bits and never a NaN, a List or Struct member by member, with the members' names. So a minus, a digit or an element that the new layout would lose is
 * a refusal. Both layouts number their names alike; every top-level name of the new one but its Pads' stands in the old one. counts has two words for each
 * entry of the longer layout. items, text, back_items, back_text and counts are work space: they hold zeros after the call.
 * Asks what ff_decode_record asks of the old layout, then what ff_encode_record asks of the new one, then 16 (place to read the new record back), then 20. */
uint32_t ff_convert_record(const uint32_t *old_layout, size_t old_layout_len, const uint8_t *old_masks, size_t old_masks_len, uint32_t old_page,
                           const uint8_t *old_record, size_t old_record_len, const uint32_t *new_layout, size_t new_layout_len,
                           const uint8_t *new_masks, size_t new_masks_len, uint32_t new_page, uint8_t *new_record, size_t new_record_len,
                           uint64_t *items, size_t items_len, uint8_t *text, size_t text_len, uint64_t *back_items, size_t back_items_len,
                           uint8_t *back_text, size_t back_text_len, int64_t *counts, size_t counts_len, uint64_t *record_length);

/* Puts the translated bytes of one unrepeated Text entry (twelve words) at the front of scratch, zeros behind them, with how many scratch bytes there are.
 * Asks 1, 2, 4, 7, 16. */
uint32_t ff_translate_text(const uint32_t *layout, size_t layout_len, uint32_t page, const uint8_t *record, size_t record_len,
                           uint8_t *scratch, size_t scratch_len, uint64_t *scratch_used);

/* Where the text of one unrepeated Text entry stands: its start and length in the record on page 0, and on page 1 in scratch as ff_translate_text
 * filled it. Asks 1, 2, 4, 7, 16 (on page 1). */
uint32_t ff_text_field(const uint32_t *layout, size_t layout_len, uint32_t page, const uint8_t *record, size_t record_len,
                       const uint8_t *scratch, size_t scratch_len, uint64_t *text_start, uint64_t *text_length);

#ifdef __cplusplus
}
#endif

#endif
