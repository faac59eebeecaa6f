/* The proved joiner of play-log columns, their time order, the converter of old segments, plays withdrawn and reinstated, and a column's least and greatest value, for C. Link with
 * target/staticlib/libjadmirus.a (tools/staticlib).
 *
 * The proof takes for granted what a caller in C must see to: each pointer is of as many elements as the count after it says (where the count is 0, any aligned
 * one that is not NULL), and no run that is written overlaps another run. */
#ifndef JADMIRUS_H
#define JADMIRUS_H

#include <stddef.h>
#include <stdint.h>

#ifdef __cplusplus
extern "C" {
#endif

/* How many numbers of 32 bits a record has in memory. */
#define JADMIRUS_ROW 13

/* Joins the segments of one column.
 *
 * Types: 0 I64, 1 U64, 2 F64, 3 Bytes, 4 Str, 5 Bool, 6 IpAddr, 7 DateTime, 255 no column. Kinds: 0 Empty, 1 Full, 2 Optional, 4 new multivalued; 3, old
 * multivalued, is for jadmirus_convert alone. Classes: 0 Full, 1 Optional, 2 Multivalued.
 *
 * A value is one 64-bit word, of an unknown type too, but one of type 6, an IPv6 address, is two, the high word first. Numbers of values (in records, offsets,
 * checks 4 and 7, and out_numbers) count such an address once; values_count and out_values_count are in words.
 *
 * A record is eleven numbers: nine of 32 bits, then the least and the greatest stored value, of 64 bits, which stand in a row of thirteen as halves, the low one first
 * (jadmirus_set_pair). The ninth is how many rows are alive: with flag 1 the number of set alive bits, else the number of rows (of type 255 too);
 * jadmirus_withdraw and jadmirus_reinstate keep it. The pair is of all stored values, withdrawn rows' too, for types 0 (compared as signed) and 1, and 0 and 0 for
 * all other types and for columns without values (jadmirus_pair finds it). It is what the joined type and check 10 go by.
 *
 * Returns the answer. The checks run in the order of this list, each over all segments, and the first that fails gives its number:
 *
 *    0  accepted: the lists are written, and out_numbers
 *    1  more than 256 segments
 *    2  a section's length differs from the records' sum (that of values is in words), or the term bytes from the term lengths' sum
 *    3  unknown mode, type, required type, kind or flag, or type 255 with a kind or lengths
 *   19  a segment of kind 3: jadmirus_convert makes it one of kind 4
 *    4  row ids, offsets or the number of values don't fit their kind
 *    5  a value or the terms don't fit their type, or a least or greatest value is not that of the values
 *    6  an alive bit past the rows, an alive set in a stacked join, or a ninth number that is wrong, in any one segment
 *    7  rows, values or term bytes sum above 4294967294
 *    8  ordered, and fewer working bytes than all rows plus all terms
 *    9  the addresses are not the alive rows, each once (ordered), or there are any (stacked)
 *   10  types of two categories (0, 1 and 2 are one, and each other type is its own), or a column that can't be coerced
 *   11  an output is shorter than its list (that of values is in words); those of terms and map, than the held columns' sums
 *
 * Check 2 compares sums: lists of two segments whose wrong lengths cancel are cut where the records say, and later checks see what stands there. A caller that builds
 * the lists segment by segment sees to it that each has the length that its record announces.
 *
 * With any number but 0 no output is changed. Elements beyond a list keep their values. The working bytes are zero on return. */
uint32_t jadmirus_join(
    uint32_t mode,                                               /* 0 stacked, 1 in the order of the addresses */
    uint32_t required,                                           /* the required type, 255 for none */
    const uint32_t (*records)[JADMIRUS_ROW], size_t records_count, /* type, kind, rows, numbers of ids, offsets, values and terms, flag, number of alive rows, least and greatest value in halves */
    const uint32_t *ids, size_t ids_count,                       /* row ids of kinds 2 and 4, one segment's after another's; so all lists up to alive */
    const uint32_t *offsets, size_t offsets_count,               /* of kind 4, one more than ids */
    const uint64_t *values, size_t values_count,                 /* 64-bit words: two's complement (0, 7), IEEE bits (2), ordinals of the segment's terms (3, 4), 0 or 1 (5), high and low word (6) */
    const uint32_t *term_lengths, size_t term_lengths_count,     /* bytes of each term */
    const uint8_t *term_bytes, size_t term_bytes_count,          /* the terms, each segment's bytewise ascending */
    const uint64_t *alive, size_t alive_count,                   /* a word for each 64 rows or part of them, of segments with flag 1 */
    const uint32_t (*addresses)[2], size_t addresses_count,      /* segment and row of each new row, ordered */
    uint8_t *working, size_t working_count,                      /* ordered: a byte for each row and each term of all segments */
    uint32_t *out_ids, size_t out_ids_count,                     /* class 1 and 2: new rows with a value; values_count elements always suffice */
    uint32_t *out_offsets, size_t out_offsets_count,             /* class 2: 0, then the running total after each such row; values_count + 1 suffice */
    uint64_t *out_values, size_t out_values_count,               /* in row order, of the joined type, in words; values_count suffice */
    uint32_t *out_term_lengths, size_t out_term_lengths_count,   /* of the joined terms, ascending; term_lengths_count suffice */
    uint8_t *out_term_bytes, size_t out_term_bytes_count,        /* their bytes; term_bytes_count suffice */
    uint32_t *out_map, size_t out_map_count,                     /* new ordinals of the held columns' terms, one segment's after another's, 0 for a term not kept; term_lengths_count suffice */
    uint64_t out_numbers[12]);                                   /* type, class, rows; elements of ids, offsets, values (not words), terms, term bytes, map; term bytes copied, which are the joined terms'; least and greatest joined value, for the joined column's own record */

/* The time order of the segments of a column of times (type 7, or 255 for none): their alive rows sorted by key, segment and row. A row's key is its time, else
 * the last time before it in its segment, else the first time after it in its segment; the rows of a segment without any time come before all times, also before
 * the least one. Times of withdrawn rows count in this. Returns the answer:
 *
 *    0  accepted: the addresses are written, and out_count
 *    1 2 3 19 4 5 6 7  as above and in this order, but for mode and required type in 3, and for stacked joins in 6
 *   11  fewer elements of out_addresses than alive rows
 *   12  a column of another type, a row of several times, or times that fall within a segment
 *
 * With any number but 0 neither output is changed. Elements beyond the addresses keep their values. */
uint32_t jadmirus_time_order(
    const uint32_t (*records)[JADMIRUS_ROW], size_t records_count, /* as above, and so the next six */
    const uint32_t *ids, size_t ids_count,
    const uint32_t *offsets, size_t offsets_count,
    const uint64_t *values, size_t values_count,                 /* times: 64-bit two's complement; of any other type, which gives 12, in words as above */
    const uint32_t *term_lengths, size_t term_lengths_count,
    const uint8_t *term_bytes, size_t term_bytes_count,
    const uint64_t *alive, size_t alive_count,
    uint32_t (*out_addresses)[2], size_t out_addresses_count,    /* segment and row; what jadmirus_join takes as addresses */
    uint64_t out_count[1]);                                      /* the number of addresses, which is the number of alive rows */

/* Converts one stored segment of kind 3, old multivalued, to kind 4: each row has the same values in the same order afterwards. Only row ids, offsets and the
 * record's kind and numbers of both are new; values, terms, alive set and the number of alive rows stay what they are, and no list of them is copied. Returns the
 * answer, the first in the order of this list:
 *
 *    0  accepted: the lists are written, and out_record
 *    2  a list's length differs from the record's number (that of values is in words, two for each of type 6), or the term bytes from the term lengths' sum
 *    3  a kind other than 3, an unknown type or flag, or type 255
 *    4  there are row ids, or not one more offset than rows; the offsets don't begin with 0, they fall, or the last one is not the number of values
 *    5  a value or the terms don't fit their type, or the least or greatest value is not that of the values
 *    6  an alive bit past the rows, or a ninth number that is wrong
 *   11  an output is shorter than its list
 *
 * With any number but 0 no output is changed. Elements beyond a list keep their values. It doesn't convert in place: out_offsets is not offsets, nor out_record
 * record. */
uint32_t jadmirus_convert(
    const uint32_t record[JADMIRUS_ROW],                         /* as one of the records above; the lists are this segment's alone */
    const uint32_t *ids, size_t ids_count,                       /* none: kind 3 has no row ids */
    const uint32_t *offsets, size_t offsets_count,               /* one more than rows: where each row's values begin, and their number at the end */
    const uint64_t *values, size_t values_count,                 /* in words, as above */
    const uint32_t *term_lengths, size_t term_lengths_count,
    const uint8_t *term_bytes, size_t term_bytes_count,
    const uint64_t *alive, size_t alive_count,
    uint32_t *out_ids, size_t out_ids_count,                     /* the rows with a value, ascending; values_count elements always suffice, and so does the number of rows */
    uint32_t *out_offsets, size_t out_offsets_count,             /* 0, then the running total after each such row; one more than for out_ids suffices */
    uint32_t out_record[JADMIRUS_ROW]);                          /* the record, with kind 4 and the numbers of new ids and offsets */

/* Withdraws a row of a segment, or reinstates it: the row's alive bit and the record's ninth number are changed, and nothing else of the record is looked at but rows
 * and flag. Returns the answer, the first in the order of this list:
 *
 *    0  accepted: out_changed is 1; or the row was so already, nothing is changed and out_changed is 0
 *    2  the alive words don't fit the record: not one for each 64 rows or part of them with flag 1, or any with another flag
 *    3  an unknown flag
 *    6  an alive bit past the rows, or a ninth number that is wrong
 *   15  the row is not below the segment's rows
 *   16  the segment has no alive set (flag 0)
 *
 * With any number but 0 neither record, alive words nor out_changed is changed. For a record and alive words that pass 2 and 6, and that nobody else writes, the
 * ninth number is that of the set bits after any sequence of these calls.
 *
 * A call reads all alive words once, for 6; apart from that, its time doesn't grow with the rows. Many single calls for one long segment thus take time that grows
 * with the square of its rows: hand the rows over in one call of those below. */
uint32_t jadmirus_withdraw(
    uint32_t record[JADMIRUS_ROW],                               /* as one of the records above; the ninth number is written */
    uint64_t *alive, size_t alive_count,                         /* this segment's alive words alone, which are written */
    uint32_t row,
    uint64_t out_changed[1]);                                    /* how many rows changed */

uint32_t jadmirus_reinstate(
    uint32_t record[JADMIRUS_ROW],
    uint64_t *alive, size_t alive_count,
    uint32_t row,
    uint64_t out_changed[1]);

/* The same for a run of rows, in any order: all of them, or none. Accepted, it leaves what single calls in turn leave, so a row that is named twice changes once.
 * out_changed counts the rows that changed; 15 is given if any row is not below the segment's rows. Without rows the other answers are the same. */
uint32_t jadmirus_withdraw_rows(
    uint32_t record[JADMIRUS_ROW],
    uint64_t *alive, size_t alive_count,
    const uint32_t *rows, size_t rows_count,                     /* the rows to withdraw */
    uint64_t out_changed[1]);

uint32_t jadmirus_reinstate_rows(
    uint32_t record[JADMIRUS_ROW],
    uint64_t *alive, size_t alive_count,
    const uint32_t *rows, size_t rows_count,                     /* the rows to reinstate */
    uint64_t out_changed[1]);

/* The least and the greatest of a column's values, as its record holds them: 0 and 0 of a type other than 0 and 1, and of no values. */
void jadmirus_pair(
    uint32_t type,
    const uint64_t *values, size_t values_count,                 /* all stored values of the segment, in words */
    uint64_t out_pair[2]);                                       /* least and greatest */

/* Writes both to a record, in halves, and reads them. */
static inline void jadmirus_set_pair(uint32_t record[JADMIRUS_ROW], const uint64_t pair[2]) {
    record[9] = (uint32_t)pair[0];
    record[10] = (uint32_t)(pair[0] >> 32);
    record[11] = (uint32_t)pair[1];
    record[12] = (uint32_t)(pair[1] >> 32);
}

static inline uint64_t jadmirus_least(const uint32_t record[JADMIRUS_ROW]) {
    return record[9] | (uint64_t)record[10] << 32;
}

static inline uint64_t jadmirus_greatest(const uint32_t record[JADMIRUS_ROW]) {
    return record[11] | (uint64_t)record[12] << 32;
}

#ifdef __cplusplus
}
#endif

#endif
