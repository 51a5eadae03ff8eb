/* Vilggodan: GenBank records read and written, by proved code. Link target/staticlib/libvilggodan.a, which `api/build` makes (x86-64 Linux).
 *
 * A slice is passed as a pointer and then a length, which counts elements. Pointers are never NULL, also where the length is 0, and slices that are
 * written to overlap no other. Nothing else is asked of the arguments: every call ends and has an answer, and changes nothing but what is said here.
 * No call allocates, and calls do not share anything, so threads may call at once.
 *
 * ANSWERS. Each function returns a struct by value, whose first field is a number:
 *    0  done
 *    1  the place is the end of the input: no more records
 *    2  the input ends inside the record
 *    3  the place is beyond the input, or the input is longer than 16,777,216 bytes
 *    4  no LOCUS line
 *    5  a second DEFINITION
 *    6  the room is too small
 *    7  this line is no feature, qualifier, section or //
 *    8  the letters are not as many as LOCUS says
 *    9  a byte that cannot stand among the letters
 *   10  a text or row of the table lies outside its room, or location rows are not those of their text
 *   11  a text, date or sequence that cannot be laid out
 *   12  the width is not 60 to 132
 *   13  a keeping rule is broken: it may not read back the same
 *   14  a location opens more than 16 words of complement, join and order
 *   16  a letter that is no IUPAC code for bases
 * With any number but 0 no lent byte is changed: nothing is lent for the answer itself.
 *
 * LINES. With every number but 0, 1 and 3 reading tells a line: its number, counted from 1 at the place given, and the offset in `s` of its first byte. It is
 *    with 2        the end of the input
 *    with 4        the line that stopped the search for LOCUS, or the end
 *    with 5        the first line of the second DEFINITION
 *    with 6        the LOCUS line
 *    with 7        the line where the sections end
 *    with 8, 9     the line of the `/` after the letters, that of the byte
 *    with 14       the first line of the feature, or of CONTIG
 *    with 16       the line of the letter
 * Only LF ends a line. Line 1 begins at the place given, in the middle of a line too. The line of the file is 1 plus the LFs before the offset.
 *
 * ROOMS. A table lies in seven rooms: bytes of texts, five of rows, bytes of letters. A text in `texts` is a start and a length; one that may be absent is a start
 * and its length plus one, and 0, 0 where it is absent.
 *    references  14 numbers a row: text; AUTHORS, CONSRTM (may be absent); TITLE; JOURNAL, PUBMED, REMARK (may be absent)
 *    comments     2 numbers a row: text
 *    features     a struct a row: kind; location; first qualifier's row; number of qualifiers; first of the location's rows; number of these
 *    qualifiers   4 numbers a row: key; value (may be absent)
 *    locations    7 numbers a row: a part of a feature's location or of CONTIG, see below
 * Any key is read that has one or more bytes but `=`, CR and LF and is UTF-8, and any kind of bytes 33 to 126 that does not begin with `/`: there is no list of
 * allowed keys or kinds. To be written (else 11), a key too has bytes 33 to 126 alone, and both have to fit the width.
 *
 * LOCATIONS. A location's text is read into rows, a row for each base, range, place between two bases, word and gap. The rows of what stands in a word's brackets
 * come right before the word's own. A row is
 *    form         1 base n, 2 range n..m, 3 between n^m, 4 complement( ), 5 join( ), 6 order( ), 7 gap( ) (in CONTIG alone)
 *    marks        of a range: 1 for `<` plus 2 for `>`
 *    from, to     n and m; of a base n both
 *    start, length  where in the location's own text the accession stands with its version, without the colon; of a gap its inner text
 *    inside       of a word: how many rows right before this one stand in its brackets
 * and 0 where it has no such thing. So join(1..3,complement(order(5,A.1:<7..8))) has six rows:
 *    2 0 1 3  0 0 0    1..3
 *    1 0 5 5  0 0 0    5
 *    2 1 7 8 29 3 0    <7..8 of A.1, which stands in bytes 29 to 31 of the text
 *    6 0 0 0  0 0 2    order( ) of the two rows before it
 *    4 0 0 0  0 0 3    complement( ) of the three before it
 *    5 0 0 0  0 0 5    join( ) of the five before it
 * Writing compares a text's rows with these, and answers 10 where they differ; a text that is no location is 11.
 *
 * HEAD. What a table holds outside the rooms, as 33 numbers:
 *    0, 1 name (may be absent)          2 length plus one, or 0      3, 4 molecule type (may be absent)   5 circular: 1, linear: 0
 *    6, 7 division                      8, 9, 10 day, month, year, or 0, 0, 0
 *   11 DEFINITION, 13 ACCESSION, 15 VERSION, 17 DBLINK, 19 KEYWORDS, 21 SOURCE, 23 ORGANISM: two numbers each, each may be absent,
 *      and ORGANISM is looked at only where SOURCE is
 *   25 references, 26 comments, 27 features: how many rows           28, 29 CONTIG (may be absent)
 *   30, 31 the first of CONTIG's location rows, and how many           32 how many letters
 */
#ifndef VILGGODAN_H
#define VILGGODAN_H

#include <stdbool.h>
#include <stddef.h>
#include <stdint.h>

#ifdef __cplusplus
extern "C" {
#endif

/* How many numbers a head has. */
enum { VILGGODAN_HEAD = 33 };

/* A text in `texts`. */
struct vilggodan_span {
    size_t start, length;
};

/* A row of `features`. */
struct vilggodan_feature {
    struct vilggodan_span kind, location;
    size_t first, count; /* the first qualifier's row, and how many */
    size_t row, rows;    /* the first of the location's rows, and how many */
};

/* What a record takes: bytes of texts, rows of references, comments, features, qualifiers and locations, and letters. */
struct vilggodan_sizes {
    size_t texts, references, comments, features, qualifiers, locations, letters;
};

/* What reading answers. */
struct vilggodan_reading {
    size_t number;                /* 0 to 9, 14 or, with `strict`, 16 */
    size_t place;                 /* with 0 the place after the record, with 3 it is 0, else the place given */
    size_t line, offset;          /* the line that a refusal tells and where it begins; with 0, 1 and 3 both are 0 */
    size_t head[VILGGODAN_HEAD];  /* with 0 the head, else zeros */
    struct vilggodan_sizes sizes; /* with 6 what the record takes, exactly, else zeros */
};

/* What writing answers. */
struct vilggodan_writing {
    size_t number; /* 0, 6, 10, 11, 12 or, with `keep`, 13 */
    size_t count;  /* with 0 the bytes written, with 6 the bytes that it takes, exactly, else 0 */
};

/* Reads the record that starts at the place `at` of `s` into the rooms. With 0 these hold the table; what it does not take of them is unchanged.
 * `strict` asks for letters that are IUPAC codes for bases: A C G T U R Y S W K M B D H V N, in either case. Any other letter of the sequence, as a pasted protein has, is then 16;
 * of it and a byte that is 9 the first in the file decides, and both go ahead of 8, 2 and 7. Without it any ASCII letter is taken. What is read with it is what is read without. */
struct vilggodan_reading vilggodan_read(
    const uint8_t *s, size_t s_length,
    size_t at, bool strict,
    uint8_t *texts, size_t texts_length,
    size_t *references, size_t references_length,
    size_t *comments, size_t comments_length,
    struct vilggodan_feature *features, size_t features_length,
    size_t *qualifiers, size_t qualifiers_length,
    size_t *locations, size_t locations_length,
    uint8_t *letters, size_t letters_length);

/* Writes the table in the rooms to `out` at a width of 60 to 132, as gb-io does.
 * `keep` asks for the keeping writer, which answers 13 where a keeping rule is broken. What it writes reads back as the same table if it is at most 16,777,216
 * bytes long, which is all that reading takes: a record of 13,250,000 letters is kept, and reading what was written is then answered by 3.
 * `head` is 33 numbers, as read. Fewer, or a length above 4,294,967,295, is 10; a date that is none is 11. Any number but 0 at [5] is circular.
 * `truncate` cuts what is too long for the LOCUS line; `escape` joins the words of the name by `_`. */
struct vilggodan_writing vilggodan_write(
    uint8_t *out, size_t out_length,
    const uint8_t *texts, size_t texts_length,
    const size_t *references, size_t references_length,
    const size_t *comments, size_t comments_length,
    const struct vilggodan_feature *features, size_t features_length,
    const size_t *qualifiers, size_t qualifiers_length,
    const size_t *locations, size_t locations_length,
    const uint8_t *letters, size_t letters_length,
    const size_t *head, size_t head_length,
    size_t width, bool keep, bool truncate, bool escape);

#ifdef __cplusplus
}
#endif

#endif
