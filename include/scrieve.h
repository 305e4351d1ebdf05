/* The C interface of Scrieveply: the check of a BTF table, the size of a type, the name at an offset, the join of two tables and a joined
 * table taken apart, a table written out as a list and read back, the check of a .BTF.ext section and its records, the value of a member in a
 * record's bytes, and check, size and name of a table that leans on a base.
 *
 * Every function is proved: for any bytes in the lent slices it ends, reads and writes nothing outside them, and leaves in each place
 * exactly what is written here (crates/abi/src/lib.rt has the contracts). Build with `tools/archive TARGET OUT`, link
 * with OUT/libabi.a, for any 64-bit processor. The archive needs `memset` and nothing else of a C library.
 *
 * What holds for every function
 * - A slice is a pointer and the number of its elements: bytes for uint8_t, places for uint32_t. All memory is the caller's: nothing
 *   is allocated, nothing is kept after the call, there is no global state. Calls in several threads at once are safe, each with
 *   written slices of its own.
 * - A slice that is written (index of a check, a join, a split, a list or a member, work, bytes, out, first, second, answer, span, value) must
 *   not overlap any other slice of the call: the two outputs of a split neither each other, nor bytes and out of a list that is read. Those that
 *   are only read may overlap each other, so a table can be joined with itself. Nothing may write a slice during the call but the call itself.
 * - No pointer may be null, that of an empty slice neither: lend any object and 0 elements. A uint32_t pointer is aligned as
 *   uint32_t is; a uint8_t pointer needs no alignment.
 * - What stands in index, work, bytes, out, first, second, answer, span and value before the call has no meaning. They need not be cleared.
 * - The stack is no part of the proof. No function calls itself; the frames of the deepest call add up to under 2,048 bytes in the
 *   archive's code for x86-64.
 * - `type` and `offset` are a type number and an offset into the string section. Type 0 is void; records are numbered from 1.
 * - A blob is little-endian or big-endian, whatever the processor is: one that begins EB 9F has its words high byte first, any other low
 *   byte first. What stands in index, work and answer are the processor's own numbers.
 *
 * The answer
 * Four numbers go into the first places of `answer`: number, inner, t, p. With fewer than four places only the first of them are
 * told; places past the fourth stay as they were.
 *
 *   function       number                                inner               t                             p
 *   scrieve_check  0 accepted, or a report 1 to 15       0                   count of types, or the        the report's place, else 0
 *                                                                            report's type
 *   scrieve_size   0 exact, 1 no size, 2 over 32 bits,   0                   0                             the exact size, else 0
 *                  21, 22
 *   scrieve_name   0 a name, 1 none                      0                   where it begins in the blob   its length in bytes
 *   scrieve_join   0 joined, or 16 to 20, or 24          for 16 and 17 the   the type of the report        the joined length, or the place
 *                                                        report inside       inside, else 0                of the report inside, else 0
 *   scrieve_split  0 taken apart, or a report 1 to 15,   0                   the first part's length, or   the second part's length, or the
 *                  or 60 or 61                                               the report's type, else 0     report's place, else 0
 *   scrieve_list   0 written, or 53 or 54                for 54 the report   the type of the report        the list's length, or the place
 *                                                        inside              inside, else 0                of the report inside, else 0
 *   scrieve_make   0 made, or 50 to 54                   for 54 the report   the type of the report        the table's length, or the place
 *                                                        inside              inside, else 0                of the report inside, else 0
 *   scrieve_check_ext
 *                  0 accepted, or 40 to 48               for 40 the report   the type of the report        the place of the report inside,
 *                                                        inside              inside, else 0                else 0
 *   scrieve_ext_record
 *                  0 a record, 1 none                    0                   its group's name offset,      where it begins in the section,
 *                                                                            else 0                        else 0
 *   scrieve_member 0 unsigned, 1 signed, 2 a longer      for 34 the report   the span's first bit, or      the span's bits, or the place of
 *   scrieve_value  span, 21, 30 to 35                    inside              the type of the report        the report inside, else 0
 *                                                                            inside, else 0
 *   scrieve_check_leaning
 *                  0 accepted, 25, 26, or a report       for 25 the report   count of both tables' types,  the place of the report, or of
 *                  1 to 15                               inside              or the type of the report     the one inside, else 0
 *   scrieve_size_leaning
 *                  as scrieve_size                       0                   0                             the exact size, else 0
 *   scrieve_name_leaning
 *                  0 a name, 1 none                      1 in the module,    where it begins in the blob   its length in bytes
 *                                                        else 0              that holds it
 *
 * scrieve_member and scrieve_value have a fifth number: the high word of the span's first bit, which passes 32 bits only in a record of over
 * 512 MiB. So has scrieve_ext_record: how many bytes of the record are handed out.
 *
 * A report's place is where in the blob the record of its type begins, in bytes from the blob's first: for 8, where record 16,385 would
 * begin; for 1 to 5, 9 and 26, which name no type, 0. It is a multiple of 4 and below the blob's length. That of a report inside a join's
 * refusal counts in the blob that was refused, that of a report inside 25 in the base, and a leaning table's in its own blob. That of a report
 * inside 54 counts in the table, also where the table is made of a list, and that of one inside 40 in the table too.
 *
 * The numbers have names below, and scrieve_words.h has a line of text for each report.
 */
#ifndef SCRIEVE_H
#define SCRIEVE_H

#include <stddef.h>
#include <stdint.h>

/* Which interface this is. It rises where a function comes, or where a number, an argument or what is left in a slice changes its meaning. In 8
 * the change requests 1 to 14 have landed (docs/orders). */
#define SCRIEVE_VERSION 8

/* Full size: with so many places in index and work, and so many bytes of output, no table is refused for want of room. */
#define SCRIEVE_FULL_PLACES 16385
#define SCRIEVE_FULL_BYTES 262144

/* The same for a list: the 262,120 bytes behind the header, and 3 for each field: one for each of 16,384 records, one for the strings, and at
 * most three that carry a body on (proved: crates/abi/proofs/Longest.antt). */
#define SCRIEVE_FULL_LIST_BYTES 311284

/* Places for a whole answer, and what stands in each. */
#define SCRIEVE_ANSWER_PLACES 4
#define SCRIEVE_NUMBER 0
#define SCRIEVE_INNER 1
#define SCRIEVE_T 2
#define SCRIEVE_P 3

/* Places for a whole answer of a member or a value, and for a span; the place of the first bit's high word in both; and where a span has the
 * bytes of the member's type. In both place 2 is the first bit's low word and place 3 the bits. */
#define SCRIEVE_SPAN_PLACES 5
#define SCRIEVE_SIZE 1
#define SCRIEVE_FROM 2
#define SCRIEVE_BITS 3
#define SCRIEVE_HIGH 4

/* Places for a whole answer about a record of a section, and where it has the number of the record's bytes. */
#define SCRIEVE_EXT_PLACES 5
#define SCRIEVE_EXT_BYTES 4

/* Bytes for a value. */
#define SCRIEVE_VALUE_BYTES 16

/* The reports, and 0 where there is none: `number` of every function, and `inner` of a join, a list, a section, a member and a check on a base. A
 * check gives 1 to 15, on a base 25 and 26 too, a join 16 to 20 and 24, the size question 21 and 22, a member 21 and 30 to 35, a section 40 to
 * 48, a list that is read 50 to 54, one that is written 53 and 54, a split 1 to 15, 60 and 61. There are no 23, no 27 to 29, no 36 to 39, no 49
 * and no 55 to 59. */
enum scrieve_report {
	SCRIEVE_REPORT_NONE = 0,           /* accepted, joined, taken apart, a list, a table of a list, an exact size, a name, a record */
	SCRIEVE_REPORT_LENGTH = 1,         /* under 24 bytes or over 262,144 */
	SCRIEVE_REPORT_MAGIC = 2,          /* the first four bytes are neither 9F EB 01 00 nor EB 9F 01 00 */
	SCRIEVE_REPORT_HEADER = 3,         /* the header length is not 24 */
	SCRIEVE_REPORT_SECTIONS = 4,       /* the sections do not add up to the blob */
	SCRIEVE_REPORT_STRINGS = 5,        /* strings empty, or not from zero byte to zero byte */
	SCRIEVE_REPORT_CUT = 6,            /* a record does not fit the type section */
	SCRIEVE_REPORT_KIND = 7,           /* an unknown kind */
	SCRIEVE_REPORT_TYPES = 8,          /* over 16,384 types */
	SCRIEVE_REPORT_PLACES = 9,         /* index or work has under count + 1 places */
	SCRIEVE_REPORT_HEAD = 10,          /* a record's head breaks a rule */
	SCRIEVE_REPORT_NAME = 11,          /* a name breaks a rule */
	SCRIEVE_REPORT_TAIL = 12,          /* a word after the head breaks a rule */
	SCRIEVE_REPORT_REFERENCE = 13,     /* a reference above the count or to a forbidden kind */
	SCRIEVE_REPORT_ENDLESS = 14,       /* a type leads on without end, by value or by pointers */
	SCRIEVE_REPORT_LAYOUT = 15,        /* a layout rule is broken */
	SCRIEVE_REPORT_FIRST = 16,         /* the first table is refused */
	SCRIEVE_REPORT_SECOND = 17,        /* the second table is refused */
	SCRIEVE_REPORT_JOINED_TYPES = 18,  /* over 16,384 types together */
	SCRIEVE_REPORT_JOINED_LENGTH = 19, /* the joined length is over 262,144 */
	SCRIEVE_REPORT_OUTPUT = 20,        /* the output is shorter than the joined length */
	SCRIEVE_REPORT_INDEX = 21,         /* the index leads outside what can be read */
	SCRIEVE_REPORT_READS = 22,         /* more records would be read than the index has places */
	SCRIEVE_REPORT_ORDERS = 24,        /* the tables have different byte orders; asked after 17 and before 18 */
	SCRIEVE_REPORT_BASE = 25,          /* the base is refused */
	SCRIEVE_REPORT_BASE_ORDER = 26,    /* the table begins in the other byte order than its base; asked after 25 and before 1 */
	SCRIEVE_REPORT_SHORT = 30,         /* the record is shorter than its type; asked after 31 */
	SCRIEVE_REPORT_NO_STRUCT = 31,     /* the type is no struct and no union */
	SCRIEVE_REPORT_NO_MEMBER = 32,     /* the type has no such member */
	SCRIEVE_REPORT_NO_NUMBER = 33,     /* the member is neither integer nor enum */
	SCRIEVE_REPORT_TABLE = 34,         /* the record's table is refused */
	SCRIEVE_REPORT_HIGH_FIRST = 35,    /* the record's table is big-endian */
	SCRIEVE_REPORT_EXT_TABLE = 40,     /* the section's table is refused */
	SCRIEVE_REPORT_EXT_LENGTH = 41,    /* the section is under 24 bytes or over 262,144 */
	SCRIEVE_REPORT_EXT_MAGIC = 42,     /* its first four bytes are not the table's */
	SCRIEVE_REPORT_EXT_HEADER = 43,    /* its header length is not 24 or 32, or past its end */
	SCRIEVE_REPORT_EXT_PARTS = 44,     /* its parts do not follow one another and fill it, or a length is not a multiple of 4 */
	SCRIEVE_REPORT_EXT_SIZE = 45,      /* a part's record size is under 8, 16 and 16, or not a multiple of 4 */
	SCRIEVE_REPORT_EXT_GROUP = 46,     /* a group does not fit its part, or its count is 0 */
	SCRIEVE_REPORT_EXT_NAME = 47,      /* a name is not below the table's string length */
	SCRIEVE_REPORT_EXT_TYPE = 48,      /* a function record's type is not FUNC, or a relocation's is above the count */
	SCRIEVE_REPORT_LIST_TAG = 50,      /* a field of the list has another tag than 1 to 19, 32, 33 and 127 */
	SCRIEVE_REPORT_LIST_CUT = 51,      /* a field is cut short; an empty list, and an end where 127 is due */
	SCRIEVE_REPORT_LIST_FIELD = 52,    /* a field out of its place, or a body that is not one whole record of its tag's kind */
	SCRIEVE_REPORT_LIST_SHORT = 53,    /* the output is shorter than the list or the table, or the lent bytes are shorter than the table */
	SCRIEVE_REPORT_LIST_TABLE = 54,    /* the list's table is refused; asked after 53 by scrieve_make and before it by scrieve_list */
	SCRIEVE_REPORT_NO_CUT = 60,        /* no two accepted tables of this first count and string length join to the table */
	SCRIEVE_REPORT_PARTS = 61          /* an output is shorter than its part; asked after 60 */
};

/* What else `number` of the size question can be, of the name question, and of the question for a section's record. */
enum scrieve_size_answer { SCRIEVE_SIZE_EXACT = 0, SCRIEVE_SIZE_NONE = 1, SCRIEVE_SIZE_OVER = 2 };
enum scrieve_name_answer { SCRIEVE_NAME_FOUND = 0, SCRIEVE_NAME_NONE = 1 };
enum scrieve_ext_answer { SCRIEVE_EXT_FOUND = 0, SCRIEVE_EXT_NONE = 1 };

/* The parts of a section, by the sort of their records. */
enum scrieve_ext_part { SCRIEVE_EXT_FUNCTIONS = 1, SCRIEVE_EXT_LINES = 2, SCRIEVE_EXT_RELOCATIONS = 3 };

/* What else `number` of a member, a span and a value can be. A span is unsigned or signed, however long. */
enum scrieve_value_answer { SCRIEVE_VALUE_UNSIGNED = 0, SCRIEVE_VALUE_SIGNED = 1, SCRIEVE_VALUE_LONGER = 2 };

#ifdef __cplusplus
extern "C" {
#endif

/* Checks a blob.
 *   blob     the table's bytes, read only
 *   index    places, count of types + 1 or more. Accepted: place 0 holds 0, place k the byte place of record k in the blob, the rest 0.
 *            Refused, for whatever reason: all 0.
 *   work     places, count of types + 1 or more. All 0 afterwards, accepted or refused.
 *   answer   see above */
void scrieve_check(const uint8_t *blob, size_t blob_length, uint32_t *index, size_t index_places, uint32_t *work, size_t work_places,
		   uint32_t *answer, size_t answer_places);

/* The size of a type in bytes.
 *   blob     the table's bytes, read only
 *   index    the index that an accepted check of this blob has left, read only; count of types + 1 places are enough. With any other
 *            blob and index the call is as safe, and 21 or 22 may be its answer.
 *   type     the type number. Type 0, void, has no size (1), with an index of no places too. A number above the count is 21: the index has
 *            no place for it, or a 0 there. With an index of no places any number but 0 is 22.
 *   answer   see above */
void scrieve_size(const uint8_t *blob, size_t blob_length, const uint32_t *index, size_t index_places, uint32_t type,
		  uint32_t *answer, size_t answer_places);

/* The name at an offset into the strings, up to its first zero byte. It is not copied: the answer says where it lies in the blob.
 *   blob     the table's bytes, read only
 *   offset   the name offset
 *   answer   see above. There is none (1, with t and p 0) where the blob would get one of the reports 1 to 5, or where the offset is
 *            not below the string length. A name of no bytes is a name (0), at the place where its zero byte stands. */
void scrieve_name(const uint8_t *blob, size_t blob_length, uint32_t offset, uint32_t *answer, size_t answer_places);

/* Joins two blobs of one byte order, which the joined one has too: the first's types, then the second's with type numbers and name offsets
 * raised.
 *   a, b     the two tables' bytes, read only
 *   index    places, count of types + 1 of the larger table or more. All 0 afterwards, joined or refused.
 *   work     as index
 *   out      bytes, the joined length or more. Joined: the table, and every byte past the joined length as it was. Refused: every
 *            byte as it was.
 *   answer   see above. Check the joined table to get its index. */
void scrieve_join(const uint8_t *a, size_t a_length, const uint8_t *b, size_t b_length, uint32_t *index, size_t index_places,
		  uint32_t *work, size_t work_places, uint8_t *out, size_t out_length, uint32_t *answer, size_t answer_places);

/* Takes a joined blob apart: gives back the two tables, of the blob's byte order, that join to it. There is one pair at most whose first has so
 * many types and string bytes. A join taken apart with the first table's own two numbers gives both tables back byte for byte (proved:
 * crates/split/proofs/Demands.antt).
 *   blob     the joined table's bytes, read only. It is checked first: a report 1 to 15 is its own.
 *   types    the first table's count of types
 *   strings  the first table's string length in bytes, the header's last word. Where there is no such pair, for these two numbers: 60.
 *   index    places, count of the blob's types + 1 or more, and left as scrieve_check leaves them: with 60 and 61 too as that of an accepted blob
 *   work     as in scrieve_check
 *   first    bytes, the first part's length or more. Taken apart: the first table, and every byte past its length as it was. Refused: every byte
 *            as it was.
 *   second   the same of the second part, which counts its own types from 1 and its own strings from 0. The two lengths together are 25 bytes
 *            more than the blob's.
 *   answer   see above */
void scrieve_split(const uint8_t *blob, size_t blob_length, uint32_t types, uint32_t strings, uint32_t *index, size_t index_places,
		   uint32_t *work, size_t work_places, uint8_t *first, size_t first_bytes, uint8_t *second, size_t second_bytes,
		   uint32_t *answer, size_t answer_places);

/* Writes a table out as its house list: tagged fields, each one byte of tag, two bytes of length, low byte first, and the body. The string
 * section comes first, by tag 32 for a little-endian table and 33 for a big-endian one, then one field for each record, its tag the kind, its
 * body the record as it stands in the blob. A body of exactly 65,535 bytes is followed by a field of tag 127 that carries it on, empty if need
 * be. scrieve_make gives the table back byte for byte (proved: crates/list/proofs/Kept.antt).
 *   blob     the table's bytes, read only. It is checked first: refused, it is 54 with its report inside.
 *   index    places, count of types + 1 or more, and left as scrieve_check leaves them: with 53 too as that of an accepted blob
 *   work     as in scrieve_check
 *   out      bytes, the list's length or more, else 53. That is the blob's length without its 24 bytes of header, and 3 for each field:
 *            SCRIEVE_FULL_LIST_BYTES are enough for any table. Written: the list, and every byte past its length as it was. Refused: every
 *            byte as it was.
 *   answer   see above */
void scrieve_list(const uint8_t *blob, size_t blob_length, uint32_t *index, size_t index_places, uint32_t *work, size_t work_places,
		  uint8_t *out, size_t out_length, uint32_t *answer, size_t answer_places);

/* Makes the table of such a list, and checks it. A list whose table is accepted is the one that scrieve_list writes of it, byte for byte (proved
 * there too).
 *   list     the list's bytes, read only. 50 to 52 come first: the first field at fault speaks, of a body in several fields the last, by its
 *            smallest number. Then comes 53, and then 54 with the table's report inside.
 *   index    places, count of types + 1 or more. Made: as scrieve_check of the table leaves them. Refused: all 0.
 *   work     as in scrieve_check
 *   bytes    bytes, the table's length or more, else 53: the table is made and checked in them, so that no refusal touches the output. All 0
 *            afterwards, made or refused.
 *   out      bytes, the table's length or more, else 53. Made: the table, and every byte past its length as it was. Refused: every byte as
 *            it was. The table is at most 21 bytes longer than the list, and SCRIEVE_FULL_BYTES are enough for any that is accepted.
 *   answer   see above */
void scrieve_make(const uint8_t *list, size_t list_length, uint32_t *index, size_t index_places, uint32_t *work, size_t work_places,
		  uint8_t *bytes, size_t bytes_length, uint8_t *out, size_t out_length, uint32_t *answer, size_t answer_places);

/* Checks a .BTF.ext section beside its table: header, function records, line records and the optional relocation records, in groups. The extra
 * bytes of a record, instruction offsets, lines, columns and kinds are not judged.
 *   blob     the table's bytes, read only. It is checked first: refused, it is 40 with its report inside.
 *   section  the section's bytes, read only, of the table's byte order. 41 to 44 come first, in that order; then the first part, group or record
 *            at fault from the front, by its smallest number.
 *   index    places, count of types + 1 or more, and left as scrieve_check leaves them: with 41 to 48 too as that of an accepted blob
 *   work     as in scrieve_check
 *   answer   see above */
void scrieve_check_ext(const uint8_t *blob, size_t blob_length, const uint8_t *section, size_t section_length, uint32_t *index,
		       size_t index_places, uint32_t *work, size_t work_places, uint32_t *answer, size_t answer_places);

/* A record of a section, which is not copied: the answer says where it lies. The section is asked alone, in its own byte order: names and types
 * are not looked at, so who reads records checks the section first.
 *   section  the section's bytes, read only
 *   part     1 function records, 2 line records, 3 relocation records. There is none in any other.
 *   record   the record's number in its part, from 0
 *   answer   five places: see above. The record's bytes are its first 8, 16 or 16, by its part. There is none (1, with t, p and the fifth 0) where
 *            the section would get 41, 43, 44, 45 or 46 anywhere or begins with neither order's four bytes, or where the part has no such record. */
void scrieve_ext_record(const uint8_t *section, size_t section_length, uint32_t part, uint32_t record, uint32_t *answer, size_t answer_places);

/* The value of a member in the bytes of a record. The table is checked in the same call: who reads many records checks once, asks
 * scrieve_span once for a member, and scrieve_value for each record; these give the same (proved: crates/record/proofs/Demands.antt).
 *   blob     the table's bytes, read only
 *   index    places, as in scrieve_check, and left as it leaves them
 *   work     as in scrieve_check
 *   type     the number of a struct or union
 *   member   the member's number, from 0
 *   record   the record's bytes, read only: as many as the type has, or more
 *   answer   see above; five places for all of it
 *   value    sixteen bytes or more: the value, low byte first, filled up with zero bits, or with its top bit where it is signed, however many
 *            bits it has; zeros where it is refused. With fewer than sixteen bytes nothing is written. */
void scrieve_member(const uint8_t *blob, size_t blob_length, uint32_t *index, size_t index_places, uint32_t *work, size_t work_places,
		    uint32_t type, uint32_t member, const uint8_t *record, size_t record_length, uint32_t *answer, size_t answer_places,
		    uint8_t *value, size_t value_length);

/* Where a member's bits lie in every record of its type, by the index that an accepted check of this blob has left. With any other blob and
 * index the call is as safe: no more records are read than the index has places.
 *   span     five places: number (0 unsigned, 1 signed, else 35, 21, 31, 32 or 33), the bytes of the type, the first bit's low word, the
 *            bits, the first bit's high word. With fewer places only the first of them are told. */
void scrieve_span(const uint8_t *blob, size_t blob_length, const uint32_t *index, size_t index_places, uint32_t type, uint32_t member,
		  uint32_t *span, size_t span_places);

/* The value of such a span in the bytes of a record.
 *   span     five places that scrieve_span has left, read only. Any others are as safe: a place that is not there is 0, a span of no bits or of
 *            more than 128 is 33, and one that ends behind the record is 30.
 *   record, answer, value   as in scrieve_member */
void scrieve_value(const uint32_t *span, size_t span_places, const uint8_t *record, size_t record_length, uint32_t *answer,
		   size_t answer_places, uint8_t *value, size_t value_length);

/* Checks a table that leans on a base, as a module's leans on the kernel's: its type numbers go on behind the base's types, its name offsets
 * behind the base's strings, and both together must be a table. The limits, 16,384 types and 262,144 bytes, count both blobs.
 *   base     the base's bytes, read only: a table that scrieve_check accepts, else 25 with its report
 *   module   the leaning table's bytes, read only. Its strings may be empty, and need not begin with a zero byte: 5 is strings that do not end
 *            in one.
 *   index    places, count of both tables' types + 1 or more: fewer than the base needs are 25 with 9 inside, fewer than both need 9.
 *            Accepted: place 0 holds 0, place k the byte place of record k in the blob that holds it, the base's first, the rest 0. Refused,
 *            for whatever reason: all 0.
 *   work     places, as many as index. All 0 afterwards, accepted or refused.
 *   answer   see above. A report 1 to 15 is the module's, and names its types by numbers behind the base's. */
void scrieve_check_leaning(const uint8_t *base, size_t base_length, const uint8_t *module, size_t module_length, uint32_t *index,
			   size_t index_places, uint32_t *work, size_t work_places, uint32_t *answer, size_t answer_places);

/* The size of a type of either table, in bytes.
 *   base     the base's bytes, read only
 *   base_count  the base's count of types: numbers up to it are read in the base, those above it in the module. Any number is as safe.
 *   module   the leaning table's bytes, read only
 *   index    the index that an accepted scrieve_check_leaning of both has left, read only, as in scrieve_size. Each blob is read in its own
 *            byte order.
 *   type, answer   as in scrieve_size */
void scrieve_size_leaning(const uint8_t *base, size_t base_length, uint32_t base_count, const uint8_t *module, size_t module_length,
			  const uint32_t *index, size_t index_places, uint32_t type, uint32_t *answer, size_t answer_places);

/* The name at an offset of both tables' strings, up to its first zero byte. An offset below the base's string length lies in the base, any other
 * in the module, so many bytes less. It is not copied: the answer says in which blob it lies, and where.
 *   base, module   the two tables' bytes, read only
 *   offset   the name offset
 *   answer   see above. There is none (1, with inner, t and p 0) where either blob would get one of the reports 1 to 5 here, or 26, or where the
 *            offset is not below the two string lengths together. */
void scrieve_name_leaning(const uint8_t *base, size_t base_length, const uint8_t *module, size_t module_length, uint32_t offset,
			  uint32_t *answer, size_t answer_places);

#ifdef __cplusplus
}
#endif

#endif
