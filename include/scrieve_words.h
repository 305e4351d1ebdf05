/* A line of text for each report of scrieve.h, in the words that the tool writes (tests/words compares them). */
#ifndef SCRIEVE_WORDS_H
#define SCRIEVE_WORDS_H

#include "scrieve.h"

/* The text of a report, or of 0: static, and without a full stop or a line's end. Those of 1 to 15 speak of the table or the type that
 * the report names. Any other number gets a text that says so. */
static inline const char *scrieve_report_words(uint32_t number)
{
	static const char *const words[] = {
		"no report",
		"the table has under 24 bytes or over 262144",
		"the first four bytes are neither 9F EB 01 00 nor EB 9F 01 00 (magic, version 1, flags 0)",
		"the header's length is not 24",
		"the sections of types and strings do not fill the table one after the other",
		"the strings are empty, or their first or last byte is not zero",
		"the record does not fit the type section",
		"there is no such kind",
		"there are more than 16384 types",
		"too few places were lent",
		"a word of the record's head is not allowed",
		"a name is not allowed",
		"a word behind the record's head is not allowed",
		"it refers to a type that is not there, or of a kind that is not allowed",
		"what it holds, or what it points to, leads on without end",
		"a rule of the layout is broken",
		"the first table is refused",
		"the second table is refused",
		"together there are more than 16384 types",
		"the joined table would have over 262144 bytes",
		"the output is shorter than the joined table",
		"the index leads outside what can be read",
		"more records would be read than the index has places",
		"there is no such report",
		"the tables have different byte orders: one is little-endian, the other big-endian",
		"the base is refused",
		"the table has another byte order than its base",
		"there is no such report",
		"there is no such report",
		"there is no such report",
		"the record is shorter than its type",
		"the type is neither struct nor union",
		"the type has no such member",
		"the member is neither integer nor enum",
		"the record's table is refused",
		"the record's table is big-endian"
	};
	/* those of a section, from 40 on */
	static const char *const section[] = {
		"the section's table is refused",
		"the section has under 24 bytes or over 262144",
		"the section's first four bytes are not the table's",
		"the section's header length is neither 24 nor 32, or leads past its end",
		"the section's parts do not fill it one after the other, or a length is not a multiple of 4",
		"a part of the section has a record size that is too small, or not a multiple of 4",
		"a group of the section does not fit its part, or has no records",
		"a name of the section lies outside the table's strings",
		"a record of the section refers to a type that is not there, or that is no function"
	};
	/* those of a list, from 50 on */
	static const char *const listing[] = {
		"a field of the list has a tag that no list has",
		"the list ends inside a field, or where another is due",
		"a field of the list is out of its place, or holds no whole record of its kind",
		"the output or the lent bytes are too short",
		"the list's table is refused"
	};
	/* those of a table taken apart, from 60 on */
	static const char *const parting[] = {
		"no two tables of these numbers join to it",
		"an output is shorter than its table"
	};

	if (number >= 40 && number - 40 < sizeof section / sizeof *section)
		return section[number - 40];
	if (number >= 50 && number - 50 < sizeof listing / sizeof *listing)
		return listing[number - 50];
	if (number >= 60 && number - 60 < sizeof parting / sizeof *parting)
		return parting[number - 60];
	/* 23 and 27 to 29 are no reports: theirs is the line of every number that is none */
	return words[number < sizeof words / sizeof *words ? number : 23];
}

#endif
