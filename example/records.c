/* Reads a file of records in C: checks the table once, asks once where a member's bits lie, then reads the member of each record.
 *
 *     records TABLE TYPE MEMBER < RECORDS
 *
 * TYPE is the number of a struct or union, MEMBER counts from 0. The records stand one after the other, each as long as the type.
 * Ends with 0, 1 (the table, the member or a rest of the file was refused) or 2 (wrong call, unreadable file). */
#include <stdio.h>
#include <stdlib.h>

#include "scrieve_words.h"

enum { MOST = 65536 }; /* the longest record that this program takes */

static uint8_t blob[SCRIEVE_FULL_BYTES + 1]; /* a byte more than a table may have, so that a longer file gets report 1 */
static uint32_t index_[SCRIEVE_FULL_PLACES], work[SCRIEVE_FULL_PLACES];
static uint8_t bytes[MOST];

static int refused(uint32_t number)
{
	printf("refused, report %u: %s\n", (unsigned)number, scrieve_report_words(number));
	return 1;
}

/* eight of the value's bytes as a number */
static uint64_t half(const uint8_t *value)
{
	uint64_t n = 0;
	int i;

	for (i = 7; i >= 0; i--)
		n = n << 8 | value[i];
	return n;
}

static void print_value(uint32_t number, const uint8_t *value)
{
	uint64_t low = half(value);

	if (number == SCRIEVE_VALUE_UNSIGNED)
		printf("%llu\n", (unsigned long long)low);
	else if (number == SCRIEVE_VALUE_SIGNED && value[15] == 0xff)
		printf("-%llu\n", (unsigned long long)(UINT64_MAX - low) + 1);
	else if (number == SCRIEVE_VALUE_SIGNED)
		printf("%llu\n", (unsigned long long)low);
	else
		printf("0x%016llx%016llx\n", (unsigned long long)half(value + 8), (unsigned long long)low);
}

/* the member of each record on standard input */
static int read_records(const uint32_t *span)
{
	uint32_t answer[SCRIEVE_SPAN_PLACES];
	uint8_t value[SCRIEVE_VALUE_BYTES];
	unsigned long count;
	size_t n;

	for (count = 1; (n = fread(bytes, 1, span[SCRIEVE_SIZE], stdin)) > 0; count++) {
		scrieve_value(span, SCRIEVE_SPAN_PLACES, bytes, n, answer, SCRIEVE_SPAN_PLACES, value, sizeof value);
		printf("record %lu: ", count);
		if (answer[SCRIEVE_NUMBER] > SCRIEVE_VALUE_LONGER)
			return refused(answer[SCRIEVE_NUMBER]);
		print_value(answer[SCRIEVE_NUMBER], value);
	}
	return 0;
}

int main(int words, char **word)
{
	uint32_t answer[SCRIEVE_ANSWER_PLACES], span[SCRIEVE_SPAN_PLACES];
	size_t length;
	FILE *file;

	if (words != 4) {
		fputs("records TABLE TYPE MEMBER < RECORDS\n", stderr);
		return 2;
	}
	file = fopen(word[1], "rb");
	if (!file) {
		perror(word[1]);
		return 2;
	}
	length = fread(blob, 1, sizeof blob, file);
	fclose(file);
	scrieve_check(blob, length, index_, SCRIEVE_FULL_PLACES, work, SCRIEVE_FULL_PLACES, answer, SCRIEVE_ANSWER_PLACES);
	if (answer[SCRIEVE_NUMBER] != 0)
		return refused(answer[SCRIEVE_NUMBER]);
	scrieve_span(blob, length, index_, SCRIEVE_FULL_PLACES, (uint32_t)strtoul(word[2], NULL, 10), (uint32_t)strtoul(word[3], NULL, 10), span,
		     SCRIEVE_SPAN_PLACES);
	if (span[SCRIEVE_NUMBER] > SCRIEVE_VALUE_SIGNED)
		return refused(span[SCRIEVE_NUMBER]);
	if (span[SCRIEVE_SIZE] > MOST) {
		fputs("the type is longer than this program takes\n", stderr);
		return 2;
	}
	return read_records(span);
}
