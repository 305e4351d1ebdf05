/* The first example in C: checks two suppliers' tables, joins them, and asks name and size of both blades before and after.
 *
 *     first SUPPLIER_A SUPPLIER_B
 *
 * Ends with 0 (joined), 1 (a table or the join was refused) or 2 (wrong call, unreadable file). */
#include <stdio.h>
#include <string.h>

#include "scrieve.h"

/* a blob and the index that its check leaves */
struct table {
	const char *title;
	uint8_t blob[SCRIEVE_FULL_BYTES + 1]; /* a byte more than a table may have, so that a longer file gets report 1 */
	size_t length;
	uint32_t index[SCRIEVE_FULL_PLACES];
	uint32_t count;
};

static struct table first, second, joined;
static uint32_t work[SCRIEVE_FULL_PLACES];

/* 1 if the file was read */
static int read_table(struct table *t, const char *path)
{
	FILE *file = fopen(path, "rb");
	int failed;

	if (!file) {
		perror(path);
		return 0;
	}
	t->length = fread(t->blob, 1, sizeof t->blob, file);
	failed = ferror(file);
	if (failed)
		perror(path);
	fclose(file);
	return !failed;
}

/* 1 if the table was accepted; then its index and count stand */
static int check(struct table *t)
{
	uint32_t answer[SCRIEVE_ANSWER_PLACES];

	scrieve_check(t->blob, t->length, t->index, SCRIEVE_FULL_PLACES, work, SCRIEVE_FULL_PLACES, answer, SCRIEVE_ANSWER_PLACES);
	t->count = answer[SCRIEVE_T];
	if (answer[SCRIEVE_NUMBER] != 0) {
		printf("%s: refused, report %u at type %u, byte %u\n", t->title, (unsigned)answer[SCRIEVE_NUMBER],
		       (unsigned)answer[SCRIEVE_T], (unsigned)answer[SCRIEVE_P]);
		return 0;
	}
	printf("%s: accepted, %u types in %u bytes\n", t->title, (unsigned)t->count, (unsigned)t->length);
	return 1;
}

/* 1 if both were joined */
static int join(const struct table *a, const struct table *b, struct table *out)
{
	uint32_t answer[SCRIEVE_ANSWER_PLACES];

	scrieve_join(a->blob, a->length, b->blob, b->length, out->index, SCRIEVE_FULL_PLACES, work, SCRIEVE_FULL_PLACES,
		     out->blob, SCRIEVE_FULL_BYTES, answer, SCRIEVE_ANSWER_PLACES);
	out->length = answer[SCRIEVE_P];
	if (answer[SCRIEVE_NUMBER] != 0)
		printf("join: refused, report %u with %u inside\n", (unsigned)answer[SCRIEVE_NUMBER], (unsigned)answer[SCRIEVE_INNER]);
	return answer[SCRIEVE_NUMBER] == 0;
}

/* a word of a type's record: 0 its name, 1 its info. An accepted table begins 9F EB, with the low byte of its words first, or EB 9F */
static uint32_t word(const struct table *t, uint32_t type, uint32_t at)
{
	const uint8_t *b = t->blob + t->index[type] + 4 * at;

	if (t->blob[0] == 0xEB)
		return (uint32_t)b[0] << 24 | (uint32_t)b[1] << 16 | (uint32_t)b[2] << 8 | (uint32_t)b[3];
	return (uint32_t)b[0] | (uint32_t)b[1] << 8 | (uint32_t)b[2] << 16 | (uint32_t)b[3] << 24;
}

/* is this type a struct of this name? */
static int is_struct(const struct table *t, uint32_t type, const char *name)
{
	uint32_t answer[SCRIEVE_ANSWER_PLACES];

	if ((word(t, type, 1) >> 24 & 31) != 4)
		return 0;
	scrieve_name(t->blob, t->length, word(t, type, 0), answer, SCRIEVE_ANSWER_PLACES);
	return answer[SCRIEVE_P] == strlen(name) && memcmp(t->blob + answer[SCRIEVE_T], name, answer[SCRIEVE_P]) == 0;
}

/* a line for every struct of this name */
static void show(const struct table *t, const char *name)
{
	uint32_t answer[SCRIEVE_ANSWER_PLACES];
	uint32_t type;

	for (type = 1; type <= t->count; type++) {
		if (!is_struct(t, type, name))
			continue;
		scrieve_size(t->blob, t->length, t->index, t->count + 1, type, answer, SCRIEVE_ANSWER_PLACES);
		printf("%s: type %u is struct %s, %u bytes\n", t->title, (unsigned)type, name, (unsigned)answer[SCRIEVE_P]);
	}
}

int main(int count, char **words)
{
	if (count != 3) {
		fputs("first SUPPLIER_A SUPPLIER_B\n", stderr);
		return 2;
	}
	first.title = "supplier A";
	second.title = "supplier B";
	joined.title = "joined";
	if (!read_table(&first, words[1]) || !read_table(&second, words[2]))
		return 2;
	if (!check(&first) || !check(&second))
		return 1;
	show(&first, "blade");
	show(&second, "blade");
	if (!join(&first, &second, &joined) || !check(&joined))
		return 1;
	show(&joined, "blade");
	return 0;
}
