/*
 * Runs the lines of the replay language on a space (space, first, last, exact,
 * free), from the standard input to the standard output. It knows one error:
 * that nothing fits. With an argument, it prints the bytes that are allocated at
 * the end to the standard error.
 */
#include "space.h"

#include <malloc.h>
#include <stdio.h>
#include <string.h>

/* The bytes of one read. A line has fewer bytes, and its result fewer than eight times as many. */
enum { PIECE = 65536 };

static char *end;

static void put_text(const char *text)
{
	size_t length = strlen(text);

	memcpy(end, text, length);
	end += length;
}

static void put_number(uint64_t number)
{
	char digits[20], *first = digits + sizeof(digits);

	do
		*--first = (char)('0' + number % 10);
	while (number /= 10);
	memcpy(end, first, (size_t)(digits + sizeof(digits) - first));
	end += digits + sizeof(digits) - first;
}

static uint64_t number_at(const char **line)
{
	const char *at = *line;
	uint64_t number = 0;

	while (*at >= '0' && *at <= '9')
		number = number * 10 + (uint64_t)(*at++ - '0');
	*line = at + 1;
	return number;
}

/* Writes the result of an allocation. */
static void put_range(bool is_done, uint64_t start, uint64_t size)
{
	if (!is_done) {
		put_text("error not-available\n");
		return;
	}
	put_text("range ");
	put_number(start);
	*end++ = ' ';
	put_number(start + size - 1);
	*end++ = '\n';
}

static void place(const char *numbers, bool (*allocate)(uint64_t, uint64_t, uint64_t *), bool is_exact)
{
	uint64_t size = number_at(&numbers);
	uint64_t alignment = number_at(&numbers);
	uint64_t start = is_exact ? number_at(&numbers) : 0;
	bool is_done = allocate(size, alignment, &start);

	put_range(is_done, start, size);
}

static void answer_line(const char *line)
{
	const char *numbers = strchr(line, ' ') + 1;
	uint64_t first;

	switch (line[0]) {
	case 's':
		first = number_at(&numbers);
		make_space(first, number_at(&numbers));
		put_text("done\n");
		break;
	case 'e':
		place(numbers, allocate_exact, true);
		break;
	case 'l':
		place(numbers, allocate_last, false);
		break;
	default:
		if (line[1] == 'i') {
			place(numbers, allocate_first, false);
			break;
		}
		first = number_at(&numbers);
		put_text(free_range(first, number_at(&numbers)) ? "done\n" : "error not-available\n");
	}
}

/* Runs the whole lines of the input, and returns the number of their bytes. */
static size_t answer_lines(char *input, size_t length)
{
	char *line = input, *newline;

	while ((newline = memchr(line, '\n', (size_t)(input + length - line))) != NULL) {
		answer_line(line);
		line = newline + 1;
	}
	return (size_t)(line - input);
}

int main(int count, char **arguments)
{
	static char input[PIECE], answers[8 * PIECE];
	size_t kept = 0, length;

	while ((length = fread(input + kept, 1, PIECE - kept, stdin)) != 0) {
		size_t answered;

		end = answers;
		answered = answer_lines(input, kept + length);
		if (fwrite(answers, 1, (size_t)(end - answers), stdout) != (size_t)(end - answers))
			return 2;
		kept += length - answered;
		memmove(input, input + answered, kept);
	}
	(void)arguments;
	if (count > 1)
		fprintf(stderr, "%zu\n", mallinfo2().uordblks);
	return 0;
}
