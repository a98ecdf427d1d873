/*
 * Times requests on a space with RANGES allocated pages, each followed by a gap.
 * It prints three times to the standard error, each in nanoseconds of a request
 * and its free: in windows at random places among gaps of a page, without a
 * window in random gaps, and in the same gaps with windows. It prints the starts
 * of all ranges to the standard output.
 *
 *     window RANGES
 */
#include "space.h"

#include <inttypes.h>
#include <stdio.h>
#include <stdlib.h>
#include <time.h>

enum { PAGE = 4096, REQUESTS = 200000 };

/* The result of a request that finds no range. */
#define NOWHERE UINT64_MAX

struct request {
	uint64_t first, last, size, start;
	bool is_highest;
};

static struct request requests[REQUESTS];

static uint64_t below(uint64_t bound)
{
	static uint64_t seed = 7;

	seed = seed * 16807 % 2147483647;
	return seed % bound;
}

static void must(bool is_done)
{
	if (!is_done)
		abort();
}

/* Allocates a page at each start, in a random order. */
static void make_pages(const uint64_t *starts, uint64_t ranges)
{
	uint64_t *order = malloc(ranges * sizeof(*order));

	must(order != NULL);
	for (uint64_t i = 0; i < ranges; i++) {
		uint64_t j = below(i + 1);

		order[i] = order[j];
		order[j] = starts[i];
	}
	for (uint64_t i = 0; i < ranges; i++)
		must(allocate_exact(PAGE, PAGE, &order[i]));
	free(order);
}

/* Returns a window at a random place with at least one gap of a page. */
static struct request with_gaps(uint64_t ranges)
{
	uint64_t first = below(2 * ranges - 64) * PAGE + below(PAGE);

	return (struct request){.first = first, .last = first + (3 + below(61)) * PAGE, .size = PAGE};
}

/* Returns a window from a gap at a random place to the next gap, with less than a page of both. */
static struct request full(uint64_t ranges)
{
	uint64_t gap = (2 * below(ranges - 1) + 1) * PAGE, next = gap + 2 * PAGE;

	return (struct request){.first = gap + 1 + below(PAGE - 1), .last = next + below(PAGE - 1), .size = PAGE};
}

/* Makes a space with gaps of a page, and requests for it. Every second window has no place. */
static void make_even_gaps(uint64_t *starts, uint64_t ranges)
{
	for (uint64_t i = 0; i < ranges; i++)
		starts[i] = 2 * i * PAGE;
	make_space(0, 2 * ranges * PAGE);
	make_pages(starts, ranges);
	for (int i = 0; i < REQUESTS; i++) {
		requests[i] = i % 2 == 0 ? with_gaps(ranges) : full(ranges);
		requests[i].is_highest = i / 2 % 2 == 1;
	}
}

/*
 * Makes a space whose gaps grow page by page up to its middle and then shrink,
 * and requests for it. The lowest and the highest gap that a request fits have
 * its length. Its window contains this gap.
 */
static void make_growing_gaps(uint64_t *starts, uint64_t ranges)
{
	uint64_t half = ranges / 2, end = 0;

	for (uint64_t i = 0; i < ranges; i++) {
		starts[i] = end;
		end += PAGE * (2 + (i < half ? i : ranges - 1 - i));
	}
	make_space(0, end);
	make_pages(starts, ranges);
	for (int i = 0; i < REQUESTS; i++) {
		uint64_t length = 1 + below(half), size = length * PAGE;
		bool is_highest = i % 2 == 1;
		uint64_t first = starts[is_highest ? ranges - length : length - 1];

		requests[i] = (struct request){first, first + 2 * PAGE + size - 1, size, NOWHERE, is_highest};
	}
}

static bool allocate_windowed(struct request *request)
{
	return allocate_within(request->first, request->last, request->size, PAGE, request->is_highest,
			       &request->start);
}

static bool allocate_plain(struct request *request)
{
	return (request->is_highest ? allocate_last : allocate_first)(request->size, PAGE, &request->start);
}

/* Makes all requests, each freed at once, and prints their starts. Returns the nanoseconds of one. */
static double time_of(bool (*allocate)(struct request *))
{
	struct timespec begin, end;

	clock_gettime(CLOCK_PROCESS_CPUTIME_ID, &begin);
	for (struct request *request = requests; request < requests + REQUESTS; request++) {
		if (allocate(request))
			must(free_range(request->start, request->start + request->size - 1));
		else
			request->start = NOWHERE;
	}
	clock_gettime(CLOCK_PROCESS_CPUTIME_ID, &end);
	for (int i = 0; i < REQUESTS; i++)
		printf("%" PRIu64 "\n", requests[i].start);
	return ((double)(end.tv_sec - begin.tv_sec) * 1e9 + (double)(end.tv_nsec - begin.tv_nsec)) / REQUESTS;
}

int main(int count, char **arguments)
{
	uint64_t ranges = count == 2 ? strtoull(arguments[1], NULL, 10) : 0;
	uint64_t *starts = calloc(ranges, sizeof(*starts));
	double windowed, plain;

	must(ranges >= 100 && starts != NULL);
	make_even_gaps(starts, ranges);
	windowed = time_of(allocate_windowed);
	make_growing_gaps(starts, ranges);
	time_of(allocate_plain);
	plain = time_of(allocate_plain);
	fprintf(stderr, "%.1f %.1f %.1f\n", windowed, plain, time_of(allocate_windowed));
	for (int i = 0; i < REQUESTS; i++)
		must(requests[i].start == requests[i].first + PAGE);
	return 0;
}
