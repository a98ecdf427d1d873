/* A space with the C library of this repository. */
#include "space.h"

#include <divsharun.h>
#include <stdlib.h>

static dvs_address_allocator *space;

void make_space(uint64_t base, uint64_t size)
{
	if (dvs_address_allocator_new(base, size, &space) != DVS_OK)
		abort();
}

static bool started(dvs_status status, const dvs_range *range, uint64_t *start)
{
	if (status != DVS_OK)
		return false;
	*start = range->start;
	return true;
}

bool allocate_first(uint64_t size, uint64_t alignment, uint64_t *start)
{
	dvs_range range;

	return started(dvs_range_allocate_first(space, size, alignment, &range, NULL), &range, start);
}

bool allocate_last(uint64_t size, uint64_t alignment, uint64_t *start)
{
	dvs_range range;

	return started(dvs_range_allocate_last(space, size, alignment, &range, NULL), &range, start);
}

bool allocate_exact(uint64_t size, uint64_t alignment, uint64_t *start)
{
	dvs_range range;

	return started(dvs_range_allocate_exact(space, size, alignment, *start, &range, NULL), &range, start);
}

bool allocate_within(uint64_t first, uint64_t last, uint64_t size, uint64_t alignment, bool is_highest,
		     uint64_t *start)
{
	dvs_range range;
	dvs_request request = {
		.size = size,
		.alignment = alignment,
		.policy = is_highest ? DVS_LAST : DVS_FIRST,
		.low = first,
		.high = last,
	};

	return started(dvs_range_allocate(space, &request, &range, NULL), &range, start);
}

bool free_range(uint64_t first, uint64_t last)
{
	dvs_range range = {first, last};

	return dvs_range_free(space, range, NULL) == DVS_OK;
}
