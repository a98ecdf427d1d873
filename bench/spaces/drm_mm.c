/* A space with Linux's drm_mm. Requests are not checked, so the only error is that nothing fits. */
#include "space.h"

#include <drm/drm_mm.h>

static struct drm_mm space;

void make_space(uint64_t base, uint64_t size)
{
	drm_mm_init(&space, base, size);
}

static bool started(struct drm_mm_node *node, int status, uint64_t *start)
{
	if (status != 0) {
		free(node);
		return false;
	}
	*start = node->start;
	return true;
}

/* Allocates in the window from `first` to `end`, without `end`. */
static bool place(uint64_t first, uint64_t end, uint64_t size, uint64_t alignment,
		  enum drm_mm_insert_mode mode, uint64_t *start)
{
	struct drm_mm_node *node = calloc(1, sizeof(*node));

	return started(node, drm_mm_insert_node_in_range(&space, node, size, alignment, 0, first, end, mode), start);
}

bool allocate_first(uint64_t size, uint64_t alignment, uint64_t *start)
{
	return place(0, U64_MAX, size, alignment, DRM_MM_INSERT_LOW, start);
}

bool allocate_last(uint64_t size, uint64_t alignment, uint64_t *start)
{
	return place(0, U64_MAX, size, alignment, DRM_MM_INSERT_HIGH, start);
}

bool allocate_within(uint64_t first, uint64_t last, uint64_t size, uint64_t alignment, bool is_highest,
		     uint64_t *start)
{
	return place(first, last + 1, size, alignment, is_highest ? DRM_MM_INSERT_HIGH : DRM_MM_INSERT_LOW, start);
}

bool allocate_exact(uint64_t size, uint64_t alignment, uint64_t *start)
{
	struct drm_mm_node *node = calloc(1, sizeof(*node));

	(void)alignment;
	node->size = size;
	node->start = *start;
	return started(node, drm_mm_reserve_node(&space, node), start);
}

bool free_range(uint64_t first, uint64_t last)
{
	struct drm_mm_node *node = __drm_mm_interval_first(&space, first, last);

	if (node->start != first || node->start + node->size - 1 != last)
		return false;
	drm_mm_remove_node(node);
	free(node);
	return true;
}
