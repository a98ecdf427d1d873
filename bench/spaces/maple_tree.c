/*
 * A space with Linux's maple tree, which has no alignments: the inputs must be such
 * that alignments do not matter. Requests are not checked, so the only error is that
 * nothing fits.
 */
#include "space.h"

#include <linux/maple_tree.h>

static struct maple_tree tree;
static uint64_t space_start, space_end;

void make_space(uint64_t base, uint64_t size)
{
	if (space_end == 0)
		maple_tree_init();
	else
		mtree_destroy(&tree);
	mt_init_flags(&tree, MT_FLAGS_ALLOC_RANGE);
	space_start = base;
	space_end = base + size - 1;
}

/* Stores the range of a state, if one was found. */
static bool stored(struct ma_state *found, int status, uint64_t *start)
{
	if (status != 0)
		return false;
	*start = found->index;
	return mas_store_gfp(found, &tree, GFP_KERNEL) == 0;
}

bool allocate_first(uint64_t size, uint64_t alignment, uint64_t *start)
{
	MA_STATE(found, &tree, 0, 0);

	(void)alignment;
	return stored(&found, mas_empty_area(&found, space_start, space_end, size), start);
}

bool allocate_last(uint64_t size, uint64_t alignment, uint64_t *start)
{
	MA_STATE(found, &tree, 0, 0);

	(void)alignment;
	return stored(&found, mas_empty_area_rev(&found, space_start, space_end, size), start);
}

bool allocate_exact(uint64_t size, uint64_t alignment, uint64_t *start)
{
	(void)alignment;
	return mtree_insert_range(&tree, *start, *start + size - 1, &tree, GFP_KERNEL) == 0;
}

bool free_range(uint64_t first, uint64_t last)
{
	MA_STATE(found, &tree, first, first);

	if (mas_walk(&found) == NULL || found.index != first || found.last != last)
		return false;
	mas_erase(&found);
	return true;
}
