/*
 * The part of the kernel that drm_mm.c, rbtree.c and maple_tree.c use, for a user
 * program: types, loads and stores for one thread, memory of the C library, and
 * empty macros for locks, reports and debugging.
 */
#ifndef KERNEL_H
#define KERNEL_H

#include <errno.h>
#include <limits.h>
#include <stdbool.h>
#include <stddef.h>
#include <stdint.h>
#include <stdlib.h>
#include <string.h>

typedef uint8_t u8;
typedef uint32_t u32;
typedef uint64_t u64;
typedef int64_t s64;
typedef unsigned int gfp_t;

#define U64_MAX UINT64_MAX
#define BIT(n) (1ul << (n))
#define __always_inline inline __attribute__((always_inline))
#define noinline __attribute__((noinline))
#define __must_check
#define __rcu
#define __maybe_unused __attribute__((unused))
#define __init
#define __must_hold(lock)
#define fallthrough __attribute__((fallthrough))
#define likely(x) __builtin_expect(!!(x), 1)
#define unlikely(x) __builtin_expect(!!(x), 0)

#define EXPORT_SYMBOL(name)
#define EXPORT_SYMBOL_GPL(name)
#define BUILD_BUG_ON_INVALID(x) ((void)sizeof(x))
#define BUG_ON(x) ((void)0)
#define WARN_ON(x) unlikely(!!(x))
#define WARN_ON_ONCE(x) unlikely(!!(x))
#define trace_ma_op(...)
#define trace_ma_read(...)
#define trace_ma_write(...)
#define WARN(x, ...) unlikely(!!(x))

#define WRITE_ONCE(x, value) (*(volatile __typeof__(x) *)&(x) = (value))
#define READ_ONCE(x) (*(volatile __typeof__(x) *)&(x))
#define rcu_assign_pointer(p, value) ((p) = (value))
#define smp_store_release(p, value) (*(p) = (value))
#define smp_load_acquire(p) (*(p))
#define smp_mb()
#define smp_rmb()
#define smp_wmb()
#define rcu_read_lock()
#define rcu_read_unlock()
#define rcu_dereference_check(p, is_locked) (p)
#define rcu_dereference_protected(p, is_locked) (p)
#define call_rcu(head, free_it) free_it(head)
#define spin_lock(lock)
#define spin_unlock(lock)
#define spin_lock_init(lock)

#define container_of(pointer, type, member) \
	((type *)((char *)(pointer) - offsetof(type, member)))

#define ARRAY_SIZE(array) (sizeof(array) / sizeof(*(array)))
#define DIV_ROUND_UP(n, d) (((n) + (d) - 1) / (d))
#define min(x, y) ((x) < (y) ? (x) : (y))
#define max(x, y) ((x) > (y) ? (x) : (y))
#define is_power_of_2(n) ((n) != 0 && (((n) & ((n) - 1)) == 0))

static inline u64 div64_u64_rem(u64 dividend, u64 divisor, u64 *remainder)
{
	*remainder = dividend % divisor;
	return dividend / divisor;
}

static inline void __set_bit(int bit, unsigned long *word)
{
	*word |= 1ul << bit;
}

static inline void __clear_bit(int bit, unsigned long *word)
{
	*word &= ~(1ul << bit);
}

#define clear_bit_unlock __clear_bit

static inline bool test_bit(int bit, const unsigned long *word)
{
	return *word >> bit & 1;
}

struct list_head {
	struct list_head *next, *prev;
};

struct hlist_node {
	struct hlist_node *next, **pprev;
};

struct hlist_head {
	struct hlist_node *first;
};

struct rcu_head {
	struct rcu_head *next;
};

#define LIST_POISON1 ((void *)0x100)
#define LIST_POISON2 ((void *)0x122)

typedef struct {
	int unused;
} spinlock_t;

#define GFP_KERNEL 0
#define GFP_NOWAIT 0
#define __GFP_NOWARN 0
#define SLAB_PANIC 0
#define gfpflags_allow_blocking(flags) true

/* A cache keeps its free objects in a list. They have the size of their alignment. */
struct kmem_cache {
	size_t size;
	void *free;
};

static inline struct kmem_cache *kmem_cache_create(const char *name, size_t size, size_t alignment, int flags,
						   void *constructor)
{
	static struct kmem_cache cache;

	cache.size = size;
	return &cache;
}

static inline void kmem_cache_free(struct kmem_cache *cache, void *object)
{
	*(void **)object = cache->free;
	cache->free = object;
}

static inline void *kmem_cache_alloc(struct kmem_cache *cache, gfp_t flags)
{
	void *object = cache->free;

	if (object == NULL) {
		char *objects = aligned_alloc(cache->size, 16 * cache->size);

		for (size_t i = 1; i < 16; i++)
			kmem_cache_free(cache, objects + i * cache->size);
		return objects;
	}
	cache->free = *(void **)object;
	return object;
}

static inline int kmem_cache_alloc_bulk(struct kmem_cache *cache, gfp_t flags, size_t count, void **objects)
{
	for (size_t i = 0; i < count; i++)
		objects[i] = kmem_cache_alloc(cache, flags);
	return count;
}

static inline void kmem_cache_free_bulk(struct kmem_cache *cache, size_t count, void **objects)
{
	for (size_t i = 0; i < count; i++)
		kmem_cache_free(cache, objects[i]);
}

/* Entries of a tree. The two lowest bits tell a pointer from a value (1) and from an internal entry (2). */
#define MAX_ERRNO 4095
#define XA_ZERO_ENTRY xa_mk_internal(257)

static inline void *xa_mk_internal(unsigned long value)
{
	return (void *)(value << 2 | 2);
}

static inline unsigned long xa_to_internal(const void *entry)
{
	return (unsigned long)entry >> 2;
}

static inline bool xa_is_internal(const void *entry)
{
	return ((unsigned long)entry & 3) == 2;
}

static inline bool xa_is_value(const void *entry)
{
	return (unsigned long)entry & 1;
}

static inline unsigned long xa_to_value(const void *entry)
{
	return (unsigned long)entry >> 1;
}

static inline bool xa_is_node(const void *entry)
{
	return xa_is_internal(entry) && (unsigned long)entry > 4096;
}

static inline bool xa_is_zero(const void *entry)
{
	return entry == XA_ZERO_ENTRY;
}

static inline bool xa_is_advanced(const void *entry)
{
	return xa_is_internal(entry) && entry <= xa_mk_internal(256);
}

static inline bool xa_is_err(const void *entry)
{
	return xa_is_internal(entry) && entry >= xa_mk_internal(-MAX_ERRNO);
}

static inline int xa_err(void *entry)
{
	return xa_is_err(entry) ? (long)entry >> 2 : 0;
}

struct drm_printer;
#define drm_printf(printer, ...)

#endif
