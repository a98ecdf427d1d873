/* SPDX-License-Identifier: Apache-2.0 OR BSD-3-Clause */
/*
 * divsharun: allocators of address ranges and ids for the devices of a virtual
 * machine: MMIO and PIO ranges, PCI BARs, interrupts and memory slots.
 *
 *     // The I/O APIC, the local APICs with MSI, and the firmware of x86.
 *     const dvs_range taken[] = {
 *         {0xfec00000, 0xfec00fff}, {0xfee00000, 0xfeefffff}, {0xffc00000, 0xffffffff}};
 *     dvs_address_allocator *mmio;
 *     dvs_range bar;
 *
 *     if (dvs_address_allocator_with_held(0xd0000000, 0x30000000, taken, 3, &mmio, NULL,
 *                                         NULL) != DVS_OK)
 *         return -1;
 *     if (dvs_range_allocate_first(mmio, 0x1000, 0x1000, &bar, NULL) == DVS_OK)
 *         dvs_range_free(mmio, bar, NULL);
 *     dvs_address_allocator_destroy(mmio);
 *
 * Units. Sizes and alignments count addresses: bytes, or ports for PIO. A range
 * includes its start and its end.
 *
 * Errors. Each call that can fail returns a status. An error leaves the results
 * and the object unchanged. Two errors come first in every call: DVS_NULL if a
 * pointer that must not be null is null, and DVS_BUSY (see dvs_range_visit()). The
 * comment of a call lists the other errors in the order in which they are checked.
 *
 * Results. A call writes its results through its last pointers if it returns
 * DVS_OK. Some calls have more pointers after these, which can be null:
 * - `refusal` and `fault` receive the details of an error. An error writes all
 *   members, with 0 or NULL for those without a meaning. DVS_OK writes none.
 * - `failed` receives the index of the member of an array that has the error. If no
 *   member has one, also with DVS_OK, it receives the length of the array.
 *
 * Ownership. You own an object from the call that creates it until the call
 * that destroys it. You own a saved text until dvs_text_destroy(), and free()
 * must not be called on it. The library keeps no pointer to your memory after a
 * call returns. A pointer argument must be null or point to a valid object of
 * its type, and so must a pointer in that object. The results of a call must not
 * share memory with each other or with its arguments. A range is passed as a copy, so
 * `dvs_range_move(mmio, bar, start, &bar, NULL)` is valid.
 *
 * Threads. Calls on different objects can run at the same time. On one object,
 * calls that take a pointer to const can run at the same time. Any other call
 * must be the only one on its object. So lock an object for each call if a thread
 * changes it: `pthread_mutex_lock(&lock)`, `dvs_range_free(mmio, bar, NULL)`,
 * `pthread_mutex_unlock(&lock)`. Any thread can use and destroy an object. After
 * fork() the child has its own copy of each object.
 *
 * A signal handler must not make a call on an object, because the signal can
 * interrupt another call. It can set a flag for a thread:
 * `if (unplugged) dvs_range_free(mmio, bar, NULL);`. A thread must not be cancelled
 * asynchronously in a call. It keeps the default, PTHREAD_CANCEL_DEFERRED.
 *
 * Memory. If memory runs out, a call returns DVS_OUT_OF_MEMORY. It frees what it has
 * made, or keeps it for later calls on the object. No call ends the process then.
 * This is the last error, except in a call that reads a text or takes an array.
 *
 * Freeing a range, dvs_id_allocate() and queries do not allocate memory. Saving
 * and reading allocate less than 100 bytes for each allocated range, freed id
 * and device, beyond the text and the object. Reading also allocates less than
 * 8 KiB for a list of the nodes that it is in. This is also true for an untrusted
 * text, and nothing is allocated after its first fault.
 *
 * Cost. Let k be the number of allocated ranges. Allocating, moving and freeing
 * a range takes time of the order of log k, and so do dvs_range_peek(), dvs_range_conflict(),
 * dvs_range_is_allocated(), dvs_range_at() and dvs_gap_at(). An alignment can make
 * the search for a range visit more gaps. A visit or list takes time of the order of log k,
 * plus the number of allocated ranges and gaps up to where it ends. A list of ids or devices
 * does too, with ids, runs of freed ids, and devices.
 *
 * Calls on one id, device or range of a map take logarithmic time too, also if they skip
 * ids. An allocation in a map can also move its values, in linear time. Counts,
 * dvs_longest_gap() and the ends of a space or of a range of ids take constant time. Allocating an
 * array takes the time of each request or id. All other calls take time at most linear in the size
 * of the object, the array or the text.
 *
 * Stack. 64 KiB are enough for every call.
 *
 * Environment. A call can set errno if it allocates or frees memory, and never reads it.
 * No call depends on the locale. The library is tested on x86-64 Linux with glibc, and
 * on no other system.
 *
 * Bugs. No known bug makes a call fail in another way than by its status. If the
 * library detects a bug in itself, it ends the process with abort(). It writes a line
 * to the standard error stream first. A destroyed object, or a pointer to no object,
 * can look like a bug, so the line names both. It never throws into C or C++.
 */
#ifndef DIVSHARUN_H
#define DIVSHARUN_H

#include <stdbool.h>
#include <stddef.h>
#include <stdint.h>

/*
 * The version of this header. The numbers of statuses, the members of
 * structures and the behaviour of calls stay the same within one
 * DVS_VERSION_MAJOR. It is also the number in the name of the shared library. A
 * new DVS_VERSION_MINOR can add statuses, causes and calls. DVS_VERSION_NUMBER is
 * 10000 * major + 100 * minor + patch.
 */
#define DVS_VERSION_MAJOR 3
#define DVS_VERSION_MINOR 0
#define DVS_VERSION_PATCH 0
#define DVS_VERSION_NUMBER 30000
#define DVS_VERSION_TEXT "3.0.0"

/* The compiler warns if the status of a call with this attribute is ignored. */
#ifdef __GNUC__
#define DVS_WARN_UNUSED __attribute__((warn_unused_result))
#else
#define DVS_WARN_UNUSED
#endif

#ifdef __cplusplus
extern "C" {
#endif

/*
 * The result of a call: one of the constants below. The meaning of a number never changes.
 * dvs_status_text() returns the first sentence of a comment.
 */
typedef uint32_t dvs_status;

enum {
    /* The call succeeded. */
    DVS_OK = 0,
    /*
     * A range would end at or past UINT64_MAX, too few ids up to UINT32_MAX are free, or
     * too many ranges are allocated.
     */
    DVS_OVERFLOW = 1,
    /* The id is outside the range of the allocator. */
    DVS_OUT_OF_RANGE = 2,
    /* The id is already freed. */
    DVS_ALREADY_RELEASED = 3,
    /* The id was never allocated, or no device has it. */
    DVS_NEVER_ALLOCATED = 4,
    /*
     * No free range or id fits, or the given range, id or address is allocated, not found
     * or out of order.
     */
    DVS_RESOURCE_NOT_AVAILABLE = 5,
    /*
     * The start of a range is past its end, or the range has all 2^64 addresses. A window
     * can cover all of them.
     */
    DVS_INVALID_RANGE = 6,
    /* The alignment is not a power of two. */
    DVS_INVALID_ALIGNMENT = 7,
    /* Two ranges share an address. No call of this library returns it. */
    DVS_OVERLAP = 8,
    /* Exactly the requested range is already allocated. */
    DVS_INVALID_STATE_TRANSITION = 9,
    /* The requested start is not a multiple of the alignment. */
    DVS_UNALIGNED_ADDRESS = 10,
    /* The size of a space is 0. It is also returned if no free range is given for a space. */
    DVS_UNDERFLOW = 11,
    /* The size of a requested range is 0. */
    DVS_INVALID_SIZE = 12,
    /* Memory ran out. */
    DVS_OUT_OF_MEMORY = 13,
    /* A pointer that must not be null is null. */
    DVS_NULL = 14,
    /* The object is being visited, so it cannot be changed or destroyed. */
    DVS_BUSY = 15,
    /*
     * The text is not JSON. It must be JSON of RFC 8259 in UTF-8, nested at most 128 deep,
     * without a number greater than any double and without an unpaired surrogate escape.
     */
    DVS_NOT_JSON = 16,
    /* The text is JSON, but does not encode an object of the type. */
    DVS_NOT_A_STATE = 17,
    /* The policy of a request is not one of the constants. */
    DVS_INVALID_POLICY = 18,
    /* The text is longer or nested deeper than the caller allows. */
    DVS_LIMIT_EXCEEDED = 19
};

/* The addresses from start to end, both included. */
typedef struct dvs_range {
    uint64_t start;
    uint64_t end;
} dvs_range;

/* Details of an error or a conflict. The other members are 0. */
typedef struct dvs_refusal {
    /*
     * DVS_INVALID_RANGE, DVS_OVERLAP: the range. With a cause: the requested range, or 0 to
     * 0 if it has no given start or would end past UINT64_MAX.
     */
    dvs_range range;
    /* DVS_OVERLAP: the existing range. With a cause: the range that the cause names. */
    dvs_range other;
    /* DVS_INVALID_SIZE: the size. */
    uint64_t size;
    /*
     * DVS_OUT_OF_RANGE, DVS_ALREADY_RELEASED, DVS_NEVER_ALLOCATED: the id.
     * DVS_RESOURCE_NOT_AVAILABLE: the id, if the call was given one.
     */
    uint32_t id;
    /*
     * DVS_RESOURCE_NOT_AVAILABLE, DVS_INVALID_STATE_TRANSITION: why the range is not available.
     * DVS_OVERFLOW: why a range of a list is not, if one has the error.
     */
    uint32_t cause;
} dvs_refusal;

/*
 * The causes. The first one that applies is written, in this order: outside the space,
 * outside the window, allocated or an earlier request, no fit. A call looks for the cause
 * only if its `refusal` is not null. dvs_cause_text() returns the first sentence of a
 * comment without its period, but an empty text for DVS_CAUSE_NONE.
 *
 * For a range of a list of ranges, the order is that of the errors of the call.
 */
enum {
    /*
     * There is no cause. The call has no conflict, another error or no free id, or the range
     * to move is not allocated. Or no start is given, the window has addresses of the space,
     * and the call is a move or a check for conflicts. Or memory runs out for the cause of a
     * request after the first one.
     */
    DVS_CAUSE_NONE = 0,
    /* An address is allocated. `other` is the lowest allocated range that has one. */
    DVS_CAUSE_ALLOCATED = 1,
    /*
     * An address is outside the space. `other` is the space. Without a given start, all
     * addresses of the window are outside it.
     */
    DVS_CAUSE_OUTSIDE_SPACE = 2,
    /* An address is outside the window of the request. `other` is the window. */
    DVS_CAUSE_OUTSIDE_WINDOW = 3,
    /*
     * An address is in the range of an earlier request of the same call. `other` is that range, the
     * lowest range in the way. It is free again.
     */
    DVS_CAUSE_EARLIER_REQUEST = 4,
    /* The range does not start after the end of the range before it. `other` is that range. */
    DVS_CAUSE_NOT_AFTER = 5,
    /* The range ends at UINT64_MAX. `other` is 0 to 0. */
    DVS_CAUSE_ENDS_AT_MAX = 6,
    /*
     * No gap of the window fits the request. No start is given. `other` is the longest part
     * of a gap in the window, the lowest of several, or 1 to 0 if no address of it is free.
     * A call looks at each gap of the window for it.
     */
    DVS_CAUSE_NO_FIT = 7
};

/* The resources of a device. */
typedef struct dvs_device {
    dvs_range range;
    uint32_t id;
} dvs_device;

/* An allocated range of a map, and its value. */
typedef struct dvs_valued_range {
    dvs_range range;
    uint64_t value;
} dvs_valued_range;

/* The range that a request gets if several fit. */
enum {
    /* The lowest range. */
    DVS_FIRST = 0,
    /* The highest range. */
    DVS_LAST = 1,
    /* The range at the start that the request names. */
    DVS_EXACT = 2
};

/*
 * A request for a range of `size` addresses that starts at a multiple of
 * `alignment`. An initializer sets the members that it leaves out to 0.
 */
typedef struct dvs_request {
    uint64_t size;
    uint64_t alignment;
    /* Used by DVS_EXACT only. */
    uint64_t start;
    uint32_t policy;
    /*
     * The window: the lowest and the highest address that the range may have. A `low` of
     * 0 is no lower limit. A `high` of 0 or UINT64_MAX is no upper limit. With neither
     * limit there is no window. Use DVS_EXACT for the address 0 alone.
     */
    uint64_t low;
    uint64_t high;
} dvs_request;

/* Limits for a text that is read. 0 is no limit. */
typedef struct dvs_text_limits {
    /* The maximum number of bytes. */
    size_t length;
    /* The maximum nesting. A value without brackets counts as a level. */
    uint32_t depth;
} dvs_text_limits;

/* Why a text was not read. */
typedef struct dvs_text_fault {
    /* The number of bytes before the fault. A wrong value begins there. */
    size_t offset;
    /* The condition that is violated, with static storage duration. */
    const char *reason;
    /*
     * DVS_NOT_A_STATE: the innermost field whose value is wrong, or which is missing or
     * duplicate, with static storage duration. NULL for other errors, and if the value of
     * the text is not an object or has an unknown field.
     *
     * If values do not fit together, it is one of these:
     * - the field of the range, if the start of a range is past its end;
     * - `key`, if the key of a node does not fit its children;
     * - `root`, if the tree is wrong in another way;
     * - `range_base`, if it is past `range_end`;
     * - `next_id` or `freed_ids`, if it does not fit the other ids;
     * - `slots`, if the devices do not fit the ids and the ranges.
     */
    const char *field;
} dvs_text_fault;

/* Allocates ranges of addresses from one space. Allocated ranges never share an address. */
typedef struct dvs_address_allocator dvs_address_allocator;

/* Allocates ids from a range, the lowest free id first. */
typedef struct dvs_id_allocator dvs_id_allocator;

/* Allocates an id and a range for each device. If it cannot have both, it gets neither. */
typedef struct dvs_device_manager dvs_device_manager;

/* Allocates ranges of addresses, and keeps a value of the caller with each. */
typedef struct dvs_range_map dvs_range_map;

/*
 * Returns the name of a status, such as "DVS_OVERFLOW". This and the texts below are never
 * null and have static storage duration. They say if a number is unknown.
 */
const char *dvs_status_name(dvs_status status);

/* Returns a description of a status, without a period at the end. */
const char *dvs_status_text(dvs_status status);

/* Returns a description of the cause in a refusal, without a period at the end. */
const char *dvs_cause_text(uint32_t cause);

/*
 * Writes a line with the numbers of an error to `buffer`, such as "0xfeb00000-0xfeb0ffff
 * overlaps 0xfeb08000-0xfeb0bfff", without a period or a line break at the end. An error
 * without numbers has dvs_status_text(). `refusal` can be null. For a conflict, use
 * DVS_RESOURCE_NOT_AVAILABLE.
 *
 * It returns the length of the line, which is below 200, and writes at most `length` bytes
 * with the zero byte, as snprintf() does. `buffer` can be null if `length` is 0.
 */
size_t dvs_refusal_text(dvs_status status, const dvs_refusal *refusal, char *buffer, size_t length);

/*
 * Returns the version of the library that runs, like DVS_VERSION_TEXT. It has
 * static storage duration.
 */
const char *dvs_version_text(void);

/* Returns the version of the library that runs, like DVS_VERSION_NUMBER. */
uint32_t dvs_version_number(void);

/* ---- Ranges of addresses ---- */

/*
 * Creates an allocator for the `size` addresses starting at `base`, all of them
 * free. Destroy it with dvs_address_allocator_destroy().
 *
 * Errors, in order:
 * - DVS_UNDERFLOW if `size` is 0.
 * - DVS_OVERFLOW if the last address would be past UINT64_MAX.
 * - DVS_OUT_OF_MEMORY.
 */
dvs_status dvs_address_allocator_new(uint64_t base, uint64_t size,
                                     dvs_address_allocator **allocator) DVS_WARN_UNUSED;

/*
 * Creates an allocator like dvs_address_allocator_new(), in which the `count`
 * ranges of `held` are allocated. They must be in ascending order. `held` can be
 * null if `count` is 0.
 *
 * Errors, in order:
 * - DVS_INVALID_RANGE, with the first range that is not a valid range.
 * - DVS_OUT_OF_MEMORY if memory for a copy of the list runs out.
 * - DVS_UNDERFLOW if `size` is 0.
 * - DVS_OVERFLOW if the space would end past UINT64_MAX.
 * - For the first range that cannot be allocated, with a cause:
 *   - DVS_RESOURCE_NOT_AVAILABLE if it does not start after the end of the range
 *     before it.
 *   - DVS_OVERFLOW if it starts at UINT64_MAX.
 *   - DVS_RESOURCE_NOT_AVAILABLE if it is outside the space.
 *   - DVS_OVERFLOW if it ends at UINT64_MAX.
 * - DVS_OVERFLOW if there are 2^49 or more ranges and gaps.
 * - DVS_OUT_OF_MEMORY.
 */
dvs_status dvs_address_allocator_with_held(uint64_t base, uint64_t size, const dvs_range *held,
                                           size_t count, dvs_address_allocator **allocator,
                                           size_t *failed, dvs_refusal *refusal) DVS_WARN_UNUSED;

/*
 * Creates an allocator in which exactly the `count` ranges of the array `ranges` are
 * free. They must be in ascending order, and share no address. Destroy the allocator
 * with dvs_address_allocator_destroy().
 *
 * The space is from the first address of the first range to the last address of the
 * last one. Each hole between the ranges is an allocated range, and can be freed. Ranges
 * without a hole between them are one gap. Here the hole is from 0x2000 to 0x2fff:
 *
 *     const dvs_range ranges[] = {{0x1000, 0x1fff}, {0x3000, 0x3fff}};
 *
 * Errors, in order:
 * - DVS_INVALID_RANGE, with the first range that is not a valid range.
 * - DVS_OUT_OF_MEMORY if memory for a copy of the list runs out.
 * - DVS_UNDERFLOW if there is no range. The array can be null then.
 * - DVS_RESOURCE_NOT_AVAILABLE, with a cause, for the first range that does not start
 *   after the end of the range before it.
 * - DVS_INVALID_RANGE, with the space, if the space would have all 2^64 addresses.
 * - DVS_OVERFLOW if there are 2^48 or more holes.
 * - DVS_OUT_OF_MEMORY.
 */
dvs_status dvs_address_allocator_with_free(const dvs_range *ranges, size_t count,
                                           dvs_address_allocator **allocator, size_t *failed,
                                           dvs_refusal *refusal) DVS_WARN_UNUSED;

/*
 * Destroys an allocator, with all its allocated ranges. It does nothing if the
 * pointer is null. Only a call by a visitor can fail, so others need not check the
 * status.
 *
 * Errors: DVS_BUSY during a visit of the allocator, which then still exists.
 */
dvs_status dvs_address_allocator_destroy(dvs_address_allocator *allocator);

/*
 * Writes the range of the `length` addresses that start at `start` to `range`,
 * such as a BAR by its base and its size.
 *
 * Errors, in order:
 * - DVS_INVALID_SIZE if `length` is 0.
 * - DVS_OVERFLOW if the last address would be past UINT64_MAX.
 */
dvs_status dvs_range_from_start_length(uint64_t start, uint64_t length,
                                       dvs_range *range) DVS_WARN_UNUSED;

/*
 * Writes the number of addresses of `range` below `address` to `offset`.
 *
 * Errors, in order:
 * - DVS_INVALID_RANGE if `range` is not a valid range.
 * - DVS_RESOURCE_NOT_AVAILABLE if `address` is not in the range.
 */
dvs_status dvs_range_offset_of(dvs_range range, uint64_t address, uint64_t *offset) DVS_WARN_UNUSED;

/* Writes the first and the last address of the space to `space`. Errors: DVS_NULL. */
dvs_status dvs_address_allocator_space(const dvs_address_allocator *allocator,
                                       dvs_range *space) DVS_WARN_UNUSED;

/*
 * Allocates the lowest free range of `size` addresses that starts at a multiple of
 * `alignment`, and writes it to `range`. Free it with dvs_range_free().
 *
 * Errors, in order:
 * - DVS_INVALID_SIZE if `size` is 0.
 * - DVS_INVALID_ALIGNMENT if `alignment` is not a power of two.
 * - DVS_RESOURCE_NOT_AVAILABLE if there is no such range.
 * - DVS_OVERFLOW if the range ends at UINT64_MAX, or if it fills only a part of its
 *   gap and at least 6,293,134,512 ranges are allocated.
 * - DVS_OUT_OF_MEMORY.
 */
dvs_status dvs_range_allocate_first(dvs_address_allocator *allocator, uint64_t size,
                                    uint64_t alignment, dvs_range *range,
                                    dvs_refusal *refusal) DVS_WARN_UNUSED;

/*
 * Allocates the highest free range of `size` addresses that starts at a multiple of
 * `alignment`. Its errors are those of dvs_range_allocate_first(). DVS_OVERFLOW is
 * returned if the highest range ends at UINT64_MAX, even if another is free.
 */
dvs_status dvs_range_allocate_last(dvs_address_allocator *allocator, uint64_t size,
                                   uint64_t alignment, dvs_range *range,
                                   dvs_refusal *refusal) DVS_WARN_UNUSED;

/*
 * Allocates the `size` addresses starting at `start`.
 *
 * Errors, in order:
 * - DVS_INVALID_SIZE if `size` is 0.
 * - DVS_INVALID_ALIGNMENT if `alignment` is not a power of two.
 * - DVS_UNALIGNED_ADDRESS if `start` is not a multiple of `alignment`.
 * - DVS_OVERFLOW if `start` is UINT64_MAX.
 * - DVS_RESOURCE_NOT_AVAILABLE, with a cause, if `start` is outside the space.
 * - DVS_OVERFLOW if the range would end past UINT64_MAX.
 * - DVS_INVALID_STATE_TRANSITION, with the range, if exactly this range is
 *   already allocated.
 * - DVS_RESOURCE_NOT_AVAILABLE, with a cause, if an address of the range is
 *   allocated, or outside the space.
 * - DVS_OVERFLOW if the range ends at UINT64_MAX, or if it fills only a part of its
 *   gap and at least 6,293,134,512 ranges are allocated.
 * - DVS_OUT_OF_MEMORY.
 */
dvs_status dvs_range_allocate_exact(dvs_address_allocator *allocator, uint64_t size,
                                    uint64_t alignment, uint64_t start, dvs_range *range,
                                    dvs_refusal *refusal) DVS_WARN_UNUSED;

/*
 * Allocates the range of `request`, and writes it to `range`. Free it with
 * dvs_range_free().
 *
 * DVS_FIRST allocates the lowest range in the window of the request, and
 * DVS_LAST the highest. DVS_EXACT allocates the range that starts at `start`, if
 * it lies in the window. A window that contains the space changes nothing.
 *
 * Errors, in order:
 * - DVS_INVALID_POLICY if the policy is not one of the constants.
 * - DVS_INVALID_SIZE if `size` is 0.
 * - DVS_INVALID_ALIGNMENT if `alignment` is not a power of two.
 * - DVS_UNALIGNED_ADDRESS if the start of DVS_EXACT is not a multiple of
 *   `alignment`.
 * - DVS_INVALID_RANGE, with the window, if `high` is below `low`, and is not 0.
 * - The other errors of dvs_range_allocate_first(), _last() or _exact(), in the
 *   same order. Addresses outside the window count as outside the space. So no
 *   range fits if the window and the space have no address in common.
 *
 * DVS_INVALID_STATE_TRANSITION is also returned if exactly the requested range
 * is allocated, starts in the window and ends past it. A window that ends before
 * UINT64_MAX avoids the DVS_OVERFLOW of a range that ends there.
 */
dvs_status dvs_range_allocate(dvs_address_allocator *allocator, const dvs_request *request,
                              dvs_range *range, dvs_refusal *refusal) DVS_WARN_UNUSED;

/*
 * Allocates a range for each of the `count` requests, in their order, and writes
 * them to the array `ranges` of `count` members. It allocates all of them or
 * none. Each range is the one that dvs_range_allocate() would allocate after the
 * requests before it. Each request can have a different window.
 *
 * Errors, in order:
 * - For the first request that is invalid for every allocator:
 *   DVS_INVALID_POLICY, DVS_INVALID_SIZE, DVS_INVALID_ALIGNMENT,
 *   DVS_UNALIGNED_ADDRESS or DVS_INVALID_RANGE.
 * - DVS_OUT_OF_MEMORY if memory for a list runs out.
 * - For the first request that fails: the error of dvs_range_allocate().
 */
dvs_status dvs_address_allocator_allocate_all(dvs_address_allocator *allocator,
                                              const dvs_request *requests, size_t count,
                                              dvs_range *ranges, size_t *failed,
                                              dvs_refusal *refusal) DVS_WARN_UNUSED;

/*
 * Writes to `range` the range that dvs_range_allocate() would allocate now, and changes
 * nothing. So a configuration can be checked before it is begun. It does not allocate memory.
 *
 * Errors: those of dvs_range_allocate() except DVS_OUT_OF_MEMORY, in the same order.
 */
dvs_status dvs_range_peek(const dvs_address_allocator *allocator, const dvs_request *request,
                          dvs_range *range, dvs_refusal *refusal) DVS_WARN_UNUSED;

/*
 * Writes to `conflict` why the range of a DVS_EXACT request is not free: the cause, the
 * requested range and the one that the cause names, as in a refusal. If the range is
 * free, the cause is DVS_CAUSE_NONE. For the other policies it is
 * DVS_CAUSE_OUTSIDE_SPACE if the window and the space have no address in common, and
 * otherwise DVS_CAUSE_NONE.
 *
 * Errors: those of dvs_range_allocate() from DVS_INVALID_POLICY to DVS_INVALID_RANGE.
 */
dvs_status dvs_range_conflict(const dvs_address_allocator *allocator, const dvs_request *request,
                              dvs_refusal *conflict) DVS_WARN_UNUSED;

/*
 * Frees an allocated range. It does not allocate memory.
 *
 * Errors, in order:
 * - DVS_INVALID_RANGE if `range` is not a valid range.
 * - DVS_RESOURCE_NOT_AVAILABLE if exactly this range is not allocated, with the cause
 *   of a request for it. A part of an allocated range cannot be freed.
 */
dvs_status dvs_range_free(dvs_address_allocator *allocator, dvs_range range, dvs_refusal *refusal);

/*
 * Moves an allocated range to the place of `request`, and writes the range there to
 * `moved`. A guest does this when it programs a BAR, and a monitor when it resizes one.
 * It frees `range` and allocates a range for the request, or changes nothing. So the
 * new range can overlap `range`.
 *
 * Errors, in order:
 * - Those of dvs_range_allocate() from DVS_INVALID_POLICY to DVS_INVALID_RANGE.
 * - DVS_INVALID_RANGE if `range` is not a valid range.
 * - DVS_RESOURCE_NOT_AVAILABLE if exactly this range is not allocated.
 * - The other errors of dvs_range_allocate() if `range` is free, in the same order. The
 *   refusal never names `range`.
 */
dvs_status dvs_range_move_request(dvs_address_allocator *allocator, dvs_range range,
                                  const dvs_request *request, dvs_range *moved,
                                  dvs_refusal *refusal) DVS_WARN_UNUSED;

/*
 * Moves an allocated range to `start`, and writes the range there to `moved`. This
 * is dvs_range_move_request() for as many addresses at `start`, at alignment 1 and
 * without a window. So it does not check the alignment and the window of the first
 * request.
 *
 * Errors, in order:
 * - DVS_INVALID_RANGE if `range` is not a valid range.
 * - DVS_RESOURCE_NOT_AVAILABLE if exactly this range is not allocated.
 * - DVS_OVERFLOW if `start` is UINT64_MAX.
 * - DVS_RESOURCE_NOT_AVAILABLE, with a cause, if `start` is outside the space.
 * - DVS_OVERFLOW if the new range would end past UINT64_MAX.
 * - DVS_INVALID_STATE_TRANSITION, with the new range, if exactly the new range is
 *   already allocated, and is not `range`.
 * - DVS_RESOURCE_NOT_AVAILABLE, with a cause, if an address of the new range is
 *   allocated to another range than `range`, or outside the space.
 * - DVS_OVERFLOW if the new range ends at UINT64_MAX, or if it fills only a part of
 *   its gap, and more than 6,293,134,512 ranges are allocated.
 * - DVS_OUT_OF_MEMORY.
 */
dvs_status dvs_range_move(dvs_address_allocator *allocator, dvs_range range, uint64_t start,
                          dvs_range *moved, dvs_refusal *refusal) DVS_WARN_UNUSED;

/*
 * Writes to `is_allocated` whether exactly this range is allocated.
 *
 * Errors: DVS_INVALID_RANGE if `range` is not a valid range.
 */
dvs_status dvs_range_is_allocated(const dvs_address_allocator *allocator, dvs_range range,
                                  bool *is_allocated, dvs_refusal *refusal) DVS_WARN_UNUSED;

/* Writes the number of allocated ranges to `count`, in constant time. Errors: DVS_NULL. */
dvs_status dvs_range_count(const dvs_address_allocator *allocator, uint64_t *count) DVS_WARN_UNUSED;

/*
 * Writes the allocated range that contains the address to `range`.
 *
 * Errors: DVS_RESOURCE_NOT_AVAILABLE if no allocated range contains it.
 */
dvs_status dvs_range_at(const dvs_address_allocator *allocator, uint64_t address,
                        dvs_range *range) DVS_WARN_UNUSED;

/*
 * Writes the gap that contains the address to `gap`. A gap is a run of free
 * addresses with no free address next to it.
 *
 * Errors: DVS_RESOURCE_NOT_AVAILABLE if the address is allocated or outside the
 * space.
 */
dvs_status dvs_gap_at(const dvs_address_allocator *allocator, uint64_t address,
                      dvs_range *gap) DVS_WARN_UNUSED;

/*
 * Writes the length of the longest gap to `length`, or 0 if there is none. For a
 * request at alignment 1 without a window, DVS_FIRST and DVS_LAST return
 * DVS_RESOURCE_NOT_AVAILABLE if and only if its size is more than this length.
 * Errors: DVS_NULL.
 */
dvs_status dvs_longest_gap(const dvs_address_allocator *allocator,
                           uint64_t *length) DVS_WARN_UNUSED;

/* Writes the number of gaps to `count`, in constant time. Errors: DVS_NULL. */
dvs_status dvs_gap_count(const dvs_address_allocator *allocator, uint64_t *count) DVS_WARN_UNUSED;

/* Writes the number of free addresses to `length`, in constant time. Errors: DVS_NULL. */
dvs_status dvs_free_length(const dvs_address_allocator *allocator,
                           uint64_t *length) DVS_WARN_UNUSED;

/*
 * Writes the allocated ranges that have an address at or above `from` to the array `ranges`
 * of `capacity` members, in ascending order, and their number to `count`. Each of them is
 * written whole. If `count` is less than `capacity`, there are no more. It does not allocate
 * memory. `ranges` can be null if `capacity` is 0. This prints all ranges:
 *
 *     static void print_ranges(const dvs_address_allocator *mmio) {
 *         dvs_range ranges[64];
 *         uint64_t from = 0;
 *         size_t count, i;
 *
 *         do {
 *             if (dvs_range_list(mmio, from, ranges, 64, &count) != DVS_OK)
 *                 return;
 *             for (i = 0; i < count; i++) {
 *                 printf("%#jx\n", (uintmax_t)ranges[i].start);
 *                 from = ranges[i].end + 1;
 *             }
 *         } while (count == 64);
 *     }
 *
 * To go through the ranges and the gaps one by one, call dvs_range_at() and dvs_gap_at()
 * with the first address of the space. Then call them with `range.end + 1`, up to its end.
 * Errors: DVS_NULL.
 */
dvs_status dvs_range_list(const dvs_address_allocator *allocator, uint64_t from, dvs_range *ranges,
                          size_t capacity, size_t *count) DVS_WARN_UNUSED;

/*
 * Writes the gaps that have an address at or above `from`, like dvs_range_list(). Only a gap
 * can end at UINT64_MAX, and is the last one then. Errors: DVS_NULL.
 */
dvs_status dvs_gap_list(const dvs_address_allocator *allocator, uint64_t from, dvs_range *gaps,
                        size_t capacity, size_t *count) DVS_WARN_UNUSED;

/*
 * The function that a visit calls for each range, with its `context`. It returns
 * 0 to continue the visit and any other number to end it.
 *
 * The function must return. The process ends with abort() if a C++ exception
 * leaves it, if it calls pthread_exit(), or if its thread is cancelled in it.
 * It must not leave by longjmp(), or by a panic or an exception of another language
 * that its caller recovers from, because the object would stay busy. Catch it in the
 * function, end the visit, and throw it again after the visit.
 */
typedef int dvs_range_visitor(void *context, dvs_range range);

/*
 * Calls `visitor` with each allocated range, in ascending order. `context` can
 * be null. It does not allocate memory.
 *
 * During the visit, calls that would change or destroy the allocator return
 * DVS_BUSY. Calls that take a pointer to const are allowed. This frees the lowest
 * range after the visit:
 *
 *     static int keep_first(void *context, dvs_range range) {
 *         *(dvs_range *)context = range;
 *         return 1;
 *     }
 *
 *     dvs_range lowest = {1, 0};
 *
 *     if (dvs_range_visit(mmio, keep_first, &lowest) == DVS_OK && lowest.start <= lowest.end)
 *         dvs_range_free(mmio, lowest, NULL);
 *
 * Returns DVS_OK even if the visitor ended the visit. Errors: DVS_NULL.
 */
dvs_status dvs_range_visit(const dvs_address_allocator *allocator, dvs_range_visitor *visitor,
                           void *context);

/* Visits the gaps like dvs_range_visit() visits the allocated ranges. */
dvs_status dvs_gap_visit(const dvs_address_allocator *allocator, dvs_range_visitor *visitor,
                         void *context);

/*
 * Visits the allocated ranges that have an address in common with `within`, like
 * dvs_range_visit(). Each of them is passed whole. They are the ranges that are in
 * the way of a request for exactly `within`.
 *
 * Errors: DVS_INVALID_RANGE if `within` is not a valid range.
 */
dvs_status dvs_range_visit_in(const dvs_address_allocator *allocator, dvs_range within,
                              dvs_range_visitor *visitor, void *context, dvs_refusal *refusal);

/* Visits the gaps that have an address in common with `within`, like dvs_range_visit_in(). */
dvs_status dvs_gap_visit_in(const dvs_address_allocator *allocator, dvs_range within,
                            dvs_range_visitor *visitor, void *context, dvs_refusal *refusal);

/*
 * Visits the allocated ranges that have an address at or above `address`, like
 * dvs_range_visit(). Each of them is passed whole. So the first one contains
 * `address` or is the next one above it.
 */
dvs_status dvs_range_visit_from(const dvs_address_allocator *allocator, uint64_t address,
                                dvs_range_visitor *visitor, void *context);

/*
 * Visits the allocated ranges that have an address at or below `address`, in
 * descending order, like dvs_range_visit(). Each of them is passed whole. So the
 * first one contains `address` or is the next one below it.
 */
dvs_status dvs_range_visit_back(const dvs_address_allocator *allocator, uint64_t address,
                                dvs_range_visitor *visitor, void *context);

/* Visits the gaps like dvs_range_visit_from() visits the allocated ranges. */
dvs_status dvs_gap_visit_from(const dvs_address_allocator *allocator, uint64_t address,
                              dvs_range_visitor *visitor, void *context);

/* Visits the gaps like dvs_range_visit_back() visits the allocated ranges. */
dvs_status dvs_gap_visit_back(const dvs_address_allocator *allocator, uint64_t address,
                              dvs_range_visitor *visitor, void *context);

/*
 * Creates a copy of the allocator, with the same allocated ranges. Destroy it with
 * dvs_address_allocator_destroy().
 *
 * Errors: DVS_OUT_OF_MEMORY.
 */
dvs_status dvs_address_allocator_copy(const dvs_address_allocator *allocator,
                                      dvs_address_allocator **copied) DVS_WARN_UNUSED;

/*
 * Writes to `are_equal` whether both allocators have the same space and the same
 * allocated ranges. It does not allocate memory. Errors: DVS_NULL.
 */
dvs_status dvs_address_allocator_equal(const dvs_address_allocator *one,
                                       const dvs_address_allocator *other,
                                       bool *are_equal) DVS_WARN_UNUSED;

/*
 * Saves the allocator as JSON. Writes the text to `text` and its length in
 * bytes, without the terminating zero, to `length`. Free the text with
 * dvs_text_destroy().
 *
 * Errors: DVS_OUT_OF_MEMORY.
 */
dvs_status dvs_address_allocator_save(const dvs_address_allocator *allocator, char **text,
                                      size_t *length) DVS_WARN_UNUSED;

/*
 * Creates the allocator that the `length` bytes of `text` encode. They need no
 * terminating zero, and can be untrusted. Destroy the allocator with
 * dvs_address_allocator_destroy().
 *
 * Proved code decides whether the nodes, ids and devices of a text are valid. The
 * code that reads JSON and passes them on is tested.
 *
 * Errors, in order:
 * - DVS_NOT_JSON if the text is not JSON.
 * - DVS_NOT_A_STATE if a field is missing, duplicate or unknown, or the values
 *   are not those of an allocator.
 * - DVS_OUT_OF_MEMORY. It can also come first, while the text is read.
 */
dvs_status dvs_address_allocator_read(const char *text, size_t length,
                                      dvs_address_allocator **allocator) DVS_WARN_UNUSED;

/*
 * Reads like dvs_address_allocator_read(), within `limits`, which can be null.
 *
 *     const dvs_text_limits limits = {.length = 1 << 20, .depth = 64};
 *     dvs_text_fault fault;
 *
 *     if (dvs_address_allocator_read_within(text, length, &limits, &mmio, &fault) != DVS_OK)
 *         fprintf(stderr, "byte %zu: %s\n", fault.offset, fault.reason ? fault.reason : "");
 *
 * Errors: DVS_LIMIT_EXCEEDED if the text is longer than the limit. Otherwise
 * those of dvs_address_allocator_read(), with DVS_LIMIT_EXCEEDED instead of
 * DVS_NOT_JSON if the text first exceeds the limit of nesting.
 */
dvs_status dvs_address_allocator_read_within(const char *text, size_t length,
                                             const dvs_text_limits *limits,
                                             dvs_address_allocator **allocator,
                                             dvs_text_fault *fault) DVS_WARN_UNUSED;

/*
 * Reads like dvs_address_allocator_read(), and also accepts what the crate
 * vm-allocator 0.1.4 wrote after one of its bugs. The ranges that the text
 * marks as allocated are allocated, and all other addresses are free.
 *
 * DVS_NOT_A_STATE is returned if a field is missing, duplicate or unknown, or
 * - the ranges are not in ascending order, overlap or leave the space;
 * - an allocated range ends at UINT64_MAX;
 * - a path from the root of the tree has more than 50 nodes.
 */
dvs_status dvs_address_allocator_read_repaired(const char *text, size_t length,
                                               dvs_address_allocator **allocator) DVS_WARN_UNUSED;

/* Reads like dvs_address_allocator_read_repaired() and dvs_address_allocator_read_within(). */
dvs_status dvs_address_allocator_read_repaired_within(const char *text, size_t length,
                                                      const dvs_text_limits *limits,
                                                      dvs_address_allocator **allocator,
                                                      dvs_text_fault *fault) DVS_WARN_UNUSED;

/* ---- Ids ---- */

/*
 * Creates an allocator for the ids from `first` to `last`, both included, all
 * of them free. Destroy it with dvs_id_allocator_destroy().
 *
 * Errors, in order:
 * - DVS_INVALID_RANGE, with both ids, if `last` is less than `first`.
 * - DVS_OUT_OF_MEMORY.
 */
dvs_status dvs_id_allocator_new(uint32_t first, uint32_t last, dvs_id_allocator **allocator,
                                dvs_refusal *refusal) DVS_WARN_UNUSED;

/*
 * Creates an allocator for the ids from `first` to `last`, both included, with
 * the `count` ids of `held` allocated. They must be in ascending order. The
 * array can be null if `count` is 0. It takes memory for each run of ids that
 * they skip, however long the run is. These ids skip a run, from 33 to 238:
 *
 *     const uint32_t held[] = {32, 239};
 *
 * Errors, in order:
 * - DVS_INVALID_RANGE, with both ids, if `last` is less than `first`.
 * - For the first id that is wrong:
 *   - DVS_OUT_OF_RANGE, with the id, if the id is outside the range.
 *   - DVS_RESOURCE_NOT_AVAILABLE, with the id, if the id is not greater than the id
 *     before it.
 * - DVS_OUT_OF_MEMORY.
 */
dvs_status dvs_id_allocator_with_held(uint32_t first, uint32_t last, const uint32_t *held,
                                      size_t count, dvs_id_allocator **allocator,
                                      dvs_refusal *refusal) DVS_WARN_UNUSED;

/* Destroys an allocator, with all its allocated ids, like dvs_address_allocator_destroy(). */
dvs_status dvs_id_allocator_destroy(dvs_id_allocator *allocator);

/* Writes the first and the last id of the range. Errors: DVS_NULL. */
dvs_status dvs_id_allocator_range(const dvs_id_allocator *allocator, uint32_t *first,
                                  uint32_t *last) DVS_WARN_UNUSED;

/*
 * Allocates the lowest free id and writes it to `id`. It does not allocate
 * memory.
 *
 * Errors, if all ids are allocated: DVS_OVERFLOW if the last id is UINT32_MAX,
 * and DVS_RESOURCE_NOT_AVAILABLE otherwise.
 */
dvs_status dvs_id_allocate(dvs_id_allocator *allocator, uint32_t *id) DVS_WARN_UNUSED;

/*
 * Allocates this id. Unused ids below it become freed ids, as if they had been
 * allocated and freed. They take one entry, however many they are. Memory is
 * allocated only if there are some, or if the ids right below and right above the
 * id are both freed ids.
 *
 * Errors, in order:
 * - DVS_OUT_OF_RANGE, with the id, if the id is outside the range.
 * - DVS_RESOURCE_NOT_AVAILABLE, with the id, if the id is already allocated.
 * - DVS_OUT_OF_MEMORY.
 */
dvs_status dvs_id_allocate_exact(dvs_id_allocator *allocator, uint32_t id,
                                 dvs_refusal *refusal) DVS_WARN_UNUSED;

/*
 * Allocates the lowest free id from `first` to `last`, both included, as
 * dvs_id_allocate_exact() does, and writes it to `id`.
 *
 * Errors, in order:
 * - DVS_INVALID_RANGE, with both ids, if `last` is less than `first`.
 * - DVS_RESOURCE_NOT_AVAILABLE if no id from `first` to `last` is in the range and free.
 * - DVS_OUT_OF_MEMORY.
 */
dvs_status dvs_id_allocate_in(dvs_id_allocator *allocator, uint32_t first, uint32_t last,
                              uint32_t *id, dvs_refusal *refusal) DVS_WARN_UNUSED;

/*
 * Allocates the `count` lowest free ids, or none, and writes them to `ids` in
 * ascending order. The array can be null if `count` is 0.
 *
 * Errors, in order:
 * - DVS_OVERFLOW if fewer than `count` ids are free and the range ends at UINT32_MAX.
 * - DVS_RESOURCE_NOT_AVAILABLE if fewer than `count` ids are free and the range ends below
 *   UINT32_MAX.
 * - DVS_OUT_OF_MEMORY.
 */
dvs_status dvs_ids_allocate(dvs_id_allocator *allocator, uint32_t *ids,
                            size_t count) DVS_WARN_UNUSED;

/*
 * Writes the id that dvs_id_allocate() would allocate, without allocating it. It has the
 * same errors.
 */
dvs_status dvs_id_peek(const dvs_id_allocator *allocator, uint32_t *id) DVS_WARN_UNUSED;

/*
 * Frees an allocated id.
 *
 * Errors, in order, each with the id:
 * - DVS_OUT_OF_RANGE if the id is outside the range.
 * - DVS_NEVER_ALLOCATED if the id was never allocated.
 * - DVS_ALREADY_RELEASED if the id is already freed.
 * - DVS_OUT_OF_MEMORY, without an id.
 */
dvs_status dvs_id_free(dvs_id_allocator *allocator, uint32_t id, dvs_refusal *refusal);

/*
 * Writes to `is_allocated` whether the id is allocated. An id outside the range is
 * not. Errors: DVS_NULL.
 */
dvs_status dvs_id_is_allocated(const dvs_id_allocator *allocator, uint32_t id,
                               bool *is_allocated) DVS_WARN_UNUSED;

/* Writes the number of allocated ids to `count`. Errors: DVS_NULL. */
dvs_status dvs_id_count(const dvs_id_allocator *allocator, uint64_t *count) DVS_WARN_UNUSED;

/* Writes the number of free ids to `count`. Errors: DVS_NULL. */
dvs_status dvs_id_free_count(const dvs_id_allocator *allocator, uint64_t *count) DVS_WARN_UNUSED;

/*
 * Writes the allocated ids at or above `from` to the array `ids`, like dvs_range_list(). After
 * the id UINT32_MAX there are no more. Errors: DVS_NULL.
 */
dvs_status dvs_id_list(const dvs_id_allocator *allocator, uint32_t from, uint32_t *ids,
                       size_t capacity, size_t *count) DVS_WARN_UNUSED;

/* The function that dvs_id_visit() calls for each id. It has the rules of dvs_range_visitor. */
typedef int dvs_id_visitor(void *context, uint32_t id);

/* Visits the allocated ids in ascending order, like dvs_range_visit() visits ranges. */
dvs_status dvs_id_visit(const dvs_id_allocator *allocator, dvs_id_visitor *visitor, void *context);

/* Creates a copy of the allocator, like dvs_address_allocator_copy(). */
dvs_status dvs_id_allocator_copy(const dvs_id_allocator *allocator,
                                 dvs_id_allocator **copied) DVS_WARN_UNUSED;

/*
 * Writes to `are_equal` whether both allocators have the same range of ids, the same
 * allocated ids and the same freed ids. It does not allocate memory. Errors: DVS_NULL.
 */
dvs_status dvs_id_allocator_equal(const dvs_id_allocator *one, const dvs_id_allocator *other,
                                  bool *are_equal) DVS_WARN_UNUSED;

/* Saves like dvs_address_allocator_save(). */
dvs_status dvs_id_allocator_save(const dvs_id_allocator *allocator, char **text,
                                 size_t *length) DVS_WARN_UNUSED;

/* Reads like dvs_address_allocator_read(). */
dvs_status dvs_id_allocator_read(const char *text, size_t length,
                                 dvs_id_allocator **allocator) DVS_WARN_UNUSED;

/* Reads like dvs_address_allocator_read_within(). */
dvs_status dvs_id_allocator_read_within(const char *text, size_t length,
                                        const dvs_text_limits *limits, dvs_id_allocator **allocator,
                                        dvs_text_fault *fault) DVS_WARN_UNUSED;

/* ---- Devices ---- */

/*
 * Creates a manager without devices, for the ids from `first_id` to `last_id`,
 * both included, and the `size` addresses starting at `base`. Destroy it with
 * dvs_device_manager_destroy().
 *
 * Errors, in order:
 * - DVS_INVALID_RANGE, with both ids, if `last_id` is less than `first_id`.
 * - DVS_UNDERFLOW if `size` is 0.
 * - DVS_OVERFLOW if the last address would be past UINT64_MAX.
 * - DVS_OUT_OF_MEMORY.
 */
dvs_status dvs_device_manager_new(uint32_t first_id, uint32_t last_id, uint64_t base, uint64_t size,
                                  dvs_device_manager **manager,
                                  dvs_refusal *refusal) DVS_WARN_UNUSED;

/* Destroys a manager, with all its devices, like dvs_address_allocator_destroy(). */
dvs_status dvs_device_manager_destroy(dvs_device_manager *manager);

/* Writes the first and the last address of the space to `space`. Errors: DVS_NULL. */
dvs_status dvs_device_manager_space(const dvs_device_manager *manager,
                                    dvs_range *space) DVS_WARN_UNUSED;

/* Writes the first and the last id for devices. Errors: DVS_NULL. */
dvs_status dvs_device_manager_ids(const dvs_device_manager *manager, uint32_t *first,
                                  uint32_t *last) DVS_WARN_UNUSED;

/*
 * Allocates the lowest free id and the range of dvs_range_allocate_first() for a
 * new device, and writes both to `device`. Release the device with
 * dvs_device_release().
 *
 * Errors, in order: those of dvs_id_allocate(), then those of
 * dvs_range_allocate_first().
 */
dvs_status dvs_device_reserve_first(dvs_device_manager *manager, uint64_t size, uint64_t alignment,
                                    dvs_device *device, dvs_refusal *refusal) DVS_WARN_UNUSED;

/* Reserves a device like dvs_device_reserve_first(), with the range of dvs_range_allocate_last().
 */
dvs_status dvs_device_reserve_last(dvs_device_manager *manager, uint64_t size, uint64_t alignment,
                                   dvs_device *device, dvs_refusal *refusal) DVS_WARN_UNUSED;

/* Reserves a device like dvs_device_reserve_first(), with the range of dvs_range_allocate_exact().
 */
dvs_status dvs_device_reserve_exact(dvs_device_manager *manager, uint64_t size, uint64_t alignment,
                                    uint64_t start, dvs_device *device,
                                    dvs_refusal *refusal) DVS_WARN_UNUSED;

/*
 * Reserves a device like dvs_device_reserve_first(), with the range of
 * dvs_range_allocate(). But the errors of an invalid request precede those of the
 * id.
 *
 * Errors, in order:
 * - Those of dvs_range_allocate() from DVS_INVALID_POLICY to DVS_INVALID_RANGE.
 * - Those of dvs_id_allocate().
 * - The other errors of dvs_range_allocate(), in the same order.
 */
dvs_status dvs_device_reserve(dvs_device_manager *manager, const dvs_request *request,
                              dvs_device *device, dvs_refusal *refusal) DVS_WARN_UNUSED;

/*
 * Reserves a device like dvs_device_reserve(), with the lowest free id from
 * `first_id` to `last_id`, both included: exactly this id if both are equal.
 *
 * A saved text lists each free id below the highest one that was ever allocated. So it
 * can be too long for the memory after a reservation of a high id.
 *
 * Errors: those of dvs_device_reserve(), with those of dvs_id_allocate_in() instead
 * of those of dvs_id_allocate().
 */
dvs_status dvs_device_reserve_with_id(dvs_device_manager *manager, uint32_t first_id,
                                      uint32_t last_id, const dvs_request *request,
                                      dvs_device *device, dvs_refusal *refusal) DVS_WARN_UNUSED;

/*
 * Moves the device with this id to the place of a request, and writes its range there
 * to `range`. It keeps its id. The range can overlap the one before.
 *
 * Errors, in order:
 * - Those of dvs_range_allocate() from DVS_INVALID_POLICY to DVS_INVALID_RANGE.
 * - DVS_NEVER_ALLOCATED, with the id, if no device has it.
 * - The other errors of dvs_range_move_request(), in the same order.
 */
dvs_status dvs_device_move(dvs_device_manager *manager, uint32_t id, const dvs_request *request,
                           dvs_range *range, dvs_refusal *refusal) DVS_WARN_UNUSED;

/*
 * Writes to `conflict` why the range of a DVS_EXACT request is not free, like
 * dvs_range_conflict(). The ids do not matter.
 */
dvs_status dvs_device_conflict(const dvs_device_manager *manager, const dvs_request *request,
                               dvs_refusal *conflict) DVS_WARN_UNUSED;

/*
 * Releases a device: frees its id and its range.
 *
 * Errors, in order: DVS_NEVER_ALLOCATED, with the id, if no device has it, and
 * DVS_OUT_OF_MEMORY.
 */
dvs_status dvs_device_release(dvs_device_manager *manager, uint32_t id, dvs_refusal *refusal);

/*
 * Writes the range of the device with this id to `range`.
 *
 * Errors: DVS_NEVER_ALLOCATED, with the id, if no device has it.
 */
dvs_status dvs_device_slot(const dvs_device_manager *manager, uint32_t id, dvs_range *range,
                           dvs_refusal *refusal) DVS_WARN_UNUSED;

/*
 * Writes the device whose range contains the address to `device`.
 *
 * Errors: DVS_RESOURCE_NOT_AVAILABLE if there is none.
 */
dvs_status dvs_device_at(const dvs_device_manager *manager, uint64_t address,
                         dvs_device *device) DVS_WARN_UNUSED;

/* Writes the number of devices to `count`. Errors: DVS_NULL. */
dvs_status dvs_device_count(const dvs_device_manager *manager, uint64_t *count) DVS_WARN_UNUSED;

/*
 * Writes the devices with ids at or above `from` to the array `devices`, in ascending order of
 * ids, like dvs_id_list(). Errors: DVS_NULL.
 */
dvs_status dvs_device_list(const dvs_device_manager *manager, uint32_t from, dvs_device *devices,
                           size_t capacity, size_t *count) DVS_WARN_UNUSED;

/* The function that dvs_device_visit() calls for each device. It has the rules of
 * dvs_range_visitor. */
typedef int dvs_device_visitor(void *context, dvs_device device);

/* Visits the devices in ascending order of ids, like dvs_range_visit() visits ranges. */
dvs_status dvs_device_visit(const dvs_device_manager *manager, dvs_device_visitor *visitor,
                            void *context);

/* Creates a copy of the manager, like dvs_address_allocator_copy(). */
dvs_status dvs_device_manager_copy(const dvs_device_manager *manager,
                                   dvs_device_manager **copied) DVS_WARN_UNUSED;

/*
 * Creates a copy of the manager's allocator of addresses, for the calls that read
 * one. An allocator inside a manager is no object, because a call could change it.
 * dvs_device_manager_space(), dvs_device_manager_ids() and dvs_device_conflict()
 * need no copy. Destroy it with dvs_address_allocator_destroy().
 *
 *     if (dvs_device_manager_copy_addresses(bus, &copied) == DVS_OK) {
 *         status = dvs_longest_gap(copied, &length);
 *         dvs_address_allocator_destroy(copied);
 *     }
 *
 * Errors: DVS_NULL, DVS_OUT_OF_MEMORY.
 */
dvs_status dvs_device_manager_copy_addresses(const dvs_device_manager *manager,
                                             dvs_address_allocator **copied) DVS_WARN_UNUSED;

/* Creates a copy of the manager's allocator of ids, like dvs_device_manager_copy_addresses(). */
dvs_status dvs_device_manager_copy_ids(const dvs_device_manager *manager,
                                       dvs_id_allocator **copied) DVS_WARN_UNUSED;

/*
 * Writes to `are_equal` whether both managers have the same space, the same devices
 * and ids that dvs_id_allocator_equal() finds equal. It does not allocate memory.
 * Errors: DVS_NULL.
 */
dvs_status dvs_device_manager_equal(const dvs_device_manager *one, const dvs_device_manager *other,
                                    bool *are_equal) DVS_WARN_UNUSED;

/* Saves like dvs_address_allocator_save(). */
dvs_status dvs_device_manager_save(const dvs_device_manager *manager, char **text,
                                   size_t *length) DVS_WARN_UNUSED;

/* Reads like dvs_address_allocator_read(). */
dvs_status dvs_device_manager_read(const char *text, size_t length,
                                   dvs_device_manager **manager) DVS_WARN_UNUSED;

/* Reads like dvs_address_allocator_read_within(). */
dvs_status dvs_device_manager_read_within(const char *text, size_t length,
                                          const dvs_text_limits *limits,
                                          dvs_device_manager **manager,
                                          dvs_text_fault *fault) DVS_WARN_UNUSED;

/* ---- Maps from ranges to values ---- */

/*
 * Creates a map of the `size` addresses starting at `base`, all of them free. Destroy it
 * with dvs_range_map_destroy().
 *
 * Errors, in order:
 * - DVS_UNDERFLOW if `size` is 0.
 * - DVS_OVERFLOW if the last address would be past UINT64_MAX.
 * - DVS_OUT_OF_MEMORY.
 */
dvs_status dvs_range_map_new(uint64_t base, uint64_t size, dvs_range_map **map) DVS_WARN_UNUSED;

/*
 * Creates a map like dvs_range_map_new(), in which the `count` ranges of `held` are allocated
 * with their values. They must be in ascending order. `held` can be null if `count` is 0.
 *
 * Errors: those of dvs_address_allocator_with_held(), in the same order.
 */
dvs_status dvs_range_map_with_held(uint64_t base, uint64_t size, const dvs_valued_range *held,
                                   size_t count, dvs_range_map **map, size_t *failed,
                                   dvs_refusal *refusal) DVS_WARN_UNUSED;

/*
 * Destroys a map, with all its allocated ranges, like dvs_address_allocator_destroy(). If
 * values are pointers, visit the map first to free what they point to:
 *
 *     static int free_value(void *context, dvs_valued_range found) {
 *         (void)context;
 *         free((void *)(uintptr_t)found.value);
 *         return 0;
 *     }
 *
 *     if (dvs_range_map_visit(map, free_value, NULL) == DVS_OK)
 *         dvs_range_map_destroy(map);
 */
dvs_status dvs_range_map_destroy(dvs_range_map *map);

/* Writes the first and the last address of the space to `space`. Errors: DVS_NULL. */
dvs_status dvs_range_map_space(const dvs_range_map *map, dvs_range *space) DVS_WARN_UNUSED;

/*
 * Allocates the range of `request` like dvs_range_allocate(), with the same errors. It
 * keeps `value` with the range, which is any number, such as a pointer as a uintptr_t. Free
 * the range with dvs_range_map_free().
 *
 *     status = dvs_range_map_allocate(map, (uintptr_t)disk, &request, &range, NULL);
 */
dvs_status dvs_range_map_allocate(dvs_range_map *map, uint64_t value, const dvs_request *request,
                                  dvs_range *range, dvs_refusal *refusal) DVS_WARN_UNUSED;

/*
 * Allocates a range for each of the `count` requests, or none, like
 * dvs_address_allocator_allocate_all(), with the same errors. The range of a request keeps
 * the value with the same index in the array `values`.
 */
dvs_status dvs_range_map_allocate_all(dvs_range_map *map, const dvs_request *requests,
                                      const uint64_t *values, size_t count, dvs_range *ranges,
                                      size_t *failed, dvs_refusal *refusal) DVS_WARN_UNUSED;

/*
 * Frees an allocated range, and writes its value to `value`. It does not allocate memory.
 *
 * Errors, in order:
 * - DVS_INVALID_RANGE if `range` is not a valid range.
 * - DVS_RESOURCE_NOT_AVAILABLE if exactly this range is not allocated, with the cause
 *   of a request for it.
 */
dvs_status dvs_range_map_free(dvs_range_map *map, dvs_range range, uint64_t *value,
                              dvs_refusal *refusal) DVS_WARN_UNUSED;

/*
 * Moves an allocated range like dvs_range_move_request(), with the same errors. The range
 * keeps its value.
 */
dvs_status dvs_range_map_move(dvs_range_map *map, dvs_range range, const dvs_request *request,
                              dvs_range *moved, dvs_refusal *refusal) DVS_WARN_UNUSED;

/* Writes to `conflict` why the range of a DVS_EXACT request is not free, like
 * dvs_range_conflict(). */
dvs_status dvs_range_map_conflict(const dvs_range_map *map, const dvs_request *request,
                                  dvs_refusal *conflict) DVS_WARN_UNUSED;

/*
 * Writes to `conflict` why the range of a DVS_EXACT request is not free if `range` is free, like
 * dvs_range_conflict(). So `range` is never in the way. If exactly `range` is not allocated, the
 * cause is DVS_CAUSE_NONE.
 *
 * Errors, in order:
 * - Those of dvs_range_conflict().
 * - DVS_INVALID_RANGE if `range` is not a valid range.
 */
dvs_status dvs_range_map_move_conflict(const dvs_range_map *map, dvs_range range,
                                       const dvs_request *request,
                                       dvs_refusal *conflict) DVS_WARN_UNUSED;

/*
 * Writes the allocated range that contains the address, and its value, to `found`.
 *
 * Errors: DVS_RESOURCE_NOT_AVAILABLE if no allocated range contains it.
 */
dvs_status dvs_range_map_get(const dvs_range_map *map, uint64_t address,
                             dvs_valued_range *found) DVS_WARN_UNUSED;

/*
 * Replaces the value of the allocated range that contains the address, and writes the value
 * before to `before`. It does not allocate memory.
 *
 * Errors: DVS_RESOURCE_NOT_AVAILABLE if no allocated range contains it.
 */
dvs_status dvs_range_map_set(dvs_range_map *map, uint64_t address, uint64_t value,
                             uint64_t *before) DVS_WARN_UNUSED;

/* Writes the number of allocated ranges to `count`, in constant time. Errors: DVS_NULL. */
dvs_status dvs_range_map_count(const dvs_range_map *map, uint64_t *count) DVS_WARN_UNUSED;

/*
 * Writes the allocated ranges that have an address at or above `from` with their values, like
 * dvs_range_list(). It looks up each value. Errors: DVS_NULL.
 */
dvs_status dvs_range_map_list(const dvs_range_map *map, uint64_t from, dvs_valued_range *ranges,
                              size_t capacity, size_t *count) DVS_WARN_UNUSED;

/* Writes the gaps that have an address at or above `from`, like dvs_gap_list(). */
dvs_status dvs_range_map_gap_list(const dvs_range_map *map, uint64_t from, dvs_range *gaps,
                                  size_t capacity, size_t *count) DVS_WARN_UNUSED;

/* The function that dvs_range_map_visit() calls for each range. It has the rules of
 * dvs_range_visitor. */
typedef int dvs_valued_range_visitor(void *context, dvs_valued_range found);

/* Visits the allocated ranges with their values in ascending order, like dvs_range_visit(). */
dvs_status dvs_range_map_visit(const dvs_range_map *map, dvs_valued_range_visitor *visitor,
                               void *context);

/*
 * Visits the allocated ranges that have an address in common with `within`, with their values,
 * like dvs_range_visit_in(). It looks up each value.
 *
 * Errors: DVS_INVALID_RANGE if `within` is not a valid range.
 */
dvs_status dvs_range_map_visit_in(const dvs_range_map *map, dvs_range within,
                                  dvs_valued_range_visitor *visitor, void *context,
                                  dvs_refusal *refusal);

/* Visits the allocated ranges from an address upwards, like dvs_range_visit_from(). */
dvs_status dvs_range_map_visit_from(const dvs_range_map *map, uint64_t address,
                                    dvs_valued_range_visitor *visitor, void *context);

/* Visits the allocated ranges back from an address, like dvs_range_visit_back(). */
dvs_status dvs_range_map_visit_back(const dvs_range_map *map, uint64_t address,
                                    dvs_valued_range_visitor *visitor, void *context);

/* Visits the gaps like dvs_gap_visit(). */
dvs_status dvs_range_map_gap_visit(const dvs_range_map *map, dvs_range_visitor *visitor,
                                   void *context);

/* Creates a copy of the map, like dvs_address_allocator_copy(). */
dvs_status dvs_range_map_copy(const dvs_range_map *map, dvs_range_map **copied) DVS_WARN_UNUSED;

/*
 * Writes to `are_equal` whether both maps have the same space and the same allocated ranges
 * with the same values. It does not allocate memory. Errors: DVS_NULL.
 */
dvs_status dvs_range_map_equal(const dvs_range_map *one, const dvs_range_map *other,
                               bool *are_equal) DVS_WARN_UNUSED;

/* ---- Texts ---- */

/* Frees a saved text, which must not have been changed. It does nothing if the pointer is null. */
void dvs_text_destroy(char *text);

#ifdef __cplusplus
}
#endif

#endif
