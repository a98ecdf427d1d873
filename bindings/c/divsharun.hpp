/* SPDX-License-Identifier: Apache-2.0 OR BSD-3-Clause */
/*
 * The calls of divsharun.h for C++11: owners that destroy their object, requests,
 * statuses as std::error_code, and lists: copied to a vector, passed to a function,
 * or in a range-based for.
 *
 * A method has the rules of its call. It returns the code of the status, which
 * converts to false for DVS_OK, and the compiler warns if the code is ignored.
 * Only methods that fill a vector or a string, or call a function of the caller, can
 * throw. The code of DVS_OUT_OF_MEMORY equals std::errc::not_enough_memory.
 */
#ifndef DIVSHARUN_HPP
#define DIVSHARUN_HPP

#include "divsharun.h"

#include <cstddef>
#include <cstring>
#include <exception>
#include <iterator>
#include <memory>
#include <string>
#include <system_error>
#include <utility>
#include <vector>

/* The compiler reports an error that is ignored. */
#ifdef __clang__
#define DVS_MUST_CHECK __attribute__((warn_unused_result))
#else
#define DVS_MUST_CHECK [[nodiscard]]
#endif

namespace dvs {

class status_category final : public std::error_category {
  public:
    const char *name() const noexcept override { return "divsharun"; }
    std::string message(int status) const override {
        return dvs_status_text(static_cast<dvs_status>(status));
    }
    std::error_condition default_error_condition(int status) const noexcept override {
        if (status == DVS_OUT_OF_MEMORY)
            return std::errc::not_enough_memory;
        return {status, *this};
    }
};

inline const std::error_category &category() noexcept {
    static const status_category only;
    return only;
}

/*
 * The code of a status, which converts to it. It can be compared with a status, as in
 * `failure == DVS_OVERFLOW`.
 */
class DVS_MUST_CHECK error : public std::error_code {
  public:
    error(dvs_status status = DVS_OK) noexcept
        : std::error_code(static_cast<int>(status), dvs::category()) {}

    /* The name of the status, such as "DVS_OVERFLOW". */
    const char *name() const noexcept { return dvs_status_name(static_cast<dvs_status>(value())); }

    friend bool operator==(const error &code, dvs_status status) noexcept {
        return code.value() == static_cast<int>(status);
    }
    friend bool operator!=(const error &code, dvs_status status) noexcept {
        return !(code == status);
    }
};

/* Why a range is not available. */
enum class cause : uint32_t {
    none = DVS_CAUSE_NONE,
    allocated = DVS_CAUSE_ALLOCATED,
    outside_space = DVS_CAUSE_OUTSIDE_SPACE,
    outside_window = DVS_CAUSE_OUTSIDE_WINDOW,
    earlier_request = DVS_CAUSE_EARLIER_REQUEST,
    not_after = DVS_CAUSE_NOT_AFTER,
    ends_at_max = DVS_CAUSE_ENDS_AT_MAX,
    no_fit = DVS_CAUSE_NO_FIT
};

inline cause cause_of(const dvs_refusal &refusal) noexcept {
    return static_cast<cause>(refusal.cause);
}
inline const char *text_of(cause found) noexcept {
    return dvs_cause_text(static_cast<uint32_t>(found));
}
/* A line with the numbers of an error. */
inline std::string text_of(error code, const dvs_refusal &refusal) {
    char line[200];

    return std::string(
        line, dvs_refusal_text(static_cast<dvs_status>(code.value()), &refusal, line, sizeof line));
}

inline error range_from(uint64_t start, uint64_t length, dvs_range &range) noexcept {
    return dvs_range_from_start_length(start, length, &range);
}
inline error offset_of(dvs_range range, uint64_t address, uint64_t &offset) noexcept {
    return dvs_range_offset_of(range, address, &offset);
}

/* A text to read: a literal, a std::string, a std::string_view, or a pointer and a length. */
struct saved_text {
    const char *start;
    std::size_t length;

    saved_text(const char *text, std::size_t bytes) noexcept : start(text), length(bytes) {}
    saved_text(const char *text) noexcept : saved_text(text, std::strlen(text)) {}
    template <typename Text, typename = decltype(std::declval<const Text &>().data())>
    saved_text(const Text &text) noexcept : saved_text(text.data(), text.size()) {}
};

/*
 * Owns an object, and destroys it. It is empty until a method has created the object.
 *
 * A method that replaces the object returns DVS_BUSY, after every other error, during
 * a visit of the object. Then it changes nothing. A move assignment exchanges two
 * objects, so that none is lost. The destructor of an owner destroys nothing during a
 * visit of the object. So a visitor can call exit(), and the object lives on then.
 */
template <typename T, dvs_status (*Destroy)(T *), dvs_status (*Copy)(const T *, T **),
          dvs_status (*Equal)(const T *, const T *, bool *),
          dvs_status (*Save)(const T *, char **, std::size_t *),
          dvs_status (*Read)(const char *, std::size_t, const dvs_text_limits *, T **,
                             dvs_text_fault *),
          typename Item, dvs_status (*Visit)(const T *, int (*)(void *, Item), void *)>
class owner {
    T *object = nullptr;

  protected:
    using handle = T;

  public:
    owner() noexcept = default;
    owner(owner &&other) noexcept : object(other.detach()) {}
    owner &operator=(owner &&other) noexcept {
        std::swap(object, other.object);
        return *this;
    }
    ~owner() { Destroy(object); }
    T *get() const noexcept { return object; }
    explicit operator bool() const noexcept { return object != nullptr; }
    /* Takes over an object that a call of C created, and destroys the old one if it is another. */
    error adopt(T *made) noexcept {
        dvs_status status = DVS_OK;
        if (made != object)
            status = Destroy(object);
        if (status == DVS_OK)
            object = made;
        return status;
    }
    /* Returns the object, and leaves the owner empty. The caller must destroy the object. */
    T *detach() noexcept {
        T *detached = object;
        object = nullptr;
        return detached;
    }
    /* Replaces the object by a copy of another one. */
    error make_copy(const owner &other) noexcept {
        return create([&](T **out) { return Copy(other.object, out); });
    }
    error read(saved_text text, dvs_text_fault *fault = nullptr,
               const dvs_text_limits *limits = nullptr) noexcept {
        return read_by(Read, text, fault, limits);
    }
    error save(std::string &text) const {
        char *saved = nullptr;
        std::size_t length = 0;
        dvs_status status = Save(object, &saved, &length);
        std::unique_ptr<char, void (*)(char *)> owned(saved, dvs_text_destroy);
        if (status == DVS_OK)
            text.assign(saved, length);
        return status;
    }
    /* Calls `action` with each item, in ascending order, until it returns false. */
    template <typename Action> error for_each(Action action) const {
        return visit_by(Visit, std::move(action));
    }
    /* An empty owner equals only empty ones. */
    friend bool operator==(const owner &one, const owner &other) noexcept {
        bool are_equal = false;
        dvs_status status = Equal(one.object, other.object, &are_equal);
        return status == DVS_OK ? are_equal : one.object == other.object;
    }
    friend bool operator!=(const owner &one, const owner &other) noexcept {
        return !(one == other);
    }

  protected:
    /* Replaces the object by a new one, if the call that creates it succeeds. */
    template <typename Call> error create(Call call) noexcept {
        owner made;
        error failed = call(&made.object);
        if (!failed)
            failed = adopt(made.object);
        if (!failed)
            made.object = nullptr;
        return failed;
    }

    template <typename Call>
    error read_by(Call call, saved_text text, dvs_text_fault *fault,
                  const dvs_text_limits *limits) noexcept {
        return create([=](T **out) { return call(text.start, text.length, limits, out, fault); });
    }

    /* Calls `action` with each item until it returns false. An exception ends the visit. */
    template <typename One = Item, typename Call, typename Action, typename... Address>
    error visit_by(Call call, Action action, Address... address) const {
        struct visit {
            Action action;
            std::exception_ptr thrown;
            static int one(void *context, One item) {
                visit *self = static_cast<visit *>(context);
#ifdef __cpp_exceptions
                try {
                    return self->action(item) ? 0 : 1;
                } catch (...) {
                    self->thrown = std::current_exception();
                    return 1;
                }
#else
                return self->action(item) ? 0 : 1;
#endif
            }
        } all = {std::move(action), nullptr};
        dvs_status status = call(object, address..., visit::one, &all);
        if (all.thrown)
            std::rethrow_exception(all.thrown);
        return status;
    }

    /* Replaces `items` by the items of a visit. An error leaves them unchanged. */
    template <typename Call, typename One> error list_by(Call call, std::vector<One> &items) const {
        std::vector<One> found;
        error failed = visit_by<One>(call, [&](One item) { return found.push_back(item), true; });
        if (!failed)
            items = std::move(found);
        return failed;
    }

    /* The same for a visit of the items in a range. */
    template <typename Call>
    error list_in(Call call, dvs_range within, std::vector<Item> &items,
                  dvs_refusal *refusal) const {
        return list_by([=](const T *from, int (*visitor)(void *, Item),
                           void *context) { return call(from, within, visitor, context, refusal); },
                       items);
    }
};

/*
 * A request of C, which can be made and used in one line:
 *
 *     space.allocate(dvs::request::first(0x1000, 0x1000).within({0, UINT32_MAX}), bar);
 *
 * Without within() it has no window. A list of requests is a std::vector<dvs::request>.
 */
class request {
    dvs_request asked;

  public:
    request(const dvs_request &request_of_c) noexcept : asked(request_of_c) {}
    static request first(uint64_t size, uint64_t alignment) noexcept {
        return dvs_request{size, alignment, 0, DVS_FIRST, 0, 0};
    }
    static request last(uint64_t size, uint64_t alignment) noexcept {
        return dvs_request{size, alignment, 0, DVS_LAST, 0, 0};
    }
    static request exact(uint64_t size, uint64_t alignment, uint64_t start) noexcept {
        return dvs_request{size, alignment, start, DVS_EXACT, 0, 0};
    }
    /*
     * Returns this request with a window, which replaces the one that it had. The ends of the
     * window are the members `low` and `high` of a request of C.
     */
    request within(dvs_range window) const noexcept {
        request limited = *this;
        limited.asked.low = window.start;
        limited.asked.high = window.end;
        return limited;
    }
    const dvs_request &get() const noexcept { return asked; }
};

using space_owner =
    owner<dvs_address_allocator, dvs_address_allocator_destroy, dvs_address_allocator_copy,
          dvs_address_allocator_equal, dvs_address_allocator_save,
          dvs_address_allocator_read_within, dvs_range, dvs_range_visit>;

/*
 * The allocated ranges or the gaps from an address upwards, for a range-based for:
 *
 *     dvs::each_range ranges;
 *     if (!space.ranges_from(0, ranges))
 *         for (dvs_range range : ranges)
 *
 * It is an input iterator. A step makes one call, in logarithmic time. It does not
 * allocate memory, and cannot throw. The owner must exist during the loop, and the loop
 * can change or replace its object: the next item is the first one that has an address
 * above the last item. for_each() is faster if the allocator does not change.
 */
template <dvs_status (*Visit)(const dvs_address_allocator *, uint64_t, dvs_range_visitor *, void *)>
class each {
    const space_owner *visited = nullptr;
    /* At the end, its start is past its end. */
    dvs_range item = {1, 0};

    static int keep(void *context, dvs_range found) noexcept {
        *static_cast<dvs_range *>(context) = found;
        return 1;
    }

  public:
    using iterator_category = std::input_iterator_tag;
    using value_type = dvs_range;
    using difference_type = std::ptrdiff_t;
    using pointer = const dvs_range *;
    using reference = const dvs_range &;

    /* Begins at the first item that has an address at this one or above it. */
    error start(const space_owner &owner, uint64_t address) noexcept {
        each first;
        first.visited = &owner;
        error failed = Visit(owner.get(), address, keep, &first.item);
        if (!failed)
            *this = first;
        return failed;
    }
    each begin() const noexcept { return *this; }
    each end() const noexcept { return {}; }
    reference operator*() const noexcept { return item; }
    pointer operator->() const noexcept { return &item; }
    each &operator++() noexcept {
        uint64_t last = item.end;
        item = each().item;
        if (last < UINT64_MAX)
            Visit(visited->get(), last + 1, keep, &item);
        return *this;
    }
    each operator++(int) noexcept {
        each before = *this;
        ++*this;
        return before;
    }
    friend bool operator==(const each &one, const each &other) noexcept {
        return one.item.start == other.item.start && one.item.end == other.item.end;
    }
    friend bool operator!=(const each &one, const each &other) noexcept { return !(one == other); }
};
using each_range = each<dvs_range_visit_from>;
using each_gap = each<dvs_gap_visit_from>;

class address_allocator : public space_owner {
  public:
    error make(uint64_t base, uint64_t size) noexcept {
        return create([=](handle **out) { return dvs_address_allocator_new(base, size, out); });
    }
    /* Replaces the object by a copy of the allocator of a manager, for the calls that read one. */
    error make_copy_of(const dvs_device_manager *manager) noexcept {
        return create(
            [=](handle **out) { return dvs_device_manager_copy_addresses(manager, out); });
    }
    error make_with_held(uint64_t base, uint64_t size, const std::vector<dvs_range> &held,
                         std::size_t *failed = nullptr, dvs_refusal *refusal = nullptr) noexcept {
        return create([&](handle **out) {
            return dvs_address_allocator_with_held(base, size, held.data(), held.size(), out,
                                                   failed, refusal);
        });
    }
    error make_with_free(const std::vector<dvs_range> &ranges, std::size_t *failed = nullptr,
                         dvs_refusal *refusal = nullptr) noexcept {
        return create([&](handle **out) {
            return dvs_address_allocator_with_free(ranges.data(), ranges.size(), out, failed,
                                                   refusal);
        });
    }
    error read_repaired(saved_text text, dvs_text_fault *fault = nullptr,
                        const dvs_text_limits *limits = nullptr) noexcept {
        return read_by(dvs_address_allocator_read_repaired_within, text, fault, limits);
    }
    error allocate_first(uint64_t size, uint64_t alignment, dvs_range &range,
                         dvs_refusal *refusal = nullptr) noexcept {
        return dvs_range_allocate_first(get(), size, alignment, &range, refusal);
    }
    error allocate_last(uint64_t size, uint64_t alignment, dvs_range &range,
                        dvs_refusal *refusal = nullptr) noexcept {
        return dvs_range_allocate_last(get(), size, alignment, &range, refusal);
    }
    error allocate_exact(uint64_t size, uint64_t alignment, uint64_t start, dvs_range &range,
                         dvs_refusal *refusal = nullptr) noexcept {
        return dvs_range_allocate_exact(get(), size, alignment, start, &range, refusal);
    }
    error allocate(const request &asked, dvs_range &range,
                   dvs_refusal *refusal = nullptr) noexcept {
        return dvs_range_allocate(get(), &asked.get(), &range, refusal);
    }
    error allocate_all(const std::vector<request> &requests, std::vector<dvs_range> &ranges,
                       std::size_t *failed = nullptr, dvs_refusal *refusal = nullptr) {
        std::vector<dvs_request> all;
        std::vector<dvs_range> allocated(requests.size());
        for (const request &one : requests)
            all.push_back(one.get());
        error failure = dvs_address_allocator_allocate_all(get(), all.data(), all.size(),
                                                           allocated.data(), failed, refusal);
        if (!failure)
            ranges = std::move(allocated);
        return failure;
    }
    error free(dvs_range range, dvs_refusal *refusal = nullptr) noexcept {
        return dvs_range_free(get(), range, refusal);
    }
    error move_range(dvs_range range, uint64_t start, dvs_range &moved,
                     dvs_refusal *refusal = nullptr) noexcept {
        return dvs_range_move(get(), range, start, &moved, refusal);
    }
    error move_range(dvs_range range, const request &asked, dvs_range &moved,
                     dvs_refusal *refusal = nullptr) noexcept {
        return dvs_range_move_request(get(), range, &asked.get(), &moved, refusal);
    }
    error peek(const request &asked, dvs_range &range,
               dvs_refusal *refusal = nullptr) const noexcept {
        return dvs_range_peek(get(), &asked.get(), &range, refusal);
    }
    error conflict(const request &asked, dvs_refusal &found) const noexcept {
        return dvs_range_conflict(get(), &asked.get(), &found);
    }
    error space(dvs_range &space) const noexcept {
        return dvs_address_allocator_space(get(), &space);
    }
    error is_allocated(dvs_range range, bool &is_allocated,
                       dvs_refusal *refusal = nullptr) const noexcept {
        return dvs_range_is_allocated(get(), range, &is_allocated, refusal);
    }
    error at(uint64_t address, dvs_range &range) const noexcept {
        return dvs_range_at(get(), address, &range);
    }
    error gap_at(uint64_t address, dvs_range &gap) const noexcept {
        return dvs_gap_at(get(), address, &gap);
    }
    error longest_gap(uint64_t &length) const noexcept { return dvs_longest_gap(get(), &length); }
    error range_count(uint64_t &count) const noexcept { return dvs_range_count(get(), &count); }
    error gap_count(uint64_t &count) const noexcept { return dvs_gap_count(get(), &count); }
    error free_length(uint64_t &length) const noexcept { return dvs_free_length(get(), &length); }
    error list_ranges(uint64_t from, dvs_range *ranges, std::size_t capacity,
                      std::size_t &count) const noexcept {
        return dvs_range_list(get(), from, ranges, capacity, &count);
    }
    error list_gaps(uint64_t from, dvs_range *gaps, std::size_t capacity,
                    std::size_t &count) const noexcept {
        return dvs_gap_list(get(), from, gaps, capacity, &count);
    }
    error ranges(std::vector<dvs_range> &ranges) const { return list_by(dvs_range_visit, ranges); }
    error gaps(std::vector<dvs_range> &gaps) const { return list_by(dvs_gap_visit, gaps); }
    error ranges_in(dvs_range within, std::vector<dvs_range> &ranges,
                    dvs_refusal *refusal = nullptr) const {
        return list_in(dvs_range_visit_in, within, ranges, refusal);
    }
    error gaps_in(dvs_range within, std::vector<dvs_range> &gaps,
                  dvs_refusal *refusal = nullptr) const {
        return list_in(dvs_gap_visit_in, within, gaps, refusal);
    }
    error ranges_from(uint64_t address, each_range &ranges) const noexcept {
        return ranges.start(*this, address);
    }
    error gaps_from(uint64_t address, each_gap &gaps) const noexcept {
        return gaps.start(*this, address);
    }
    template <typename Action> error for_each_gap(Action action) const {
        return visit_by(dvs_gap_visit, std::move(action));
    }
    /* The ranges or the gaps from an address upwards, or back from it downwards. */
    template <typename Action> error for_each_from(uint64_t address, Action action) const {
        return visit_by(dvs_range_visit_from, std::move(action), address);
    }
    template <typename Action> error for_each_back(uint64_t address, Action action) const {
        return visit_by(dvs_range_visit_back, std::move(action), address);
    }
    template <typename Action> error for_each_gap_from(uint64_t address, Action action) const {
        return visit_by(dvs_gap_visit_from, std::move(action), address);
    }
    template <typename Action> error for_each_gap_back(uint64_t address, Action action) const {
        return visit_by(dvs_gap_visit_back, std::move(action), address);
    }
};

class id_allocator : public owner<dvs_id_allocator, dvs_id_allocator_destroy, dvs_id_allocator_copy,
                                  dvs_id_allocator_equal, dvs_id_allocator_save,
                                  dvs_id_allocator_read_within, uint32_t, dvs_id_visit> {
  public:
    error make(uint32_t first, uint32_t last, dvs_refusal *refusal = nullptr) noexcept {
        return create(
            [=](handle **out) { return dvs_id_allocator_new(first, last, out, refusal); });
    }
    error make_copy_of(const dvs_device_manager *manager) noexcept {
        return create([=](handle **out) { return dvs_device_manager_copy_ids(manager, out); });
    }
    error make_with_held(uint32_t first, uint32_t last, const std::vector<uint32_t> &held,
                         dvs_refusal *refusal = nullptr) noexcept {
        return create([&](handle **out) {
            return dvs_id_allocator_with_held(first, last, held.data(), held.size(), out, refusal);
        });
    }
    error range(uint32_t &first, uint32_t &last) const noexcept {
        return dvs_id_allocator_range(get(), &first, &last);
    }
    error peek(uint32_t &id) const noexcept { return dvs_id_peek(get(), &id); }
    error allocate(uint32_t &id) noexcept { return dvs_id_allocate(get(), &id); }
    error allocate_exact(uint32_t id, dvs_refusal *refusal = nullptr) noexcept {
        return dvs_id_allocate_exact(get(), id, refusal);
    }
    error allocate_in(uint32_t first, uint32_t last, uint32_t &id,
                      dvs_refusal *refusal = nullptr) noexcept {
        return dvs_id_allocate_in(get(), first, last, &id, refusal);
    }
    /* Allocates an id for each member of `ids`, or none. */
    error allocate_all(std::vector<uint32_t> &ids) noexcept {
        return dvs_ids_allocate(get(), ids.data(), ids.size());
    }
    error free(uint32_t id, dvs_refusal *refusal = nullptr) noexcept {
        return dvs_id_free(get(), id, refusal);
    }
    error is_allocated(uint32_t id, bool &is_allocated) const noexcept {
        return dvs_id_is_allocated(get(), id, &is_allocated);
    }
    error id_count(uint64_t &count) const noexcept { return dvs_id_count(get(), &count); }
    error free_count(uint64_t &count) const noexcept { return dvs_id_free_count(get(), &count); }
    error list_ids(uint32_t from, uint32_t *ids, std::size_t capacity,
                   std::size_t &count) const noexcept {
        return dvs_id_list(get(), from, ids, capacity, &count);
    }
    error ids(std::vector<uint32_t> &ids) const { return list_by(dvs_id_visit, ids); }
};

class device_manager
    : public owner<dvs_device_manager, dvs_device_manager_destroy, dvs_device_manager_copy,
                   dvs_device_manager_equal, dvs_device_manager_save,
                   dvs_device_manager_read_within, dvs_device, dvs_device_visit> {
  public:
    error make(uint32_t first_id, uint32_t last_id, uint64_t base, uint64_t size,
               dvs_refusal *refusal = nullptr) noexcept {
        return create([=](handle **out) {
            return dvs_device_manager_new(first_id, last_id, base, size, out, refusal);
        });
    }
    error reserve_first(uint64_t size, uint64_t alignment, dvs_device &device,
                        dvs_refusal *refusal = nullptr) noexcept {
        return dvs_device_reserve_first(get(), size, alignment, &device, refusal);
    }
    error reserve_last(uint64_t size, uint64_t alignment, dvs_device &device,
                       dvs_refusal *refusal = nullptr) noexcept {
        return dvs_device_reserve_last(get(), size, alignment, &device, refusal);
    }
    error reserve_exact(uint64_t size, uint64_t alignment, uint64_t start, dvs_device &device,
                        dvs_refusal *refusal = nullptr) noexcept {
        return dvs_device_reserve_exact(get(), size, alignment, start, &device, refusal);
    }
    error reserve(const request &asked, dvs_device &device,
                  dvs_refusal *refusal = nullptr) noexcept {
        return dvs_device_reserve(get(), &asked.get(), &device, refusal);
    }
    error reserve_with_id(uint32_t first_id, uint32_t last_id, const request &asked,
                          dvs_device &device, dvs_refusal *refusal = nullptr) noexcept {
        return dvs_device_reserve_with_id(get(), first_id, last_id, &asked.get(), &device, refusal);
    }
    error move(uint32_t id, const request &asked, dvs_range &range,
               dvs_refusal *refusal = nullptr) noexcept {
        return dvs_device_move(get(), id, &asked.get(), &range, refusal);
    }
    error conflict(const request &asked, dvs_refusal &found) const noexcept {
        return dvs_device_conflict(get(), &asked.get(), &found);
    }
    error release(uint32_t id, dvs_refusal *refusal = nullptr) noexcept {
        return dvs_device_release(get(), id, refusal);
    }
    error ids(uint32_t &first, uint32_t &last) const noexcept {
        return dvs_device_manager_ids(get(), &first, &last);
    }
    error space(dvs_range &space) const noexcept { return dvs_device_manager_space(get(), &space); }
    error slot(uint32_t id, dvs_range &range, dvs_refusal *refusal = nullptr) const noexcept {
        return dvs_device_slot(get(), id, &range, refusal);
    }
    error device_count(uint64_t &count) const noexcept { return dvs_device_count(get(), &count); }
    error at(uint64_t address, dvs_device &device) const noexcept {
        return dvs_device_at(get(), address, &device);
    }
    error list_devices(uint32_t from, dvs_device *devices, std::size_t capacity,
                       std::size_t &count) const noexcept {
        return dvs_device_list(get(), from, devices, capacity, &count);
    }
    error devices(std::vector<dvs_device> &devices) const {
        return list_by(dvs_device_visit, devices);
    }
};

/* A map is not saved. */
class range_map
    : public owner<dvs_range_map, dvs_range_map_destroy, dvs_range_map_copy, dvs_range_map_equal,
                   nullptr, nullptr, dvs_valued_range, dvs_range_map_visit> {
  public:
    void read() = delete;
    void save() = delete;
    error make(uint64_t base, uint64_t size) noexcept {
        return create([=](handle **out) { return dvs_range_map_new(base, size, out); });
    }
    error make_with_held(uint64_t base, uint64_t size, const std::vector<dvs_valued_range> &held,
                         std::size_t *failed = nullptr, dvs_refusal *refusal = nullptr) noexcept {
        return create([&](handle **out) {
            return dvs_range_map_with_held(base, size, held.data(), held.size(), out, failed,
                                           refusal);
        });
    }
    /* The items are requests with their values. */
    error allocate_all(const std::vector<std::pair<request, uint64_t>> &items,
                       std::vector<dvs_range> &ranges, std::size_t *failed = nullptr,
                       dvs_refusal *refusal = nullptr) {
        std::vector<dvs_request> all;
        std::vector<uint64_t> values;
        std::vector<dvs_range> allocated(items.size());
        for (const auto &one : items) {
            all.push_back(one.first.get());
            values.push_back(one.second);
        }
        error failure = dvs_range_map_allocate_all(get(), all.data(), values.data(), all.size(),
                                                   allocated.data(), failed, refusal);
        if (!failure)
            ranges = std::move(allocated);
        return failure;
    }
    error allocate(uint64_t value, const request &asked, dvs_range &range,
                   dvs_refusal *refusal = nullptr) noexcept {
        return dvs_range_map_allocate(get(), value, &asked.get(), &range, refusal);
    }
    error free(dvs_range range, uint64_t &value, dvs_refusal *refusal = nullptr) noexcept {
        return dvs_range_map_free(get(), range, &value, refusal);
    }
    error move(dvs_range range, const request &asked, dvs_range &moved,
               dvs_refusal *refusal = nullptr) noexcept {
        return dvs_range_map_move(get(), range, &asked.get(), &moved, refusal);
    }
    error conflict(const request &asked, dvs_refusal &found) const noexcept {
        return dvs_range_map_conflict(get(), &asked.get(), &found);
    }
    error move_conflict(dvs_range range, const request &asked, dvs_refusal &found) const noexcept {
        return dvs_range_map_move_conflict(get(), range, &asked.get(), &found);
    }
    error at(uint64_t address, dvs_valued_range &found) const noexcept {
        return dvs_range_map_get(get(), address, &found);
    }
    error set(uint64_t address, uint64_t value, uint64_t &before) noexcept {
        return dvs_range_map_set(get(), address, value, &before);
    }
    error space(dvs_range &space) const noexcept { return dvs_range_map_space(get(), &space); }
    error range_count(uint64_t &count) const noexcept { return dvs_range_map_count(get(), &count); }
    error list_ranges(uint64_t from, dvs_valued_range *ranges, std::size_t capacity,
                      std::size_t &count) const noexcept {
        return dvs_range_map_list(get(), from, ranges, capacity, &count);
    }
    error list_gaps(uint64_t from, dvs_range *gaps, std::size_t capacity,
                    std::size_t &count) const noexcept {
        return dvs_range_map_gap_list(get(), from, gaps, capacity, &count);
    }
    error ranges(std::vector<dvs_valued_range> &ranges) const {
        return list_by(dvs_range_map_visit, ranges);
    }
    error ranges_in(dvs_range within, std::vector<dvs_valued_range> &ranges,
                    dvs_refusal *refusal = nullptr) const {
        return list_in(dvs_range_map_visit_in, within, ranges, refusal);
    }
    error gaps(std::vector<dvs_range> &gaps) const {
        return list_by(dvs_range_map_gap_visit, gaps);
    }
    template <typename Action> error for_each_gap(Action action) const {
        return visit_by<dvs_range>(dvs_range_map_gap_visit, std::move(action));
    }
    /* The ranges from an address upwards, or back from it downwards. */
    template <typename Action> error for_each_from(uint64_t address, Action action) const {
        return visit_by(dvs_range_map_visit_from, std::move(action), address);
    }
    template <typename Action> error for_each_back(uint64_t address, Action action) const {
        return visit_by(dvs_range_map_visit_back, std::move(action), address);
    }
};

/*
 * Frees an allocated range or id, or releases the device of an id, when it is destroyed:
 *
 *     dvs_range bar;
 *     if (!space.allocate_first(0x1000, 0x1000, bar))
 *         cards.emplace_back(dvs::range_lease(space, bar));
 *
 * The owner must outlive the lease, with the same object, and no other call must free the
 * resource. The destructor frees nothing during a visit of the object.
 */
template <typename Owner, typename Object, typename Item,
          dvs_status (*Free)(Object *, Item, dvs_refusal *)>
class lease {
    Owner *lender = nullptr;
    Item item = {};

  public:
    lease() noexcept = default;
    lease(Owner &owner, Item allocated) noexcept : lender(&owner), item(allocated) {}
    lease(lease &&other) noexcept : lender(other.lender), item(other.keep()) {}
    lease &operator=(lease &&other) noexcept {
        std::swap(lender, other.lender);
        std::swap(item, other.item);
        return *this;
    }
    ~lease() {
        if (lender != nullptr)
            Free(lender->get(), item, nullptr);
    }
    const Item &get() const noexcept { return item; }
    explicit operator bool() const noexcept { return lender != nullptr; }
    /* Returns the resource, and leaves the lease empty. The caller must free the resource. */
    Item keep() noexcept {
        lender = nullptr;
        return item;
    }
};
using range_lease = lease<address_allocator, dvs_address_allocator, dvs_range, dvs_range_free>;
using id_lease = lease<id_allocator, dvs_id_allocator, uint32_t, dvs_id_free>;
using device_lease = lease<device_manager, dvs_device_manager, uint32_t, dvs_device_release>;

} // namespace dvs

#undef DVS_MUST_CHECK

#endif
