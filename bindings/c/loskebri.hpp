/* Loskebri for C++17: pools and passes that close themselves, and a std::pmr::memory_resource over blocks of one size.
 *
 * A thin layer over loskebri.h, which says what each call promises. A pass is moved and never copied, and used by one thread at a
 * time; passes of one pool may be used by different threads at once. What it holds when it is closed stays held. */
#ifndef LOSKEBRI_HPP
#define LOSKEBRI_HPP
#include "loskebri.h"
#include <cstddef>
#include <cstdint>
#include <limits>
#include <memory_resource>
#include <new>
#include <stdexcept>
#include <utility>
#include <vector>

namespace loskebri {

/* Why no pool was opened, by its status in loskebri.h. */
class open_error : public std::runtime_error {
public:
    explicit open_error(std::uint32_t status) : std::runtime_error(loskebri_status_text(status)), status_(status) {}
    std::uint32_t status() const noexcept { return status_; }

private:
    std::uint32_t status_;
};

/* What a pool is asked to be: the numbers of loskebri_open. */
struct shape {
    std::size_t processes = 1;
    std::uint32_t batches = 2;
    std::uint32_t words = 0;
    std::uint32_t quantum = 8;
};

/* The smallest shape of this quantum whose pool refuses nobody while at most `live` blocks are held together. Throws open_error. */
inline shape for_live(std::uint32_t processes, std::uint32_t live, std::uint32_t quantum = 8) {
    const loskebri_number enough = loskebri_enough_batches(processes, quantum, live);
    if (enough.status != LOSKEBRI_DONE) throw open_error(enough.status);
    return {processes, static_cast<std::uint32_t>(enough.number), 0, quantum};
}

/* The pass of one process, or a closed one. The calls answer as in loskebri.h, by its statuses. */
class pass {
public:
    pass() noexcept = default;
    explicit pass(loskebri_pass handle) noexcept : handle_(handle) {}
    pass(pass &&other) noexcept : handle_(std::exchange(other.handle_, loskebri_pass{})) {}
    pass &operator=(pass &&other) noexcept {
        if (this != &other) {
            close();
            handle_ = std::exchange(other.handle_, loskebri_pass{});
        }
        return *this;
    }
    pass(const pass &) = delete;
    pass &operator=(const pass &) = delete;
    ~pass() { close(); }

    loskebri_block allocate() noexcept { return loskebri_allocate(&handle_); }
    loskebri_block search() noexcept { return loskebri_search(&handle_); }
    std::uint32_t free(std::uint32_t block) noexcept { return loskebri_free(&handle_, block); }
    loskebri_number read(std::uint32_t block, std::uint32_t index) noexcept { return loskebri_read(&handle_, block, index); }
    std::uint32_t write(std::uint32_t block, std::uint32_t index, std::uint64_t value) noexcept {
        return loskebri_write(&handle_, block, index, value);
    }
    loskebri_slot get(const loskebri_slots &slots) noexcept { return loskebri_slot_get(&handle_, &slots); }
    std::uint32_t put(const loskebri_slots &slots, const void *at) noexcept { return loskebri_slot_put(&handle_, &slots, at); }
    std::uint64_t age() noexcept { return loskebri_age(&handle_).number; }
    bool has_age() noexcept { return loskebri_has_age(&handle_).number == 1; }
    std::uint64_t holding() noexcept { return loskebri_holding(&handle_).number; }
    loskebri_shape_numbers numbers() noexcept { return loskebri_shape(&handle_); }
    bool is_open() noexcept { return numbers().status == LOSKEBRI_DONE; }
    void close() noexcept { loskebri_close(&handle_); }

private:
    loskebri_pass handle_{};
};

/* A pool that was opened, by its passes in the order of their processes. Throws std::bad_alloc for want of memory, else open_error. */
class pool {
public:
    explicit pool(const shape &asked) : passes_() {
        std::vector<loskebri_pass> handles(asked.processes < most_ + 1 ? asked.processes : most_ + 1);
        passes_.reserve(handles.size());
        const std::uint32_t status = loskebri_open(asked.batches, asked.words, asked.quantum, handles.data(), handles.size());
        if (status == LOSKEBRI_NO_MEMORY) throw std::bad_alloc();
        if (status != LOSKEBRI_DONE) throw open_error(status);
        for (const loskebri_pass &handle : handles) passes_.emplace_back(handle);
    }

    std::size_t size() const noexcept { return passes_.size(); }
    pass &operator[](std::size_t process) noexcept { return passes_[process]; }
    std::vector<pass>::iterator begin() noexcept { return passes_.begin(); }
    std::vector<pass>::iterator end() noexcept { return passes_.end(); }

    /* The passes, to be given to threads. */
    std::vector<pass> take() && noexcept { return std::move(passes_); }

private:
    static constexpr std::size_t most_ = 32;
    std::vector<pass> passes_;
};

/* Memory of its own under the blocks of one pool, of so many bytes each at this alignment, which is a power of two. */
class slots {
public:
    slots(std::size_t count, std::size_t size, std::size_t alignment = alignof(std::max_align_t)) : alignment_(alignment) {
        const std::size_t most = std::numeric_limits<std::size_t>::max();
        if (size > most - (alignment - 1)) throw std::bad_alloc();
        const std::size_t stride = size == 0 ? alignment : (size + alignment - 1) / alignment * alignment;
        if (count != 0 && stride > most / count) throw std::bad_alloc();
        all_ = {::operator new(stride * count, std::align_val_t(alignment)), stride, count};
    }
    slots(const slots &) = delete;
    slots &operator=(const slots &) = delete;
    ~slots() { ::operator delete(all_.base, std::align_val_t(alignment_)); }

    const loskebri_slots &all() const noexcept { return all_; }
    std::size_t alignment() const noexcept { return alignment_; }

private:
    std::size_t alignment_;
    loskebri_slots all_{};
};

/* Blocks of one size as a memory resource, of one pass: used by one thread at a time, as the pass is. What is larger than a slot,
 * or of a greater alignment, and what the pass is refused, comes from `upstream`; without one such a call throws std::bad_alloc.
 * Memory is given back through the resource that it was got from. A pass whose age is spent may have to keep a block. */
class block_resource : public std::pmr::memory_resource {
public:
    block_resource(pass &from, const slots &at, std::pmr::memory_resource *upstream = std::pmr::null_memory_resource()) noexcept
        : from_(&from), at_(&at), upstream_(upstream) {}

protected:
    void *do_allocate(std::size_t bytes, std::size_t alignment) override {
        if (bytes <= at_->all().stride && alignment <= at_->alignment()) {
            const loskebri_slot got = from_->get(at_->all());
            if (got.status == LOSKEBRI_DONE) return got.at;
        }
        return upstream_->allocate(bytes, alignment);
    }

    void do_deallocate(void *memory, std::size_t bytes, std::size_t alignment) override {
        const auto begin = reinterpret_cast<std::uintptr_t>(at_->all().base), address = reinterpret_cast<std::uintptr_t>(memory);
        if (address >= begin && address - begin < at_->all().stride * at_->all().count) {
            from_->put(at_->all(), memory);
        } else {
            upstream_->deallocate(memory, bytes, alignment);
        }
    }

    bool do_is_equal(const std::pmr::memory_resource &other) const noexcept override { return this == &other; }

private:
    pass *from_;
    const slots *at_;
    std::pmr::memory_resource *upstream_;
};

} // namespace loskebri
#endif
