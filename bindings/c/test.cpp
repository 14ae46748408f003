// Pools, passes and the memory resource, from C++17.
#include "loskebri.hpp"
#include <cstdio>
#include <list>
#include <memory_resource>
#include <thread>
#include <type_traits>
#include <vector>

#define CHECK(c) do { if (!(c)) { std::printf("line %d: %s\n", __LINE__, #c); return 1; } } while (0)

static_assert(!std::is_copy_constructible_v<loskebri::pass> && std::is_nothrow_move_constructible_v<loskebri::pass>);

// Counts what is taken from it and given back.
class counted : public std::pmr::memory_resource {
public:
    long out = 0, calls = 0;

protected:
    void *do_allocate(std::size_t bytes, std::size_t alignment) override {
        out++, calls++;
        return std::pmr::new_delete_resource()->allocate(bytes, alignment);
    }
    void do_deallocate(void *memory, std::size_t bytes, std::size_t alignment) override {
        out--;
        std::pmr::new_delete_resource()->deallocate(memory, bytes, alignment);
    }
    bool do_is_equal(const std::pmr::memory_resource &other) const noexcept override { return this == &other; }
};

template <class F> static std::uint32_t status_of(F open) {
    try {
        open();
        return LOSKEBRI_DONE;
    } catch (const loskebri::open_error &error) {
        return error.status();
    }
}

static int opened() {
    const struct { loskebri::shape shape; std::uint32_t status; } cases[] = {
        {{0, 4}, LOSKEBRI_NO_PROCESS}, {{33, 66}, LOSKEBRI_MANY_PROCESSES}, {{std::size_t(1) << 40, 66}, LOSKEBRI_MANY_PROCESSES},
        {{2, 3}, LOSKEBRI_FEW_BATCHES}, {{2, 4, 0, 3}, LOSKEBRI_BAD_QUANTUM}, {{1, 1u << 21}, LOSKEBRI_MANY_BLOCKS},
        {{1, 2, 9}, LOSKEBRI_WIDE_BLOCK}, {{2, 4}, LOSKEBRI_DONE},
    };
    for (const auto &c : cases) CHECK(status_of([&] { loskebri::pool pool(c.shape); }) == c.status);
    // Batches of 10: 121 have 1210 blocks, which is more than the slack of 200 and 1000 together.
    CHECK(loskebri::for_live(4, 1000).batches == 121 && loskebri::for_live(4, 1000).processes == 4);
    CHECK(status_of([] { loskebri::for_live(4, 1000, 3); }) == LOSKEBRI_BAD_QUANTUM);
    loskebri::pool pool(loskebri::for_live(1, 4));
    CHECK(pool[0].numbers().batches == 7 && pool[0].search().status == LOSKEBRI_DONE && pool[0].holding() == 1);
    return 0;
}

static int moved() {
    loskebri::pool pool({2, 4, 1});
    loskebri::pass first = std::move(pool[0]), closed;
    CHECK(pool.size() == 2 && first.is_open() && !pool[0].is_open() && pool[0].allocate().status == LOSKEBRI_CLOSED);
    const loskebri_block got = first.allocate();
    CHECK(got.status == LOSKEBRI_DONE && first.write(got.block, 0, 5) == LOSKEBRI_DONE && first.read(got.block, 0).number == 5);
    CHECK(pool[1].free(got.block) == LOSKEBRI_NOT_HELD && first.holding() == 1 && first.has_age() && first.age() <= 2);
    closed = std::move(first);
    CHECK(closed.free(got.block) == LOSKEBRI_DONE && !first.is_open());
    std::vector<loskebri::pass> passes = std::move(pool).take();
    CHECK(passes.size() == 2 && passes[1].numbers().process == 1);
    return 0;
}

// A pass alone has two batches of four blocks: a ninth block comes from upstream, and so does what fits no slot.
static int resource() {
    loskebri::pool pool({1, 2});
    const loskebri::slots slots(pool[0].numbers().blocks, 40, 64);
    CHECK(slots.all().stride == 64 && slots.all().count == 8);
    counted upstream;
    loskebri::block_resource blocks(pool[0], slots, &upstream);
    std::vector<void *> got;
    for (int i = 0; i < 9; i++) got.push_back(blocks.allocate(64, 64));
    CHECK(pool[0].holding() == 8 && upstream.out == 1);
    void *large = blocks.allocate(65, 8), *strict = blocks.allocate(8, 128);
    CHECK(upstream.out == 3);
    blocks.deallocate(large, 65, 8);
    blocks.deallocate(strict, 8, 128);
    for (void *at : got) blocks.deallocate(at, 64, 64);
    CHECK(pool[0].holding() == 0 && upstream.out == 0 && upstream.calls == 3);

    loskebri::block_resource bounded(pool[0], slots);
    bool refused = false;
    try {
        (void)bounded.allocate(65, 8);
    } catch (const std::bad_alloc &) {
        refused = true;
    }
    CHECK(refused && blocks == blocks && !(blocks == bounded));
    {
        std::pmr::list<std::uint64_t> list(&bounded);
        for (std::uint64_t i = 0; i < 5; i++) list.push_back(i);
        CHECK(list.back() == 4 && pool[0].holding() == 5);
    }
    CHECK(pool[0].holding() == 0);
    refused = false;
    try {
        const loskebri::slots huge(std::size_t(1) << 40, std::size_t(1) << 40);
    } catch (const std::bad_alloc &) {
        refused = true;
    }
    CHECK(refused);
    return 0;
}

// Each thread fills and empties a list in blocks of its own pass.
static int threads() {
    loskebri::pool pool({4, 80});
    const loskebri::slots slots(pool[0].numbers().blocks, 64);
    std::vector<std::thread> all;
    for (loskebri::pass &pass : pool) {
        all.emplace_back([&pass, &slots] {
            loskebri::block_resource blocks(pass, slots, std::pmr::new_delete_resource());
            for (std::uint64_t round = 0; round < 500; round++) {
                std::pmr::list<std::uint64_t> list(&blocks);
                for (std::uint64_t i = 0; i < 30; i++) list.push_back(round + i);
            }
        });
    }
    for (std::thread &thread : all) thread.join();
    for (loskebri::pass &pass : pool) CHECK(pass.holding() == 0);
    return 0;
}

int main() {
    if (opened() || moved() || resource() || threads()) return 1;
    std::puts("test.cpp: ok");
    return 0;
}
