// Measures OpenVDB: reading a grid with delayed loading off, and visiting its active values, by the tree's iterator and leaf by leaf.
//
//     openvdb FILE REPETITIONS    the first repetition is not timed and prints counts and sums
#include <openvdb/io/File.h>
#include <openvdb/openvdb.h>

#include <cstdlib>
#include <cstring>
#include <string>

#include "record.h"

using openvdb::FloatGrid;

static uint32_t pattern(float v)
{
    uint32_t bits;
    std::memcpy(&bits, &v, sizeof bits);
    return bits;
}

static FloatGrid::Ptr read(const std::string& path)
{
    openvdb::io::File file(path);
    file.open(/*delayLoad=*/false);
    auto grid = openvdb::gridPtrCast<FloatGrid>(file.readGrid("density"));
    file.close();
    return grid;
}

// `step` for each active value, tiles included, by the tree's iterator.
template<typename Step>
static uint64_t by_iterator(const FloatGrid& grid, Step step)
{
    uint64_t total = 0;
    for (auto i = grid.cbeginValueOn(); i; ++i) {
        const openvdb::Coord at = i.getCoord();
        total += step(at.x(), at.y(), at.z(), uint32_t(i.getLevel()), pattern(*i));
    }
    return total;
}

// The tiles, by the tree's iterator.
static uint64_t tiles(const FloatGrid& grid)
{
    uint64_t total = 0;
    auto tile = grid.tree().cbeginValueOn();
    tile.setMaxDepth(FloatGrid::TreeType::ValueOnCIter::LEAF_DEPTH - 1);
    for (; tile; ++tile) {
        const openvdb::Coord at = tile.getCoord();
        total += plain(at.x(), at.y(), at.z(), uint32_t(tile.getLevel()), pattern(*tile));
    }
    return total;
}

// The same leaf by leaf, through the leaf's mask: a leaf's own iterator takes a tenth longer, and with -O3 longer than with -O2.
static uint64_t by_leaves(const FloatGrid& grid)
{
    uint64_t total = tiles(grid);
    for (auto leaf = grid.tree().cbeginLeaf(); leaf; ++leaf) {
        const float* values = leaf->buffer().data();
        for (auto i = leaf->valueMask().beginOn(); i; ++i) {
            const openvdb::Coord at = leaf->offsetToGlobalCoord(i.pos());
            total += plain(at.x(), at.y(), at.z(), 0, pattern(values[i.pos()]));
        }
    }
    return total;
}

// All 512 values of each leaf.
static uint64_t leaf_values(const FloatGrid& grid)
{
    uint64_t total = 0;
    for (auto leaf = grid.tree().cbeginLeaf(); leaf; ++leaf) {
        const float* values = leaf->buffer().data();
        for (int i = 0; i < 512; i++) total += pattern(values[i]);
    }
    return total;
}

static void check(const std::string& path)
{
    const auto grid = read(path);
    uint64_t records = 0;
    for (auto i = grid->cbeginValueOn(); i; ++i) records++;
    print_number("records", records);
    print_number("leaves", grid->tree().leafCount());
    print_number("mixed", by_iterator(*grid, mixed));
}

static void measure(const std::string& path)
{
    moment from = start();
    const auto grid = read(path);
    print_time("openvdb_read", from);
    from = start();
    print_number("sum", by_iterator(*grid, plain));
    print_time("openvdb_iterate", from);
    from = start();
    print_number("sum", by_leaves(*grid));
    print_time("openvdb_by_leaves", from);
    from = start();
    print_number("leaf_sum", leaf_values(*grid));
    print_time("openvdb_leaf_values", from);
}

int main(int count, char** argument)
{
    if (count != 3) {
        std::fprintf(stderr, "usage: openvdb FILE REPETITIONS\n");
        return 2;
    }
    openvdb::initialize();
    check(argument[1]);
    for (int i = std::atoi(argument[2]); i > 0; i--) measure(argument[1]);
    return 0;
}
