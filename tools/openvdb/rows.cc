// Prints what OpenVDB's library says of a cloud, for rows.py: the grids' names; of each grid its type, map, metadata, background,
// leaves, first active items, and what its first leaf has at place 0; then whether there is a grid "d". An exception is printed
// with its message, and so is a warning.
//
//     rows FILE

#include <openvdb/openvdb.h>
#include <openvdb/io/File.h>

#include <cinttypes>
#include <cstdio>
#include <cstring>
#include <exception>
#include <iostream>

namespace {

uint32_t bits(float value) {
    uint32_t pattern;
    std::memcpy(&pattern, &value, sizeof pattern);
    return pattern;
}

uint32_t bits(int32_t value) { return uint32_t(value); }

template<typename Grid>
void tree(const Grid& grid) {
    std::printf("background %08" PRIx32 "\n", bits(grid.background()));
    std::printf("leaves %" PRIu64 "\n", uint64_t(grid.tree().leafCount()));
    std::printf("active voxels %" PRIu64 "\n", uint64_t(grid.activeVoxelCount()));
    int left = 4;
    for (auto i = grid.cbeginValueOn(); i && left; ++i, --left) {
        openvdb::Coord at = i.getCoord();
        std::printf("item %d %d %d level %u %08" PRIx32 "\n", at[0], at[1], at[2], i.getLevel(), bits(*i));
    }
    if (auto leaf = grid.tree().cbeginLeaf()) {
        openvdb::Coord at = leaf->origin();
        std::printf("leaf %d %d %d\n", at[0], at[1], at[2]);
        std::printf("place 0 %08" PRIx32 "\n", bits(leaf->getValue(openvdb::Index(0))));
    }
}

void describe(const openvdb::GridBase::Ptr& grid) {
    std::printf("grid %s\n", grid->type().c_str());
    std::printf("map %s\n", grid->transform().mapType().c_str());
    for (auto i = grid->beginMeta(); i != grid->endMeta(); ++i) {
        std::printf("entry %s %s %s\n", i->first.c_str(), i->second->typeName().c_str(), i->second->str().c_str());
    }
    if (auto floats = openvdb::gridPtrCast<openvdb::FloatGrid>(grid)) tree(*floats);
    if (auto integers = openvdb::gridPtrCast<openvdb::Int32Grid>(grid)) tree(*integers);
}

} // namespace

int main(int, char** words) {
    std::setvbuf(stdout, nullptr, _IONBF, 0);
    std::cerr.rdbuf(std::cout.rdbuf());
    try {
        openvdb::initialize();
        openvdb::io::File file(words[1]);
        file.open(false);
        std::printf("grids");
        for (auto i = file.beginName(); i != file.endName(); ++i) std::printf(" %s", (*i).c_str());
        std::printf("\n");
        openvdb::GridPtrVecPtr grids = file.getGrids();
        for (const openvdb::GridBase::Ptr& grid : *grids) describe(grid);
        if (file.hasGrid("d")) std::printf("found d\n");
    } catch (const std::exception& e) {
        std::printf("throws %s\n", e.what());
    }
}
