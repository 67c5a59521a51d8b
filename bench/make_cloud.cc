// Writes one cloud with OpenVDB, of about a given size, named `density`, values stored unpacked, of active places only (flags 2).
//
//     make_cloud fog|levelset MEGABYTES 4|2 FILE     4 stores floats, 2 halves
//
// A fog is a noise whose active voxels are some 60 in 100, and a solid cube beside it, which gives records of levels 1 and 2. A level set is the narrow
// band of a sphere. The length of the edge, or the radius, is corrected until the file has its size to 3 parts in 100.
#include <openvdb/io/File.h>
#include <openvdb/openvdb.h>
#include <openvdb/tools/LevelSetSphere.h>

#include <cmath>
#include <cstdint>
#include <cstdio>
#include <cstdlib>
#include <filesystem>
#include <string>
#include <vector>

using openvdb::Coord;
using openvdb::FloatGrid;

static uint32_t hash(uint32_t x, uint32_t y, uint32_t z)
{
    uint32_t h = x * 73856093u ^ y * 19349663u ^ z * 83492791u;
    h ^= h >> 13;
    h *= 0x5bd1e995u;
    return h ^ h >> 15;
}

// Sines of several lengths and a noise. Each sine is of two coordinates at most, so that `fog` looks it up.
static std::vector<double> sines(int side, double a, double b)
{
    std::vector<double> t(size_t(side) * side);
    for (int i = 0; i < side; i++)
        for (int k = 0; k < side; k++) t[size_t(i) * side + k] = std::sin(i * a + k * b);
    return t;
}

static FloatGrid::Ptr fog(int side)
{
    auto grid = FloatGrid::create(0.0f);
    auto accessor = grid->getAccessor();
    const auto x1 = sines(side, 0.031, 0), xy = sines(side, 0.011, 0.027), yz = sines(side, 0.013, 0.023);
    const auto xz = sines(side, 0.21, 0.17), yz2 = sines(side, 0.19, -0.13);
    const int low = -side / 2;
    for (int x = 0; x < side; x++)
        for (int y = 0; y < side; y++)
            for (int z = 0; z < side; z++) {
                auto at = [side](const std::vector<double>& t, int i, int k) { return t[size_t(i) * side + k]; };
                const double a = at(x1, x, 0) + at(xy, x, y) + at(yz, y, z), b = at(xz, x, z) + at(yz2, y, z);
                const float v = float(a / 3 + b / 6 + 0.3 * (hash(x, y, z) & 0xffff) / 65536.0 - 0.05);
                if (v > 0) accessor.setValue(Coord(low + x, low + y, low + z), v);
            }
    grid->sparseFill(openvdb::CoordBBox(Coord(1024), Coord(1024 + 143)), 0.75f, true);
    grid->setGridClass(openvdb::GRID_FOG_VOLUME);
    return grid;
}

static void write(FloatGrid::Ptr grid, bool half, const std::string& path)
{
    grid->setName("density");
    grid->setTransform(openvdb::math::Transform::createLinearTransform(0.1));
    grid->setSaveFloatAsHalf(half);
    openvdb::io::File file(path);
    file.setCompression(openvdb::io::COMPRESS_ACTIVE_MASK);
    file.write(openvdb::GridPtrVec{grid});
}

int main(int count, char** argument)
{
    if (count != 5) {
        std::fprintf(stderr, "usage: make_cloud fog|levelset MEGABYTES 4|2 FILE\n");
        return 2;
    }
    openvdb::initialize();
    const bool solid = std::string(argument[1]) == "fog";
    const double wanted = std::atof(argument[2]) * 1e6, width = std::atof(argument[3]);
    const std::string path = argument[4];
    double length = solid ? std::cbrt(wanted / width / 0.62) : std::sqrt(wanted / width / 90);
    for (int i = 0; i < 8; i++) {
        auto grid = solid ? fog(int(length)) : openvdb::tools::createLevelSetSphere<FloatGrid>(float(length), openvdb::Vec3f(0), 1.0f, 3.0f);
        write(grid, width == 2, path);
        const double ratio = wanted / double(std::filesystem::file_size(path));
        if (std::abs(ratio - 1) < 0.03) break;
        length *= solid ? std::cbrt(ratio) : std::sqrt(ratio);
    }
    return 0;
}
