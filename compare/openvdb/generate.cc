// Writes clouds drawn at random, all by OpenVDB's own library.
//
//     generate DIRECTORY COUNT SEED [MEGABYTES ..]
//
// COUNT clouds of 10 KB to 10 MB, and one of about each of MEGABYTES. A cloud has one to five grids, and half of those up to 10 MB have one more, most
// often one that the reader must refuse. Up to 10 MB many grids have a packing flag: with raw runs alone, or with packed ones, so that the reader must
// refuse them. A third of the grids get another background once they are written, of any pattern, so that each node byte comes with each kind of it. Two
// runs with one seed give equal files. Signalling NaNs are left out where values are saved as halves, and so are texts that are not UTF-8: the first is a
// matter of docs/DIFFERENCES.md, section 5, the second one of the Rust.
#include "archive.h"

#include <openvdb/io/File.h>
#include <openvdb/tools/Composite.h>
#include <openvdb/tools/LevelSetPlatonic.h>
#include <openvdb/tools/LevelSetSphere.h>
#include <openvdb/tools/LevelSetUtil.h>
#include <openvdb/tools/Prune.h>

#include <cmath>
#include <cstdio>
#include <cstdlib>
#include <filesystem>
#include <functional>
#include <iostream>
#include <random>
#include <set>
#include <sstream>

namespace {

using openvdb::CoordBBox;
using openvdb::GridBase;
using openvdb::Vec3d;
using openvdb::math::MapBase;
using openvdb::math::Transform;
using Part = MixedArchive::Part;

const int LOW = -2147483647 - 1, HIGH = 2147483647;

// ---- Numbers ----

class Draw {
public:
    explicit Draw(uint64_t seed) : numbers(seed) {}
    uint64_t bits() { return numbers(); }
    int below(int n) { return int(numbers() % uint64_t(n)); }
    int64_t between(int64_t low, int64_t high) { return low + int64_t(numbers() % uint64_t(high - low + 1)); }
    bool once_in(int n) { return below(n) == 0; }
    double real(double low, double high) { return low + (high - low) * (double(numbers() >> 11) * 0x1p-53); }
    template <class T> T of(const std::vector<T>& row) { return row[below(int(row.size()))]; }

private:
    std::mt19937_64 numbers;
};

// How a grid is to be stored. A small one has few roots.
struct Form {
    bool half;
    uint32_t flags;
    double bytes;
    bool raw = false; // with a packing flag, and no run that is packed
    int width() const { return half ? 2 : 4; }
    double root() const { return flags & ACTIVE ? 10e3 : 10e3 + 38e3 * width(); } // what a root takes, with a 4-node
    bool small() const { return bytes < 30 * root(); }
};

float widened(uint16_t bits)
{
    openvdb::math::half value;
    value.setBits(bits);
    return float(value);
}

// A value with noise in every bit.
float noise_value(Draw& draw, bool half)
{
    if (!half) return pattern(uint32_t(draw.bits()));
    const uint16_t bits = uint16_t(draw.bits());
    return widened((bits & 0x7fff) > 0x7c00 ? bits | 0x0200 : bits);
}

// A value of any pattern.
float any_value(Draw& draw, bool half)
{
    static const std::vector<uint32_t> floats = {0, 0x80000000, 1, 0x807fffff, 0x00800000, 0x7f7fffff, 0x7f800000, 0xff800000, 0x7fc12345, 0xff800001};
    static const std::vector<uint32_t> halves = {0, 0x8000, 1, 0x83ff, 0x0400, 0x7bff, 0x7c00, 0xfc00, 0x7e01, 0xfe00};
    if (!draw.once_in(4)) return noise_value(draw, half);
    return half ? widened(uint16_t(draw.of(halves))) : pattern(draw.of(floats));
}

double any_double(Draw& draw)
{
    static const std::vector<uint64_t> special = {0, 0x8000000000000000, 1, 0x7ff0000000000000, 0xfff0000000000000, 0x7ff8000000000001, 0x7fefffffffffffff};
    const uint64_t bits = draw.once_in(2) ? draw.of(special) : draw.bits();
    double value;
    std::memcpy(&value, &bits, sizeof value);
    return value;
}

// ---- Places ----

// The lowest corner of a box of this edge: around zero, at both ends of the coordinates, across roots, anywhere.
Coord site(Draw& draw, int edge)
{
    const int where = draw.below(7);
    auto number = [&] {
        switch (where) {
        case 0: return draw.between(-edge, 0);
        case 1: return draw.between(-9000, 9000);
        case 2: return int64_t(LOW);
        case 3: return int64_t(HIGH) - edge + 1;
        case 4: return draw.once_in(2) ? int64_t(LOW) : int64_t(HIGH) - edge + 1;
        case 5: return 4096 * draw.between(-3, 3) - edge / 2;
        default: return draw.between(LOW, int64_t(HIGH) - edge + 1);
        }
    };
    const int64_t x = number(), y = number(), z = number();
    return Coord(int(x), int(y), int(z));
}

// A root's origin.
Coord root_site(Draw& draw) { return site(draw, 1) & ~4095; }

// Inside one root.
Coord inner_site(Draw& draw, int edge)
{
    const int last = 4096 - edge;
    return root_site(draw).offsetBy(draw.of(std::vector<int>{0, last / 2, last}), draw.below(last), draw.below(last));
}

// ---- What stands in a grid ----

// About how many bytes a tree takes in the file.
double bytes_of(const FloatTree& tree, const Form& form)
{
    const auto nodes = tree.nodeCount();
    const double masks = 140.0 * nodes[0] + 1100.0 * nodes[1] + 8300.0 * nodes[2];
    if (form.flags & ACTIVE) return masks + double(tree.activeLeafVoxelCount()) * form.width();
    return masks + (512.0 * nodes[0] + 4096.0 * nodes[1] + 32768.0 * nodes[2]) * form.width();
}

// Sines of several lengths with a noise of its own at each voxel; active is what lies above a threshold.
void noise(Draw& draw, FloatTree& tree, double bytes, const Form& form)
{
    const double above = draw.real(-1.5, 1.0), a = draw.real(0.01, 0.4), b = draw.real(0.01, 0.4), rough = draw.real(0, 1);
    const int edge = std::max(3, int(std::cbrt(bytes / form.width())));
    const Coord corner = form.small() ? inner_site(draw, edge) : site(draw, edge);
    openvdb::tree::ValueAccessor<FloatTree> accessor(tree);
    for (int64_t n = 0; n < int64_t(edge) * edge * edge; n++) {
        const int x = int(n / edge / edge), y = int(n / edge % edge), z = int(n % edge);
        const double v = std::sin(a * x + b * y) + std::sin(b * y - a * z) + rough * draw.real(-1, 1) - above;
        if (v > 0) accessor.setValue(corner.offsetBy(x, y, z), float(v));
    }
}

// A sphere or a cube as OpenVDB's tools make them, its centre near one that is given, all in voxels.
FloatGrid::Ptr shape(Draw& draw, double radius, double middle, float voxel)
{
    auto number = [&] { return float(middle + draw.real(-radius, radius)) * voxel; };
    const float x = number(), y = number(), z = number();
    if (draw.once_in(3)) return openvdb::tools::createLevelSetCube<FloatGrid>(float(radius) * voxel, openvdb::Vec3f(x, y, z), voxel, 3.0f);
    return openvdb::tools::createLevelSetSphere<FloatGrid>(float(radius) * voxel, openvdb::Vec3f(x, y, z), voxel, 3.0f);
}

// One to three of them, joined or taken off each other: around zero, or inside one root.
FloatGrid::Ptr shapes(Draw& draw, double bytes, const Form& form, float voxel)
{
    const int count = 1 + draw.below(3);
    const double radius = std::max(2.0, std::sqrt(bytes / count / form.width() / (form.flags & ACTIVE ? 100 : 400))), middle = form.small() ? 2048 : 0;
    FloatGrid::Ptr grid = shape(draw, radius, middle, voxel);
    for (int n = 1; n < count; n++) {
        FloatGrid::Ptr other = shape(draw, radius * draw.real(0.5, 1), middle, voxel);
        if (draw.once_in(4)) openvdb::tools::csgDifference(*grid, *other);
        else openvdb::tools::csgUnion(*grid, *other);
    }
    return grid;
}

// Adds what a tree near zero holds, so many voxels further on. Multiples of 4096, so that each node stays whole.
void add_moved(FloatTree& tree, const FloatTree& from, const Coord& by)
{
    for (auto leaf = from.cbeginLeaf(); leaf; ++leaf) {
        Leaf* moved = new Leaf(*leaf);
        moved->setOrigin(leaf->origin() + by);
        tree.addLeaf(moved);
    }
    auto tile = from.cbeginValueAll();
    tile.setMaxDepth(FloatTree::ValueAllCIter::LEAF_DEPTH - 1);
    for (; tile; ++tile) {
        if (tile.getLevel() < 3 && (tile.isValueOn() || *tile != from.background())) {
            tree.addTile(tile.getLevel(), tile.getCoord() + by, *tile, tile.isValueOn());
        }
    }
}

// By how much a tree around zero is moved. Its nodes reach at most one root to either side of zero.
Coord shift(Draw& draw)
{
    const Coord at = root_site(draw);
    auto inside = [](int n) { return std::min(std::max(n, LOW + 4096), HIGH - 4095); };
    return Coord(inside(at.x()), inside(at.y()), inside(at.z()));
}

// The inactive values of a node: none, one or two of them make the forms 0 to 5, more form 6.
std::vector<float> inactive_values(Draw& draw, float background, bool half)
{
    const float one = any_value(draw, half), other = any_value(draw, half);
    static const std::vector<int> choices = {0, 1, 2, 3, 4, 5, 6};
    switch (draw.of(choices)) {
    case 0: return {background};
    case 1: return {-background};
    case 2: return {one};
    case 3: return {background, -background};
    case 4: return {background, one};
    case 5: return {one, other};
    default: return {one, other, background, 0.5f};
    }
}

void random_leaf(Draw& draw, FloatTree& tree, const Coord& at, bool half)
{
    const std::vector<float> off = inactive_values(draw, tree.background(), half);
    const double share = draw.of(std::vector<double>{0, 0.02, 0.5, 0.98, 1});
    Leaf* leaf = new Leaf(at, tree.background(), false);
    for (openvdb::Index p = 0; p < Leaf::SIZE; p++) {
        if (draw.real(0, 1) < share) leaf->setValueOn(p, any_value(draw, half));
        else leaf->setValueOff(p, draw.of(off));
    }
    tree.addLeaf(leaf);
}

// Leaves of all forms in neighbouring 4-nodes, with tiles between them.
void random_nodes(Draw& draw, FloatTree& tree, double bytes, const Form& form)
{
    const std::vector<float> off = inactive_values(draw, tree.background(), form.half);
    const int count = std::min(60000, std::max(1, int(bytes / (140 + (form.flags & ACTIVE ? 300 : 512) * form.width()))));
    const int nodes = 1 + count / 2500;
    const Coord node = root_site(draw).offsetBy(128 * draw.below(33 - nodes), 128 * draw.below(32), 128 * draw.below(32));
    for (int n = 0; n < count; n++) {
        const Coord at = node.offsetBy(8 * draw.below(16 * nodes), 8 * draw.below(16), 8 * draw.below(16));
        if (draw.once_in(4)) tree.addTile(1, at, any_value(draw, form.half), true);
        else if (draw.once_in(4)) tree.addTile(1, at, draw.of(off), false);
        else random_leaf(draw, tree, at, form.half);
    }
}

// A solid box by OpenVDB's own filling, with tiles inside or without. Not at the ends of the coordinates: there the library's loops come to no end.
void solid(Draw& draw, FloatTree& tree, double bytes, const Form& form)
{
    const bool dense = bytes < 3e5 && draw.once_in(2);
    const int edge = std::max(2, int(dense ? std::cbrt(bytes / form.width()) : std::sqrt(bytes / form.width() / 30)));
    const Coord corner(int(draw.between(-6000, 6000)), int(draw.between(-6000, 6000)), int(draw.between(-6000, 6000)));
    const CoordBBox box(corner, corner.offsetBy(edge - 1));
    const float value = any_value(draw, form.half);
    const bool active = !draw.once_in(5);
    if (dense) tree.denseFill(box, value, active);
    else tree.fill(box, value, active);
}

// Active and inactive tiles. Inactive ones of a 5-node hold one value, since more make it store all its places.
void tiles(Draw& draw, FloatTree& tree, bool half)
{
    const Coord root = root_site(draw);
    const float off = any_value(draw, half);
    for (int n = draw.below(30); n > 0; n--) {
        const Coord at = root.offsetBy(draw.below(4096), draw.below(4096), draw.below(4096));
        const bool active = !draw.once_in(4);
        tree.addTile(2, at, active ? any_value(draw, half) : off, active);
    }
    const Coord node = root.offsetBy(128 * draw.below(32));
    for (int n = draw.below(30); n > 0; n--) {
        tree.addTile(1, node.offsetBy(draw.below(128), draw.below(128), draw.below(128)), any_value(draw, half), !draw.once_in(4));
    }
}

// Voxels and tiles in the first and in the last corner.
void edges(Draw& draw, FloatTree& tree, bool half)
{
    tree.setValue(Coord(LOW), any_value(draw, half));
    tree.setValue(Coord(HIGH), any_value(draw, half));
    tree.addTile(1, Coord(LOW, LOW, LOW + 8), any_value(draw, half), true);
    tree.addTile(1, Coord(HIGH, HIGH, HIGH - 8), any_value(draw, half), true);
    tree.addTile(2, Coord(LOW, LOW + 128, LOW), any_value(draw, half), true);
    tree.addTile(2, Coord(HIGH, HIGH - 128, HIGH), any_value(draw, half), true);
}

// Tiles of the tree's root, which document 01 passes over.
void root_tiles(Draw& draw, FloatTree& tree, bool half)
{
    for (int n = 1 + draw.below(4); n > 0; n--) {
        const Coord at = root_site(draw);
        if (tree.probeConstNode<Node5>(at) == nullptr) tree.addTile(3, at, any_value(draw, half), draw.once_in(2));
    }
}

void extras(Draw& draw, FloatTree& tree, const Form& form)
{
    if (form.bytes > 4 * form.root() && draw.once_in(2)) tiles(draw, tree, form.half);
    if (form.bytes > 6 * form.root() && draw.once_in(2)) edges(draw, tree, form.half);
    if (draw.once_in(5)) root_tiles(draw, tree, form.half);
    if (draw.once_in(4)) openvdb::tools::prune(tree);
}

// ---- Raw runs ----

// Whether all places of a node are stored: it has more than two inactive values, or one that is no number and so equal to none.
template <class Node> bool all_stored(const Node& node)
{
    std::set<float> off;
    for (auto place = node.cbeginValueAll(); place; ++place) {
        if (place.isValueOn()) continue;
        if (std::isnan(*place) || (off.insert(*place).second && off.size() > 2)) return true;
    }
    return false;
}

template <class Node> void make_noise(Draw& draw, Node& node, bool every, bool half)
{
    for (auto place = node.beginValueAll(); place; ++place) {
        if (every || place.isValueOn()) place.setValue(noise_value(draw, half));
    }
}

// A node whose children may be many must not store all its places: zeros stand for the children there, and they would be packed.
template <class Node> void make_noise_between(Draw& draw, Node& node, bool every, bool half, float background)
{
    const bool fewer = !every && all_stored(node);
    for (auto place = node.beginValueAll(); place && fewer; ++place) {
        if (!place.isValueOn()) place.setValue(background);
    }
    make_noise(draw, node, every, half);
}

// Gives each stored value noise in every bit, so that no run is packed.
void unpackable(Draw& draw, FloatTree& tree, bool every, bool half)
{
    for (auto root = tree.root().beginChildOn(); root; ++root) {
        make_noise_between(draw, *root, every, half, tree.background());
        for (auto node = root->beginChildOn(); node; ++node) {
            make_noise_between(draw, *node, every, half, tree.background());
            for (auto leaf = node->beginChildOn(); leaf; ++leaf) make_noise(draw, *leaf, every || all_stored(*leaf), half);
        }
    }
}

// ---- Grids ----

// Whether a tree is still too small: another piece takes at least a root, or eight where it lies across roots. A cloud with more than 256 roots would be
// refused.
bool wanting(const FloatTree& tree, const Form& form, int pieces)
{
    const double missing = form.bytes - bytes_of(tree, form);
    return pieces == 0 || (pieces < 30 && tree.root().childCount() < 200 && missing > 0.05 * form.bytes && missing > (form.small() ? 1 : 8) * form.root());
}

// How large the next piece shall be.
double piece(Draw& draw, const FloatTree& tree, const Form& form) { return draw.real(0.4, 1) * (form.bytes - bytes_of(tree, form)); }

FloatGrid::Ptr level_set(Draw& draw, const Form& form)
{
    const float voxel = draw.of(std::vector<float>{1.0f, 0.1f, 0.05f});
    FloatGrid::Ptr grid = FloatGrid::create(3.0f * voxel);
    grid->setGridClass(openvdb::GRID_LEVEL_SET);
    for (int n = 0; wanting(grid->tree(), form, n); n++) {
        add_moved(grid->tree(), shapes(draw, piece(draw, grid->tree(), form), form, voxel)->tree(), shift(draw));
    }
    return grid;
}

// Noise, solid boxes, and shapes turned to fog by OpenVDB's tool, which leaves active tiles inside them.
FloatGrid::Ptr fog(Draw& draw, const Form& form)
{
    FloatGrid::Ptr grid = FloatGrid::create(draw.once_in(4) ? any_value(draw, form.half) : 0.0f);
    grid->setGridClass(openvdb::GRID_FOG_VOLUME);
    for (int n = 0; wanting(grid->tree(), form, n); n++) {
        const double bytes = piece(draw, grid->tree(), form);
        const int kind = draw.below(5);
        if (kind < 3) noise(draw, grid->tree(), bytes, form);
        else if (kind < 4) solid(draw, grid->tree(), bytes, form);
        else {
            FloatGrid::Ptr turned = shapes(draw, bytes / 5, form, 1.0f);
            openvdb::tools::sdfToFogVolume(*turned);
            add_moved(grid->tree(), turned->tree(), shift(draw));
        }
    }
    return grid;
}

// Nodes and leaves of all forms with any values.
FloatGrid::Ptr patterns(Draw& draw, const Form& form)
{
    FloatGrid::Ptr grid = FloatGrid::create(draw.once_in(2) ? 3.0f : any_value(draw, form.half));
    for (int n = 0; wanting(grid->tree(), form, n); n++) random_nodes(draw, grid->tree(), piece(draw, grid->tree(), form), form);
    return grid;
}

// Few children in each node, so that it can store all its places and none is packed.
FloatGrid::Ptr scattered(Draw& draw, const Form& form)
{
    FloatGrid::Ptr grid = FloatGrid::create(any_value(draw, form.half));
    auto inside = [&](const Coord& from, int step, int side) {
        return from.offsetBy(step * draw.below(side), step * draw.below(side), step * draw.below(side));
    };
    for (int n = 0; wanting(grid->tree(), form, n); n++) {
        const Coord root = root_site(draw);
        for (int nodes = 1 + draw.below(4); nodes > 0; nodes--) {
            const Coord node = inside(root, 128, 32);
            for (int leaves = draw.below(6); leaves >= 0; leaves--) random_leaf(draw, grid->tree(), inside(node, 8, 16), form.half);
        }
    }
    return grid;
}

// A map with any doubles in all its vectors, as the library reads and writes one. With the other three it computes the vectors anew before it writes.
Transform::Ptr uniform_of_any(Draw& draw)
{
    std::stringstream bytes(std::ios::in | std::ios::out | std::ios::binary);
    openvdb::io::setCurrentVersion(bytes);
    openvdb::writeString(bytes, "UniformScaleMap");
    for (int n = 0; n < 15; n++) {
        const double number = any_double(draw);
        bytes.write(reinterpret_cast<const char*>(&number), sizeof number);
    }
    Transform::Ptr transform = Transform::createLinearTransform();
    transform->read(bytes);
    return transform;
}

// The library's maps throw where the product of the scales is nearly zero.
Transform::Ptr transform_of(Draw& draw)
{
    const bool special = draw.once_in(4), special_move = draw.once_in(4);
    auto scale = [&] { return special ? any_double(draw) : std::pow(10.0, draw.real(-4, 4)) * (draw.once_in(4) ? -1 : 1); };
    auto move = [&] { return special_move ? any_double(draw) : draw.real(-1e3, 1e3); };
    const double x = scale(), y = scale(), z = scale();
    const Vec3d by(move(), move(), move());
    auto of = [](MapBase* map) { return Transform::Ptr(new Transform(MapBase::Ptr(map)))->copy(); };
    try {
        switch (draw.below(5)) {
        case 0: return of(new openvdb::math::UniformScaleMap(x));
        case 1: return of(new openvdb::math::ScaleMap(Vec3d(x, y, z)));
        case 2: return of(new openvdb::math::UniformScaleTranslateMap(x, by));
        case 3: return of(new openvdb::math::ScaleTranslateMap(Vec3d(x, y, z), by));
        default: return uniform_of_any(draw);
        }
    } catch (const openvdb::ArithmeticError&) {
        return Transform::createLinearTransform(0.1);
    }
}

std::string any_text(Draw& draw)
{
    static const std::vector<std::string> letters = {"a", "Z", " ", "_", "\"", "\\", "\n", "\x01", "\x7f", "\xc3\xa9", "\xe2\x82\xac", "0"};
    std::string text;
    for (int n = draw.below(12); n > 0; n--) text += draw.of(letters);
    return text;
}

// A value of the kind with this number.
openvdb::Metadata::Ptr entry(Draw& draw, int kind)
{
    using namespace openvdb;
    auto i = [&] { return int32_t(draw.bits()); };
    auto f = [&] { return any_value(draw, false); };
    auto d = [&] { return any_double(draw); };
    switch (kind) {
    case 0: return BoolMetadata(draw.once_in(2)).copy();
    case 1: return Int32Metadata(i()).copy();
    case 2: return Int64Metadata(int64_t(draw.bits())).copy();
    case 3: return FloatMetadata(f()).copy();
    case 4: return Vec3IMetadata(Vec3i(i(), i(), i())).copy();
    case 5: return StringMetadata(any_text(draw)).copy();
    case 6: return DoubleMetadata(d()).copy();
    case 7: return Vec2IMetadata(Vec2i(i(), i())).copy();
    case 8: return Vec2SMetadata(Vec2s(f(), f())).copy();
    case 9: return Vec2DMetadata(Vec2d(d(), d())).copy();
    case 10: return Vec3SMetadata(Vec3s(f(), f(), f())).copy();
    case 11: return Vec3DMetadata(Vec3d(d(), d(), d())).copy();
    case 12: return Vec4IMetadata(Vec4i(i(), i(), i(), i())).copy();
    case 13: return Mat4SMetadata(math::Mat4s(f(), f(), f(), f(), f(), f(), f(), f(), f(), f(), f(), f(), f(), f(), f(), f())).copy();
    case 14: return Mat4DMetadata(math::Mat4d::identity()).copy();
    default:
        UnknownMetadata other("kind" + any_text(draw));
        UnknownMetadata::ByteVec bytes(draw.below(40));
        for (auto& byte : bytes) byte = uint8_t(draw.bits());
        other.setValue(bytes);
        return other.copy();
    }
}

// A copied grid has entries already; the library throws where one gets another kind.
void metadata(Draw& draw, openvdb::MetaMap& meta)
{
    for (int n = draw.once_in(3) ? 0 : draw.below(25); n > 0; n--) {
        const std::string name = std::to_string(n) + " " + any_text(draw);
        const openvdb::Metadata::Ptr value = entry(draw, draw.below(17));
        if (!meta[name]) meta.insertMeta(name, *value);
    }
}

void dress(Draw& draw, GridBase& grid, const std::string& name)
{
    grid.setName(name);
    grid.setTransform(transform_of(draw));
    metadata(draw, grid);
}

GridBase::Ptr accepted(Draw& draw, const Form& form)
{
    static const std::vector<std::function<FloatGrid::Ptr(Draw&, const Form&)>> kinds = {fog, fog, level_set, patterns};
    const bool every = form.raw && (!(form.flags & ACTIVE) || (form.bytes > 3e5 && draw.once_in(4))); // all places are stored, and noise
    FloatGrid::Ptr grid = every ? scattered(draw, form) : draw.of(kinds)(draw, form);
    extras(draw, grid->tree(), form);
    if (form.raw) unpackable(draw, grid->tree(), every, form.half);
    if (form.half || draw.once_in(2)) grid->setSaveFloatAsHalf(form.half);
    return grid;
}

// A grid that the reader refuses, now and then for two reasons at once; io::File leaves out flags of its own, and the grid may then be accepted. `other` is
// one of the cloud, whose tree may be shared.
Part refused(Draw& draw, const Part& other)
{
    static const std::vector<std::string> types = {"bool", "double", "int32", "int64", "mask", "vec3d", "vec3i", "vec3s"};
    static const std::vector<uint32_t> packed = {1, 3, 4, 5, 6, 7};
    const std::string name = "refused " + any_text(draw);
    FloatGrid::Ptr grid = FloatGrid::create(0.5f);
    Part part{grid, draw.once_in(4) ? draw.of(packed) : other.flags & ACTIVE, name, ""};
    const int reason = draw.below(6);
    if (reason == 0) part.grid = GridBase::createGrid("Tree_" + draw.of(types) + "_5_4_3");
    if (reason == 1 && !other.name.empty()) part = {other.grid->copyGrid(), other.flags, name, other.name}; // without a name it would be no parent
    dress(draw, *part.grid, name);
    if (reason == 2) grid->setTransform(Transform::createLinearTransform(openvdb::math::Mat4d(1, 2, 0, 0, 0, 1, 0, 0, 0, 0, 1, 0, 4, 5, 6, 1)));
    if (reason == 3) grid->setTransform(Transform::createFrustumTransform(openvdb::BBoxd(Vec3d(0.0), Vec3d(100.0)), 0.5, 10.0));
    if (reason == 4) { // one value for all places of a leaf
        part.flags = draw.of(packed);
        grid->tree().addLeaf(new Leaf(site(draw, 8) & ~7, any_value(draw, false), true));
    }
    const int roots = reason == 5 && other.flags & ACTIVE ? 257 : 0; // with flags 0 they would take 40 MB
    for (int n = 0; n < roots; n++) grid->tree().setValue(Coord(4096 * (n - 128), 0, 0), 1.0f);
    return part;
}

// ---- Files ----

// Names that are there already get the ending by which the library tells them apart.
std::string other_name(const std::vector<Part>& parts, const std::string& name)
{
    int same = 0;
    for (const Part& part : parts) same += part.grid->getName() == name;
    return same == 0 ? name : openvdb::io::GridDescriptor::addSuffix(name, same);
}

// A packing flag, or both, or none. By io::File only zipping leaves runs raw.
uint32_t packing(Draw& draw, bool alike)
{
    static const std::vector<uint32_t> of_file = {0, 0, 0, 0, 0, ZIP, ZIP, ZIP, BLOSC}, of_grid = {0, 0, ZIP, BLOSC, ZIP | BLOSC};
    return draw.of(alike ? of_file : of_grid);
}

std::vector<Part> parts_of(Draw& draw, double bytes, bool alike)
{
    static const std::vector<std::string> names = {"density", "temperature", "", "surface", "heat \xc3\xa9t\xc3\xa9"};
    const int count = bytes < 40e3 ? 1 : 1 + draw.below(5);
    const bool plain = draw.once_in(3);
    const uint32_t packed = packing(draw, alike);
    std::vector<Part> parts;
    for (int n = 0; n < count; n++) {
        Form form{draw.once_in(2), ACTIVE, bytes / count};
        if (form.bytes > 2e5 && (alike ? plain : draw.once_in(2))) form.flags = PLAIN;
        if (bytes <= 1e7) form.flags |= alike ? packed : packing(draw, alike);
        form.raw = form.flags & (ZIP | BLOSC) && !draw.once_in(4) && !(alike && form.flags & BLOSC);
        GridBase::Ptr grid = accepted(draw, form);
        // The library zips neither fog nor level sets. By io::File they may stay what they are, and lose the flag.
        if (form.flags & (ZIP | BLOSC) && !(alike && draw.once_in(3))) grid->setGridClass(openvdb::GRID_UNKNOWN);
        const std::string name = draw.of(names);
        dress(draw, *grid, name);
        parts.push_back({grid, form.flags, other_name(parts, name), "", form.raw && !alike});
    }
    if (bytes <= 1e7 && draw.once_in(2)) parts.push_back(refused(draw, parts[0]));
    return parts;
}

// A background has four bytes at either width, and is read as it is.
uint32_t any_background(Draw& draw)
{
    static const std::vector<uint32_t> special = {0, 0x80000000, 1, 0x807fffff, 0x7f800000, 0xff800000, 0x7fa12345, 0xffa12345, 0x7fc12345, 0xffc00001};
    return draw.once_in(2) ? draw.of(special) : uint32_t(draw.bits());
}

void other_backgrounds(Draw& draw, const std::string& path)
{
    const Parse parse(path);
    for (const RawGrid& grid : parse.grids) {
        if (draw.once_in(3) && Parse::by_descriptor(grid) == 0) set_background(path, grid, any_background(draw));
    }
}

// Half of the clouds are written by io::File, all grids with the same flags. It names grids of one name anew, and knows a shared tree by itself.
void write_cloud(Draw& draw, const std::string& path, double bytes, int number)
{
    const bool alike = draw.once_in(2);
    const std::vector<Part> parts = parts_of(draw, bytes, alike);
    openvdb::MetaMap meta;
    metadata(draw, meta);
    if (alike) {
        openvdb::GridPtrVec grids;
        for (const Part& part : parts) grids.push_back(part.grid);
        openvdb::io::File file(path);
        file.setCompression(parts[0].flags);
        file.write(grids, meta);
    } else {
        MixedArchive().save(path, parts, meta);
    }
    set_identity(path, number);
    other_backgrounds(draw, path);
}

} // namespace

int main(int count, char** argument)
{
    if (count < 4) {
        std::cerr << "usage: generate DIRECTORY COUNT SEED [MEGABYTES ..]\n";
        return 2;
    }
    openvdb::initialize();
    const std::string directory = argument[1];
    const int clouds = std::atoi(argument[2]);
    const uint64_t seed = std::strtoull(argument[3], nullptr, 10);
    std::filesystem::create_directories(directory);
    for (int n = 0; n < clouds + count - 4; n++) {
        Draw draw(seed << 32 | uint64_t(n));
        const double bytes = n < clouds ? 1e4 * std::pow(1e3, draw.real(0, 1)) : 1e6 * std::atof(argument[4 + n - clouds]);
        write_cloud(draw, directory + (n < clouds ? "/cloud-" + std::to_string(n) : "/large-" + std::to_string(n - clouds)) + ".vdb", bytes, n);
    }
    return 0;
}
