// Writes the small clouds that the reader is tested with, all by OpenVDB's own library.
//
//     make_clouds DIRECTORY
//
// Every tree is Tree_float_5_4_3 unless the cloud is there to be refused. OpenVDB draws 36 random
// identity bytes for each file; they are set to a fixed text afterwards (set_identity), so that
// two runs give equal files. No other byte is touched but flags 6 and 7 of raw runs and the
// backgrounds of two clouds (archive.h).

#include "archive.h"

#include <openvdb/io/Stream.h>
#include <openvdb/tools/LevelSetSphere.h>

#include <cmath>
#include <iostream>
#include <random>

namespace {

using openvdb::GridBase;
using openvdb::Vec3d;

std::string directory;

std::string path_of(const std::string& name) { return directory + "/" + name; }

// The float whose half is the given pattern.
float half(uint16_t bits) {
    openvdb::math::half value;
    value.setBits(bits);
    return float(value);
}

void write(const std::string& name, int number, uint32_t flags,
           const openvdb::GridCPtrVec& grids,
           const openvdb::MetaMap& meta = openvdb::MetaMap()) {
    {
        openvdb::io::File file(path_of(name));
        file.setCompression(flags);
        file.write(grids, meta);
    }
    set_identity(path_of(name), number);
}

FloatGrid::Ptr cloud(const std::string& name, float background, openvdb::GridClass kind) {
    FloatGrid::Ptr grid = FloatGrid::create(background);
    grid->setName(name);
    grid->setGridClass(kind);
    return grid;
}

FloatGrid::Ptr fog(const std::string& name) {
    return cloud(name, 0.0f, openvdb::GRID_FOG_VOLUME);
}

// A leaf with all places inactive at one value, added to the tree.
Leaf* add_leaf(FloatTree& tree, const Coord& at, float value) {
    Leaf* leaf = new Leaf(at, value, false);
    tree.addLeaf(leaf);
    return leaf;
}

// Fills the leaf's inactive places in turn with the given values.
void inactive(Leaf* leaf, const std::vector<float>& values) {
    size_t n = 0;
    for (openvdb::Index p = 0; p < Leaf::SIZE; ++p) {
        if (!leaf->isValueOn(p)) leaf->setValueOff(p, values[n++ % values.size()]);
    }
}

// The inactive values that make OpenVDB choose each of the forms 0 to 6, where the background is 3.
const std::vector<std::vector<float>> FILLS = {
    {3.0f}, {-3.0f}, {7.5f}, {3.0f, -3.0f}, {3.0f, 0.1f}, {0.25f, -9.0f}, {1.0f, 2.0f, 4.0f}};

// From place `first` on, 24 inactive places of a node take a form's values in turn.
template <class Node>
void fill_form(Node* node, openvdb::Index first, const std::vector<float>& fill) {
    for (openvdb::Index n = 0; n < 24; ++n) node->addTile(first + n, fill[n % fill.size()], false);
}

// Fog with leaves and active tiles of both levels, three roots, positive and negative coordinates.
FloatGrid::Ptr fog_cloud() {
    FloatGrid::Ptr grid = fog("density");
    grid->setTransform(openvdb::math::Transform::createLinearTransform(0.5));
    FloatTree& tree = grid->tree();

    // Root (0, 0, 0): a 4-node with three leaves and tiles, one with tiles only, 5-node tiles.
    Leaf* leaf = add_leaf(tree, Coord(0, 0, 0), 0.0f);
    leaf->setValueOn(0, 1.0f);
    leaf->setValueOn(74, 0.625f);
    leaf->setValueOn(511, pattern(0x3dcccccd));
    leaf = add_leaf(tree, Coord(0, 0, 24), 0.0f);
    leaf->setValueOn(1, pattern(0x80000000)); // minus zero
    leaf->setValueOn(2, pattern(0x00000001)); // the least positive float
    leaf->setValueOn(63, pattern(0x7f800000)); // infinity
    leaf->setValueOn(64, pattern(0x7fc12345)); // not a number, with fraction bits
    leaf->setValueOn(65, pattern(0xff7fffff)); // the least float
    leaf = add_leaf(tree, Coord(120, 120, 112), 0.0f);
    leaf->setValueOn(256, 0.5f);
    tree.addTile(1, Coord(0, 0, 8), 0.75f, true);
    tree.addTile(1, Coord(120, 120, 120), 0.25f, true);
    tree.addTile(1, Coord(64, 0, 0), 0.0625f, false); // inactive, and not the background
    tree.addTile(1, Coord(128, 128, 128), 2.0f, true);
    tree.addTile(1, Coord(128, 136, 144), 2.5f, true);
    tree.addTile(2, Coord(0, 0, 128), 0.375f, true);
    tree.addTile(2, Coord(3968, 3968, 3968), 0.125f, true);

    // Root (-4096, -4096, -4096): one leaf with all places active, and a 5-node tile.
    leaf = add_leaf(tree, Coord(-8, -8, -8), 0.0f);
    for (openvdb::Index p = 0; p < Leaf::SIZE; ++p) leaf->setValueOn(p, float(p + 1) / 512.0f);
    tree.addTile(2, Coord(-4096, -4096, -4096), -1.0f, true);

    // Root (-4096, 0, 4096): the place of document 01's case A, and a leaf with no active place.
    tree.setValue(Coord(-3847, 249, 4346), 1.0f);
    add_leaf(tree, Coord(-3840, 248, 4352), 0.0f);
    return grid;
}

// The same kinds of nodes, with one root only: without active-mask compression a 5-node stores
// 32,768 values.
FloatGrid::Ptr small_fog(const std::string& name) {
    FloatGrid::Ptr grid = fog(name);
    grid->setTransform(openvdb::math::Transform::createLinearTransform(0.25));
    FloatTree& tree = grid->tree();
    // The 4-node, at place 32,735 of the 5-node, lies between the two active tiles.
    tree.setValue(Coord(-1, -129, -1), 1.5f);
    tree.setValue(Coord(-8, -130, -3), 0.1f);
    tree.setValue(Coord(-128, -256, -128), pattern(0x80000000));
    Leaf* leaf = tree.touchLeaf(Coord(-128, -256, -128));
    leaf->setValueOff(7, 0.3f); // inactive places keep their values in such files
    leaf->setValueOff(500, -4.0f);
    tree.addTile(1, Coord(-8, -136, -16), 0.75f, true);
    tree.addTile(1, Coord(-128, -256, -120), 0.2f, false);
    tree.addTile(2, Coord(-4096, -4096, -4096), -1.0f, true);
    tree.addTile(2, Coord(-128, -128, -256), 0.7f, true);
    return grid;
}

// A sphere made by OpenVDB: background 3, inactive places 3 outside and -3 inside. The centre is
// chosen so that its leaves have the forms 0, 1 and 3.
FloatGrid::Ptr sphere() {
    FloatGrid::Ptr grid = openvdb::tools::createLevelSetSphere<FloatGrid>(
        /*radius=*/6.0f, /*centre=*/openvdb::Vec3f(-63.0f, 66.0f, -20.0f),
        /*voxelSize=*/1.0f, /*halfWidth=*/3.0f);
    grid->setName("surface");
    return grid;
}

// Leaves and 4-nodes of all seven forms: background 3, one root. The 4-node numbered f is of form
// f, and its leaf numbered f is too. (OpenVDB chooses the form from the inactive values.)
FloatGrid::Ptr form_cloud() {
    FloatGrid::Ptr grid = cloud("forms", 3.0f, openvdb::GRID_LEVEL_SET);
    FloatTree& tree = grid->tree();
    Node5* root = new Node5(Coord(0, -4096, 0), 3.0f, false);
    tree.root().addChild(root);
    for (size_t form = 0; form < FILLS.size(); ++form) {
        const std::vector<float>& fill = FILLS[form];
        Node4* node = new Node4(Coord(0, -4096, 128 * int(form)), fill[0], false);
        root->addChild(node);
        fill_form(node, 1000, fill);
        node->addTile(openvdb::Index(5 + form), 0.5f + float(form), true);
        node->addTile(openvdb::Index(4095), -0.5f - float(form), true);

        Leaf* leaf = new Leaf(Coord(8, -4096, 128 * int(form)), 3.0f, false);
        node->addLeaf(leaf);
        for (openvdb::Index p = openvdb::Index(form); p < Leaf::SIZE; p += 100) {
            leaf->setValueOn(p, float(p) / 8.0f);
        }
        inactive(leaf, fill);
    }
    return grid;
}

// 5-nodes of the forms 1 to 5 (form 6 would store 32,768 values): background 3, one root each.
FloatGrid::Ptr root_cloud() {
    FloatGrid::Ptr grid = cloud("roots", 3.0f, openvdb::GRID_LEVEL_SET);
    FloatTree& tree = grid->tree();
    const std::vector<std::vector<float>> fills = {
        {-3.0f}, {7.5f}, {-3.0f, 3.0f}, {0.1f, 3.0f}, {-9.0f, 0.25f}};
    for (size_t n = 0; n < fills.size(); ++n) {
        const std::vector<float>& fill = fills[n];
        // Two origins have negative coordinates; the third one made comes last in the file.
        const Coord at = Coord(4096, 4096, 4096).offsetBy(
            n < 1 ? -8192 : 0, n < 2 ? -8192 : 0, 4096 * int(n % 3));
        Node5* root = new Node5(at, fill[0], false);
        tree.root().addChild(root);
        for (openvdb::Index p = 2000; p < 2040; ++p) {
            root->addTile(p, fill[p % fill.size()], false);
        }
        root->addTile(openvdb::Index(33 * n), 1.0f + float(n), true);
        root->addTile(openvdb::Index(32767), -1.0f - float(n), true);
    }
    // One leaf under the root of form 5. Its 4-node's and its own inactive places hold -9: form 2.
    tree.setValue(Coord(4100, 4101, 8198), 6.0f);
    return grid;
}

// Halves: subnormal, largest, infinite, not a number, minus zero, and values that have to be
// rounded. Background and inactive values are rounded to halves too, but take four bytes.
FloatGrid::Ptr half_cloud() {
    FloatGrid::Ptr grid = cloud("halves", 0.1f, openvdb::GRID_UNKNOWN);
    grid->setSaveFloatAsHalf(true);
    FloatTree& tree = grid->tree();
    const uint16_t halves[] = {0x0000, 0x0001, 0x0002, 0x03ff, 0x0400, 0x0401, 0x3555, 0x3c00,
                               0x7bff, 0x7c00, 0x7e00, 0x7e01, 0x8000, 0x8001, 0x83ff, 0x8400,
                               0xbc00, 0xfbff, 0xfc00, 0xfe00};
    const std::vector<std::vector<float>> fills = {
        {0.1f}, {-0.1f}, {0.3f}, {0.1f, -0.1f}, {0.1f, 0.7f}, {0.3f, 0.7f}, {0.2f, 0.3f, 0.7f}};
    for (size_t form = 0; form < fills.size(); ++form) {
        Leaf* leaf = add_leaf(tree, Coord(-4096, 0, 8 * int(form)), 0.1f);
        openvdb::Index p = openvdb::Index(form);
        for (uint16_t bits : halves) {
            leaf->setValueOn(p, half(bits));
            p += 7;
        }
        leaf->setValueOn(400, 1.0f / 3.0f);
        leaf->setValueOn(401, 65519.0f); // rounds to the largest half
        leaf->setValueOn(402, 1e-9f);    // rounds to zero
        inactive(leaf, fills[form]);
    }
    tree.addTile(1, Coord(-4096, 0, 64), 1e-7f, true); // a subnormal half
    tree.addTile(1, Coord(-4096, 8, 0), 0.7f, false);
    tree.addTile(1, Coord(-3976, 120, 120), half(0x8001), true);
    tree.addTile(2, Coord(-4096, 0, 128), half(0x0155), true);
    tree.addTile(2, Coord(-128, 3968, 3968), 0.9f, true);
    tree.addTile(2, Coord(-4096, 128, 0), 0.3f, false);
    return grid;
}

// Halves in full mask words. Of the first leaf four words have only normal halves, one has a subnormal first, one a subnormal last, one an infinity,
// one a not-a-number and minus zero. In the second leaf a word is empty and one lacks a voxel, so that later words start at odd stored values.
FloatGrid::Ptr full_halves() {
    FloatGrid::Ptr grid = fog("full");
    grid->setSaveFloatAsHalf(true);
    FloatTree& tree = grid->tree();
    for (int z : {0, 8}) {
        Leaf* leaf = add_leaf(tree, Coord(0, 0, z), 0.0f);
        for (openvdb::Index p = 0; p < 512; ++p) {
            const bool left_out = z == 8 && (p / 64 == 1 || p == 3 * 64 + 5);
            if (!left_out) leaf->setValueOn(p, half(uint16_t((p % 3 == 0 ? 0x8000 : 0) + 0x0400 + p * 977 % 0x7800)));
        }
    }
    Leaf* first = tree.probeLeaf(Coord(0, 0, 0));
    first->setValueOn(4 * 64, half(0x0001));
    first->setValueOn(5 * 64 + 63, half(0x83ff));
    first->setValueOn(6 * 64 + 31, half(0xfc00));
    first->setValueOn(7 * 64 + 8, half(0x7e01));
    first->setValueOn(7 * 64 + 9, half(0x8000));
    return grid;
}

// Voxels in the first and in the last corner of all coordinates.
FloatGrid::Ptr edge_cloud() {
    FloatGrid::Ptr grid = fog("edge");
    FloatTree& tree = grid->tree();
    const int low = -2147483647 - 1, high = 2147483647;
    tree.setValue(Coord(low, low, low), 1.0f);
    tree.setValue(Coord(high, high, high), 2.0f);
    tree.addTile(1, Coord(low, low, low + 8), 3.0f, true);
    tree.addTile(1, Coord(high - 7, high - 7, high - 15), 4.0f, true);
    tree.addTile(2, Coord(low, low, low + 128), 5.0f, true);
    tree.addTile(2, Coord(high - 127, high - 127, high - 255), 6.0f, true);
    return grid;
}

// Entries of every kind.
void all_kinds(openvdb::MetaMap& meta, int shift) {
    using namespace openvdb;
    meta.insertMeta("a string", StringMetadata("haze \xc3\xa9t\xc3\xa9"));
    meta.insertMeta("an empty string", StringMetadata(""));
    meta.insertMeta("bool no", BoolMetadata(false));
    meta.insertMeta("bool yes", BoolMetadata(true));
    meta.insertMeta("double", DoubleMetadata(0.1 + shift));
    meta.insertMeta("float", FloatMetadata(0.1f + float(shift)));
    meta.insertMeta("int32", Int32Metadata(-7 - shift));
    meta.insertMeta("int32 least", Int32Metadata(-2147483647 - 1));
    meta.insertMeta("int64", Int64Metadata(-(int64_t(1) << 40) + shift));
    meta.insertMeta("int64 most", Int64Metadata(INT64_MAX));
    meta.insertMeta("mat4d", Mat4DMetadata(math::Mat4d::identity()));
    meta.insertMeta("vec2i", Vec2IMetadata(Vec2i(1, -2)));
    meta.insertMeta("vec3d", Vec3DMetadata(Vec3d(0.5, -0.25, shift)));
    meta.insertMeta("vec3i", Vec3IMetadata(Vec3i(-1, shift, 2147483647)));
    meta.insertMeta("vec3s", Vec3SMetadata(Vec3s(0.5f, -0.25f, float(shift))));
    UnknownMetadata curve("curve"); // a kind that OpenVDB itself does not know
    curve.setValue({0xde, 0xad, 0xbe, 0xef, 0x00});
    meta.insertMeta("curve", curve);
    meta.insertMeta("curve empty", UnknownMetadata("curve"));
}

// Six grids, not in the order of their names, with all four maps, flags 0 and 2, both widths.
void several(const std::string& name, int number) {
    using openvdb::math::MapBase;
    using openvdb::math::Transform;
    std::vector<MixedArchive::Part> parts;

    FloatGrid::Ptr grid = fog("zeta"); // a leaf and a tile; every kind of metadata
    grid->setTransform(Transform::createLinearTransform(0.1));
    grid->tree().setValue(Coord(1, 2, 3), 0.5f);
    grid->tree().addTile(1, Coord(8, 16, 24), 0.25f, true);
    all_kinds(*grid, 1);
    parts.push_back({grid, ACTIVE, openvdb::io::GridDescriptor::addSuffix("zeta", 0), ""});

    grid = cloud("alpha", 1.0f, openvdb::GRID_UNKNOWN); // saved as halves; a negative scale
    grid->setSaveFloatAsHalf(true);
    grid->setTransform(Transform::Ptr(new Transform(
        MapBase::Ptr(new openvdb::math::ScaleMap(Vec3d(-1.5, 2.0, 0.3))))));
    grid->tree().setValue(Coord(-1, -1, -1), 1.0f / 3.0f);
    grid->tree().addTile(2, Coord(-256, -256, -256), 0.1f, true);
    parts.push_back({grid, ACTIVE, "alpha", ""});

    grid = cloud("", -0.0f, openvdb::GRID_UNKNOWN); // no name, no roots, plain
    grid->setTransform(Transform::Ptr(new Transform(MapBase::Ptr(
        new openvdb::math::ScaleTranslateMap(Vec3d(1.0, 2.0, 4.0), Vec3d(-0.5, 0.1, 1e9))))));
    parts.push_back({grid, PLAIN, "", ""});

    grid = fog("slab"); // root tiles, active and not, beside a root
    grid->setTransform(Transform::Ptr(new Transform(MapBase::Ptr(
        new openvdb::math::UniformScaleTranslateMap(0.25, Vec3d(3.0, -4.0, 5.0))))));
    grid->tree().addTile(3, Coord(-8192, 0, 0), 0.5f, true);
    grid->tree().addTile(3, Coord(8192, 0, 0), 0.75f, false);
    grid->tree().setValue(Coord(-5000, -5000, -5000), 0.875f);
    grid->tree().addTile(2, Coord(-4224, -4224, -4224), 0.5f, true);
    parts.push_back({grid, ACTIVE, "slab", ""});

    // A second cloud of the first one's name, with a root tile only. OpenVDB tells such names apart
    // by a byte 1e and a number.
    grid = cloud("zeta", 2.0f, openvdb::GRID_UNKNOWN);
    grid->tree().addTile(3, Coord(0, -4096, 0), 0.5f, true);
    parts.push_back({grid, PLAIN, openvdb::io::GridDescriptor::addSuffix("zeta", 1), ""});

    grid = cloud("zeta half", 0.3f, openvdb::GRID_UNKNOWN); // no roots, halves, plain
    grid->setSaveFloatAsHalf(true);
    parts.push_back({grid, PLAIN, "zeta half", ""});

    openvdb::MetaMap meta;
    all_kinds(meta, 2);
    MixedArchive().save(path_of(name), parts, meta);
    set_identity(path_of(name), number);
}

// Values with noise in every bit, so that packing does not make them shorter. No half is a
// signalling NaN, which OpenVDB reads otherwise than document 01.
class Noise {
public:
    Noise(bool half, uint32_t seed) : halves(half), numbers(seed) {}
    float value() {
        const uint32_t bits = uint32_t(numbers());
        if (!halves) return pattern(bits);
        return half(uint16_t((bits & 0x7fff) > 0x7c00 ? bits | 0x0200 : bits));
    }
    std::vector<float> values(size_t count) {
        std::vector<float> row(count);
        for (float& one : row) one = value();
        return row;
    }

private:
    bool halves;
    std::mt19937 numbers;
};

// OpenVDB zips no fog and no level set: the class of these grids is unknown.
FloatGrid::Ptr packable(const std::string& name, bool half) {
    FloatGrid::Ptr grid = cloud(name, 3.0f, openvdb::GRID_UNKNOWN);
    grid->setSaveFloatAsHalf(half);
    return grid;
}

// A leaf of the given form with so many active voxels. With form 6 every place is stored, and noise.
Leaf* noisy_leaf(const Coord& at, int form, openvdb::Index active, Noise& noise) {
    Leaf* leaf = new Leaf(at, 3.0f, false);
    for (openvdb::Index n = 0; n < active; ++n) leaf->setValueOn(n * 512 / active, noise.value());
    inactive(leaf, form == 6 ? noise.values(512) : FILLS[form]);
    return leaf;
}

// One root whose runs are all raw. The 5-node and one 4-node have the forms that are asked for. The
// other 4-node has leaves of each form; it stores `least` values, 0 or 1, and so do two of them, one
// behind a selection mask.
FloatGrid::Ptr raw_cloud(const std::string& name, bool half, int form_5, int form_4,
                         openvdb::Index least) {
    FloatGrid::Ptr grid = packable(name, half);
    Noise noise(half, uint32_t(10 * form_5 + form_4));
    Node5* root = new Node5(Coord(-4096, 0, 4096), FILLS[form_5][0], false);
    grid->tree().root().addChild(root);
    fill_form(root, 2000, FILLS[form_5]);
    for (openvdb::Index p : {0, 33, 1058, 32767}) root->addTile(p, noise.value(), true);

    Node4* node = new Node4(Coord(-4096, 0, 4224), 3.0f, false);
    root->addChild(node);
    if (least > 0) node->addTile(4000, noise.value(), true);
    const openvdb::Index active[] = {1, least, 2, 11, least, 64, 5};
    for (int form = 0; form < 7; ++form) {
        node->addLeaf(noisy_leaf(Coord(-4096, 0, 4224 + 8 * form), form, active[form], noise));
    }
    node = new Node4(Coord(-3968, 128, 4224), FILLS[form_4][0], false);
    root->addChild(node);
    fill_form(node, 1000, FILLS[form_4]);
    for (openvdb::Index p = 0; p < 30; ++p) node->addTile(p * 140, noise.value(), true);
    node->addLeaf(noisy_leaf(Coord(-3848, 248, 4344), 0, least == 0 ? 512 : 300, noise));
    return grid;
}

// All places of one root and its 4-node are stored, and all are noise.
FloatGrid::Ptr raw_places(const std::string& name) {
    FloatGrid::Ptr grid = packable(name, true);
    Noise noise(true, 6);
    Node5* root = new Node5(Coord(0, -4096, 0), 0.0f, false);
    Node4* node = new Node4(Coord(0, -128, 128), 0.0f, false);
    for (openvdb::Index p = 0; p < 32768; ++p) root->addTile(p, noise.value(), p % 1000 == 7);
    for (openvdb::Index p = 0; p < 4096; ++p) node->addTile(p, noise.value(), p % 200 == 7);
    grid->tree().root().addChild(root);
    root->addChild(node);
    node->addLeaf(noisy_leaf(Coord(64, -64, 192), 6, 20, noise));
    node->addLeaf(noisy_leaf(Coord(120, -8, 248), 6, 20, noise));
    return grid;
}

// Grids with a packing flag and no packed run, of floats, and grids without a run at all.
void raw(const std::string& name, int number) {
    std::vector<MixedArchive::Part> parts;
    parts.push_back({raw_cloud("zip", false, 0, 4, 0), ZIP | ACTIVE, "zip", ""});
    parts.push_back({raw_cloud("blosc", false, 0, 5, 1), BLOSC | ACTIVE, "blosc", "", true});
    parts.push_back({raw_cloud("both", false, 5, 3, 0), ZIP | BLOSC | ACTIVE, "both", "", true});
    parts.push_back({packable("no zip", false), ZIP, "no zip", ""});
    parts.push_back({packable("no blosc", false), BLOSC, "no blosc", ""});
    MixedArchive().save(path_of(name), parts, openvdb::MetaMap());
    set_identity(path_of(name), number);
}

// The same of halves. The last two grids are as OpenVDB writes them with Blosc: an empty run of
// halves has no number before it, so that one grid has no number at all, and the other a single one,
// in its 4-node, whose tile is packed.
void raw_half(const std::string& name, int number) {
    std::vector<MixedArchive::Part> parts;
    parts.push_back({raw_cloud("zip", true, 3, 2, 0), ZIP | ACTIVE, "zip", ""});
    parts.push_back({raw_cloud("blosc", true, 2, 5, 1), BLOSC | ACTIVE, "blosc", "", true});
    for (const std::string title : {"empty", "tile"}) {
        FloatGrid::Ptr grid = packable(title, true);
        add_leaf(grid->tree(), Coord(0, 0, 8), 3.0f);
        if (title == "tile") grid->tree().addTile(1, Coord(0), 1.0f, true);
        parts.push_back({grid, BLOSC | ACTIVE, title, ""});
    }
    MixedArchive().save(path_of(name), parts, openvdb::MetaMap());
    set_identity(path_of(name), number);
}

// One root of the given form, with a 4-node of the other and leaves of each form below it.
FloatGrid::Ptr two_forms(const std::string& name, bool half, int form_5, int form_4) {
    FloatGrid::Ptr grid = cloud(name, 3.0f, openvdb::GRID_UNKNOWN);
    grid->setSaveFloatAsHalf(half);
    Node5* root = new Node5(Coord(0, -4096, 4096), FILLS[form_5][0], false);
    Node4* node = new Node4(Coord(128, -3968, 4096), FILLS[form_4][0], false);
    grid->tree().root().addChild(root);
    root->addChild(node);
    fill_form(root, 2000, FILLS[form_5]);
    fill_form(node, 1000, FILLS[form_4]);
    root->addTile(32767, 0.5f, true);
    node->addTile(4095, -0.5f, true);
    for (int form = 0; form < 7; ++form) {
        Leaf* leaf = new Leaf(Coord(128, -3968, 4096 + 8 * form), 3.0f, false);
        node->addLeaf(leaf);
        for (openvdb::Index p = openvdb::Index(form); p < Leaf::SIZE; p += 90) {
            leaf->setValueOn(p, float(p) / 8.0f);
        }
        inactive(leaf, FILLS[form]);
    }
    return grid;
}

// Grids of every form, written with the background 3, which gets another pattern afterwards
// (set_background says why). Each is named by it.
struct Other {
    uint32_t background;
    int form_5, form_4;
};

void backgrounds(const std::string& name, int number, bool half, const std::vector<Other>& others) {
    openvdb::GridCPtrVec grids;
    for (const Other& other : others) {
        char title[16];
        std::snprintf(title, sizeof title, "%08x", other.background);
        grids.push_back(two_forms(title, half, other.form_5, other.form_4));
    }
    write(name, number, ACTIVE, grids);
    const Parse parse(path_of(name));
    for (size_t n = 0; n < others.size(); ++n) {
        set_background(path_of(name), parse.grids.at(n), others[n].background);
    }
}

// Grids that the reader refuses to open, each for its own reason, in a file that opens; the last
// one is accepted.
void refused(const std::string& name, int number) {
    using openvdb::math::MapBase;
    using openvdb::math::Transform;
    std::vector<MixedArchive::Part> parts;

    openvdb::Int32Grid::Ptr counts = openvdb::Int32Grid::create(7);
    counts->setName("counts"); // another value type
    parts.push_back({counts, ACTIVE, "counts", ""});

    openvdb::DoubleGrid::Ptr doubles = openvdb::DoubleGrid::create(0.5);
    doubles->setName("doubles");
    doubles->setSaveFloatAsHalf(true); // Tree_double_5_4_3_HalfFloat
    parts.push_back({doubles, ACTIVE, "doubles", ""});

    FloatGrid::Ptr tree = cloud("tree", 0.5f, openvdb::GRID_UNKNOWN);
    tree->tree().setValue(Coord(-200, 300, -400), 0.75f);
    parts.push_back({tree, ACTIVE, "tree", ""});
    FloatGrid::Ptr shared = tree->copy(); // a grid with the tree of the one before
    shared->setName("shared");
    shared->setTransform(Transform::createLinearTransform(3.0));
    parts.push_back({shared, ACTIVE, "shared", "tree"});

    // Packed are the run of the last leaf; each run; the 5-node's, of 32,768 values.
    FloatGrid::Ptr zip = packable("zip", false);
    for (int z = 0; z < 5; ++z) zip->tree().setValue(Coord(0, 0, 8 * z), 0.75f);
    zip->tree().addLeaf(new Leaf(Coord(0, 0, 40), 0.75f, true));
    parts.push_back({zip, ZIP | ACTIVE, "zip", ""});
    FloatGrid::Ptr blosc = packable("blosc", false);
    blosc->tree().setValue(Coord(0), 0.75f);
    parts.push_back({blosc, BLOSC | ACTIVE, "blosc", ""});
    FloatGrid::Ptr alone = packable("zip alone", false);
    alone->tree().addTile(2, Coord(0), 0.75f, true);
    parts.push_back({alone, ZIP, "zip alone", ""});

    FloatGrid::Ptr turned = cloud("turned", 0.5f, openvdb::GRID_UNKNOWN); // AffineMap
    openvdb::math::Mat4d turn = openvdb::math::Mat4d::identity();
    turn.preRotate(openvdb::math::Z_AXIS, 0.5);
    turn.postTranslate(Vec3d(1.0, 2.0, 3.0));
    turned->setTransform(Transform::createLinearTransform(turn));
    parts.push_back({turned, ACTIVE, "turned", ""});

    FloatGrid::Ptr camera = cloud("camera", 0.5f, openvdb::GRID_UNKNOWN); // NonlinearFrustumMap
    camera->setTransform(Transform::createFrustumTransform(
        openvdb::BBoxd(Vec3d(0.0), Vec3d(100.0)), /*taper=*/0.5, /*depth=*/10.0));
    parts.push_back({camera, ACTIVE, "camera", ""});

    parts.push_back({cloud("last", 0.5f, openvdb::GRID_UNKNOWN), ACTIVE, "last", ""});
    MixedArchive().save(path_of(name), parts, openvdb::MetaMap());
    set_identity(path_of(name), number);
}

// A file without grid positions (offsets byte 0), as OpenVDB writes to a pipe.
void stream(const std::string& name, int number) {
    {
        std::ofstream os(path_of(name), std::ios::binary);
        openvdb::io::Stream archive(os);
        archive.setCompression(ACTIVE);
        openvdb::GridCPtrVec grids = {fog("piped")};
        archive.write(grids);
    }
    set_identity(path_of(name), number);
}

} // namespace

int main(int argc, char** argv) {
    if (argc != 2) {
        std::cerr << "usage: make_clouds DIRECTORY\n";
        return 2;
    }
    directory = argv[1];
    openvdb::initialize();
    write("fog_active.vdb", 1, ACTIVE, {fog_cloud()});
    write("fog_plain.vdb", 2, PLAIN, {small_fog("density")});
    write("levelset_active.vdb", 3, ACTIVE, {sphere()});
    write("forms_active.vdb", 4, ACTIVE, {form_cloud()});
    write("roots_active.vdb", 5, ACTIVE, {root_cloud()});
    write("half_active.vdb", 6, ACTIVE, {half_cloud()});
    FloatGrid::Ptr plain = small_fog("density");
    plain->setSaveFloatAsHalf(true);
    write("half_plain.vdb", 7, PLAIN, {plain});
    write("edge.vdb", 8, ACTIVE, {edge_cloud()});
    several("several.vdb", 9);
    refused("refused.vdb", 10);
    write("no_grids.vdb", 11, ACTIVE, {});
    stream("stream.vdb", 12);
    write("half_full.vdb", 13, ACTIVE, {full_halves()});
    raw("raw.vdb", 14);
    raw_half("raw_half.vdb", 15);
    write("raw_plain.vdb", 16, ZIP, {raw_places("noise")});
    backgrounds("backgrounds.vdb", 17, false,
                {{0x80000000, 0, 3}, {0x3f800000, 3, 1}, {0x7fa12345, 1, 4}, {0xff800000, 2, 0}});
    backgrounds("backgrounds_half.vdb", 18, true,
                {{0x00000000, 1, 4}, {0x3f800001, 4, 3}, {0xffc54321, 3, 1}, {0xff800000, 0, 2}});
    return 0;
}
