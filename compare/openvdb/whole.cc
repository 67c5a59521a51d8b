// Compares our reader with OpenVDB's library over whole clouds of any size, in one process.
//
//     whole SEED < PATHS     one path a line
//
// Of each file: header, descriptors, metadata, transform, background, every leaf's values and origin, every record, and the number of a refusal. The records come
// in portions drawn from SEED. Each must be active in OpenVDB's tree, at its level and with its value, and successive ones must rise in the order of
// document 01's section 7, which `Order` computes from a record alone. So none comes twice; and as there are as many as OpenVDB counts, none is missing.
// Leaves are numbered by the same order, and all their 512 values are compared. Prints the first difference of each file and what was compared; exits with 1
// if there was a difference.
#include "library.h"
#include "vdb.h"

#include <cinttypes>
#include <cstdio>
#include <map>
#include <random>

namespace {

struct Counts {
    uint64_t files = 0, bytes = 0, largest = 0, grids = 0, halves = 0, entries = 0, leaves = 0, records[3] = {0, 0, 0}, walks = 0, different = 0;
    uint64_t root_tiles = 0; // active ones, which document 01 does not list
    std::map<uint32_t, uint64_t> refused, flags;
    std::map<uint32_t, uint64_t> forms[2][2]; // of leaves: floats or halves, every value stored or flag 0x2
    std::map<std::string, uint64_t> kinds, maps;
    std::map<std::string, uint64_t> backgrounds; // of leaves that have it, or minus it, where the file has no value
};

Counts counts;
std::mt19937_64 numbers;

// The file's bytes, lent to our reader.
struct Bytes {
    const uint8_t* at;
    size_t length;
    std::string text(uint64_t start, uint64_t count) const
    {
        agree(start <= length && count <= length - start, "ours: a text lies in the file");
        return std::string(reinterpret_cast<const char*>(at) + start, count);
    }
};

const uint8_t* lent(const std::string& text) { return reinterpret_cast<const uint8_t*>(text.data()); }

// ---- Header, descriptors, metadata ----

void header(const Bytes& bytes, const Parse& parse)
{
    uint64_t ours[VDB_FILE_WORDS];
    agree(vdb_open_file(bytes.at, bytes.length, ours) == 0, "ours: the file opens");
    agree(ours[VDB_FILE_VERSION] == parse.version, "ours: version");
    agree(ours[VDB_FILE_LIBRARY_MAJOR] == parse.major && ours[VDB_FILE_LIBRARY_MINOR] == parse.minor, "ours: library");
    agree(ours[VDB_FILE_PACKED] == parse.packed, "ours: packed");
    agree(bytes.text(ours[VDB_FILE_IDENTITY_START], ours[VDB_FILE_IDENTITY_LEN]) == parse.identity.bytes, "ours: identity");
    agree(ours[VDB_FILE_IDENTITY_START] == parse.identity.start, "ours: identity's start");
    agree(ours[VDB_FILE_METADATA] == parse.metadata.at, "ours: file metadata");
    agree(ours[VDB_FILE_GRID_COUNT] == parse.count, "ours: number of grids");
    agree(vdb_grid_numbered(bytes.at, bytes.length, parse.count, ours) == 11, "ours: a grid that is not there");
}

void descriptor(const Bytes& bytes, const RawGrid& raw, uint32_t number)
{
    uint64_t ours[VDB_GRID_WORDS], named[VDB_GRID_WORDS];
    agree(vdb_grid_numbered(bytes.at, bytes.length, number, ours) == 0, "ours: a descriptor");
    agree(vdb_grid_named(bytes.at, bytes.length, lent(raw.name.bytes), raw.name.length, named) == 0, "ours: a descriptor by name");
    agree(std::equal(ours, ours + VDB_GRID_WORDS, named), "ours: a descriptor by name and by number");
    const Text* texts[] = {&raw.name, &raw.type, &raw.parent};
    for (int n = 0; n < 3; n++) {
        const uint64_t start = ours[VDB_GRID_NAME_START + 2 * n], length = ours[VDB_GRID_NAME_LEN + 2 * n];
        agree(start == texts[n]->start && bytes.text(start, length) == texts[n]->bytes, "ours: name, type or parent");
    }
    agree(ours[VDB_GRID_POSITION] == raw.grid, "ours: grid position");
    agree(ours[VDB_GRID_BLOCK_POSITION] == raw.block, "ours: block position");
    agree(ours[VDB_GRID_END_POSITION] == raw.end, "ours: end position");
    agree(ours[VDB_GRID_FLAGS] == raw.flags, "ours: flags");
    agree((ours[VDB_GRID_HALF] == 2) == raw.half, "ours: half");
    agree(ours[VDB_GRID_WIDTH] == (raw.half ? 2 : 4), "ours: width");
    agree(ours[VDB_GRID_METADATA] == raw.metadata.at, "ours: grid metadata");
    agree(ours[VDB_GRID_TREE] == raw.follows, "ours: what follows the metadata");
}

// The words that our reader must give for an entry: `bytes` are the value's, as the library writes it.
std::vector<uint64_t> entry_words(const Entry& entry, const std::string& value)
{
    auto number = [&](size_t at, size_t width) {
        uint64_t found = 0;
        for (size_t n = 0; n < width; n++) found |= uint64_t(uint8_t(value.at(at + n))) << (8 * n);
        return found;
    };
    auto i32 = [&](size_t at) { return uint64_t(int64_t(int32_t(number(at, 4)))); };
    if (entry.kind == "bool") return {VDB_BOOL, value.at(0) != 0, 0, 0, 0};
    if (entry.kind == "int32") return {VDB_INT32, i32(0), 0, 0, 0};
    if (entry.kind == "int64") return {VDB_INT64, number(0, 8), 0, 0, 0};
    if (entry.kind == "float") return {VDB_FLOAT, number(0, 4), 0, 0, 0};
    if (entry.kind == "vec3i") return {VDB_VEC3I, i32(0), i32(4), i32(8), 0};
    return {};
}

// Our answer about an entry, with what it must be.
void entry(const Bytes& bytes, const Entry& raw, const uint64_t ours[VDB_ENTRY_WORDS])
{
    const std::vector<uint64_t> expected = entry_words(raw, raw.bytes);
    counts.entries++;
    counts.kinds[expected.empty() && raw.kind != "string" ? "others" : raw.kind]++;
    if (!expected.empty()) return agree(std::equal(expected.begin(), expected.end(), ours), "ours: entry " + raw.name);
    agree(ours[VDB_ENTRY_KIND] == (raw.kind == "string" ? VDB_STRING : VDB_OTHER), "ours: kind of entry " + raw.name);
    agree(ours[VDB_ENTRY_VALUE] == raw.start && bytes.text(raw.start, ours[VDB_ENTRY_LEN]) == raw.bytes, "ours: entry " + raw.name);
    const std::string kind = bytes.text(ours[VDB_ENTRY_KIND_START], ours[VDB_ENTRY_KIND_LEN]);
    agree(kind == (raw.kind == "string" ? "" : raw.kind), "ours: kind of entry " + raw.name);
}

// The file's metadata; entry by entry the library's and the parse's were found equal before.
void file_entries(const Bytes& bytes, const Metadata& metadata)
{
    uint64_t ours[VDB_ENTRY_WORDS];
    for (const Entry& raw : metadata.entries) {
        agree(vdb_file_entry(bytes.at, bytes.length, lent(raw.name), raw.name.size(), ours) == 0, "ours: entry " + raw.name);
        entry(bytes, raw, ours);
    }
    agree(vdb_file_entry(bytes.at, bytes.length, lent("absent"), 6, ours) == 11, "ours: an entry that is not there");
}

void grid_entries(const Bytes& bytes, const RawGrid& grid, uint32_t number)
{
    uint64_t ours[VDB_ENTRY_WORDS], named[VDB_ENTRY_WORDS];
    for (const Entry& raw : grid.metadata.entries) {
        const uint8_t* name = lent(raw.name);
        agree(vdb_grid_entry_numbered(bytes.at, bytes.length, number, name, raw.name.size(), ours) == 0, "ours: entry " + raw.name);
        agree(vdb_grid_entry_named(bytes.at, bytes.length, lent(grid.name.bytes), grid.name.length, name, raw.name.size(), named) == 0,
              "ours: entry by name " + raw.name);
        agree(std::equal(ours, ours + VDB_ENTRY_WORDS, named), "ours: entry by name and by number " + raw.name);
        entry(bytes, raw, ours);
    }
    agree(vdb_grid_entry_numbered(bytes.at, bytes.length, number, lent("absent"), 6, ours) == 11, "ours: an entry that is not there");
}

// ---- The order ----

struct Cube {
    Coord at;
    uint32_t level;
    uint32_t value;
};

// A number for each record that rises in the order of document 01, section 7. From its highest bits on: the root, by the file's order; whether the
// record is a 5-node's, which come last; the place in the 5-node; whether it is a 4-node's, which come after the leaves; the places in 4-node and leaf.
class Order {
public:
    explicit Order(const RawGrid& raw)
    {
        for (const RawRoot& root : raw.roots) ranks.emplace(root.origin, ranks.size());
    }
    uint64_t of(const Coord& at, uint32_t level) const
    {
        const auto root = ranks.find(at & ~4095);
        agree(root != ranks.end(), "ours: a record's root");
        const uint64_t p5 = place(at, 7, 5), p4 = level < 2 ? place(at, 3, 4) : 0, p3 = level < 1 ? place(at, 0, 3) : 0;
        return root->second << 38 | uint64_t(level == 2) << 37 | p5 << 22 | uint64_t(level == 1) << 21 | p4 << 9 | p3;
    }

private:
    // The place in a node of 2^bits places a side, each of 2^low voxels.
    static uint64_t place(const Coord& at, int low, int bits)
    {
        const uint32_t side = (1u << bits) - 1;
        const uint64_t x = uint32_t(at.x()) >> low & side, y = uint32_t(at.y()) >> low & side, z = uint32_t(at.z()) >> low & side;
        return x << 2 * bits | y << bits | z;
    }
    std::map<Coord, uint64_t> ranks;
};

// ---- Leaves ----

// The library's leaves, sorted by document 01's order.
std::vector<const Leaf*> sorted_leaves(const FloatTree& tree, const Order& order)
{
    std::vector<std::pair<uint64_t, const Leaf*>> found;
    for (auto leaf = tree.cbeginLeaf(); leaf; ++leaf) found.emplace_back(order.of(leaf->origin(), 0), &*leaf);
    std::sort(found.begin(), found.end());
    std::vector<const Leaf*> leaves;
    for (const auto& one : found) leaves.push_back(one.second);
    return leaves;
}

void leaf_values(const RawLeaf& raw, const Leaf& leaf, const uint32_t* ours)
{
    agree(raw.origin == leaf.origin(), "leaf origin");
    for (openvdb::Index p = 0; p < Leaf::SIZE; p++) {
        const uint32_t theirs = bits_of(leaf.getValue(p));
        agree(raw.stored.values[p] == theirs && raw.active[p] == leaf.isValueOn(p), "leaf place");
        if (ours[p] == theirs) continue;
        const std::string which = raw.active[p] ? "active" : "inactive";
        disagree("ours: a leaf's value at an " + which + " place, node byte " + std::to_string(raw.stored.byte));
    }
}

std::string kind_of_background(uint32_t bits)
{
    const uint32_t size = bits & 0x7fffffff;
    if (size == 0) return bits == 0 ? "0" : "-0";
    return size > 0x7f800000 ? "NaN" : size == 0x7f800000 ? "infinity" : size < 0x00800000 ? "subnormal" : "another";
}

void count_leaf(const RawGrid& raw, const RawLeaf& leaf)
{
    counts.forms[raw.half][(raw.flags & 2) != 0][uint32_t(leaf.stored.byte)]++;
    if (ones(leaf.stored.unread) > 0) counts.backgrounds[kind_of_background(raw.background)]++;
}

// Where all leaves lie, in two calls.
void origins(const Bytes& bytes, const std::vector<const Leaf*>& theirs, uint32_t number)
{
    const size_t half = theirs.size() / 2;
    for (const auto& [first, run] : {std::pair<size_t, size_t>(0, half), {half, theirs.size() - half}}) {
        std::vector<int32_t> x(run), y(run), z(run);
        agree(vdb_leaf_origins_numbered(bytes.at, bytes.length, number, first, x.data(), run, y.data(), run, z.data(), run) == 0, "ours: origins");
        for (size_t i = 0; i < run; i++) agree(theirs[first + i]->origin() == openvdb::Coord(x[i], y[i], z[i]), "ours: a leaf's origin");
    }
}

// Runs of leaves of drawn lengths. Each call opens the grid, so that a run has at least a thirtieth of them.
void leaves(const Bytes& bytes, const RawGrid& raw, const std::vector<const Leaf*>& theirs, uint32_t number)
{
    std::vector<uint32_t> slots;
    for (size_t first = 0; first < theirs.size();) {
        const size_t run = std::min(theirs.size() - first, theirs.size() / 30 + numbers() % 100 + 1);
        slots.assign(512 * run, 0x5eed5eed);
        agree(vdb_fill_leaves_numbered(bytes.at, bytes.length, number, first, slots.data(), slots.size()) == 0, "ours: leaves filled");
        for (size_t n = 0; n < run; n++) {
            leaf_values(raw.leaves[first + n], *theirs[first + n], &slots[512 * n]);
            count_leaf(raw, raw.leaves[first + n]);
        }
        first += run;
    }
    origins(bytes, theirs, number);
    slots.assign(512, 0);
    agree(vdb_fill_leaf_numbered(bytes.at, bytes.length, number, theirs.size(), slots.data(), 512) == 21, "ours: a leaf that is not there");
    counts.leaves += theirs.size();
}

// ---- Records ----

using Accessor = openvdb::tree::ValueAccessor<const FloatTree>;

void record(const Accessor& tree, const Cube& ours)
{
    float value = 0;
    agree(ours.level <= 2, "ours: a record's level");
    const int low = ours.level == 0 ? 0 : ours.level == 1 ? 7 : 127;
    agree((ours.at & low) == Coord(0), "ours: a record's corner");
    agree(tree.probeValue(ours.at, value), "ours: a record is active");
    agree(tree.getValueDepth(ours.at) == 3 - int(ours.level), "ours: a record's level");
    agree(bits_of(value) == ours.value, "ours: a record's value");
    counts.records[ours.level]++;
}

// Slots for a walk call.
struct Slots {
    std::vector<int32_t> x, y, z;
    std::vector<uint32_t> level, value;
    explicit Slots(size_t most) : x(most), y(most), z(most), level(most), value(most) {}
    Cube at(size_t n) const { return {Coord(x[n], y[n], z[n]), level[n], value[n]}; }
};

void records(const Bytes& bytes, const FloatTree& tree, const Order& order, uint64_t place[VDB_PLACE_WORDS], uint64_t count)
{
    const size_t most = 20000;
    Slots slots(most);
    const Accessor accessor(tree);
    uint64_t given = 0, last = 0, words[VDB_WALK_COUNTS] = {0, count};
    while (words[VDB_LEFT] > 0) {
        const size_t n = numbers() % 8 == 0 ? numbers() % 3 : numbers() % most;
        agree(vdb_walk(bytes.at, bytes.length, place, slots.x.data(), n, slots.y.data(), n, slots.z.data(), n, slots.level.data(), n, slots.value.data(), n,
                       words) == 0, "ours: a walk call");
        agree(words[VDB_FILLED] == std::min<uint64_t>(n, count - given), "ours: number of records filled");
        given += words[VDB_FILLED];
        agree(words[VDB_LEFT] == count - given, "ours: number of records left");
        for (size_t i = 0; i < words[VDB_FILLED]; i++) {
            const Cube one = slots.at(i);
            record(accessor, one);
            const uint64_t key = order.of(one.at, one.level) + 1;
            agree(key > last, "ours: order of records");
            last = key;
        }
        counts.walks++;
    }
}

// How many records there must be, by the library's counts. Active tiles of the root are not among them.
uint64_t records_counted(const FloatTree& tree)
{
    const Tiles tiles(tree);
    counts.root_tiles += tiles.at_depth[0];
    return tree.activeLeafVoxelCount() + tiles.at_depth[1] + tiles.at_depth[2];
}

// ---- Grids ----

void tree_of(const Bytes& bytes, const RawGrid& raw, const FloatGrid& grid, uint32_t number)
{
    uint64_t ours[VDB_OPENED_WORDS], place[VDB_PLACE_WORDS], named[VDB_OPENED_WORDS], named_place[VDB_PLACE_WORDS];
    agree(vdb_open_grid_numbered(bytes.at, bytes.length, number, ours, place) == 0, "ours: the grid opens");
    agree(vdb_open_grid_named(bytes.at, bytes.length, lent(raw.name.bytes), raw.name.length, named, named_place) == 0, "ours: the grid opens by name");
    agree(std::equal(ours, ours + VDB_OPENED_WORDS, named) && std::equal(place, place + VDB_PLACE_WORDS, named_place), "ours: opened by name and by number");
    std::vector<uint64_t> doubles = map_doubles(*grid.transform().baseMap());
    agree(ours[VDB_OPENED_MAP] == doubles.size(), "ours: map");
    agree(ours[VDB_OPENED_DOUBLES_AT] == raw.map.start + raw.map.length, "ours: where the doubles stand");
    doubles.resize(18);
    agree(std::equal(doubles.begin(), doubles.end(), ours + VDB_OPENED_DOUBLES), "ours: transform");
    agree(ours[VDB_OPENED_BACKGROUND] == bits_of(grid.background()), "ours: background");
    const Order order(raw);
    const std::vector<const Leaf*> theirs = sorted_leaves(grid.tree(), order);
    agree(ours[VDB_OPENED_LEAF_COUNT] == theirs.size() && theirs.size() == raw.leaves.size(), "ours: number of leaves");
    const uint64_t count = records_counted(grid.tree());
    agree(ours[VDB_OPENED_ACTIVE_COUNT] == count, "ours: number of records");
    leaves(bytes, raw, theirs, number);
    records(bytes, grid.tree(), order, place, count);
}

// Each call that opens the grid refuses it.
void refused_grid(const Bytes& bytes, const RawGrid& raw, uint32_t number)
{
    uint64_t ours[VDB_OPENED_WORDS], place[VDB_PLACE_WORDS];
    std::vector<uint32_t> slots(512);
    const uint32_t refused = uint32_t(raw.refused);
    agree(vdb_open_grid_numbered(bytes.at, bytes.length, number, ours, place) == refused, "ours: number of a refusal");
    agree(vdb_open_grid_named(bytes.at, bytes.length, lent(raw.name.bytes), raw.name.length, ours, place) == refused, "ours: number of a refusal by name");
    agree(vdb_fill_leaf_numbered(bytes.at, bytes.length, number, 0, slots.data(), 512) == refused, "ours: number of a refusal to fill a leaf");
}

void whole_grid(const Bytes& bytes, Parse& parse, openvdb::io::File& file, uint32_t number)
{
    RawGrid& raw = parse.grids[number];
    parse.open(raw);
    const openvdb::GridBase::Ptr grid = read_grid(file, raw, parse.version);
    agree_metadata(raw.metadata, *grid, "file_delayed_load");
    descriptor(bytes, raw, number);
    grid_entries(bytes, raw, number);
    counts.grids++;
    if (raw.refused == 0) {
        counts.maps[raw.map.bytes]++;
        counts.flags[raw.flags]++;
        counts.halves += raw.half;
        tree_of(bytes, raw, static_cast<const FloatGrid&>(*grid), number);
    } else {
        refused_grid(bytes, raw, number);
        counts.refused[uint32_t(raw.refused)]++;
    }
    raw.leaves.clear();
    raw.roots.clear();
}

void whole_file(const std::string& path)
{
    Parse parse(path);
    const Bytes bytes{parse.file.data(), parse.file.size()};
    openvdb::io::File file(path);
    file.open(/*delayLoad=*/false);
    agree_header(parse, file);
    agree_metadata(parse.metadata, *file.getMetadata(), "");
    header(bytes, parse);
    file_entries(bytes, parse.metadata);
    for (uint32_t n = 0; n < parse.count; n++) whole_grid(bytes, parse, file, n);
    counts.files++;
    counts.bytes += bytes.length;
    counts.largest = std::max<uint64_t>(counts.largest, bytes.length);
}

template <class Key> void print_each(std::ostream& out, const char* what, const std::map<Key, uint64_t>& found)
{
    out << what;
    for (const auto& one : found) out << (one.first == found.begin()->first ? " " : ", ") << one.second << " times " << one.first;
    out << (found.empty() ? " none\n" : "\n");
}

void print_counts(std::ostream& out)
{
    out << counts.files << " files, " << counts.bytes << " bytes, the largest " << counts.largest << "; " << counts.grids << " grids, "
              << counts.entries << " entries, " << counts.leaves << " leaves, " << counts.records[0] << " + "
              << counts.records[1] << " + " << counts.records[2] << " records of levels 0, 1, 2 in " << counts.walks << " walk calls\n";
    out << counts.root_tiles << " active root tiles, which are no records; " << counts.halves << " grids of halves\n";
    print_each(out, "refusals:", counts.refused);
    print_each(out, "maps:", counts.maps);
    print_each(out, "flags of accepted grids:", counts.flags);
    print_each(out, "node bytes of leaves, floats with flag 0x2:", counts.forms[0][1]);
    print_each(out, "node bytes of leaves, halves with flag 0x2:", counts.forms[1][1]);
    print_each(out, "node bytes of leaves, floats without:", counts.forms[0][0]);
    print_each(out, "node bytes of leaves, halves without:", counts.forms[1][0]);
    print_each(out, "backgrounds of leaves with places that have no value in the file:", counts.backgrounds);
    print_each(out, "kinds of entries:", counts.kinds);
    out << counts.different << " files with a difference\n";
}

} // namespace

int main(int count, char** argument)
{
    if (count != 2) {
        std::cerr << "usage: whole SEED < PATHS\n";
        return 2;
    }
    std::ostream out(std::cout.rdbuf());
    drop_warnings();
    openvdb::initialize();
    numbers.seed(std::stoull(argument[1]));
    for (std::string path; std::getline(std::cin, path);) {
        try {
            whole_file(path);
        } catch (const std::exception& error) {
            out << path << ": " << error.what() << "\n";
            counts.different++;
        }
    }
    print_counts(out);
    return counts.different == 0 ? 0 : 1;
}
