// What OpenVDB's library says of a file, beside a small parse of the bytes: for describe.cc and
// compare/openvdb/whole.cc.
//
// The parse (struct Parse) shares nothing with the reader. It has what the library does not tell:
// where things start, flags, node bytes, whether a run is packed, the file's order of grids and
// roots, and which places have a value in the file. The two are compared wherever both know
// something: `agree` throws.
#pragma once

#include <openvdb/openvdb.h>
#include <openvdb/io/File.h>
#include <openvdb/io/GridDescriptor.h>

#include <algorithm>
#include <cstring>
#include <fstream>
#include <iostream>
#include <iterator>
#include <sstream>
#include <stdexcept>
#include <string>
#include <vector>

using openvdb::Coord;
using openvdb::FloatGrid;
using openvdb::FloatTree;
using Leaf = FloatTree::LeafNodeType;
using Node5 = FloatTree::RootNodeType::ChildNodeType;
using Node4 = Node5::ChildNodeType;

// io::File keeps its grid descriptors private, but befriends a class of this name.
class TestFile {
public:
    static const openvdb::io::File::NameMap& descriptors(const openvdb::io::File& file) {
        return file.gridDescriptors();
    }
};

inline void disagree(const std::string& what) {
    throw std::runtime_error("disagreement: " + what);
}

inline void agree(bool holds, const char* what) {
    if (!holds) disagree(what);
}

inline void agree(bool holds, const std::string& what) { agree(holds, what.c_str()); }

inline uint32_t bits_of(float value) {
    uint32_t bits;
    std::memcpy(&bits, &value, sizeof bits);
    return bits;
}

// ---- The bytes, parsed here ------------------------------------------------------------------

struct Text {
    size_t start = 0, length = 0;
    std::string bytes;
};

struct Entry {
    std::string name, kind, bytes;
    size_t start = 0;
};

struct Metadata {
    size_t at = 0;
    std::vector<Entry> entries;
};

using Mask = std::vector<bool>;

// The values of a node: its byte, the 32-bit pattern that each place holds, and for which places the
// file has no value, so that theirs is made from the background.
struct Stored {
    int byte = 6;
    std::vector<uint32_t> values;
    Mask unread;
};

struct RawLeaf {
    Coord origin;
    Mask active;
    Stored stored;
};

struct RawNode4 {
    Coord origin;
    Mask child, active;
    Stored stored;
    size_t leaves = 0;
};

struct RawRoot {
    Coord origin;
    Mask child, active;
    Stored stored;
    std::vector<RawNode4> nodes;
};

struct RawGrid {
    Text name, type, parent;
    uint64_t grid = 0, block = 0, end = 0;
    uint32_t flags = 0;
    Metadata metadata;
    size_t follows = 0; // where the transform starts
    Text map;
    bool half = false;
    int refused = 0; // the number with which opening it is refused, 0 if it is accepted
    // Of a grid whose descriptor and map are accepted only:
    std::vector<uint64_t> doubles;
    uint32_t background = 0, tiles = 0, active_tiles = 0, root_count = 0;
    bool packed = false; // a run is
    std::vector<RawRoot> roots;
    std::vector<RawLeaf> leaves;
};

inline size_t ones(const Mask& mask) { return size_t(std::count(mask.begin(), mask.end(), true)); }

struct Parse {
    std::vector<uint8_t> file;
    size_t at = 0;
    uint32_t version = 0, major = 0, minor = 0, count = 0;
    int offsets = 0;
    bool packed = false;
    Text identity;
    Metadata metadata;
    std::vector<RawGrid> grids;

    explicit Parse(const std::string& path) {
        std::ifstream is(path, std::ios::binary);
        if (!is) throw std::runtime_error("cannot open " + path);
        file.assign(std::istreambuf_iterator<char>(is), std::istreambuf_iterator<char>());
        header();
        if (offsets != 1) return;
        for (uint32_t n = 0; n < count; ++n) descriptor();
    }

    uint64_t number(size_t bytes) {
        if (file.size() - at < bytes) throw std::runtime_error("the file ends inside a field");
        uint64_t value = 0;
        for (size_t n = 0; n < bytes; ++n) value |= uint64_t(file[at + n]) << (8 * n);
        at += bytes;
        return value;
    }
    uint32_t u32() { return uint32_t(number(4)); }
    int32_t i32() { return int32_t(u32()); }
    Coord coord() {
        const int32_t x = i32(), y = i32(), z = i32();
        return Coord(x, y, z);
    }
    Text bytes(size_t length) {
        if (file.size() - at < length) throw std::runtime_error("the file ends inside a field");
        Text text{at, length, std::string(file.begin() + at, file.begin() + at + length)};
        at += length;
        return text;
    }
    Text text() { return bytes(u32()); }
    Mask mask(size_t places) {
        Mask bits(places);
        for (size_t word = 0; word < places / 64; ++word) {
            const uint64_t value = number(8);
            for (size_t n = 0; n < 64; ++n) bits[64 * word + n] = (value >> n) & 1;
        }
        return bits;
    }

    Metadata entries() {
        Metadata result;
        result.at = at;
        const uint32_t count = u32();
        for (uint32_t n = 0; n < count; ++n) {
            Entry entry;
            entry.name = text().bytes;
            entry.kind = text().bytes;
            const Text value = text();
            entry.start = value.start;
            entry.bytes = value.bytes;
            result.entries.push_back(entry);
        }
        return result;
    }

    void header() {
        agree(number(8) == 0x56444220, "magic");
        version = u32();
        major = u32();
        minor = u32();
        offsets = int(number(1));
        if (version < 222) packed = number(1) != 0;
        identity = bytes(36);
        metadata = entries();
        count = u32();
    }

    void descriptor() {
        RawGrid grid;
        grid.name = text();
        grid.type = text();
        grid.parent = text();
        grid.grid = number(8);
        grid.block = number(8);
        grid.end = number(8);
        at = grid.grid;
        grid.flags = version < 222 ? (packed ? 1 : 0) : u32();
        grid.metadata = entries();
        grid.follows = at;
        const std::string ending = "_HalfFloat", &type = grid.type.bytes;
        const bool by_type = type.size() >= ending.size()
            && type.compare(type.size() - ending.size(), ending.size(), ending) == 0;
        grid.half = by_type;
        for (const Entry& entry : grid.metadata.entries) {
            if (entry.name == "is_saved_as_half_float") {
                grid.half = entry.kind == "bool" ? entry.bytes != std::string(1, '\0') : by_type;
            }
        }
        grid.map = text();
        grids.push_back(grid);
        at = grid.end;
    }

    // Finds out with which number opening the grid is refused, and parses its tree if descriptor and
    // map are accepted. Only the reasons that occur in files written by OpenVDB.
    void open(RawGrid& grid) {
        grid.refused = by_descriptor(grid);
        if (grid.refused != 0) return;
        head(grid);
        if (grid.root_count > 256) {
            grid.refused = 16;
            return;
        }
        tree(grid);
        if (grid.packed) grid.refused = 6;
    }
    static int by_descriptor(const RawGrid& grid) {
        const std::string plain = "Tree_float_5_4_3";
        if (grid.type.bytes != plain && grid.type.bytes != plain + "_HalfFloat") return 12;
        if (!grid.parent.bytes.empty()) return 13;
        return vectors(grid.map.bytes) ? 0 : 14;
    }
    // Where the background stands if the map is accepted: behind its doubles and the buffer count.
    static size_t background_at(const RawGrid& grid) {
        return grid.map.start + grid.map.length + 24 * vectors(grid.map.bytes) + 4;
    }
    static size_t vectors(const std::string& map) {
        if (map == "UniformScaleMap" || map == "ScaleMap") return 5;
        if (map == "UniformScaleTranslateMap" || map == "ScaleTranslateMap") return 6;
        return 0;
    }

    // One stored value, widened if it is a half.
    uint32_t value(bool half) {
        if (!half) return u32();
        openvdb::math::half bits;
        bits.setBits(uint16_t(number(2)));
        return bits_of(float(bits));
    }

    // A run of stored values. With a packing flag its length stands before it, except before no
    // halves: minus what the values take, or a positive one where they are packed. These are passed
    // over, so that the rest of the grid can be followed, and zeros stand for them.
    std::vector<uint32_t> run(RawGrid& grid, size_t count) {
        std::vector<uint32_t> values(count);
        if ((grid.flags & 5) && !(grid.half && count == 0)) {
            const int64_t length = int64_t(number(8));
            if (length > 0) {
                bytes(size_t(length));
                grid.packed = true;
                return values;
            }
            agree(length == -int64_t(count * (grid.half ? 2 : 4)), "length of a raw run");
        }
        for (uint32_t& one : values) one = value(grid.half);
        return values;
    }

    // The values of a node. `child` is empty for a leaf.
    Stored stored(RawGrid& grid, const Mask& active, const Mask& child) {
        const size_t places = active.size();
        Stored result;
        result.unread.resize(places);
        if (version < 222) {
            const std::vector<uint32_t> values = run(grid, places - ones(child));
            auto next = values.begin();
            for (size_t p = 0; p < places; ++p) {
                const bool skip = !child.empty() && child[p];
                result.values.push_back(skip ? 0 : *next++);
            }
            return result;
        }
        const int byte = result.byte = int(number(1));
        agree(byte <= 6, "node byte");
        // What places hold that are not stored: those that are not selected, and the selected ones.
        // Both have four bytes in halves too; one that is not read is made from the background.
        const bool reads_first = byte == 2 || byte == 4 || byte == 5, reads_second = byte == 5;
        const uint32_t minus = grid.background ^ 0x80000000;
        const uint32_t first = reads_first ? u32() : byte == 0 ? grid.background : minus;
        const uint32_t second = reads_second ? u32() : grid.background;
        Mask selected(places);
        if (byte >= 3 && byte <= 5) selected = mask(places);
        const bool every = !(grid.flags & 2) || byte == 6;
        const std::vector<uint32_t> values = run(grid, every ? places : ones(active));
        auto next = values.begin();
        for (size_t p = 0; p < places; ++p) {
            if (every || active[p]) {
                result.values.push_back(*next++);
            } else {
                result.values.push_back(selected[p] ? second : first);
                result.unread[p] = !(selected[p] ? reads_second : reads_first);
            }
        }
        return result;
    }

    static Coord place(const Coord& origin, size_t p, int side, int step) {
        const int x = int(p) / (side * side), y = int(p) / side % side, z = int(p) % side;
        return origin.offsetBy(x * step, y * step, z * step);
    }

    // Transform, background and counts.
    void head(RawGrid& grid) {
        at = grid.map.start + grid.map.length;
        for (size_t n = 0; n < 3 * vectors(grid.map.bytes); ++n) grid.doubles.push_back(number(8));
        agree(u32() == 1, "buffer count");
        agree(at == background_at(grid), "where the background stands");
        grid.background = u32();
        grid.tiles = u32();
        grid.root_count = u32();
    }

    // The rest of the topology, and the blocks.
    void tree(RawGrid& grid) {
        for (uint32_t n = 0; n < grid.tiles; ++n) {
            at += 16;
            if (number(1)) ++grid.active_tiles;
        }
        for (uint32_t n = 0; n < grid.root_count; ++n) {
            RawRoot root;
            root.origin = coord();
            root.child = mask(32768);
            root.active = mask(32768);
            root.stored = stored(grid, root.active, root.child);
            for (size_t p = 0; p < 32768; ++p) {
                if (root.child[p]) root.nodes.push_back(node(grid, place(root.origin, p, 32, 128)));
            }
            grid.roots.push_back(root);
        }
        agree(at == grid.block, "the topology ends at the block position");
        for (RawLeaf& leaf : grid.leaves) {
            agree(mask(512) == leaf.active, "leaf mask of the block");
            if (version < 222) {
                agree(coord() == leaf.origin, "leaf origin of the block");
                agree(number(1) == 1, "leaf buffers");
            }
            leaf.stored = stored(grid, leaf.active, Mask());
        }
        agree(at == grid.end, "the blocks end at the end position");
    }

    RawNode4 node(RawGrid& grid, const Coord& origin) {
        RawNode4 result;
        result.origin = origin;
        result.child = mask(4096);
        result.active = mask(4096);
        result.stored = stored(grid, result.active, result.child);
        for (size_t p = 0; p < 4096; ++p) {
            if (!result.child[p]) continue;
            RawLeaf leaf;
            leaf.origin = place(origin, p, 16, 8);
            leaf.active = mask(512);
            grid.leaves.push_back(leaf);
            ++result.leaves;
        }
        return result;
    }
};

// ---- The library beside it -------------------------------------------------------------------

// The library's own bytes of a value: it writes a length, then the value.
inline std::string value_bytes(const openvdb::Metadata& value) {
    std::ostringstream os(std::ios::binary);
    value.write(os);
    return os.str().substr(4);
}

// Kinds and values of all entries; `library` lacks an entry only where `dropped` says so.
inline void agree_metadata(const Metadata& raw, const openvdb::MetaMap& library,
                           const std::string& dropped) {
    size_t known = 0;
    for (const Entry& entry : raw.entries) {
        const openvdb::Metadata::ConstPtr value = library[entry.name];
        if (value) {
            ++known;
            agree(value->typeName() == entry.kind, "kind of " + entry.name);
            agree(value_bytes(*value) == entry.bytes, "value of " + entry.name);
        } else {
            agree(entry.name == dropped, "the library has no entry " + entry.name);
        }
    }
    agree(known == library.metaCount(), "number of metadata entries");
}

// The doubles of the library's map, by the library's own writing of it.
inline std::vector<uint64_t> map_doubles(const openvdb::math::MapBase& map) {
    std::ostringstream os(std::ios::binary);
    map.write(os);
    const std::string bytes = os.str();
    std::vector<uint64_t> result(bytes.size() / 8);
    std::memcpy(result.data(), bytes.data(), 8 * result.size());
    return result;
}

// How many active tiles there are: of the root, of 5-nodes, of 4-nodes.
struct Tiles {
    size_t at_depth[3] = {0, 0, 0};

    explicit Tiles(const FloatTree& tree) {
        FloatTree::ValueOnCIter tile = tree.cbeginValueOn();
        tile.setMaxDepth(FloatTree::ValueOnCIter::LEAF_DEPTH - 1);
        for (; tile; ++tile) ++at_depth[tile.getDepth()];
    }
};

// The library writes its warnings to std::cout, as about several grids of one name. Nothing else may
// be written there from here on.
inline void drop_warnings() { std::cout.rdbuf(nullptr); }

// The header and the number of grids.
inline void agree_header(const Parse& parse, const openvdb::io::File& file) {
    agree(file.fileVersion() == parse.version, "version");
    agree(file.libraryVersion().first == parse.major, "library major");
    agree(file.libraryVersion().second == parse.minor, "library minor");
    agree(file.getUniqueTag() == parse.identity.bytes, "identity");
    agree(TestFile::descriptors(file).size() == parse.count, "number of grids");
}

inline uint32_t roots_of(const openvdb::GridBase& grid) {
    return static_cast<const FloatGrid&>(grid).tree().root().childCount();
}

// Reads a grid that the parse has opened, after its descriptor was compared with the parse.
inline openvdb::GridBase::Ptr read_grid(openvdb::io::File& file, const RawGrid& raw,
                                        uint32_t version) {
    const openvdb::io::File::NameMap& descriptors = TestFile::descriptors(file);
    const auto found = std::find_if(
        descriptors.begin(), descriptors.end(),
        [&](const auto& item) { return item.second.uniqueName() == raw.name.bytes; });
    agree(found != descriptors.end(), "grid name");
    const openvdb::io::GridDescriptor& gd = found->second;
    // The library takes the ending away and keeps it as a flag.
    agree(gd.gridType() + (gd.saveFloatAsHalf() ? "_HalfFloat" : "") == raw.type.bytes, "type");
    agree(gd.instanceParentName() == raw.parent.bytes, "parent");
    agree(uint64_t(gd.getGridPos()) == raw.grid, "grid position");
    agree(uint64_t(gd.getBlockPos()) == raw.block, "block position");
    agree(uint64_t(gd.getEndPos()) == raw.end, "end position");
    // Of a refused grid no value is asked, and the library may not be able to read one: Blender
    // writes points with a type of attribute that the library does not register.
    const openvdb::Name name = openvdb::io::GridDescriptor::nameAsString(raw.name.bytes);
    const bool whole = raw.refused == 0 || raw.refused == 16;
    const openvdb::GridBase::Ptr grid = whole ? file.readGrid(name) : file.readGridMetadata(name);
    agree(!whole || roots_of(*grid) == raw.root_count, "number of roots");
    agree(grid->saveFloatAsHalf() == raw.half, "half");
    // The library tells the flags only in words, set when the version 224 file was written.
    const openvdb::Metadata::Ptr words = (*grid)["file_compression"];
    const std::string expected = openvdb::io::compressionToString(raw.flags);
    agree(!words || version < 222 || words->str() == expected, "flags");
    agree(grid->transform().baseMap()->type() == raw.map.bytes, "map");
    return grid;
}
