// Prints what the reader must answer about a cloud, as OpenVDB's own library has it.
//
//     describe FILE                          everything but the leaves' values
//     describe FILE listing                  what the listing program must print
//     describe FILE values [GRID [LEAF ...]] the leaves' values
//     describe FILE read [GRID [LEAF ...]]   the same with zero where the file has no value
//     describe FILE digests                  a digest of the same for each leaf, also of large clouds
//
// Values, masks, maps and metadata come from the library. What it does not tell comes from the
// parse of library.h. The two are compared wherever both know something; a disagreement ends the
// program with 1.
//
// README.md gives the form of the lines.

#include "library.h"

#include <cinttypes>
#include <cstdio>
#include <map>
#include <set>

namespace {

// ---- Printing --------------------------------------------------------------------------------

std::string in_quotes(const std::string& bytes) {
    std::string result = "\"";
    for (unsigned char c : bytes) {
        char hex[8];
        if (c == '"' || c == '\\') {
            result += '\\';
            result += char(c);
        } else if (c < 32 || c > 126) {
            std::snprintf(hex, sizeof hex, "\\x%02x", c);
            result += hex;
        } else {
            result += char(c);
        }
    }
    return result + "\"";
}

void print_text(const char* label, const Text& text) {
    std::printf("%s %zu %zu %s\n", label, text.start, text.length, in_quotes(text.bytes).c_str());
}

// One line an entry, in the order of the file, which is the order of the names. The value is the
// library's; `dropped` is as in agree_metadata.
void print_metadata(const Metadata& raw, const openvdb::MetaMap& library,
                    const std::string& dropped) {
    std::printf("metadata %zu entries %zu\n", raw.at, raw.entries.size());
    agree_metadata(raw, library, dropped);
    for (const Entry& entry : raw.entries) {
        const openvdb::Metadata::ConstPtr value = library[entry.name];
        const std::string& bytes = entry.bytes;
        std::printf("entry %s %s ", in_quotes(entry.name).c_str(), in_quotes(entry.kind).c_str());
        if (entry.kind == "bool") {
            const auto& typed = static_cast<const openvdb::BoolMetadata&>(*value);
            std::printf("%s\n", typed.value() ? "true" : "false");
        } else if (entry.kind == "int32") {
            const auto& typed = static_cast<const openvdb::Int32Metadata&>(*value);
            std::printf("%" PRId32 "\n", typed.value());
        } else if (entry.kind == "int64") {
            const auto& typed = static_cast<const openvdb::Int64Metadata&>(*value);
            std::printf("%" PRId64 "\n", typed.value());
        } else if (entry.kind == "float") {
            const auto& typed = static_cast<const openvdb::FloatMetadata&>(*value);
            std::printf("%08" PRIx32 "\n", bits_of(typed.value()));
        } else if (entry.kind == "vec3i") {
            const auto& typed = static_cast<const openvdb::Vec3IMetadata&>(*value);
            std::printf("%d %d %d\n", typed.value()[0], typed.value()[1], typed.value()[2]);
        } else if (entry.kind == "string") {
            std::printf("%zu %zu %s\n", entry.start, bytes.size(), in_quotes(bytes).c_str());
        } else {
            std::printf("%zu %zu ", entry.start, bytes.size());
            for (unsigned char c : bytes) std::printf("%02x", c);
            std::printf("\n");
        }
    }
}

struct Record {
    Coord at;
    int level;
    uint32_t value;
};

// A leaf's values by the library, each compared with the parse; with `read`, zero in the places for
// which the file has none.
std::vector<uint32_t> values_of(const Leaf& leaf, const Stored& stored, bool read) {
    std::vector<uint32_t> values(Leaf::SIZE);
    for (openvdb::Index p = 0; p < Leaf::SIZE; ++p) {
        values[p] = bits_of(leaf.getValue(p));
        agree(stored.values[p] == values[p], "leaf place");
        if (read && stored.unread[p]) values[p] = 0;
    }
    return values;
}

// The records of the library's tree in the order of document 01, section 7, and the leaves in the
// order of the topology. The roots are taken in the order of the file. Masks and values are
// compared with the parse.
void walk(const RawGrid& raw, const FloatTree& tree, std::vector<Record>& records,
          std::vector<const Leaf*>& leaves) {
    for (const RawRoot& raw_root : raw.roots) {
        const Node5* root = tree.probeConstNode<Node5>(raw_root.origin);
        agree(root && root->origin() == raw_root.origin, "root origin");
        auto raw_node = raw_root.nodes.begin();
        for (auto node = root->cbeginChildOn(); node; ++node, ++raw_node) {
            agree(raw_root.child[node.pos()], "child bit of a 5-node");
            agree(node->origin() == raw_node->origin, "4-node origin");
            for (auto leaf = node->cbeginChildOn(); leaf; ++leaf) {
                agree(raw_node->child[leaf.pos()], "child bit of a 4-node");
                const RawLeaf& raw_leaf = raw.leaves.at(leaves.size());
                agree(leaf->origin() == raw_leaf.origin, "leaf origin");
                leaves.push_back(&*leaf);
                for (auto voxel = leaf->cbeginValueOn(); voxel; ++voxel) {
                    agree(raw_leaf.active[voxel.pos()], "active bit of a leaf");
                    records.push_back({voxel.getCoord(), 0, bits_of(*voxel)});
                }
            }
            for (auto tile = node->cbeginValueOn(); tile; ++tile) {
                agree(raw_node->active[tile.pos()], "active bit of a 4-node");
                records.push_back({tile.getCoord(), 1, bits_of(*tile)});
            }
            for (auto tile = node->cbeginValueAll(); tile; ++tile) {
                agree(raw_node->stored.values[tile.pos()] == bits_of(*tile), "4-node place");
            }
        }
        agree(raw_node == raw_root.nodes.end(), "number of 4-nodes");
        for (auto tile = root->cbeginValueOn(); tile; ++tile) {
            agree(raw_root.active[tile.pos()], "active bit of a 5-node");
            records.push_back({tile.getCoord(), 2, bits_of(*tile)});
        }
        for (auto tile = root->cbeginValueAll(); tile; ++tile) {
            agree(raw_root.stored.values[tile.pos()] == bits_of(*tile), "5-node place");
        }
    }
    for (size_t n = 0; n < leaves.size(); ++n) values_of(*leaves[n], raw.leaves[n].stored, false);
}

// The same numbers, counted in other ways.
void count(const RawGrid& raw, const FloatTree& tree, const std::vector<Record>& records,
           const std::vector<const Leaf*>& leaves) {
    size_t by_level[4] = {0, 0, 0, 0};
    uint64_t voxels = 0;
    for (const Record& record : records) {
        ++by_level[record.level];
        voxels += record.level == 0 ? 1 : record.level == 1 ? 512 : 128 * 128 * 128;
    }
    const uint64_t root_tile = uint64_t(4096) * 4096 * 4096;
    agree(tree.activeVoxelCount() == voxels + raw.active_tiles * root_tile, "active voxels");
    agree(tree.activeLeafVoxelCount() == by_level[0], "active leaf voxels");
    agree(tree.leafCount() == leaves.size() && leaves.size() == raw.leaves.size(), "leaves");
    agree(tree.activeTileCount() == by_level[1] + by_level[2] + raw.active_tiles, "active tiles");
    const Tiles tiles(tree);
    agree(tiles.at_depth[0] == raw.active_tiles, "active root tiles");
    agree(tiles.at_depth[1] == by_level[2], "active 5-node tiles");
    agree(tiles.at_depth[2] == by_level[1], "active 4-node tiles");
    size_t masks = 0;
    for (const RawRoot& root : raw.roots) {
        masks += ones(root.active);
        for (const RawNode4& node : root.nodes) masks += ones(node.active);
    }
    for (const RawLeaf& leaf : raw.leaves) masks += ones(leaf.active);
    agree(masks == records.size(), "ones of the masks");
    std::set<std::string> seen;
    for (const Record& record : records) {
        std::ostringstream key;
        key << record.at << record.level;
        agree(seen.insert(key.str()).second, "a record occurs twice");
        agree(tree.isValueOn(record.at), "a record's corner is not active");
        agree(bits_of(tree.getValue(record.at)) == record.value, "a record's value");
    }
}

void print_nodes(const RawGrid& raw) {
    std::printf("background %08" PRIx32 "\n", raw.background);
    std::printf("roottiles %u active %u\n", raw.tiles, raw.active_tiles);
    std::printf("roots %zu\n", raw.roots.size());
    size_t number = 0;
    for (const RawRoot& root : raw.roots) {
        std::printf("root %d %d %d byte %d children %zu active %zu\n", root.origin.x(),
                    root.origin.y(), root.origin.z(), root.stored.byte, ones(root.child),
                    ones(root.active));
        for (const RawNode4& node : root.nodes) {
            std::printf("node4 %d %d %d byte %d children %zu active %zu\n", node.origin.x(),
                        node.origin.y(), node.origin.z(), node.stored.byte, ones(node.child),
                        ones(node.active));
            for (size_t n = 0; n < node.leaves; ++n, ++number) {
                const RawLeaf& leaf = raw.leaves[number];
                std::printf("leaf %zu %d %d %d byte %d active %zu\n", number, leaf.origin.x(),
                            leaf.origin.y(), leaf.origin.z(), leaf.stored.byte, ones(leaf.active));
            }
        }
    }
    std::printf("leaves %zu\n", raw.leaves.size());
}

void print_records(const std::vector<Record>& records) {
    std::printf("records %zu\n", records.size());
    for (const Record& record : records) {
        std::printf("%d %d %d %d %08" PRIx32 "\n", record.at.x(), record.at.y(), record.at.z(),
                    record.level, record.value);
    }
}

// 64 lines of eight values: a line has x and y in common.
void print_leaf(size_t number, const Coord& origin, const std::vector<uint32_t>& values) {
    std::printf("leaf %zu %d %d %d\n", number, origin.x(), origin.y(), origin.z());
    for (size_t p = 0; p < values.size(); ++p) {
        std::printf("%08" PRIx32 "%c", values[p], p % 8 == 7 ? '\n' : ' ');
    }
}

// FNV-1a, 64 bits, over the values' bytes, low byte first.
uint64_t digest(const std::vector<uint32_t>& values) {
    uint64_t found = 0xcbf29ce484222325;
    for (uint32_t value : values) {
        for (int n = 0; n < 32; n += 8) found = (found ^ (value >> n & 255)) * 0x100000001b3;
    }
    return found;
}

// The leaves alone, without a list of the records, which would be long in a large cloud.
void print_digests(const RawGrid& raw, const FloatTree& tree) {
    agree(tree.leafCount() == raw.leaves.size(), "leaves");
    size_t number = 0;
    for (const RawLeaf& leaf : raw.leaves) {
        const Coord& at = leaf.origin;
        const Leaf* found = tree.probeConstLeaf(at);
        agree(found && found->origin() == at, "leaf origin");
        const std::vector<uint32_t> values = values_of(*found, leaf.stored, true);
        std::printf("leaf %zu %d %d %d %u %016" PRIx64 "\n", number++, at.x(), at.y(), at.z(),
                    Leaf::SIZE, digest(values));
    }
}

// ---- The modes -------------------------------------------------------------------------------

enum class Mode { all, listing, values, read, digests };

void grid_tree(RawGrid& raw, const FloatGrid& grid, Mode mode, const std::set<size_t>& chosen) {
    std::vector<Record> records;
    std::vector<const Leaf*> leaves;
    agree(bits_of(grid.background()) == raw.background, "background");
    agree(grid.tree().root().getTableSize() == raw.roots.size() + raw.tiles, "root tiles");
    if (mode == Mode::digests) return print_digests(raw, grid.tree());
    walk(raw, grid.tree(), records, leaves);
    count(raw, grid.tree(), records, leaves);
    if (mode == Mode::all) print_nodes(raw);
    if (mode == Mode::all || mode == Mode::listing) return print_records(records);
    for (size_t n = 0; n < leaves.size(); ++n) {
        if (!chosen.empty() && !chosen.count(n)) continue;
        print_leaf(n, leaves[n]->origin(),
                   values_of(*leaves[n], raw.leaves[n].stored, mode == Mode::read));
    }
}

void print_grid(const RawGrid& raw, const openvdb::GridBase& grid, size_t number) {
    std::printf("grid %zu\n", number);
    print_text("name", raw.name);
    print_text("type", raw.type);
    print_text("parent", raw.parent);
    std::printf("positions %" PRIu64 " %" PRIu64 " %" PRIu64 "\n", raw.grid, raw.block, raw.end);
    std::printf("flags %u\n", raw.flags);
    print_metadata(raw.metadata, grid, "file_delayed_load");
    std::printf("follows %zu\n", raw.follows);
    const openvdb::math::MapBase& map = *grid.transform().baseMap();
    std::printf("map %s\n", in_quotes(map.type()).c_str());
    const bool affine = map.type() == "AffineMap";
    if (!affine && !Parse::vectors(map.type())) return;
    const std::vector<uint64_t> doubles = map_doubles(map);
    agree(raw.doubles.empty() || raw.doubles == doubles, "doubles of the map");
    const size_t across = affine ? 4 : 3;
    for (size_t n = 0; n < doubles.size(); ++n) {
        if (n % across == 0) std::printf(affine ? "row" : "vector");
        std::printf(" %016" PRIx64 "%s", doubles[n], n % across == across - 1 ? "\n" : "");
    }
}

void print_header(const Parse& parse, const std::string& path) {
    std::printf("file %s %zu\n", path.substr(path.find_last_of('/') + 1).c_str(),
                parse.file.size());
    std::printf("version %u\nlibrary %u %u\noffsets %d\n", parse.version, parse.major, parse.minor,
                parse.offsets);
    print_text("identity", parse.identity);
}

void describe(const std::string& path, Mode mode, long only, const std::set<size_t>& chosen) {
    Parse parse(path);
    if (mode == Mode::listing && parse.file.size() > 65536) {
        std::printf("too long\n");
        return;
    }
    if (mode == Mode::all) print_header(parse, path);
    if (parse.offsets != 1) {
        std::printf("refused 5\n");
        return;
    }
    openvdb::io::File file(path);
    file.open(/*delayLoad=*/false);
    agree_header(parse, file);
    if (mode == Mode::all) {
        print_metadata(parse.metadata, *file.getMetadata(), "");
        std::printf("grids %u\n", parse.count);
    }
    if (mode == Mode::listing && parse.count == 0) std::printf("refused 11\n");

    for (size_t number = 0; number < parse.grids.size(); ++number) {
        RawGrid& raw = parse.grids[number];
        if (mode == Mode::listing ? number != 0 : only >= 0 && long(number) != only) continue;
        parse.open(raw);
        const openvdb::GridBase::Ptr grid = read_grid(file, raw, parse.version);
        if (mode == Mode::all) print_grid(raw, *grid, number);
        if (mode != Mode::all && mode != Mode::listing) std::printf("grid %zu\n", number);
        if (mode == Mode::digests) print_text("name", raw.name);
        if (raw.refused != 0) {
            std::printf("refused %d\n", raw.refused);
        } else {
            grid_tree(raw, *openvdb::gridConstPtrCast<FloatGrid>(grid), mode, chosen);
        }
    }
}

} // namespace

int main(int argc, char** argv) {
    const std::vector<std::string> words(argv + 1, argv + argc);
    Mode mode = Mode::all;
    long only = -1;
    std::set<size_t> chosen;
    if (words.size() == 2 && words[1] == "listing") {
        mode = Mode::listing;
    } else if (words.size() == 2 && words[1] == "digests") {
        mode = Mode::digests;
    } else if (words.size() >= 2 && (words[1] == "values" || words[1] == "read")) {
        mode = words[1] == "values" ? Mode::values : Mode::read;
    } else if (words.size() != 1) {
        std::cerr << "usage: describe FILE [listing | digests | values|read [GRID [LEAF ...]]]\n";
        return 2;
    }
    try {
        if (words.size() > 2) only = std::stol(words[2]);
        for (size_t n = 3; n < words.size(); ++n) chosen.insert(std::stoul(words[n]));
        drop_warnings();
        openvdb::initialize();
        describe(words[0], mode, only, chosen);
    } catch (const std::exception& error) {
        std::cerr << words[0] << ": " << error.what() << "\n";
        return 1;
    }
    return 0;
}
