// How clouds are written: for make_clouds.cc and compare/openvdb/generate.cc.
#pragma once

#include "library.h"

#include <openvdb/io/Archive.h>

const uint32_t PLAIN = openvdb::io::COMPRESS_NONE;         // flags 0
const uint32_t ZIP = openvdb::io::COMPRESS_ZIP;            // flag 0x1
const uint32_t ACTIVE = openvdb::io::COMPRESS_ACTIVE_MASK; // flags 2
const uint32_t BLOSC = openvdb::io::COMPRESS_BLOSC;        // flag 0x4

inline float pattern(uint32_t bits) {
    float value;
    std::memcpy(&value, &bits, sizeof value);
    return value;
}

// The identity is at byte 21: after magic (8), version (4), library (8) and the offsets byte (1).
inline void set_identity(const std::string& path, int number) {
    char text[64];
    std::snprintf(text, sizeof text, "c10ad000-0000-4000-8000-%012d", number);
    std::fstream file(path, std::ios::in | std::ios::out | std::ios::binary);
    file.seekp(21);
    file.write(text, 36);
}

// Puts another background into the file. OpenVDB chooses a node's byte by comparing its inactive values
// with the background, and a NaN is equal to nothing: by itself it leaves no place to such a background.
inline void set_background(const std::string& path, const RawGrid& grid, uint32_t bits) {
    std::fstream file(path, std::ios::in | std::ios::out | std::ios::binary);
    file.seekp(std::streamoff(Parse::background_at(grid)));
    file.write(reinterpret_cast<const char*>(&bits), sizeof bits);
}

// io::File gives all grids of a file the same flags. This archive makes the library's own calls for
// a header and for each grid, but sets the flags, the name and the parent before each grid.
//
// With Blosc the library packs every run of values, an empty one of floats too. When it zips, it
// leaves a run raw that would not get shorter; and raw runs are the same with both. So a grid of raw
// runs is written with flag 0x1, and gets its flags afterwards.
class MixedArchive : public openvdb::io::Archive {
public:
    struct Part {
        openvdb::GridBase::Ptr grid;
        uint32_t flags;
        std::string name; // the descriptor's name
        std::string parent; // empty, or the descriptor's name whose tree is shared
        bool raw = false; // of no class, with values that packing does not make shorter
    };
    void save(const std::string& path, const std::vector<Part>& parts,
              const openvdb::MetaMap& meta) {
        std::ofstream os(path, std::ios::binary);
        this->writeHeader(os, /*seekable=*/true);
        meta.writeMeta(os);
        const int32_t count = int32_t(parts.size());
        os.write(reinterpret_cast<const char*>(&count), sizeof count);
        for (const Part& part : parts) {
            this->setCompression(part.raw ? (part.flags & ACTIVE) | ZIP : part.flags);
            part.grid->addStatsMetadata();
            part.grid->insertMeta(
                openvdb::GridBase::META_FILE_COMPRESSION,
                openvdb::StringMetadata(openvdb::io::compressionToString(part.flags)));
            openvdb::io::GridDescriptor gd(part.name, part.grid->type(),
                                           part.grid->saveFloatAsHalf());
            if (part.parent.empty()) {
                this->writeGrid(gd, part.grid, os, /*seekable=*/true);
                if (part.raw) set_flags(os, gd, part.flags);
            } else {
                gd.setInstanceParentName(part.parent);
                this->writeGridInstance(gd, part.grid, os, /*seekable=*/true);
            }
        }
    }

private:
    // The flags are the first thing at the grid position.
    static void set_flags(std::ostream& os, const openvdb::io::GridDescriptor& gd, uint32_t flags) {
        os.seekp(gd.getGridPos());
        os.write(reinterpret_cast<const char*>(&flags), sizeof flags);
        os.seekp(0, std::ios::end);
    }
};
