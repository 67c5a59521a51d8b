/*
 * Wuraiko: a proved reader of OpenVDB clouds, for C and C++. Link libvdb.a, which is for x86-64.
 *
 * Float grids of file versions 220 to 224, trees 5-4-3 of 32-bit floats or halves, values stored unpacked, also where a flag says that they may be
 * packed.
 *
 * What holds of every function here
 *
 * - `file` and `file_len` are the whole file. Nothing is kept between calls, nothing is allocated, no file is opened: each call is given the bytes again.
 * - The result is 0, or the number of the check that refused (1 to 22, and 25; see the table at the end). After a refusal everything lent is as it was.
 * - Any bytes, names, numbers, lengths and words are allowed: each call answers after finitely many steps.
 * - A pointer with a length points to that many elements; every pointer is aligned for its type and is not NULL, also where the length is 0. What is lent
 *   for writing overlaps nothing else that is lent in the same call. Calls may run at the same time as long as what they write is not shared.
 * - Positions are bytes from the file's start. Where a start and a length are given, these bytes lie in the file.
 * - A float is given as its 32-bit pattern, a double as its 64-bit pattern, a signed number as its 64-bit pattern in two's complement: (int64_t)word.
 */
#ifndef VDB_H
#define VDB_H

#include <stddef.h>
#include <stdint.h>

#ifdef __cplusplus
extern "C" {
#endif

/* ---- The layout ---- */

/*
 * The number of the layout of all that is lent: what the functions are given, the lengths of the arrays below, what their words mean, and the words of a
 * place. A library with another number writes other words, and perhaps more of them than an array of this header has: lend it nothing. A program that
 * may be linked with another library than the one that its header came with calls this once, before any other function. A place's words begin with the
 * number, so that places kept by a library of another layout are refused (22).
 */
enum { VDB_LAYOUT = 1 };
uint32_t vdb_layout(void);

/* ---- The file ---- */

/* The words of an opened file. */
enum {
    VDB_FILE_VERSION,        /* 220 to 224 */
    VDB_FILE_LIBRARY_MAJOR,  /* the numbers of the library that wrote it */
    VDB_FILE_LIBRARY_MINOR,
    VDB_FILE_PACKED,         /* 1 where versions 220 and 221 say that values may be packed, else 0 */
    VDB_FILE_IDENTITY_START, /* the identity's bytes */
    VDB_FILE_IDENTITY_LEN,
    VDB_FILE_METADATA,       /* where the file's metadata starts */
    VDB_FILE_GRID_COUNT,     /* grids are numbered from 0 */
    VDB_FILE_WORDS
};

/* Opens the file: its header and all descriptors are checked. */
uint32_t vdb_open_file(const uint8_t *file, size_t file_len, uint64_t out[VDB_FILE_WORDS]);

/* ---- A grid's descriptor ---- */

/* The words of a descriptor. */
enum {
    VDB_GRID_NAME_START,
    VDB_GRID_NAME_LEN,
    VDB_GRID_TYPE_START,
    VDB_GRID_TYPE_LEN,
    VDB_GRID_PARENT_START,
    VDB_GRID_PARENT_LEN,
    VDB_GRID_POSITION,       /* where the grid starts, where its blocks start, and where the next descriptor stands */
    VDB_GRID_BLOCK_POSITION,
    VDB_GRID_END_POSITION,
    VDB_GRID_FLAGS,          /* 0x1 and 0x4: values may be packed, which opening the grid finds out; 0x2: only active values are stored */
    VDB_GRID_HALF,           /* the metadata entry is_saved_as_half_float: 2 where it is true, 1 where false, 0 where there is none or its kind is another */
    VDB_GRID_METADATA,       /* where the grid's metadata starts, and where what follows it starts */
    VDB_GRID_TREE,
    VDB_GRID_WIDTH,          /* how many bytes a stored value takes, 2 or 4: by VDB_GRID_HALF, and where that is 0 by the type's ending _HalfFloat */
    VDB_GRID_WORDS = 16      /* the last ones are 0 */
};

/* The descriptor of the grid of this name, or with this number from 0. Without such a grid the result is 11. */
uint32_t vdb_grid_named(const uint8_t *file, size_t file_len, const uint8_t *name, size_t name_len, uint64_t out[VDB_GRID_WORDS]);
uint32_t vdb_grid_numbered(const uint8_t *file, size_t file_len, uint32_t n, uint64_t out[VDB_GRID_WORDS]);

/* ---- Metadata ---- */

/* The words of an entry: its kind, and its value. Words that a kind does not use are 0. */
enum {
    VDB_ENTRY_KIND,
    VDB_ENTRY_VALUE,     /* bool: 0 or 1; int32, int64: the number; float: its pattern; vec3i: x, y and z from here on; string, other: the start */
    VDB_ENTRY_LEN,       /* string, other: how many bytes */
    VDB_ENTRY_KIND_START, /* other: the kind's name */
    VDB_ENTRY_KIND_LEN,
    VDB_ENTRY_WORDS
};

enum { VDB_STRING, VDB_BOOL, VDB_INT32, VDB_INT64, VDB_FLOAT, VDB_VEC3I, VDB_OTHER };

/* The entry of this name in the file's metadata, or in a grid's. Without such an entry, or grid, the result is 11. */
uint32_t vdb_file_entry(const uint8_t *file, size_t file_len, const uint8_t *name, size_t name_len, uint64_t out[VDB_ENTRY_WORDS]);
uint32_t vdb_grid_entry_named(const uint8_t *file, size_t file_len, const uint8_t *grid, size_t grid_len, const uint8_t *name, size_t name_len,
                              uint64_t out[VDB_ENTRY_WORDS]);
uint32_t vdb_grid_entry_numbered(const uint8_t *file, size_t file_len, uint32_t n, const uint8_t *name, size_t name_len, uint64_t out[VDB_ENTRY_WORDS]);

/* ---- An opened grid ---- */

/* The words of an opened grid. */
enum {
    VDB_OPENED_BACKGROUND,   /* the background, a float's pattern */
    VDB_OPENED_ACTIVE_COUNT, /* how many records the active list has; active tiles of the root, cubes of 4096, are none of them */
    VDB_OPENED_LEAF_COUNT,   /* how many leaves there are; they are numbered from 0 */
    VDB_OPENED_ROOT_TILES,   /* how many tiles the root has, active or not */
    VDB_OPENED_MAP,          /* which map the transform is, by the number of its doubles: VDB_SCALE or VDB_SCALE_TRANSLATE */
    VDB_OPENED_DOUBLES_AT,   /* where these stand in the file */
    VDB_OPENED_DOUBLES,      /* and from here on their patterns, bit for bit, 18 at most; words past them are 0 */
    VDB_OPENED_WORDS = 32
};

/*
 * The transform is one of two maps. Its doubles are vectors of x, y and z: the scale, the voxel size, the scale's inverse, the inverse of its square,
 * half the inverse. With VDB_SCALE_TRANSLATE the translation comes first.
 */
enum { VDB_SCALE = 15, VDB_SCALE_TRANSLATE = 18 };

/*
 * A place of a walk, as words for the caller to keep: in memory, or in a file, whose reader then goes on with the walk. It holds all that the walk
 * needs and goes with the bytes that its grid was opened from. But for the first one, VDB_LAYOUT, its words mean nothing to the caller.
 */
enum { VDB_PLACE_WORDS = 40 };

/* Opens the grid of this name, or with this number from 0: all of it is checked. `place` is then the walk's place before its first record. */
uint32_t vdb_open_grid_named(const uint8_t *file, size_t file_len, const uint8_t *name, size_t name_len, uint64_t out[VDB_OPENED_WORDS],
                             uint64_t place[VDB_PLACE_WORDS]);
uint32_t vdb_open_grid_numbered(const uint8_t *file, size_t file_len, uint32_t n, uint64_t out[VDB_OPENED_WORDS], uint64_t place[VDB_PLACE_WORDS]);

/* ---- The walk ---- */

/* The counts of a walk call: how many slots it filled, and how many records are left. */
enum { VDB_FILLED, VDB_LEFT, VDB_WALK_COUNTS };

/*
 * Hands out the records that follow a place, in the order of the active list: as many as the shortest of the five slices has slots, and no more than are
 * left. Slot i gets a cube: its lowest corner in x[i], y[i] and z[i], its level, 0, 1 or 2 for cubes of 1, 8 or 128 voxels a side, and its value, a
 * float's pattern. Slots past the filled ones keep their content. `place` is then the place behind these records.
 *
 * From the place of an opened grid on, each call given the place that the last one left, the calls hand out the whole active list, without gap or
 * repeat, and none is refused. Any other words are safe too. Words whose first one is not VDB_LAYOUT get 22. Others that no call over these bytes left get
 * some records of these bytes, or 22, or, where by these words nothing is left, 0 filled. Where records are left and slots are lent, a call that returns
 * 0 fills one slot at least, and as many fewer are left. Where no slots are lent, nothing is filled and nothing refused for its bytes, and the place is the
 * same; but words that no call left may come back written otherwise, since a word of a smaller field counts by its low 32 bits, and the rest becomes 0.
 */
uint32_t vdb_walk(const uint8_t *file, size_t file_len, uint64_t place[VDB_PLACE_WORDS], int32_t *x, size_t x_len, int32_t *y, size_t y_len, int32_t *z,
                  size_t z_len, uint32_t *level, size_t level_len, uint32_t *value, size_t value_len, uint64_t counts[VDB_WALK_COUNTS]);

/* ---- The leaves ---- */

/*
 * Fills 512 slots with the values of a leaf, by its number from 0: place p of the leaf is x = p / 64, y = p / 8 % 8, z = p % 8. An inactive place holds the
 * value that the file gives for it; where it gives none, the grid's background, or minus the background (its top bit flipped), as in OpenVDB. The grid is
 * opened first. 21: there is no such leaf, or `slots_len` is not 512.
 */
uint32_t vdb_fill_leaf_named(const uint8_t *file, size_t file_len, const uint8_t *name, size_t name_len, uint64_t leaf, uint32_t *slots, size_t slots_len);
uint32_t vdb_fill_leaf_numbered(const uint8_t *file, size_t file_len, uint32_t n, uint64_t leaf, uint32_t *slots, size_t slots_len);

/*
 * The same for the leaves from number `first` on, 512 slots each, one leaf after the other, with one opening of the grid. 21: `slots_len` is no multiple
 * of 512, or one of these leaves is not there; then no slot is changed.
 */
uint32_t vdb_fill_leaves_named(const uint8_t *file, size_t file_len, const uint8_t *name, size_t name_len, uint64_t first, uint32_t *slots,
                               size_t slots_len);
uint32_t vdb_fill_leaves_numbered(const uint8_t *file, size_t file_len, uint32_t n, uint64_t first, uint32_t *slots, size_t slots_len);

/*
 * Where these leaves lie: the origins, lowest voxels, of the leaves from number `first` on, as many as the three slices are long; leaf `first` + i has
 * its origin in x[i], y[i] and z[i]. The grid is opened once. 21: the slices have different lengths, or one of these leaves is not there; then no slot is
 * changed.
 */
uint32_t vdb_leaf_origins_named(const uint8_t *file, size_t file_len, const uint8_t *name, size_t name_len, uint64_t first, int32_t *x, size_t x_len,
                                int32_t *y, size_t y_len, int32_t *z, size_t z_len);
uint32_t vdb_leaf_origins_numbered(const uint8_t *file, size_t file_len, uint32_t n, uint64_t first, int32_t *x, size_t x_len, int32_t *y, size_t y_len,
                                   int32_t *z, size_t z_len);

/*
 * The checks, in the order of their numbers: 1 over 2,147,483,647 bytes; 2 a field past the end; 3 magic; 4 version; 5 offsets byte; 6 packed values;
 * 7 flags above 7; 8 over 64 grids; 9 a position past the end; 10 repeated grid name; 11 no such grid or entry; 12 grid type; 13 parent; 14 map name;
 * 15 tree buffer count; 16 over 256 roots; 17 root origin; 18 child and value bit at one place; 19 node byte; 20 leaf block; 21 no such leaf, or
 * number of slots; 22 place of a walk; 25 the number before a run of values is not that of its bytes. 6 and 25 are found where the values are read: a
 * grid with a flag for packing opens where all of its values are stored as they are.
 */

#ifdef __cplusplus
}
#endif

#endif
