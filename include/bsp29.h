/*
 * bsp29.h: BSP29 maps that strangers send. C99 and C++11, x86-64 Linux (x86-64-v2 and above).
 *
 * Link the static library libbsp29.a (README.md says how it is installed). `rt lib` in crates/ffi writes
 * it as crates/ffi/out/libffi.a; link that file by its path, since systems have another library called
 * ffi. bsp29_easy.h has small structs and wrappers over these calls.
 *
 * Each call but bsp_version answers 0 (BSP_OK), or the number of a refusal (enum bsp_refusal;
 * docs/SCOPE.md says who causes each, and in which order they come). Whatever the bytes, the map
 * record, the hull or the numbers, it ends and answers one of these; it reads and writes nothing
 * but the lists it is lent. What it answers goes to the front of a list that the caller lends;
 * entries past the answer are kept. A refusal writes nothing, but for the marks of bsp_tree_check,
 * bsp_hull_check, bsp_contents_box, bsp_order and bsp_accept. The library holds no state: any
 * thread may call it at any time.
 *
 * Stack, measured on a chain of 512 nodes, the deepest there can be, and not proved: bsp_trace_nodes
 * needs up to 510,000 bytes, bsp_order_trace 460,000, bsp_trace_line 329,000, bsp_trace 362,000 (198,000
 * with the map record of a file that was loaded), bsp_accept 296,000, bsp_contents_box 263,000,
 * bsp_tree_check, bsp_hull_check and bsp_order 132,000; bsp_contents_points 18,500 for 64 points that
 * leave a group one by one.
 * bsp_load, bsp_load_place, bsp_texture_frame and bsp_texture_static need up to 543,000 bytes,
 * bsp_texture_numbers 966,000 and bsp_record 1,011,000 for a texture info, whatever the nodes. The
 * other calls, and bsp_record of other sections, have no such depth.
 *
 * A list is two parameters: a pointer to its first entry and the number of its entries.
 *   - The pointer is not null and is aligned for its entries, even where the number is 0.
 *   - A list that is written (no const) shares no bytes with another list of the same call.
 *
 * Every list has a least length, said with each call; a list may be longer. A list that is too
 * short is 22, before anything else is looked at (but for 24 of bsp_contents_points and 29 of
 * bsp_made_up, which come first), and but for the lists that hold answers of any length (the
 * parameters called list, and marks), where 22 comes in its place in the order said.
 *
 * A float in a word is its 32 bits (bsp_float), every NaN 0x7fc00000. A signed number in a word is
 * its two's complement in 64 bits: cast the word to int64_t. A flag is 0 or 1.
 */
#ifndef BSP29_H
#define BSP29_H

#include <stddef.h>
#include <stdint.h>
#include <string.h>

#ifdef __cplusplus
extern "C" {
#endif

/*
 * The version of this header: that of the library that it was written for. A change of the first two
 * numbers may change or take away what is here; a change of the third does not. BSP29_VERSION is the three
 * in one number, 65,536 major + 256 minor + patch.
 */
#define BSP29_VERSION_MAJOR 0
#define BSP29_VERSION_MINOR 2
#define BSP29_VERSION_PATCH 0
#define BSP29_VERSION (BSP29_VERSION_MAJOR * 65536 + BSP29_VERSION_MINOR * 256 + BSP29_VERSION_PATCH)

/* ---- refusals ---- */

enum bsp_refusal {
    BSP_OK = 0,
    /* the file's author, on loading */
    BSP_END_OF_FILE = 1,
    BSP_UNSUPPORTED_VERSION = 2,
    BSP_NEGATIVE_SECTION_OFFSET = 3,
    BSP_NEGATIVE_SECTION_SIZE = 4,
    BSP_INVALID_SECTION_SIZE = 5,
    BSP_LIMIT_EXCEEDED = 6,
    BSP_MISALIGNED = 7,
    BSP_ENTITY_TEXT_TOO_LONG = 8,
    BSP_ENTITY_TEXT_NOT_UTF8 = 9,
    BSP_INVALID_FIELD = 10,
    BSP_INVALID_INDEX = 11,
    BSP_BAD_EXTENTS = 12,
    BSP_TEXTURE_NAME_NOT_ASCII = 13,
    BSP_INVALID_FRAME = 14,
    BSP_NO_PRIMARY_FRAMES = 15,
    /* the caller; 19 is a refusal of the core that no call of this file gives */
    BSP_CANNOT_JOIN = 19,
    BSP_NO_SUCH_RECORD = 20,
    BSP_MIN_NOT_BELOW_MAX = 21,
    BSP_LIST_TOO_SHORT = 22,
    BSP_UNREADABLE = 23,
    BSP_NOT_POINTS = 24,
    BSP_TOO_MANY_PLAYERS = 25,
    BSP_INVALID_SIZES_FILE = 26,
    BSP_NOT_A_BODY = 27,
    BSP_NOT_A_BOX = 28,
    BSP_NODE_COUNT_OUTSIDE = 29,
    /* the map's shape, met in a query */
    BSP_INDEX_OUTSIDE_TABLE = 30,
    BSP_WALK_TOO_LONG = 31,
    BSP_TOO_DEEP = 32,
    BSP_ROW_OUTSIDE_DATA = 33,
    BSP_REACHED_TWICE = 34,
    /* the map's references, met by bsp_accept */
    BSP_NOT_ACCEPTABLE = 35
};

/* A sentence for a person about an answer of a call. */
static inline const char *bsp_sentence(uint32_t refusal)
{
    switch (refusal) {
    case BSP_OK: return "the call was answered";
    case BSP_END_OF_FILE: return "the file ends before a field that it must have";
    case BSP_UNSUPPORTED_VERSION: return "the file's version is not 29";
    case BSP_NEGATIVE_SECTION_OFFSET: return "a section of the file has a negative offset";
    case BSP_NEGATIVE_SECTION_SIZE: return "a section of the file has a negative size";
    case BSP_INVALID_SECTION_SIZE: return "a section's size is no multiple of the size of its records";
    case BSP_LIMIT_EXCEEDED: return "a section has more records than a map may have, or there is no model";
    case BSP_MISALIGNED: return "a section does not end where its offset and size say";
    case BSP_ENTITY_TEXT_TOO_LONG: return "the entity text is longer than 65,536 bytes";
    case BSP_ENTITY_TEXT_NOT_UTF8: return "the entity text is not UTF-8";
    case BSP_INVALID_FIELD: return "a field of the file has a value that it may not have";
    case BSP_INVALID_INDEX: return "a record of the file names another that is not there";
    case BSP_BAD_EXTENTS: return "a face of the file extends over more than 2,000 units of its texture";
    case BSP_TEXTURE_NAME_NOT_ASCII: return "the name of a texture of the file is not ASCII";
    case BSP_INVALID_FRAME: return "the frame letter of an animated texture is missing or wrong";
    case BSP_NO_PRIMARY_FRAMES: return "an animated texture has alternate frames and no primary ones";
    case BSP_CANNOT_JOIN: return "the two traces do not follow one another";
    case BSP_NO_SUCH_RECORD: return "the number asked for is outside its table";
    case BSP_MIN_NOT_BELOW_MAX: return "a minimum of the box is at or above its maximum";
    case BSP_LIST_TOO_SHORT: return "a list lent to the call is too short";
    case BSP_UNREADABLE: return "the map record leads outside the file or to a record that loading refuses";
    case BSP_NOT_POINTS: return "there are more than 1,024 points, or their coordinates are not in threes";
    case BSP_TOO_MANY_PLAYERS: return "more than 16 players are asked about at once";
    case BSP_INVALID_SIZES_FILE: return "the file of body sizes is not two fields of 24 bytes, one of tag 1 and one of tag 2";
    case BSP_NOT_A_BODY: return "a bound of a body is not finite, or a minimum is at or above its maximum";
    case BSP_NOT_A_BOX: return "a bound of the box is not finite, or a minimum is above its maximum";
    case BSP_NODE_COUNT_OUTSIDE: return "a made-up map has 1 to 500 nodes";
    case BSP_INDEX_OUTSIDE_TABLE: return "a node of the map names a node, plane or leaf that is not there, or the root is not there";
    case BSP_WALK_TOO_LONG: return "the walk entered as many nodes as the map has and did not end";
    case BSP_TOO_DEEP: return "the map's tree is deeper than 512 nodes";
    case BSP_ROW_OUTSIDE_DATA: return "a leaf's visibility row lies outside the visibility data";
    case BSP_REACHED_TWICE: return "a node of the map is reached by two ways, so that its nodes are no tree";
    case BSP_NOT_ACCEPTABLE: return "a record of the map names another that is not there, or a visibility row is not whole";
    default: return "the library answered a number that this header does not know";
    }
}

/* ---- words ---- */

/* The float of a word's low 32 bits. */
static inline float bsp_float(uint64_t word)
{
    uint32_t bits = (uint32_t)word;
    float value;
    memcpy(&value, &bits, sizeof value);
    return value;
}

/* The word of a float, for a hull or body sizes made by hand. */
static inline uint64_t bsp_word(float value)
{
    uint32_t bits;
    memcpy(&bits, &value, sizeof bits);
    return bits;
}

/* An offset that is missing: a leaf without a visibility row, a face without a lightmap. */
#define BSP_NONE UINT64_MAX

/* The sections of a file, in its order. The map record has the offset of section n in word 2 n and
   its size in bytes in word 2 n + 1. */
enum bsp_section {
    BSP_ENTITIES = 0,
    BSP_PLANES = 1,
    BSP_TEXTURES = 2,
    BSP_VERTICES = 3,
    BSP_VISIBILITY = 4,
    BSP_RENDER_NODES = 5,
    BSP_TEXTURE_INFOS = 6,
    BSP_FACES = 7,
    BSP_LIGHTMAPS = 8,
    BSP_CLIP_NODES = 9,
    BSP_LEAVES = 10,
    BSP_FACE_LIST = 11,
    BSP_EDGES = 12,
    BSP_EDGE_LIST = 13,
    BSP_MODELS = 14
};

/* Node tables. A box has six nodes of its own and reads no file. */
enum bsp_table { BSP_TABLE_RENDER = 0, BSP_TABLE_CLIP = 1, BSP_TABLE_BOX = 2 };

/*
 * Contents codes. There are no others: 7 and 8 are refused. Sky is a kind of its own and not solid: a
 * trace goes through it as through water. In the Quake Specifications it is the contents of the open
 * air above a map; the engine richter refuses it.
 */
enum bsp_contents_code {
    BSP_EMPTY = 1,
    BSP_SOLID = 2,
    BSP_WATER = 3,
    BSP_SLIME = 4,
    BSP_LAVA = 5,
    BSP_SKY = 6,
    BSP_CURRENT_0 = 9,
    BSP_CURRENT_90 = 10,
    BSP_CURRENT_180 = 11,
    BSP_CURRENT_270 = 12,
    BSP_CURRENT_UP = 13,
    BSP_CURRENT_DOWN = 14
};

/* How many words each answer has. */
enum bsp_length {
    BSP_MAP_WORDS = 31,    /* uint32_t: offset and size of each section, then the texture count */
    BSP_RECORD_WORDS = 20, /* enough for a record of every section */
    BSP_ENTITIES_WORDS = 2,
    BSP_HULL_WORDS = 11,
    BSP_HULL_ASKED = 9, /* of a hull that a call takes: it does not look at the words after these */
    BSP_SIZES_WORDS = 12,
    BSP_CONTENTS_WORDS = 2,
    BSP_LEAF_WORDS = 2,
    BSP_TRACE_WORDS = 17,
    BSP_LINE_WORDS = 12,
    BSP_TEXTURE_WORDS = 5,
    BSP_PLACE_WORDS = 4
};

/* The word of the map record after those of the sections. */
enum bsp_map_word { BSP_MAP_TEXTURE_COUNT = 30 };

/* The words of a record, by its section. Where three words follow one another they are x, y, z. */

enum bsp_plane_word {
    BSP_PLANE_KIND = 0,   /* 0, 1, 2: the plane of an axis; 3: of a normal */
    BSP_PLANE_NORMAL = 1, /* three floats; of an axis 1 and zeros */
    BSP_PLANE_DIST = 4    /* float */
};

enum bsp_vertex_word { BSP_VERTEX_POINT = 0 /* three floats */ };

enum bsp_render_node_word {
    BSP_RENDER_NODE_PLANE = 0,
    BSP_RENDER_NODE_FRONT_TAG = 1, /* 0: the child is a node; 1: a leaf */
    BSP_RENDER_NODE_FRONT = 2,
    BSP_RENDER_NODE_BACK_TAG = 3,
    BSP_RENDER_NODE_BACK = 4,
    BSP_RENDER_NODE_MIN = 5, /* three signed numbers */
    BSP_RENDER_NODE_MAX = 8, /* three signed numbers */
    BSP_RENDER_NODE_FACE = 11,
    BSP_RENDER_NODE_FACE_COUNT = 12
};

enum bsp_texture_info_word {
    BSP_TEXTURE_INFO_S = 0,        /* three floats */
    BSP_TEXTURE_INFO_S_OFFSET = 3, /* float */
    BSP_TEXTURE_INFO_T = 4,        /* three floats */
    BSP_TEXTURE_INFO_T_OFFSET = 7, /* float */
    BSP_TEXTURE_INFO_TEXTURE = 8,  /* the texture's new number: bsp_texture_static, bsp_texture_frame */
    BSP_TEXTURE_INFO_SPECIAL = 9 /* flag */
};

enum bsp_face_word {
    BSP_FACE_PLANE = 0,
    BSP_FACE_SIDE = 1, /* 0: front; 1: back */
    BSP_FACE_EDGE = 2, /* the first entry of the edge list */
    BSP_FACE_EDGE_COUNT = 3,
    BSP_FACE_TEXTURE_INFO = 4,
    BSP_FACE_LIGHT_STYLES = 5,  /* four numbers */
    BSP_FACE_LIGHTMAP = 9,      /* offset or BSP_NONE */
    BSP_FACE_TEXTURE_MINS = 10, /* two signed numbers: s, t */
    BSP_FACE_EXTENTS = 12       /* two signed numbers: s, t */
};

enum bsp_clip_node_word {
    BSP_CLIP_NODE_PLANE = 0,
    BSP_CLIP_NODE_FRONT_TAG = 1, /* 0: the child is a node; 1: contents */
    BSP_CLIP_NODE_FRONT = 2,     /* a node, or a contents code */
    BSP_CLIP_NODE_BACK_TAG = 3,
    BSP_CLIP_NODE_BACK = 4
};

enum bsp_leaf_word {
    BSP_LEAF_CONTENTS = 0,   /* contents code */
    BSP_LEAF_VISIBILITY = 1, /* offset of its row in the visibility section, or BSP_NONE */
    BSP_LEAF_MIN = 2,        /* three signed numbers */
    BSP_LEAF_MAX = 5,        /* three signed numbers */
    BSP_LEAF_FACE_LIST = 8,  /* the first entry of the face list */
    BSP_LEAF_FACE_LIST_COUNT = 9,
    BSP_LEAF_SOUNDS = 10 /* four numbers: water, sky, slime, lava */
};

enum bsp_face_list_word { BSP_FACE_LIST_FACE = 0 };

enum bsp_edge_word { BSP_EDGE_FIRST = 0, BSP_EDGE_SECOND = 1 /* vertices */ };

enum bsp_edge_list_word {
    BSP_EDGE_LIST_DIRECTION = 0, /* 0: forward; 1: backward */
    BSP_EDGE_LIST_EDGE = 1
};

enum bsp_model_word {
    BSP_MODEL_MIN = 0,               /* three floats: the file's less 1 */
    BSP_MODEL_MAX = 3,               /* three floats: the file's plus 1 */
    BSP_MODEL_ORIGIN = 6,            /* three floats */
    BSP_MODEL_HULL_ROOTS = 9,        /* three nodes: render, clip, clip */
    BSP_MODEL_HULL_NODE_COUNTS = 12, /* the clip nodes less each root, modulo 2^64 */
    BSP_MODEL_LEAF = 15,             /* its first leaf: the leaf counts of the models before it */
    BSP_MODEL_LEAF_COUNT = 16,
    BSP_MODEL_FACE = 17,
    BSP_MODEL_FACE_COUNT = 18,
    BSP_MODEL_LAST_LEAF = 19 /* its last leaf, itself included: leaf and leaf count added */
};

enum bsp_hull_word {
    BSP_HULL_TABLE = 0, /* enum bsp_table */
    BSP_HULL_ROOT = 1,
    BSP_HULL_NODE_COUNT = 2, /* no walk looks at it */
    BSP_HULL_MINS = 3,       /* three floats */
    BSP_HULL_MAXS = 6,       /* three floats */
    /* what bsp_hull_check fills: zeros before it, and in a box */
    BSP_HULL_TREE_NODES = 9,  /* the nodes of the root's tree, the root counted */
    BSP_HULL_TREE_HEIGHT = 10 /* the nodes on the longest way down it */
};

/* The body sizes that a hall brings: how far a body of hull 1 and one of hull 2 reach. */
enum bsp_sizes_word {
    BSP_SIZES_HULL_1_MINS = 0, /* three floats each */
    BSP_SIZES_HULL_1_MAXS = 3,
    BSP_SIZES_HULL_2_MINS = 6,
    BSP_SIZES_HULL_2_MAXS = 9
};

enum bsp_trace_word {
    BSP_TRACE_VISITS = 0,
    BSP_TRACE_CONTENTS = 1,    /* contents code of what the trace went through */
    BSP_TRACE_START_SOLID = 2, /* flag */
    BSP_TRACE_START = 3,       /* three floats */
    BSP_TRACE_START_RATIO = 6, /* float */
    BSP_TRACE_END = 7,         /* three floats */
    BSP_TRACE_KIND = 10,       /* 0: terminal, within a leaf; 1: boundary, at a plane */
    /* the words from here on are zeros for a terminal end */
    BSP_TRACE_RATIO = 11,      /* float */
    BSP_TRACE_PLANE_KIND = 12, /* as BSP_PLANE_KIND */
    BSP_TRACE_NORMAL = 13,     /* three floats; points to where the trace came from */
    BSP_TRACE_DIST = 16        /* float */
};

enum bsp_line_word {
    BSP_LINE_FRACTION = 0,    /* float: from 0 to 1 along the whole line, or a NaN */
    BSP_LINE_END = 1,         /* three floats */
    BSP_LINE_NORMAL = 4,      /* three floats; zeros where no plane was met */
    BSP_LINE_DIST = 7,        /* float */
    BSP_LINE_ALL_SOLID = 8,   /* flag: no leaf that is not solid was traced into */
    BSP_LINE_START_SOLID = 9, /* flag: a solid leaf was traced into */
    BSP_LINE_IN_OPEN = 10,    /* flag: an empty leaf was traced into */
    BSP_LINE_IN_WATER = 11    /* flag: a leaf of other contents was traced into */
};

enum bsp_texture_word {
    BSP_TEXTURE_PRESENT = 0, /* flag; the words from here on are zeros for an absent one */
    BSP_TEXTURE_NAME = 1,    /* two words: 16 bytes, lowered, zeros from the first zero on */
    BSP_TEXTURE_WIDTH = 3,
    BSP_TEXTURE_HEIGHT = 4
};

/* The groups of an animated texture's frames: 0 to 9, and a to j. */
enum bsp_frame_group { BSP_PRIMARY = 0, BSP_ALTERNATE = 1 };

/* Where loading refuses a file: bsp_load_place. */
enum bsp_place_word {
    BSP_PLACE_NUMBER = 0,  /* enum bsp_refusal: the number that bsp_load answers */
    BSP_PLACE_SECTION = 1, /* enum bsp_section, or BSP_PLACE_IN_HEADER */
    BSP_PLACE_RECORD = 2,  /* counted from 0 */
    BSP_PLACE_BYTE = 3     /* counted from 0 in the file */
};

/* The version and the directory of the sections, as a section of a place. */
enum bsp_place_section { BSP_PLACE_IN_HEADER = 15 };

/* ---- the calls ---- */

/*
 * Loads a file: reads and tests it as far as the other calls rely on it, and writes its map record.
 *   map: 31 words or more.
 *   Refuses: 22; then 1 to 15, the first that is met in the file's order.
 * The map record names places in the file and copies nothing: keep the file, unchanged, and lend it
 * to the other calls together with the record.
 * Time: each face's edges are read, and a face may name up to 32,767 of them, which other faces may
 * name too. So the time grows with the faces times their edges, and not with the file's bytes alone
 * (docs/PERFORMANCE.md); limit the size of the files that you load. The names of the textures are read,
 * at most 2,097,152: once, and once more for every 16,383 stems that alternate frames have.
 */
uint32_t bsp_load(const uint8_t *file, size_t file_length,
                  uint32_t *map, size_t map_length);

/*
 * Where loading refuses a file, in the words of enum bsp_place_word: so that a person is told 'leaves,
 * record 17, byte 48,120'. Four zeros where the file loads. The call itself answers 0 either way.
 *   out: 4 words or more.
 *   Refuses: 22.
 * The place is where the reader stands that refuses, in the order in which bsp_load reads. A record is
 * named and not the field in it: its index, and the position of its first byte. That position may lie
 * past the file's end, where a section does. By number:
 *   1 of the version, 2: the header, record 0, byte 0.
 *   1 of the directory, 3, 4, 5, 6: the header, the section's entry as the record, byte 4 + 8 * record. 6 is
 *     that of the first section in the directory's order that has too many records, or of the models
 *     where there is none.
 *   7, 8, 9 of the entity text, 7 of the visibility data and of the lightmaps: record 0, the section's start.
 *   1, 10 of a section of records: the record that is cut or has the field.
 *   7 of the leaves, the last of which may lack its four sound bytes: after the last record, so the number
 *     of leaves, and the file's end.
 *   11: the texture info, the face or the render node that names what is not there (for a face also by
 *     its edge list entries and edges); 12: the face.
 *   The textures: 1 and 10 of their count: record 0, the section's start. 1 and 10 of the list of offsets:
 *     the texture's number in the file, and where its offset stands in the list. 13, and 1 of a header: its
 *     number, and where its header starts, or its offset where that leads to the file's end or past it.
 *     7, 14, 15, which are said of all textures together: the number of textures, and the section's end,
 *     its offset plus its size.
 * Time: as bsp_load, and the refused section once more.
 */
uint32_t bsp_load_place(const uint8_t *file, size_t file_length,
                        uint64_t *out, size_t out_length);

/*
 * Record `index` of a section: 1, 3, 5, 6, 7 or 9 to 14 of enum bsp_section, in the words named for
 * it above. For a file that loads and an index below bsp_count it never refuses.
 *   map: 31 words or more; out: 20 words or more, whatever the section.
 *   Refuses: 22; 20, a section that has no records or an index outside it; 23.
 * A texture info has its texture's new number, which the names of all textures decide: they are read a
 * few times for this one record, and once more for every 10,239 stems.
 */
uint32_t bsp_record(const uint8_t *file, size_t file_length,
                    const uint32_t *map, size_t map_length,
                    uint32_t section, uint64_t index,
                    uint64_t *out, size_t out_length);

/*
 * How many records a section (any of enum bsp_section) has: its size divided by the size of a
 * record, rounded down; of entities, textures, visibility and lightmaps their bytes.
 *   map: 31 words or more; out: 1 word or more.
 *   Refuses: 22; 20, a section above 14.
 */
uint32_t bsp_count(const uint32_t *map, size_t map_length,
                   uint32_t section,
                   uint64_t *out, size_t out_length);

/*
 * Where the entity text lies in the file: its offset and its length in bytes. It runs from its
 * section's offset through the first zero byte, which is counted, or to the file's end; of a map that
 * was loaded it is the section, at most 65,536 bytes. An empty text may have any offset.
 *   map: 31 words or more; out: 2 words or more.
 *   Refuses: 22; 23, a section that is not empty starts at or past the file's end.
 */
uint32_t bsp_entities(const uint8_t *file, size_t file_length,
                      const uint32_t *map, size_t map_length,
                      uint64_t *out, size_t out_length);

/*
 * The hull `index` of a model: 0 for points (the render nodes), 1 for a player, 2 for larger ones.
 * It is that of the model's own record; the models before it are not read. The last two words, the
 * size of the root's tree, are zeros: bsp_hull_check fills them.
 *   map: 31 words or more; hull: 11 words or more.
 *   Refuses: 22; 20, a hull above 2 or a model outside its table; 23, the model's record.
 */
uint32_t bsp_hull(const uint8_t *file, size_t file_length,
                  const uint32_t *map, size_t map_length,
                  uint64_t model, uint64_t index,
                  uint64_t *hull, size_t hull_length);

/*
 * The body sizes of a hall's own file, for bsp_hull_sized. The file is two fields in either order, each
 * a byte of tag (1 for hull 1, 2 for hull 2), two bytes of length, the lowest first, which say 24, and
 * six floats: mins, then maxs.
 *   sizes: 12 words or more.
 *   Refuses: 22; 26, a field cut short, a wrong length, an unknown, missing or repeated tag, anywhere in
 *   the file; then 27, a bound that is not finite or a minimum at or above its maximum.
 * Time: constant.
 */
uint32_t bsp_body_sizes(const uint8_t *bytes, size_t bytes_length,
                        uint64_t *sizes, size_t sizes_length);

/*
 * bsp_hull with these body sizes in place of the built-in ones: the mins and maxs of hulls 1 and 2 are
 * theirs, hull 0 has zeros still, and every other word is that of bsp_hull. What a hull is asked does
 * not depend on them: contents, leaves and traces go by its nodes. Sizes made by hand are taken as they
 * stand, their floats as they are read: the low 32 bits, every NaN as one. They are not tested again.
 *   map: 31 words or more; sizes: 12 or more; hull: 11 or more.
 *   Refuses: as bsp_hull.
 * Time: constant.
 */
uint32_t bsp_hull_sized(const uint8_t *file, size_t file_length,
                        const uint32_t *map, size_t map_length,
                        const uint64_t *sizes, size_t sizes_length,
                        uint64_t model, uint64_t index,
                        uint64_t *hull, size_t hull_length);

/*
 * The hull of a box: solid within, empty outside. Such a hull reads no file: any file and any map
 * record of 31 words may be lent with it.
 *   bounds: 6 floats or more, the minimum and the maximum; hull: 11 words or more.
 *   Refuses: 22; 21, a minimum at or above its maximum on an axis (a NaN is neither).
 */
uint32_t bsp_box(const float *bounds, size_t bounds_length,
                 uint64_t *hull, size_t hull_length);

/*
 * The tree check of a hull's root (bsp_tree_check), and the hull with the true size of its root's
 * tree: the number of its nodes and its height. A box passes or refuses by its six nodes as any
 * hull does, and keeps zeros. The other words are those of the hull lent, its floats as they are
 * read: the low 32 bits, every NaN as one. No call looks at the two words, this one included.
 *   map: 31 words or more; hull: 9 or more; out: 11 words or more; marks: a byte for each node of
 *   the hull's table (bsp_count; six for a box), of any values.
 *   Refuses: 22; 20, a hull whose table is none; then as bsp_tree_check, and the marks are as it
 *   leaves them.
 */
uint32_t bsp_hull_check(const uint8_t *file, size_t file_length,
                        const uint32_t *map, size_t map_length,
                        const uint64_t *hull, size_t hull_length,
                        uint8_t *marks, size_t marks_length,
                        uint64_t *out, size_t out_length);

/*
 * What is at a point of a hull: a contents code, and the visits, one for each node entered.
 *   map: 31 words or more; hull: 9 or more; point: 3 floats or more; out: 2 words or more.
 *   Refuses: 22; 20, a hull whose table is none; then what the walk meets first: at each node 30 its
 *   number, 31, 23 its record, 30 its plane's number, 23 the plane, and at a leaf 30 and 23.
 */
uint32_t bsp_contents(const uint8_t *file, size_t file_length,
                      const uint32_t *map, size_t map_length,
                      const uint64_t *hull, size_t hull_length,
                      const float *point, size_t point_length,
                      uint64_t *out, size_t out_length);

/*
 * The leaf that a point is in, from a render node on (root 0 for the world), and the visits.
 *   map: 31 words or more; point: 3 floats or more; out: 2 words or more.
 *   Refuses: 22; then as bsp_contents, but the leaf's record is not read.
 */
uint32_t bsp_find_leaf(const uint8_t *file, size_t file_length,
                       const uint32_t *map, size_t map_length,
                       uint64_t root,
                       const float *point, size_t point_length,
                       uint64_t *out, size_t out_length);

/*
 * What a point meets that moves along a segment through a hull: 17 words. The trace goes through
 * leaves of the same contents, and out of solid ones. It ends at a plane behind which the contents
 * differ (boundary), or within a leaf (terminal). It follows the engine richter to the letter:
 *   - Where the segment crosses a node's plane, the part before the plane is traced first. If that
 *     part ends within a leaf further down, the trace ends there, at the plane, as terminal, and what
 *     lies behind the plane is not looked at. So a terminal end is no obstacle, and it need not be
 *     the segment's end: nothing was met up to there, and the rest of the segment was not looked at.
 *   - Tracing on from a terminal end, from there to the same segment's end, may stand still: the part
 *     before the plane is then a single point, the trace ends at it again, and so would every further
 *     one. On maps/rooms.bsp, hull 0 of model 0, the trace from (0, -32, 0) to (-112, -32, 0) ends as
 *     terminal at (-8, -32, 0), and so does the one from there. A caller who traces on in a loop must
 *     stop where the end does not move. What a whole shot meets is what bsp_trace_line answers.
 *   - The ratio of a boundary is along the part of the segment that was left at the node of that
 *     plane, and not along the whole segment.
 *   map: 31 words or more; hull: 9 or more; segment: 6 floats or more, start and end;
 *   out: 17 words or more.
 *   Refuses: 22; 20, a hull whose table is none; then what the trace meets first: at each node 30 its
 *   number, 32, 23 its record, 30 its plane's number, 23 the plane, and at a leaf 30 and 23.
 */
uint32_t bsp_trace(const uint8_t *file, size_t file_length,
                   const uint32_t *map, size_t map_length,
                   const uint64_t *hull, size_t hull_length,
                   const float *segment, size_t segment_length,
                   uint64_t *out, size_t out_length);

/*
 * bsp_contents, with the nodes entered instead of the contents: their number in out[0], and the
 * nodes in the order of the walk at the front of list.
 *   out: 1 word or more; the rest as bsp_contents.
 *   Refuses: as bsp_contents, and last 22, a list too short for the nodes. The list is kept then.
 */
uint32_t bsp_contents_nodes(const uint8_t *file, size_t file_length,
                            const uint32_t *map, size_t map_length,
                            const uint64_t *hull, size_t hull_length,
                            const float *point, size_t point_length,
                            uint32_t *list, size_t list_length,
                            uint64_t *out, size_t out_length);

/*
 * bsp_find_leaf, with the nodes entered instead of the leaf, as in bsp_contents_nodes.
 *   out: 1 word or more; the rest as bsp_find_leaf.
 *   Refuses: as bsp_find_leaf, and last 22, a list too short for the nodes.
 */
uint32_t bsp_find_leaf_nodes(const uint8_t *file, size_t file_length,
                             const uint32_t *map, size_t map_length,
                             uint64_t root,
                             const float *point, size_t point_length,
                             uint32_t *list, size_t list_length,
                             uint64_t *out, size_t out_length);

/*
 * bsp_trace, with the nodes entered instead of the trace, as in bsp_contents_nodes. From a root
 * that passed bsp_tree_check none is entered twice, so that a list as long as the table is enough.
 *   out: 1 word or more; the rest as bsp_trace.
 *   Refuses: as bsp_trace, and last 22, a list too short for the nodes.
 */
uint32_t bsp_trace_nodes(const uint8_t *file, size_t file_length,
                         const uint32_t *map, size_t map_length,
                         const uint64_t *hull, size_t hull_length,
                         const float *segment, size_t segment_length,
                         uint32_t *list, size_t list_length,
                         uint64_t *out, size_t out_length);

/*
 * What a whole shot meets: the line from start to end through a hull, by the published rule of id
 * Software's world.c (its recursive hull check): 12 words. Fraction 1, the line's end and a plane of
 * zeros if nothing is met. Where the line comes out of what is not solid into what is, the fraction
 * and the point of that impact, 0.03125 before the plane and not inside a solid leaf if that can be had
 * by steps back of 0.1 of the part of the line at that plane, and the plane, turned (0 less it) where
 * the line came from its back. A line that never came out of the solid leaf it starts in has all-solid
 * set, fraction 1 and no plane: so a fraction of 1 alone does not say that the way is free.
 *   - Sides go by the distance from the plane, 0 is its front, a NaN its back. Arithmetic is that of
 *     floats; where it comes to a NaN or an infinity, so may the answer.
 *   - From a root that passed bsp_tree_check, on a map that was loaded, it is never refused. Time: a
 *     step a node that the line goes through, and at each plane that it crosses a look for contents,
 *     at most as many steps as the tree is high. Over other nodes it ends too, but it may take long.
 *   map: 31 words or more; hull: 9 or more; segment: 6 floats or more, start and end;
 *   out: 12 words or more.
 *   Refuses: 22; 20, a hull whose table is none; then what the line or a look meets first: at each node
 *   30 its number, 32, 23 its record, 30 its plane's number, 23 the plane, and at a leaf 30 and 23. A
 *   look counts its depth from its own top.
 */
uint32_t bsp_trace_line(const uint8_t *file, size_t file_length,
                        const uint32_t *map, size_t map_length,
                        const uint64_t *hull, size_t hull_length,
                        const float *segment, size_t segment_length,
                        uint64_t *out, size_t out_length);

/*
 * The contents that a point of a box may have, for one who is known only to be somewhere in it: the
 * set in out[0], bit n for the code n (enum bsp_contents_code), so that Empty is 2, Solid 4 and Sky 64. Each plane
 * sends the box to the side on which its eight corners lie, or to both. Every point in the box, its
 * bounds counted, has contents of the set; a box of one point has that point's contents alone. The set
 * may also hold contents that no point of the box has.
 *   map: 31 words or more; hull: 9; bounds: 6 floats, mins, then maxs; out: 1 word or more; marks: as
 *   bsp_tree_check.
 *   Refuses: 22; 20, a hull whose table is none; 28, with the marks kept; then as bsp_tree_check on the
 *   hull's table and root, which leaves the marks so; then 23, a plane or a leaf.
 */
uint32_t bsp_contents_box(const uint8_t *file, size_t file_length,
                          const uint32_t *map, size_t map_length,
                          const uint64_t *hull, size_t hull_length,
                          const float *bounds, size_t bounds_length,
                          uint8_t *marks, size_t marks_length,
                          uint64_t *out, size_t out_length);

/*
 * The contents of up to 1,024 points of a hull at once: the code of each (enum bsp_contents), a byte
 * each in the order of the points, at the front of list, and in out[0] how often a node was read. A
 * node is read once for all points that come to it the same way: the reads are the different runs of
 * sides from the root by which the points reach nodes, and from a root that passed bsp_tree_check the
 * different nodes that they meet. Where every point is answered, each answer is that of bsp_contents;
 * else the call refuses as bsp_contents does of the first point that it refuses. No points: no reads,
 * and no refusal for the root.
 *   map: 31 words or more; hull: 9; points: three floats for each point; list: a byte for each point;
 *   out: 1 word or more.
 *   Refuses: 24, more than 1,024 points or coordinates not in threes, before everything else; 22, list
 *   counted; 20, a hull whose table is none; then as bsp_contents.
 *   Takes at most one step for each node that each point enters, and less where they go together;
 *   it calls itself at most 63 deep for up to 64 points, at most ten deep for more.
 */
uint32_t bsp_contents_points(const uint8_t *file, size_t file_length,
                             const uint32_t *map, size_t map_length,
                             const uint64_t *hull, size_t hull_length,
                             const float *points, size_t points_length,
                             uint8_t *list, size_t list_length,
                             uint64_t *out, size_t out_length);

/*
 * Writes the nodes of a root's tree in walking order into list, three numbers a node: its plane's number,
 * its front child and its back child. A child is its place in the list, counted in nodes from 0, or a
 * contents code negated (enum bsp_contents). The root has place 0; the front child comes right after its
 * parent, and the back child after the whole front part. out[0] is the number of nodes.
 * bsp_order_contents and bsp_order_trace from place 0 then answer what bsp_contents and bsp_trace answer
 * from that root, for every point and segment, visits and refusals too.
 *   map: 31 words or more; table: 0, the render nodes, or 1, the clip nodes; marks: as bsp_tree_check;
 *   list: three numbers a node of the tree, so that three times the table's nodes are always enough;
 *   out: 1 word or more. The time grows with the nodes of the tree and the marks.
 *   Refuses: 22, map or out; 20, another table; then as bsp_tree_check, which leaves the marks so; then
 *   23, a leaf's record; then 22, a list too short for the nodes.
 */
uint32_t bsp_order(const uint8_t *file, size_t file_length,
                   const uint32_t *map, size_t map_length,
                   uint32_t table, uint64_t root,
                   uint8_t *marks, size_t marks_length,
                   int32_t *list, size_t list_length,
                   uint64_t *out, size_t out_length);

/*
 * As bsp_contents, by a list of nodes in walking order from the place root on; the planes are the file's.
 * A caller may make a list by hand: it is counted in whole threes, and numbers past them are not looked at.
 *   map: 31 words or more; point: 3 floats; out: 2 words. One step a node entered, at most as many as the
 *   list has.
 *   Refuses: 22; at each node 30, a place outside the list; 31, as many nodes entered as the list has;
 *   23, a negative plane's number, or a negative child that is no contents code, in a node read whole;
 *   30, a plane outside its table; 23, the plane.
 */
uint32_t bsp_order_contents(const uint8_t *file, size_t file_length,
                            const uint32_t *map, size_t map_length,
                            const int32_t *list, size_t list_length,
                            uint64_t root,
                            const float *point, size_t point_length,
                            uint64_t *out, size_t out_length);

/*
 * As bsp_trace, in the same way.
 *   map: 31 words or more; segment: 6 floats; out: 17 words. One step a node entered, at most 512 deep.
 *   Refuses: as bsp_order_contents, with 32 in place of 31.
 */
uint32_t bsp_order_trace(const uint8_t *file, size_t file_length,
                         const uint32_t *map, size_t map_length,
                         const int32_t *list, size_t list_length,
                         uint64_t root,
                         const float *segment, size_t segment_length,
                         uint64_t *out, size_t out_length);

/*
 * The leaves that can be seen from a leaf: their number in out[0], and the leaves, lowest first, at
 * the front of list. A byte of the row stands for eight leaves, from leaf 1 on, its lowest bit first;
 * a zero byte and its follower n stand for 8 n leaves that are not seen. A byte is read while the
 * number of its first leaf is below leaf_count; for a whole row that is the leaf count of model 0,
 * plus 1. Only numbers below leaf_count are listed, so a list of leaf_count entries is always enough.
 * Leaf 0 and a leaf without a row see none.
 *   map: 31 words or more; out: 1 word or more.
 *   Refuses: 22; 20, a leaf outside its table; 23, the leaf, then the visibility section; 33; 22, a
 *   list too short for the leaves.
 */
uint32_t bsp_pvs(const uint8_t *file, size_t file_length,
                 const uint32_t *map, size_t map_length,
                 uint64_t leaf, uint64_t leaf_count,
                 uint32_t *list, size_t list_length,
                 uint64_t *out, size_t out_length);

/*
 * The leaves that at least one of up to 16 players sees, from the players' leaves: their number in
 * out[0], and the leaves at the front of list, lowest first and each once. A leaf is listed exactly if
 * bsp_pvs lists it for one of the players with this leaf_count; no players see none, and a player
 * twice sees as once. A list of leaf_count entries is always enough.
 * The players' rows are read side by side, and no memory is used but the list. For each byte of a row,
 * as far as leaf_count, the cursors of all players are looked at twice at most, to count and to
 * write; a run of leaves that no player sees costs no more than its bytes, however long it is.
 *   map: 31 words or more; out: 1 word or more.
 *   Refuses: 22; 25, more than 16 players; then the first player that bsp_pvs refuses, with its 20, 23
 *   or 33; 22, a list too short for the leaves.
 */
uint32_t bsp_pvs_team(const uint8_t *file, size_t file_length,
                      const uint32_t *map, size_t map_length,
                      const uint64_t *leaves, size_t leaves_length, uint64_t leaf_count,
                      uint32_t *list, size_t list_length,
                      uint64_t *out, size_t out_length);

/*
 * The tree check from a root of a node table (enum bsp_table): the height of its tree. From a root
 * that passed, in a file that loads, every walk and trace is answered, whatever its floats, and
 * enters no node twice. It says nothing of other roots: bsp_find_leaf from root 0 wants render node 0
 * checked too, which need not be the root of a model. And it says nothing of visibility: no call
 * but bsp_pvs and bsp_pvs_team looks at a leaf's row (33).
 *   map: 31 words or more; out: 1 word or more; marks: a byte for each node of the table
 *   (bsp_count; six for a box), of any values.
 *   Refuses: 22; 20, a table that is none; 22, too few marks, which are kept; then at each node, front
 *   before back: 30 its number, 34, 32, 23 its record, 30 its plane's number, and 30 each leaf child.
 *   But for these 22 and 20, the first marks, one for each node, are 0 afterwards, whether it passes
 *   or refuses, and later ones are kept.
 */
uint32_t bsp_tree_check(const uint8_t *file, size_t file_length,
                        const uint32_t *map, size_t map_length,
                        uint32_t table, uint64_t root,
                        uint8_t *marks, size_t marks_length,
                        uint64_t *out, size_t out_length);

/*
 * Whether a map may go on the rota: one call before a stranger's map is played. It checks, in this
 * order: face by face the plane, the texture info, the edge-list range and each edge with its two
 * vertices; every leaf's range of the face list; every model's range of faces; every model's leaves,
 * the last one included; the visibility row of each leaf but 0, with the count of all leaves; the tree
 * check of the roots of hulls 0 to 2 of every model, then of render node 0. The texture section and
 * the entries of the face list are not read.
 * Where it answers 0 for a file that loads, every later call on this map is answered: contents, traces
 * and leaf lookups from these roots and from any other root that passes bsp_tree_check, and bsp_pvs of
 * every leaf with a leaf count up to the number of leaves. With a map record made by hand such a call
 * may be 23, but never 30 to 34.
 *   map: 31 words or more; marks: a byte for each node of the larger node table, of any values.
 *   Refuses: 22, also for too few marks, which are kept; else the first of the checks that fails: 35, a
 *   reference outside its table or a row that is not whole; 23, a record that it must read; a tree's
 *   own number (30, 34, 32, 23). But for 22 the first marks, one for each node of the larger table, are
 *   0 afterwards, whether it passes or refuses, and later ones are kept.
 */
uint32_t bsp_accept(const uint8_t *file, size_t file_length,
                    const uint32_t *map, size_t map_length,
                    uint8_t *marks, size_t marks_length);

/*
 * Textures have new numbers: static ones first, in the file's order, and then one number for each stem
 * of animated ones (a name that starts with +, a frame letter, and then the stem), by the lowest number
 * in the file of a texture with it. Texture infos give new numbers.
 *
 * The number in the file of a frame: by the new number of an animated texture, a group (enum
 * bsp_frame_group) and a place in it. Frames of a group stand in the order of their names, equal names
 * in the file's order.
 *   map: 31 words or more; out: 1 word or more.
 *   Refuses: 22; 23, a texture section that loading refuses, its end aside, or more than 2,097,152
 *   textures; 20, a number, group or place that is none.
 * Time: the names of all textures are read some fifteen times, and once more for every 10,239 stems.
 */
uint32_t bsp_texture_frame(const uint8_t *file, size_t file_length,
                           const uint32_t *map, size_t map_length,
                           uint64_t number, uint32_t group, uint64_t place,
                           uint64_t *out, size_t out_length);

/*
 * The number in the file of the static texture of a new number.
 *   map: 31 words or more; out: 1 word or more.
 *   Refuses: 22; 23 as bsp_texture_frame; 20, a number that no static texture has.
 * Time: the names of all textures are read a few times, and once more for every 16,383 stems of
 * alternate frames.
 */
uint32_t bsp_texture_static(const uint8_t *file, size_t file_length,
                            const uint32_t *map, size_t map_length,
                            uint64_t number,
                            uint64_t *out, size_t out_length);

/*
 * The texture of a number in the file: whether it is there, its name, width and height, in the words
 * of enum bsp_texture_word. It reads this texture's header alone.
 *   map: 31 words or more; out: 5 words or more.
 *   Refuses: 22; 20, a number at or past the texture count; 23, more than 2,097,152 textures, or an
 *   offset or a header that loading refuses.
 */
uint32_t bsp_texture(const uint8_t *file, size_t file_length,
                     const uint32_t *map, size_t map_length,
                     uint64_t index,
                     uint64_t *out, size_t out_length);

/*
 * The new numbers of all textures: how many there are in out[0], and at the front of list the new number
 * of each texture, by its number in the file. A list of as many entries as the map's texture count is
 * enough.
 *   map: 31 words or more; out: 1 word or more.
 *   Refuses: 22; 23 as bsp_texture_frame; 22, a list too short for the textures.
 * Time: the names of all textures are read a few times, as bsp_texture_static reads them, and then those
 * from a part on whose stem no part had yet once more for every part of 22,527 stems.
 */
uint32_t bsp_texture_numbers(const uint8_t *file, size_t file_length,
                             const uint32_t *map, size_t map_length,
                             uint32_t *list, size_t list_length,
                             uint64_t *out, size_t out_length);

/*
 * The file of a made-up map, for load tests on maps that nobody drew: at the front of buffer, and its
 * length, 249 + 52 * nodes, in out[0]. The same seed and number of nodes give the same bytes. The map
 * is a chain of 1 to 500 nodes with a plane each, as render nodes and as clip nodes; docs/SCOPE.md says
 * what the numbers drawn from the seed fix. Every such file loads and is accepted (bsp_load and
 * bsp_accept answer 0), so bsp_contents, bsp_find_leaf, bsp_trace and bsp_pvs are answered on it.
 *   buffer: 249 + 52 * nodes bytes or more, at most 26,249; out: 1 word or more.
 *   Refuses: 29, a number of nodes outside 1 to 500, before anything else; 22, out or buffer too short.
 */
uint32_t bsp_made_up(uint32_t seed, uint64_t nodes,
                     uint8_t *buffer, size_t buffer_length,
                     uint64_t *out, size_t out_length);

/*
 * The library's version: 65,536 times the first number, 256 times the second, and the third. 512 is
 * 0.2.0. It takes nothing and refuses nothing.
 */
uint32_t bsp_version(void);

#ifdef __cplusplus
}
#endif

#endif
