/*
 * bsp29_easy.h: small structs and wrappers over the calls of bsp29.h. C99 and C++11, x86-64 Linux.
 *
 * Each wrapper is inline, makes one call (or counts first), and answers what that call answers: 0 (BSP_OK)
 * or the number of a refusal. bsp29.h says of each call what it answers and with what it refuses. A refusal
 * leaves what the wrapper writes to as it was. The calls of bsp29.h may be mixed with these: a struct has
 * the words that they take.
 *
 *     struct bsp_map map;
 *     struct bsp_hull hull;
 *     struct bsp_line_result line;
 *     const float segment[6] = {-64, 0, 0, 64, 0, 0};
 *     uint32_t refusal;
 *     if ((refusal = bsp_map_load(&map, file, length)) != BSP_OK
 *         || (refusal = bsp_map_accept(&map)) != BSP_OK
 *         || (refusal = bsp_map_hull(&map, 0, 1, &hull)) != BSP_OK
 *         || (refusal = bsp_map_trace_line(&map, &hull, segment, &line)) != BSP_OK)
 *         puts(bsp_sentence(refusal));
 *
 * No pointer is null, but for those of an empty file and of a list without room. bsp_map_accept,
 * bsp_map_tree_check, bsp_map_hull_check, bsp_map_contents_box and bsp_map_order have their marks on the
 * stack: 32,767 bytes more than bsp29.h says of the call.
 */
#ifndef BSP29_EASY_H
#define BSP29_EASY_H

#include "bsp29.h"

#ifdef __cplusplus
extern "C" {
#endif

/* The most nodes that a table of a map that was loaded has: so many marks are enough. */
enum { BSP_MOST_NODES = 32767 };

/* ---- maps ---- */

/* A file and its map record. The file is not copied: keep it, unchanged. */
struct bsp_map {
    const uint8_t *file;
    size_t length;
    uint32_t words[BSP_MAP_WORDS];
};

/* What a map is lent as in every call below. */
#define BSP_LENT(map) bsp_bytes((map)->file), (map)->length, (map)->words, BSP_MAP_WORDS

/* A pointer for a list: where it is null another, since no call takes a null pointer. */
static inline const uint8_t *bsp_bytes(const uint8_t *bytes)
{
    static const uint8_t none[1] = {0};
    return bytes != NULL ? bytes : none;
}

/* Loads a file (bsp_load). */
static inline uint32_t bsp_map_load(struct bsp_map *map, const uint8_t *file, size_t length)
{
    uint32_t refusal = bsp_load(bsp_bytes(file), length, map->words, BSP_MAP_WORDS);
    if (refusal == BSP_OK) {
        map->file = file;
        map->length = length;
    }
    return refusal;
}

/* Where loading refuses a file: the section is 0 to 14 in the directory's order, 15 for the header. */
struct bsp_place {
    uint32_t refusal;
    uint32_t section;
    size_t record;
    size_t byte;
};

/* The place at which bsp_map_load refuses a file (bsp_load_place); all zeros where it loads. */
static inline struct bsp_place bsp_place_of(const uint8_t *file, size_t length)
{
    uint64_t words[BSP_PLACE_WORDS] = {0, 0, 0, 0};
    struct bsp_place place;
    bsp_load_place(bsp_bytes(file), length, words, BSP_PLACE_WORDS);
    place.refusal = (uint32_t)words[0];
    place.section = (uint32_t)words[1];
    place.record = (size_t)words[2];
    place.byte = (size_t)words[3];
    return place;
}

/* Whether a map may go on the rota (bsp_accept): once, before a stranger's map is played. */
static inline uint32_t bsp_map_accept(const struct bsp_map *map)
{
    uint8_t marks[BSP_MOST_NODES];
    return bsp_accept(BSP_LENT(map), marks, sizeof marks);
}

/* How many records a section has (bsp_count); 0 where there is no section of that number. */
static inline uint64_t bsp_map_count(const struct bsp_map *map, uint32_t section)
{
    uint64_t count = 0;
    bsp_count(map->words, BSP_MAP_WORDS, section, &count, 1);
    return count;
}

/* The entity text without its zero byte: a part of the file, with no zero behind it (bsp_entities). */
static inline uint32_t bsp_map_entities(const struct bsp_map *map, const char **text, size_t *length)
{
    uint64_t part[BSP_ENTITIES_WORDS];
    uint32_t refusal = bsp_entities(BSP_LENT(map), part, BSP_ENTITIES_WORDS);
    if (refusal == BSP_OK) {
        /* an empty text may have any offset */
        const uint8_t *start = bsp_bytes(map->file) + (part[1] != 0 ? part[0] : 0);
        *text = (const char *)start;
        *length = (size_t)part[1];
        if (*length > 0 && start[*length - 1] == 0)
            --*length;
    }
    return refusal;
}

/* ---- words taken apart ---- */

static inline void bsp_floats(const uint64_t *words, float *floats, int count)
{
    int i;
    for (i = 0; i < count; i++)
        floats[i] = bsp_float(words[i]);
}

static inline void bsp_shorts(const uint64_t *words, int16_t *shorts, int count)
{
    int i;
    for (i = 0; i < count; i++)
        shorts[i] = (int16_t)words[i];
}

static inline void bsp_small(const uint64_t *words, uint8_t *bytes, int count)
{
    int i;
    for (i = 0; i < count; i++)
        bytes[i] = (uint8_t)words[i];
}

/* ---- hulls ---- */

/* A hull, in the words of enum bsp_hull_word. */
struct bsp_hull {
    uint64_t words[BSP_HULL_WORDS];
};

/* Body sizes, in the words of enum bsp_sizes_word. */
struct bsp_sizes {
    uint64_t words[BSP_SIZES_WORDS];
};

/* The hull `index` of a model (bsp_hull): 0 for points, 1 for a player, 2 for larger ones. */
static inline uint32_t bsp_map_hull(const struct bsp_map *map, uint64_t model, uint64_t index,
                                    struct bsp_hull *hull)
{
    return bsp_hull(BSP_LENT(map), model, index, hull->words, BSP_HULL_WORDS);
}

/* The body sizes of a hall's file (bsp_body_sizes). */
static inline uint32_t bsp_sizes_parse(const uint8_t *bytes, size_t length, struct bsp_sizes *sizes)
{
    return bsp_body_sizes(bsp_bytes(bytes), length, sizes->words, BSP_SIZES_WORDS);
}

/* A hull with a hall's own sizes (bsp_hull_sized). */
static inline uint32_t bsp_map_hull_sized(const struct bsp_map *map, const struct bsp_sizes *sizes,
                                          uint64_t model, uint64_t index, struct bsp_hull *hull)
{
    return bsp_hull_sized(BSP_LENT(map), sizes->words, BSP_SIZES_WORDS, model, index, hull->words,
                          BSP_HULL_WORDS);
}

/* The hull of a box (bsp_box): mins, then maxs. It reads no file: any map may be lent with it. */
static inline uint32_t bsp_box_hull(const float bounds[6], struct bsp_hull *hull)
{
    return bsp_box(bounds, 6, hull->words, BSP_HULL_WORDS);
}

/* How far what moves in it reaches: mins, then maxs. */
static inline void bsp_hull_bounds(const struct bsp_hull *hull, float bounds[6])
{
    bsp_floats(hull->words + BSP_HULL_MINS, bounds, 6);
}

/* The tree check of a root of a table (bsp_tree_check), and the height of its tree. */
static inline uint32_t bsp_map_tree_check(const struct bsp_map *map, uint32_t table, uint64_t root,
                                          uint64_t *height)
{
    uint8_t marks[BSP_MOST_NODES];
    return bsp_tree_check(BSP_LENT(map), table, root, marks, sizeof marks, height, 1);
}

/* The tree check of a hull, which gets the size of its tree (bsp_hull_check). */
static inline uint32_t bsp_map_hull_check(const struct bsp_map *map, struct bsp_hull *hull)
{
    uint8_t marks[BSP_MOST_NODES];
    struct bsp_hull checked;
    uint32_t refusal = bsp_hull_check(BSP_LENT(map), hull->words, BSP_HULL_WORDS, marks, sizeof marks,
                                      checked.words, BSP_HULL_WORDS);
    if (refusal == BSP_OK)
        *hull = checked;
    return refusal;
}

/* ---- points and segments ---- */

struct bsp_contents_result {
    uint32_t contents; /* enum bsp_contents_code */
    uint64_t visits;
};

struct bsp_leaf_result {
    uint64_t leaf;
    uint64_t visits;
};

struct bsp_plane {
    uint32_t kind; /* 0, 1, 2: the plane of an axis; 3: of a normal */
    float normal[3];
    float dist;
};

struct bsp_trace_result {
    uint64_t visits;
    uint32_t contents; /* enum bsp_contents_code */
    int start_solid;
    float start[3];
    float start_ratio;
    float end[3];
    int boundary; /* 0: it ended within a leaf, and ratio is 1 and plane zeros; 1: at the plane */
    float ratio;
    struct bsp_plane plane;
};

struct bsp_line_result {
    float fraction;
    float end[3];
    float normal[3];
    float dist;
    int all_solid;
    int start_solid;
    int in_open;
    int in_water;
};

/* A list that the caller lends: its entries, how many there is room for, and how many were written. */
struct bsp_list {
    uint32_t *entries;
    size_t room;
    size_t count;
};

/* Points that are asked at once: three floats each, a byte for the contents code of each, and how often a
   node was read. */
struct bsp_points {
    const float *points;
    uint8_t *codes;
    size_t count;
    uint64_t reads;
};

static inline void bsp_plane_of(const uint64_t *words, struct bsp_plane *plane)
{
    plane->kind = (uint32_t)words[BSP_PLANE_KIND];
    bsp_floats(words + BSP_PLANE_NORMAL, plane->normal, 3);
    plane->dist = bsp_float(words[BSP_PLANE_DIST]);
}

static inline void bsp_trace_of(const uint64_t *words, struct bsp_trace_result *result)
{
    result->visits = words[BSP_TRACE_VISITS];
    result->contents = (uint32_t)words[BSP_TRACE_CONTENTS];
    result->start_solid = words[BSP_TRACE_START_SOLID] != 0;
    bsp_floats(words + BSP_TRACE_START, result->start, 3);
    result->start_ratio = bsp_float(words[BSP_TRACE_START_RATIO]);
    bsp_floats(words + BSP_TRACE_END, result->end, 3);
    result->boundary = words[BSP_TRACE_KIND] != 0;
    result->ratio = result->boundary ? bsp_float(words[BSP_TRACE_RATIO]) : 1.0f;
    bsp_plane_of(words + BSP_TRACE_PLANE_KIND, &result->plane);
}

/* The count of an answered call goes into its list. */
static inline uint32_t bsp_listed(uint32_t refusal, const uint64_t *count, struct bsp_list *list)
{
    if (refusal == BSP_OK)
        list->count = (size_t)*count;
    return refusal;
}

/* Where a list's entries are, as no call takes a null pointer. */
static inline uint32_t *bsp_entries(const struct bsp_list *list)
{
    static uint32_t none[1];
    return list->entries != NULL ? list->entries : none;
}

/* What is at a point of a hull (bsp_contents). */
static inline uint32_t bsp_map_contents(const struct bsp_map *map, const struct bsp_hull *hull,
                                        const float point[3], struct bsp_contents_result *result)
{
    uint64_t out[BSP_CONTENTS_WORDS];
    uint32_t refusal =
        bsp_contents(BSP_LENT(map), hull->words, BSP_HULL_WORDS, point, 3, out, BSP_CONTENTS_WORDS);
    if (refusal == BSP_OK) {
        result->contents = (uint32_t)out[0];
        result->visits = out[1];
    }
    return refusal;
}

/* The leaf that a point is in, from a render node on: 0 for the world (bsp_find_leaf). */
static inline uint32_t bsp_map_find_leaf(const struct bsp_map *map, uint64_t root, const float point[3],
                                         struct bsp_leaf_result *result)
{
    uint64_t out[BSP_LEAF_WORDS];
    uint32_t refusal = bsp_find_leaf(BSP_LENT(map), root, point, 3, out, BSP_LEAF_WORDS);
    if (refusal == BSP_OK) {
        result->leaf = out[0];
        result->visits = out[1];
    }
    return refusal;
}

/* What a moving point meets, as the engine richter says it (bsp_trace): start, then end. */
static inline uint32_t bsp_map_trace(const struct bsp_map *map, const struct bsp_hull *hull,
                                     const float segment[6], struct bsp_trace_result *result)
{
    uint64_t out[BSP_TRACE_WORDS];
    uint32_t refusal =
        bsp_trace(BSP_LENT(map), hull->words, BSP_HULL_WORDS, segment, 6, out, BSP_TRACE_WORDS);
    if (refusal == BSP_OK)
        bsp_trace_of(out, result);
    return refusal;
}

/* What a whole shot meets (bsp_trace_line): start, then end. */
static inline uint32_t bsp_map_trace_line(const struct bsp_map *map, const struct bsp_hull *hull,
                                          const float segment[6], struct bsp_line_result *result)
{
    uint64_t out[BSP_LINE_WORDS];
    uint32_t refusal =
        bsp_trace_line(BSP_LENT(map), hull->words, BSP_HULL_WORDS, segment, 6, out, BSP_LINE_WORDS);
    if (refusal == BSP_OK) {
        result->fraction = bsp_float(out[BSP_LINE_FRACTION]);
        bsp_floats(out + BSP_LINE_END, result->end, 3);
        bsp_floats(out + BSP_LINE_NORMAL, result->normal, 3);
        result->dist = bsp_float(out[BSP_LINE_DIST]);
        result->all_solid = out[BSP_LINE_ALL_SOLID] != 0;
        result->start_solid = out[BSP_LINE_START_SOLID] != 0;
        result->in_open = out[BSP_LINE_IN_OPEN] != 0;
        result->in_water = out[BSP_LINE_IN_WATER] != 0;
    }
    return refusal;
}

/* The contents that a point of a box may have, bit n for the code n (bsp_contents_box). */
static inline uint32_t bsp_map_contents_box(const struct bsp_map *map, const struct bsp_hull *hull,
                                            const float bounds[6], uint64_t *set)
{
    uint8_t marks[BSP_MOST_NODES];
    return bsp_contents_box(BSP_LENT(map), hull->words, BSP_HULL_WORDS, bounds, 6, marks, sizeof marks,
                            set, 1);
}

/* The contents of up to 1,024 points (bsp_contents_points). */
static inline uint32_t bsp_map_contents_points(const struct bsp_map *map, const struct bsp_hull *hull,
                                               struct bsp_points *points)
{
    static const float no_point[1] = {0};
    static uint8_t no_code[1];
    /* a count whose coordinates could not be counted is too many points as well */
    size_t floats = points->count > SIZE_MAX / 3 ? SIZE_MAX : 3 * points->count;
    return bsp_contents_points(BSP_LENT(map), hull->words, BSP_HULL_WORDS,
                               points->points != NULL ? points->points : no_point, floats,
                               points->codes != NULL ? points->codes : no_code, points->count,
                               &points->reads, 1);
}

/* The nodes that bsp_map_contents enters (bsp_contents_nodes). */
static inline uint32_t bsp_map_contents_nodes(const struct bsp_map *map, const struct bsp_hull *hull,
                                              const float point[3], struct bsp_list *list)
{
    uint64_t count = 0;
    return bsp_listed(bsp_contents_nodes(BSP_LENT(map), hull->words, BSP_HULL_WORDS, point, 3,
                                         bsp_entries(list), list->room, &count, 1),
                      &count, list);
}

/* The nodes that bsp_map_find_leaf enters (bsp_find_leaf_nodes). */
static inline uint32_t bsp_map_find_leaf_nodes(const struct bsp_map *map, uint64_t root,
                                               const float point[3], struct bsp_list *list)
{
    uint64_t count = 0;
    return bsp_listed(bsp_find_leaf_nodes(BSP_LENT(map), root, point, 3, bsp_entries(list), list->room,
                                          &count, 1),
                      &count, list);
}

/* The nodes that bsp_map_trace enters (bsp_trace_nodes). */
static inline uint32_t bsp_map_trace_nodes(const struct bsp_map *map, const struct bsp_hull *hull,
                                           const float segment[6], struct bsp_list *list)
{
    uint64_t count = 0;
    return bsp_listed(bsp_trace_nodes(BSP_LENT(map), hull->words, BSP_HULL_WORDS, segment, 6,
                                      bsp_entries(list), list->room, &count, 1),
                      &count, list);
}

/* ---- visibility ---- */

/* The leaves that can be seen from a leaf (bsp_pvs). */
static inline uint32_t bsp_map_pvs(const struct bsp_map *map, uint64_t leaf, uint64_t leaf_count,
                                   struct bsp_list *list)
{
    uint64_t count = 0;
    return bsp_listed(bsp_pvs(BSP_LENT(map), leaf, leaf_count, bsp_entries(list), list->room, &count, 1),
                      &count, list);
}

/* The leaves that at least one of up to 16 players sees (bsp_pvs_team). */
static inline uint32_t bsp_map_pvs_team(const struct bsp_map *map, const uint64_t *leaves, size_t players,
                                        uint64_t leaf_count, struct bsp_list *list)
{
    static const uint64_t no_leaf[1] = {0};
    uint64_t count = 0;
    return bsp_listed(bsp_pvs_team(BSP_LENT(map), leaves != NULL ? leaves : no_leaf, players, leaf_count,
                                   bsp_entries(list), list->room, &count, 1),
                      &count, list);
}

/* ---- nodes in walking order ---- */

/* A table of nodes in walking order: three numbers a node in `nodes`, which has room for `room` numbers. */
struct bsp_ordered {
    int32_t *nodes;
    size_t room;
    size_t count; /* nodes, not numbers */
};

/* Writes the nodes of a root's tree in walking order (bsp_order). */
static inline uint32_t bsp_map_order(const struct bsp_map *map, uint32_t table, uint64_t root,
                                     struct bsp_ordered *ordered)
{
    static int32_t none[1];
    uint8_t marks[BSP_MOST_NODES];
    uint64_t count;
    uint32_t refusal =
        bsp_order(BSP_LENT(map), table, root, marks, sizeof marks,
                  ordered->nodes != NULL ? ordered->nodes : none, ordered->room, &count, 1);
    if (refusal == BSP_OK)
        ordered->count = (size_t)count;
    return refusal;
}

/* What is at a point, by such a table from its first node on (bsp_order_contents). */
static inline uint32_t bsp_map_order_contents(const struct bsp_map *map, const struct bsp_ordered *ordered,
                                              const float point[3], struct bsp_contents_result *result)
{
    static const int32_t none[1] = {0};
    uint64_t out[BSP_CONTENTS_WORDS];
    uint32_t refusal =
        bsp_order_contents(BSP_LENT(map), ordered->nodes != NULL ? ordered->nodes : none,
                           3 * ordered->count, 0, point, 3, out, BSP_CONTENTS_WORDS);
    if (refusal == BSP_OK) {
        result->contents = (uint32_t)out[0];
        result->visits = out[1];
    }
    return refusal;
}

/* What a moving point meets, by such a table (bsp_order_trace). */
static inline uint32_t bsp_map_order_trace(const struct bsp_map *map, const struct bsp_ordered *ordered,
                                           const float segment[6], struct bsp_trace_result *result)
{
    static const int32_t none[1] = {0};
    uint64_t out[BSP_TRACE_WORDS];
    uint32_t refusal = bsp_order_trace(BSP_LENT(map), ordered->nodes != NULL ? ordered->nodes : none,
                                       3 * ordered->count, 0, segment, 6, out, BSP_TRACE_WORDS);
    if (refusal == BSP_OK)
        bsp_trace_of(out, result);
    return refusal;
}

/* ---- records ---- */

struct bsp_vertex {
    float point[3];
};

struct bsp_child {
    int is_end;      /* 0: a node; 1: a leaf, or contents of a clip node */
    uint64_t number; /* the node, the leaf, or the contents code */
};

struct bsp_render_node {
    uint64_t plane;
    struct bsp_child front, back;
    int16_t min[3], max[3];
    uint64_t face, face_count;
};

struct bsp_texture_info {
    float s[3], s_offset;
    float t[3], t_offset;
    uint64_t texture; /* its new number */
    int special;
};

struct bsp_face {
    uint64_t plane;
    int side; /* 0: front; 1: back */
    uint64_t edge, edge_count;
    uint64_t texture_info;
    uint8_t light_styles[4];
    uint64_t lightmap; /* offset or BSP_NONE */
    int16_t texture_mins[2], extents[2];
};

struct bsp_clip_node {
    uint64_t plane;
    struct bsp_child front, back;
};

struct bsp_leaf {
    uint32_t contents;   /* enum bsp_contents_code */
    uint64_t visibility; /* offset or BSP_NONE */
    int16_t min[3], max[3];
    uint64_t face_list, face_list_count;
    uint8_t sounds[4]; /* water, sky, slime, lava */
};

struct bsp_edge {
    uint64_t vertices[2];
};

struct bsp_edge_list_entry {
    int direction; /* 0: forward; 1: backward */
    uint64_t edge;
};

struct bsp_model {
    float min[3], max[3], origin[3];
    uint64_t hull_roots[3], hull_node_counts[3];
    uint64_t leaf, leaf_count, face, face_count;
    uint64_t last_leaf;
};

struct bsp_texture {
    int present;   /* 0: absent, and the rest is zeros */
    char name[17]; /* with a zero at its end */
    uint32_t width, height;
};

static inline uint32_t bsp_map_record(const struct bsp_map *map, uint32_t section, uint64_t index,
                                      uint64_t words[BSP_RECORD_WORDS])
{
    return bsp_record(BSP_LENT(map), section, index, words, BSP_RECORD_WORDS);
}

static inline void bsp_child_of(const uint64_t *words, struct bsp_child *child)
{
    child->is_end = words[0] != 0;
    child->number = words[1];
}

static inline uint32_t bsp_map_plane(const struct bsp_map *map, uint64_t index, struct bsp_plane *plane)
{
    uint64_t words[BSP_RECORD_WORDS];
    uint32_t refusal = bsp_map_record(map, BSP_PLANES, index, words);
    if (refusal == BSP_OK)
        bsp_plane_of(words, plane);
    return refusal;
}

static inline uint32_t bsp_map_vertex(const struct bsp_map *map, uint64_t index, struct bsp_vertex *vertex)
{
    uint64_t words[BSP_RECORD_WORDS];
    uint32_t refusal = bsp_map_record(map, BSP_VERTICES, index, words);
    if (refusal == BSP_OK)
        bsp_floats(words + BSP_VERTEX_POINT, vertex->point, 3);
    return refusal;
}

static inline uint32_t bsp_map_render_node(const struct bsp_map *map, uint64_t index,
                                           struct bsp_render_node *node)
{
    uint64_t words[BSP_RECORD_WORDS];
    uint32_t refusal = bsp_map_record(map, BSP_RENDER_NODES, index, words);
    if (refusal == BSP_OK) {
        node->plane = words[BSP_RENDER_NODE_PLANE];
        bsp_child_of(words + BSP_RENDER_NODE_FRONT_TAG, &node->front);
        bsp_child_of(words + BSP_RENDER_NODE_BACK_TAG, &node->back);
        bsp_shorts(words + BSP_RENDER_NODE_MIN, node->min, 3);
        bsp_shorts(words + BSP_RENDER_NODE_MAX, node->max, 3);
        node->face = words[BSP_RENDER_NODE_FACE];
        node->face_count = words[BSP_RENDER_NODE_FACE_COUNT];
    }
    return refusal;
}

static inline uint32_t bsp_map_texture_info(const struct bsp_map *map, uint64_t index,
                                            struct bsp_texture_info *info)
{
    uint64_t words[BSP_RECORD_WORDS];
    uint32_t refusal = bsp_map_record(map, BSP_TEXTURE_INFOS, index, words);
    if (refusal == BSP_OK) {
        bsp_floats(words + BSP_TEXTURE_INFO_S, info->s, 3);
        info->s_offset = bsp_float(words[BSP_TEXTURE_INFO_S_OFFSET]);
        bsp_floats(words + BSP_TEXTURE_INFO_T, info->t, 3);
        info->t_offset = bsp_float(words[BSP_TEXTURE_INFO_T_OFFSET]);
        info->texture = words[BSP_TEXTURE_INFO_TEXTURE];
        info->special = words[BSP_TEXTURE_INFO_SPECIAL] != 0;
    }
    return refusal;
}

static inline uint32_t bsp_map_face(const struct bsp_map *map, uint64_t index, struct bsp_face *face)
{
    uint64_t words[BSP_RECORD_WORDS];
    uint32_t refusal = bsp_map_record(map, BSP_FACES, index, words);
    if (refusal == BSP_OK) {
        face->plane = words[BSP_FACE_PLANE];
        face->side = words[BSP_FACE_SIDE] != 0;
        face->edge = words[BSP_FACE_EDGE];
        face->edge_count = words[BSP_FACE_EDGE_COUNT];
        face->texture_info = words[BSP_FACE_TEXTURE_INFO];
        bsp_small(words + BSP_FACE_LIGHT_STYLES, face->light_styles, 4);
        face->lightmap = words[BSP_FACE_LIGHTMAP];
        bsp_shorts(words + BSP_FACE_TEXTURE_MINS, face->texture_mins, 2);
        bsp_shorts(words + BSP_FACE_EXTENTS, face->extents, 2);
    }
    return refusal;
}

static inline uint32_t bsp_map_clip_node(const struct bsp_map *map, uint64_t index,
                                         struct bsp_clip_node *node)
{
    uint64_t words[BSP_RECORD_WORDS];
    uint32_t refusal = bsp_map_record(map, BSP_CLIP_NODES, index, words);
    if (refusal == BSP_OK) {
        node->plane = words[BSP_CLIP_NODE_PLANE];
        bsp_child_of(words + BSP_CLIP_NODE_FRONT_TAG, &node->front);
        bsp_child_of(words + BSP_CLIP_NODE_BACK_TAG, &node->back);
    }
    return refusal;
}

static inline uint32_t bsp_map_leaf(const struct bsp_map *map, uint64_t index, struct bsp_leaf *leaf)
{
    uint64_t words[BSP_RECORD_WORDS];
    uint32_t refusal = bsp_map_record(map, BSP_LEAVES, index, words);
    if (refusal == BSP_OK) {
        leaf->contents = (uint32_t)words[BSP_LEAF_CONTENTS];
        leaf->visibility = words[BSP_LEAF_VISIBILITY];
        bsp_shorts(words + BSP_LEAF_MIN, leaf->min, 3);
        bsp_shorts(words + BSP_LEAF_MAX, leaf->max, 3);
        leaf->face_list = words[BSP_LEAF_FACE_LIST];
        leaf->face_list_count = words[BSP_LEAF_FACE_LIST_COUNT];
        bsp_small(words + BSP_LEAF_SOUNDS, leaf->sounds, 4);
    }
    return refusal;
}

static inline uint32_t bsp_map_face_list_entry(const struct bsp_map *map, uint64_t index, uint64_t *face)
{
    uint64_t words[BSP_RECORD_WORDS];
    uint32_t refusal = bsp_map_record(map, BSP_FACE_LIST, index, words);
    if (refusal == BSP_OK)
        *face = words[BSP_FACE_LIST_FACE];
    return refusal;
}

static inline uint32_t bsp_map_edge(const struct bsp_map *map, uint64_t index, struct bsp_edge *edge)
{
    uint64_t words[BSP_RECORD_WORDS];
    uint32_t refusal = bsp_map_record(map, BSP_EDGES, index, words);
    if (refusal == BSP_OK) {
        edge->vertices[0] = words[BSP_EDGE_FIRST];
        edge->vertices[1] = words[BSP_EDGE_SECOND];
    }
    return refusal;
}

static inline uint32_t bsp_map_edge_list_entry(const struct bsp_map *map, uint64_t index,
                                               struct bsp_edge_list_entry *entry)
{
    uint64_t words[BSP_RECORD_WORDS];
    uint32_t refusal = bsp_map_record(map, BSP_EDGE_LIST, index, words);
    if (refusal == BSP_OK) {
        entry->direction = words[BSP_EDGE_LIST_DIRECTION] != 0;
        entry->edge = words[BSP_EDGE_LIST_EDGE];
    }
    return refusal;
}

static inline uint32_t bsp_map_model(const struct bsp_map *map, uint64_t index, struct bsp_model *model)
{
    uint64_t words[BSP_RECORD_WORDS];
    uint32_t refusal = bsp_map_record(map, BSP_MODELS, index, words);
    if (refusal == BSP_OK) {
        bsp_floats(words + BSP_MODEL_MIN, model->min, 3);
        bsp_floats(words + BSP_MODEL_MAX, model->max, 3);
        bsp_floats(words + BSP_MODEL_ORIGIN, model->origin, 3);
        memcpy(model->hull_roots, words + BSP_MODEL_HULL_ROOTS, sizeof model->hull_roots);
        memcpy(model->hull_node_counts, words + BSP_MODEL_HULL_NODE_COUNTS,
               sizeof model->hull_node_counts);
        model->leaf = words[BSP_MODEL_LEAF];
        model->leaf_count = words[BSP_MODEL_LEAF_COUNT];
        model->face = words[BSP_MODEL_FACE];
        model->face_count = words[BSP_MODEL_FACE_COUNT];
        model->last_leaf = words[BSP_MODEL_LAST_LEAF];
    }
    return refusal;
}

/* ---- textures ---- */

/* The texture of a number in the file (bsp_texture). */
static inline uint32_t bsp_map_texture(const struct bsp_map *map, uint64_t index,
                                       struct bsp_texture *texture)
{
    uint64_t words[BSP_TEXTURE_WORDS];
    uint32_t refusal = bsp_texture(BSP_LENT(map), index, words, BSP_TEXTURE_WORDS);
    if (refusal == BSP_OK) {
        int i;
        texture->present = words[BSP_TEXTURE_PRESENT] != 0;
        for (i = 0; i < 16; i++)
            texture->name[i] = (char)(words[BSP_TEXTURE_NAME + i / 8] >> 8 * (i % 8) & 255);
        texture->name[16] = 0;
        texture->width = (uint32_t)words[BSP_TEXTURE_WIDTH];
        texture->height = (uint32_t)words[BSP_TEXTURE_HEIGHT];
    }
    return refusal;
}

/* The number in the file of the static texture of a new number (bsp_texture_static). */
static inline uint32_t bsp_map_texture_static(const struct bsp_map *map, uint64_t number, uint64_t *index)
{
    return bsp_texture_static(BSP_LENT(map), number, index, 1);
}

/* The new numbers of all textures, by their numbers in the file (bsp_texture_numbers). */
static inline uint32_t bsp_map_texture_numbers(const struct bsp_map *map, struct bsp_list *list)
{
    uint64_t count = 0;
    return bsp_listed(bsp_texture_numbers(BSP_LENT(map), bsp_entries(list), list->room, &count, 1), &count,
                      list);
}

/* The number in the file of a frame (bsp_texture_frame). */
static inline uint32_t bsp_map_texture_frame(const struct bsp_map *map, uint64_t number, uint32_t group,
                                             uint64_t place, uint64_t *index)
{
    return bsp_texture_frame(BSP_LENT(map), number, group, place, index, 1);
}

/* ---- made-up maps ---- */

/* Bytes that the caller lends: how many there is room for, and how many were written. */
struct bsp_buffer {
    uint8_t *bytes;
    size_t room;
    size_t length;
};

/* The file of a made-up map of 1 to 500 nodes (bsp_made_up). */
static inline uint32_t bsp_buffer_made_up(uint32_t seed, uint64_t nodes, struct bsp_buffer *buffer)
{
    static uint8_t none[1];
    uint64_t length;
    uint32_t refusal = bsp_made_up(seed, nodes, buffer->bytes != NULL ? buffer->bytes : none, buffer->room,
                                   &length, 1);
    if (refusal == BSP_OK)
        buffer->length = (size_t)length;
    return refusal;
}

#ifdef __cplusplus
}
#endif

#endif
