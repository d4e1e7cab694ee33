/*
 * Asks every wrapper of bsp29_easy.h about damaged maps, with arguments of any kind, and looks at what is
 * left in memory.
 *
 *   fuzz pages|heap CASES SEED MAP..
 *
 * Every buffer that a wrapper is handed is of exactly the length said. With `pages` it ends where a page
 * ends behind which nothing may be read or written, and the file's pages may not be written; with `heap` it
 * is a block of its own, for valgrind. Bad is: an answer that the call may not give; a refusal that wrote;
 * an entry written past the answer; bytes before a buffer that changed; an answer that differs from that of
 * the word call with buffers of its own. It prints how many calls were made and how many were bad, and ends
 * with status 1 if one was. examples/fuzz builds and runs it.
 */
#define _DEFAULT_SOURCE
#include "bsp29_easy.h"
#include "shared.h"

#include <sys/mman.h>
#include <unistd.h>

/* ---- numbers from a seed ---- */

static uint64_t state;

static uint64_t next(void)
{
    uint64_t z = state += 0x9e3779b97f4a7c15u;
    z = (z ^ z >> 30) * 0xbf58476d1ce4e5b9u;
    z = (z ^ z >> 27) * 0x94d049bb133111ebu;
    return z ^ z >> 31;
}

static uint64_t below(uint64_t n)
{
    return next() % n;
}

/* A number for an index, a root or a count: small, near the ends, or any. */
static uint64_t number(void)
{
    switch (below(4)) {
    case 0: return next();
    case 1: return UINT64_MAX - below(3);
    default: return below(40);
    }
}

static float any_float(void)
{
    static const float special[] = {0, -0.0f, 1e30f, -1e30f, 1e-40f, 128, -64};
    switch (below(5)) {
    case 0: return bsp_float(next());
    case 1: return special[below(sizeof special / sizeof special[0])];
    default: return (float)below(300) - 150;
    }
}

/* ---- buffers that end where nothing may be read ---- */

enum { BUFFERS = 24, FRONT = 64, FILL = 0xa5 };

struct buffer {
    uint8_t *base;  /* what was asked of the system */
    size_t whole;   /* so many bytes of it may be used */
    uint8_t *start; /* the buffer: the last bytes of these */
    size_t length;
};

static struct buffer buffers[BUFFERS];
static int used, pages;
static size_t page;

/* A buffer of so many bytes, filled, with filled bytes before it. */
static void *buffer(size_t length)
{
    struct buffer *b = &buffers[used++];
    b->length = length;
    if (pages) {
        b->whole = (length + FRONT + page - 1) / page * page;
        b->base = (uint8_t *)mmap(NULL, b->whole + page, PROT_READ | PROT_WRITE, MAP_PRIVATE | MAP_ANONYMOUS, -1, 0);
        if (b->base == MAP_FAILED || mprotect(b->base + b->whole, page, PROT_NONE) != 0)
            stop("memory");
    } else {
        b->whole = length;
        /* a block of no bytes is still a block */
        b->base = (uint8_t *)malloc(length == 0 ? 1 : length);
        if (b->base == NULL)
            stop("memory");
    }
    b->start = b->base + b->whole - length;
    memset(b->base, FILL, b->whole);
    return b->start;
}

/* Gives back every buffer; whether the bytes before one changed. */
static int front_changed(void)
{
    int changed = 0;
    size_t i;
    while (used > 0) {
        struct buffer *b = &buffers[--used];
        for (i = 0; b->base + i < b->start; i++)
            changed |= b->base[i] != FILL;
        if (pages)
            munmap(b->base, b->whole + page);
        else
            free(b->base);
    }
    return changed;
}

/* Whether so many bytes are as they were filled. */
static int filled(const void *bytes, size_t length)
{
    const uint8_t *b = (const uint8_t *)bytes;
    size_t i;
    for (i = 0; i < length; i++)
        if (b[i] != FILL)
            return 0;
    return 1;
}

static float *floats(size_t count)
{
    float *list = (float *)buffer(count * sizeof *list);
    size_t i;
    for (i = 0; i < count; i++)
        list[i] = any_float();
    return list;
}

/* ---- what was seen ---- */

static uint64_t calls, answers, bad;

static void wrong(const char *call, const char *what, uint32_t refusal)
{
    if (bad++ < 20)
        fprintf(stderr, "BAD: %s: %s (answer %u)\n", call, what, (unsigned)refusal);
}

/* Notes an answer: it is 0 or one of these refusals, of which `loading` stands for 1 to 15; where it is a
   refusal, the result is as it was filled. */
static int noted(const char *call, uint32_t refusal, const char *allowed, const void *result, size_t length)
{
    char text[16];
    int known;
    calls++;
    answers += refusal == BSP_OK;
    snprintf(text, sizeof text, " %u ", (unsigned)refusal);
    known = refusal == BSP_OK || strstr(allowed, text) != NULL
            || (refusal <= 15 && strstr(allowed, "loading") != NULL);
    if (!known)
        wrong(call, "may not give this", refusal);
    if (refusal != BSP_OK && !filled(result, length))
        wrong(call, "a refusal wrote", refusal);
    return refusal == BSP_OK;
}

/* The same of the word call: the same refusal, and the same words where there is an answer. */
static void same(const char *call, uint32_t wrapper, uint32_t word_call, int equal)
{
    if (wrapper != word_call)
        wrong(call, "the word call says otherwise", word_call);
    else if (wrapper == BSP_OK && !equal)
        wrong(call, "other words than the word call's", wrapper);
}

/* A map, and the same as words that end where nothing may be read. */
static struct bsp_map *map;
static uint32_t *map_words;
#define WORDS_LENT map->file, map->length, map_words, BSP_MAP_WORDS

/* ---- the wrappers, one after the other ---- */

/* A record of index i by its wrapper, beside its words by the word call. */
#define RECORD(call, type, section, compared)                                                         \
    do {                                                                                              \
        type *record = (type *)buffer(sizeof *record);                                                \
        uint32_t r = call(map, i, record), w;                                                         \
        noted(#call, r, " 20 23 ", record, sizeof *record);                                           \
        w = bsp_record(WORDS_LENT, section, i, words, BSP_RECORD_WORDS);                              \
        same(#call, r, w, r != BSP_OK || (compared));                                                 \
    } while (0)

static void records_to_faces(uint64_t i, uint64_t *words)
{
    RECORD(bsp_map_plane, struct bsp_plane, BSP_PLANES,
           record->kind == words[BSP_PLANE_KIND] && bsp_word(record->dist) == words[BSP_PLANE_DIST]);
    RECORD(bsp_map_vertex, struct bsp_vertex, BSP_VERTICES, bsp_word(record->point[2]) == words[2]);
    RECORD(bsp_map_render_node, struct bsp_render_node, BSP_RENDER_NODES,
           record->back.number == words[BSP_RENDER_NODE_BACK]
               && record->max[2] == (int64_t)words[BSP_RENDER_NODE_MAX + 2]
               && record->face_count == words[BSP_RENDER_NODE_FACE_COUNT]);
    RECORD(bsp_map_texture_info, struct bsp_texture_info, BSP_TEXTURE_INFOS,
           bsp_word(record->t_offset) == words[BSP_TEXTURE_INFO_T_OFFSET]
               && record->texture == words[BSP_TEXTURE_INFO_TEXTURE]);
    RECORD(bsp_map_face, struct bsp_face, BSP_FACES,
           record->light_styles[3] == words[BSP_FACE_LIGHT_STYLES + 3]
               && record->lightmap == words[BSP_FACE_LIGHTMAP]
               && record->extents[1] == (int64_t)words[BSP_FACE_EXTENTS + 1]);
}

static void records_from_clip_nodes(uint64_t i, uint64_t *words)
{
    RECORD(bsp_map_clip_node, struct bsp_clip_node, BSP_CLIP_NODES,
           record->front.number == words[BSP_CLIP_NODE_FRONT]
               && (uint64_t)record->back.is_end == words[BSP_CLIP_NODE_BACK_TAG]);
    RECORD(bsp_map_leaf, struct bsp_leaf, BSP_LEAVES,
           record->contents == words[BSP_LEAF_CONTENTS] && record->visibility == words[BSP_LEAF_VISIBILITY]
               && record->sounds[3] == words[BSP_LEAF_SOUNDS + 3]);
    RECORD(bsp_map_face_list_entry, uint64_t, BSP_FACE_LIST, *record == words[BSP_FACE_LIST_FACE]);
    RECORD(bsp_map_edge, struct bsp_edge, BSP_EDGES, record->vertices[1] == words[BSP_EDGE_SECOND]);
    RECORD(bsp_map_edge_list_entry, struct bsp_edge_list_entry, BSP_EDGE_LIST,
           record->edge == words[BSP_EDGE_LIST_EDGE]);
    RECORD(bsp_map_model, struct bsp_model, BSP_MODELS,
           record->hull_roots[2] == words[BSP_MODEL_HULL_ROOTS + 2]
               && record->last_leaf == words[BSP_MODEL_LAST_LEAF]);
}

static void records(void)
{
    uint64_t i = number();
    uint64_t *words = (uint64_t *)buffer(BSP_RECORD_WORDS * sizeof *words);
    records_to_faces(i, words);
    records_from_clip_nodes(i, words);
    if (front_changed())
        wrong("records", "bytes before a buffer changed", 0);
}

static void textures(void)
{
    uint64_t i = number(), place = number();
    uint32_t r, w;
    uint64_t *words = (uint64_t *)buffer(BSP_TEXTURE_WORDS * sizeof *words);
    uint64_t *index = (uint64_t *)buffer(sizeof *index), *frame = (uint64_t *)buffer(sizeof *frame);
    struct bsp_texture *texture = (struct bsp_texture *)buffer(sizeof *texture);
    r = bsp_map_texture(map, i, texture);
    noted("bsp_map_texture", r, " 20 23 ", texture, sizeof *texture);
    w = bsp_texture(WORDS_LENT, i, words, BSP_TEXTURE_WORDS);
    same("bsp_map_texture", r, w, texture->width == (uint32_t)words[BSP_TEXTURE_WIDTH]);
    noted("bsp_map_texture_static", bsp_map_texture_static(map, i, index), " 20 23 ", index, sizeof *index);
    noted("bsp_map_texture_frame", bsp_map_texture_frame(map, i, (uint32_t)below(3), place, frame), " 20 23 ",
          frame, sizeof *frame);
    if (front_changed())
        wrong("textures", "bytes before a buffer changed", 0);
}

/* A hull of the map, of a hall's sizes, of a box, or made by hand. */
static void give_hull(struct bsp_hull *hull)
{
    struct bsp_hull *got = (struct bsp_hull *)buffer(sizeof *got);
    struct bsp_sizes *sizes = (struct bsp_sizes *)buffer(sizeof *sizes);
    size_t length = below(4) == 0 ? (size_t)below(60) : 54;
    uint8_t *bytes = (uint8_t *)buffer(length);
    float *bounds = floats(6);
    uint32_t r;
    size_t i;
    for (i = 0; i < length; i++)
        bytes[i] = (uint8_t)(i % 27 == 0 ? 1 + i / 27 : i % 27 == 1 ? 24 : i % 27 == 2 ? 0 : below(256));
    r = bsp_sizes_parse(bytes, length, sizes);
    noted("bsp_sizes_parse", r, " 26 27 ", sizes, sizeof *sizes);
    for (i = 0; i < BSP_HULL_WORDS; i++)
        hull->words[i] = i == 0 ? below(4) : number();
    switch (below(4)) {
    case 0:
        r = bsp_map_hull(map, below(3), below(4), got);
        noted("bsp_map_hull", r, " 20 23 ", got, sizeof *got);
        break;
    case 1:
        r = bsp_map_hull_sized(map, sizes, below(3), below(4), got);
        noted("bsp_map_hull_sized", r, " 20 23 ", got, sizeof *got);
        break;
    case 2:
        r = bsp_box_hull(bounds, got);
        noted("bsp_box_hull", r, " 21 ", got, sizeof *got);
        break;
    default: r = BSP_NO_SUCH_RECORD;
    }
    if (r == BSP_OK)
        *hull = *got;
}

static void walks(const struct bsp_hull *from)
{
    static const char walk[] = " 20 23 30 31 ", trace[] = " 20 23 30 32 ";
    struct bsp_hull *hull = (struct bsp_hull *)buffer(sizeof *hull);
    float *point = floats(3), *segment = floats(6);
    uint64_t *words = (uint64_t *)buffer(BSP_TRACE_WORDS * sizeof *words), root = below(2) == 0 ? below(20) : number();
    struct bsp_contents_result *contents = (struct bsp_contents_result *)buffer(sizeof *contents);
    struct bsp_leaf_result *leaf = (struct bsp_leaf_result *)buffer(sizeof *leaf);
    struct bsp_trace_result *traced = (struct bsp_trace_result *)buffer(sizeof *traced);
    struct bsp_line_result *line = (struct bsp_line_result *)buffer(sizeof *line);
    uint32_t r, w;
    *hull = *from;
    r = bsp_map_contents(map, hull, point, contents);
    noted("bsp_map_contents", r, walk, contents, sizeof *contents);
    w = bsp_contents(WORDS_LENT, hull->words, BSP_HULL_WORDS, point, 3, words, BSP_CONTENTS_WORDS);
    same("bsp_map_contents", r, w, contents->contents == words[0] && contents->visits == words[1]);
    r = bsp_map_find_leaf(map, root, point, leaf);
    noted("bsp_map_find_leaf", r, " 23 30 31 ", leaf, sizeof *leaf);
    w = bsp_find_leaf(WORDS_LENT, root, point, 3, words, BSP_LEAF_WORDS);
    same("bsp_map_find_leaf", r, w, leaf->leaf == words[0] && leaf->visits == words[1]);
    r = bsp_map_trace(map, hull, segment, traced);
    noted("bsp_map_trace", r, trace, traced, sizeof *traced);
    w = bsp_trace(WORDS_LENT, hull->words, BSP_HULL_WORDS, segment, 6, words, BSP_TRACE_WORDS);
    same("bsp_map_trace", r, w,
         traced->visits == words[BSP_TRACE_VISITS] && traced->contents == words[BSP_TRACE_CONTENTS]
             && bsp_word(traced->end[2]) == words[BSP_TRACE_END + 2]
             && bsp_word(traced->plane.dist) == words[BSP_TRACE_DIST]);
    r = bsp_map_trace_line(map, hull, segment, line);
    noted("bsp_map_trace_line", r, trace, line, sizeof *line);
    w = bsp_trace_line(WORDS_LENT, hull->words, BSP_HULL_WORDS, segment, 6, words, BSP_LINE_WORDS);
    same("bsp_map_trace_line", r, w,
         bsp_word(line->fraction) == words[BSP_LINE_FRACTION]
             && bsp_word(line->end[2]) == words[BSP_LINE_END + 2]
             && (uint64_t)line->in_water == words[BSP_LINE_IN_WATER]);
    if (front_changed())
        wrong("walks", "bytes before a buffer changed", 0);
}

static void checks(const struct bsp_hull *from)
{
    static const char tree[] = " 20 22 23 30 32 34 ";
    struct bsp_hull *hull = (struct bsp_hull *)buffer(sizeof *hull);
    uint64_t *height = (uint64_t *)buffer(sizeof *height), *set = (uint64_t *)buffer(sizeof *set);
    float *bounds = floats(6);
    size_t i;
    uint32_t r;
    *hull = *from;
    r = bsp_map_hull_check(map, hull);
    noted("bsp_map_hull_check", r, tree, NULL, 0);
    if (r != BSP_OK && memcmp(hull, from, sizeof *hull) != 0)
        wrong("bsp_map_hull_check", "a refusal wrote", r);
    for (i = 0; i < 3; i++)
        if (below(2) == 0 && bounds[i] > bounds[i + 3])
            bounds[i] = bounds[i + 3];
    noted("bsp_map_tree_check", bsp_map_tree_check(map, (uint32_t)below(4), below(20), height), tree, height,
          sizeof *height);
    noted("bsp_map_contents_box", bsp_map_contents_box(map, from, bounds, set), " 20 22 23 28 30 32 34 ", set,
          sizeof *set);
    noted("bsp_map_accept", bsp_map_accept(map), " 22 23 30 32 34 35 ", NULL, 0);
    if (front_changed())
        wrong("checks", "bytes before a buffer changed", 0);
}

/* A list of any room, filled; of no room at all sometimes without entries. */
static struct bsp_list list_of(void)
{
    struct bsp_list list;
    list.room = (size_t)(below(3) == 0 ? below(4) : below(200));
    list.entries = (uint32_t *)buffer(list.room * sizeof *list.entries);
    if (list.room == 0 && below(2) == 0)
        list.entries = NULL;
    list.count = 0;
    return list;
}

/* A refusal left the list as it was; an answer wrote no more than it says. */
static void listed(const char *call, uint32_t refusal, const char *allowed, const struct bsp_list *list)
{
    size_t count = refusal == BSP_OK ? list->count : 0;
    noted(call, refusal, allowed, NULL, 0);
    if (count > list->room)
        wrong(call, "counts more than there is room for", refusal);
    else if (count < list->room && !filled(list->entries + count, (list->room - count) * sizeof *list->entries))
        wrong(call, "wrote past its answer", refusal);
}

static void lists(const struct bsp_hull *hull)
{
    float *point = floats(3), *segment = floats(6);
    struct bsp_list list = list_of();
    size_t players = (size_t)below(18), i;
    uint64_t *leaves = (uint64_t *)buffer(players * sizeof *leaves), leaf_count = below(2) == 0 ? below(12) : number();
    listed("bsp_map_contents_nodes", bsp_map_contents_nodes(map, hull, point, &list), " 20 22 23 30 31 ", &list);
    list = list_of();
    listed("bsp_map_find_leaf_nodes", bsp_map_find_leaf_nodes(map, number(), point, &list), " 22 23 30 31 ", &list);
    list = list_of();
    listed("bsp_map_trace_nodes", bsp_map_trace_nodes(map, hull, segment, &list), " 20 22 23 30 32 ", &list);
    list = list_of();
    listed("bsp_map_pvs", bsp_map_pvs(map, below(2) == 0 ? below(8) : number(), leaf_count, &list), " 20 22 23 33 ", &list);
    list = list_of();
    listed("bsp_map_texture_numbers", bsp_map_texture_numbers(map, &list), " 22 23 ", &list);
    for (i = 0; i < players; i++)
        leaves[i] = below(8) == 0 ? number() : below(6);
    list = list_of();
    listed("bsp_map_pvs_team",
           bsp_map_pvs_team(map, players == 0 ? NULL : leaves, players, leaf_count, &list), " 20 22 23 25 33 ", &list);
    if (front_changed())
        wrong("lists", "bytes before a buffer changed", 0);
}

/* A made-up map of any number of nodes in a buffer of any size: where it is answered, it loads and is
   accepted. */
static void made_up(void)
{
    struct bsp_map made;
    struct bsp_buffer file;
    uint64_t nodes = below(4) == 0 ? number() : below(510);
    uint32_t r, seed = (uint32_t)next();
    file.room = (size_t)(below(2) == 0 ? 249 + 52 * (nodes % 501) + below(3) - 1 : below(26300));
    file.bytes = (uint8_t *)buffer(file.room);
    file.length = 0;
    r = bsp_buffer_made_up(seed, nodes, &file);
    if (noted("bsp_buffer_made_up", r, " 22 29 ", file.bytes, file.room)) {
        if (file.length > file.room || !filled(file.bytes + file.length, file.room - file.length))
            wrong("bsp_buffer_made_up", "wrote past its answer", r);
        else if ((r = bsp_map_load(&made, file.bytes, file.length)) != BSP_OK || (r = bsp_map_accept(&made)) != BSP_OK)
            wrong("bsp_buffer_made_up", "its map is refused", r);
    }
    if (front_changed())
        wrong("bsp_buffer_made_up", "bytes before a buffer changed", 0);
}

static void points(const struct bsp_hull *hull)
{
    struct bsp_points *asked = (struct bsp_points *)buffer(sizeof *asked);
    size_t count = (size_t)(below(8) == 0 ? 1020 + below(8) : below(40));
    uint32_t r;
    asked->count = count;
    asked->points = floats(3 * count);
    asked->codes = (uint8_t *)buffer(count);
    r = bsp_map_contents_points(map, hull, asked);
    noted("bsp_map_contents_points", r, " 20 23 24 30 31 ", asked->codes, count);
    if (r != BSP_OK && !filled(&asked->reads, sizeof asked->reads))
        wrong("bsp_map_contents_points", "a refusal wrote", r);
    if (front_changed())
        wrong("points", "bytes before a buffer changed", 0);
}

static void order(void)
{
    struct bsp_ordered ordered;
    uint32_t table = (uint32_t)below(3), r;
    uint64_t root = below(2) == 0 ? 0 : number();
    float *point = floats(3), *segment = floats(6);
    struct bsp_contents_result *contents = (struct bsp_contents_result *)buffer(sizeof *contents);
    struct bsp_trace_result *traced = (struct bsp_trace_result *)buffer(sizeof *traced);
    size_t i;
    ordered.room = (size_t)below(200);
    ordered.nodes = (int32_t *)buffer(ordered.room * sizeof *ordered.nodes);
    ordered.count = 0;
    r = bsp_map_order(map, table, root, &ordered);
    noted("bsp_map_order", r, " 20 22 23 30 32 34 ", ordered.nodes, ordered.room * sizeof *ordered.nodes);
    if (r == BSP_OK && (ordered.count > ordered.room / 3
                        || !filled(ordered.nodes + 3 * ordered.count,
                                   (ordered.room - 3 * ordered.count) * sizeof *ordered.nodes)))
        wrong("bsp_map_order", "wrote past its answer", r);
    if (r != BSP_OK || below(4) == 0) {
        ordered.count = ordered.room / 3;
        for (i = 0; i < ordered.room; i++)
            ordered.nodes[i] = below(4) == 0 ? (int32_t)next() : (int32_t)below(40) - 15;
    }
    r = bsp_map_order_contents(map, &ordered, point, contents);
    noted("bsp_map_order_contents", r, " 23 30 31 ", contents, sizeof *contents);
    r = bsp_map_order_trace(map, &ordered, segment, traced);
    noted("bsp_map_order_trace", r, " 23 30 32 ", traced, sizeof *traced);
    if (front_changed())
        wrong("order", "bytes before a buffer changed", 0);
}

static void text(void)
{
    const char *start = NULL;
    size_t length = 0, i;
    static volatile unsigned sum;
    uint32_t r = bsp_map_entities(map, &start, &length);
    noted("bsp_map_entities", r, " 23 ", NULL, 0);
    if (r != BSP_OK && (start != NULL || length != 0))
        wrong("bsp_map_entities", "a refusal wrote", r);
    /* what it names can be read */
    for (i = 0; i < length; i++)
        sum += (unsigned char)start[i];
    for (i = 0; i < 17; i++)
        calls += bsp_map_count(map, (uint32_t)i) < UINT32_MAX;
}

/* ---- cases ---- */

/* A copy of a map with a few of its bytes or numbers changed, or cut. */
static size_t damage(uint8_t *file, size_t length)
{
    uint64_t changes = below(5);
    while (changes-- > 0 && length > 4) {
        size_t at = (size_t)below(below(3) == 0 ? (length < 124 ? length : 124) : length);
        if (below(2) == 0 || at + 4 > length) {
            file[at] = (uint8_t)next();
        } else {
            uint32_t word = below(2) == 0 ? (uint32_t)number() : (uint32_t)next();
            memcpy(file + at, &word, 4);
        }
    }
    return below(10) == 0 ? (size_t)below(length + 1) : length;
}

/* A damaged copy of a map, its record and its words, in the first three buffers; says the copy's length. */
static size_t lend(const struct map *sample)
{
    uint8_t *copy = (uint8_t *)malloc(sample->length + 1);
    size_t length;
    if (copy == NULL)
        stop("memory");
    memcpy(copy, sample->file, sample->length);
    length = damage(copy, sample->length);
    memcpy(buffer(length), copy, length);
    free(copy);
    map = (struct bsp_map *)buffer(sizeof *map);
    map_words = (uint32_t *)buffer(sizeof map->words);
    if (pages && mprotect(buffers[0].base, buffers[0].whole, PROT_READ) != 0)
        stop("mprotect");
    return length;
}

/* Some words of the map's record changed: any number; or a section that begins near the file's end. */
static void change_words(size_t length)
{
    uint64_t i;
    for (i = below(4); i > 0; i--) {
        if (below(2) == 0)
            map->words[below(BSP_MAP_WORDS)] = (uint32_t)number();
        else
            map->words[2 * below(15)] = (uint32_t)(length - below(60));
    }
}

/* Every question to the map. */
static void ask(void)
{
    struct bsp_hull hull;
    int i;
    for (i = 0; i < 3; i++) {
        records();
        textures();
        give_hull(&hull);
        if (front_changed())
            wrong("hulls", "bytes before a buffer changed", 0);
        walks(&hull);
        checks(&hull);
        lists(&hull);
        points(&hull);
        order();
    }
    made_up();
    text();
}

/* One map, lent as it is, and every question to it. It is given away with its words changed by hand
   sometimes, and always where it does not load. */
static int one_case(const struct map *sample)
{
    size_t length = lend(sample);
    struct buffer of_file = buffers[0], of_map = buffers[1], of_words = buffers[2];
    uint32_t r;
    int loaded;
    used = 0;
    r = bsp_map_load(map, of_file.start, length);
    loaded = noted("bsp_map_load", r, "loading", map, sizeof *map);
    calls++;
    if (bsp_place_of(of_file.start, length).refusal != r)
        wrong("bsp_place_of", "another refusal than loading's", r);
    if (!loaded) {
        map->file = of_file.start;
        map->length = length;
        memcpy(map->words, sample->words, sizeof map->words);
    }
    if (!loaded || below(4) == 0)
        change_words(length);
    memcpy(map_words, map->words, sizeof map->words);
    ask();
    buffers[0] = of_file;
    buffers[1] = of_map;
    buffers[2] = of_words;
    used = 3;
    if (front_changed())
        wrong("the map", "bytes before a buffer changed", 0);
    return loaded;
}

int main(int argc, char **argv)
{
    uint64_t cases, seed, i, loaded = 0;
    int samples = argc - 4, k;
    struct map *sample;
    if (argc < 5 || (strcmp(argv[1], "pages") != 0 && strcmp(argv[1], "heap") != 0)
        || !number_of(argv[2], &cases) || !number_of(argv[3], &seed)) {
        fprintf(stderr, "usage: fuzz pages|heap CASES SEED MAP..\n");
        return 2;
    }
    pages = strcmp(argv[1], "pages") == 0;
    page = (size_t)sysconf(_SC_PAGESIZE);
    state = seed;
    sample = (struct map *)calloc((size_t)samples, sizeof *sample);
    if (sample == NULL)
        stop("memory");
    for (k = 0; k < samples; k++)
        load(argv[4 + k], &sample[k]);
    for (i = 0; i < cases; i++)
        loaded += (uint64_t)one_case(&sample[below((uint64_t)samples)]);
    for (k = 0; k < samples; k++)
        free(sample[k].file);
    free(sample);
    printf("%s: %llu maps, %llu of them load, %llu calls, %llu answered, %llu bad\n", argv[1],
           (unsigned long long)cases, (unsigned long long)loaded, (unsigned long long)calls,
           (unsigned long long)answers, (unsigned long long)bad);
    return bad != 0;
}
