/*
 * Loads a map and traces a segment through a hull of its world.
 *
 *   trace MAP HULL X Y Z X Y Z
 *
 * It prints what is at the start, what can be seen from there, what the segment meets and the nodes
 * entered. Where a call is refused it says why and ends with status 1. examples/run builds and runs
 * it.
 */
#include "shared.h"

/* Room for n entries. */
static void *room_for(size_t n, size_t size)
{
    void *room = calloc(n + 1, size);
    if (room == NULL)
        stop("memory");
    return room;
}

static void print_list(const char *name, const uint32_t *list, uint64_t n)
{
    uint64_t i;
    printf("%s:", name);
    for (i = 0; i < n; i++)
        printf(" %u", (unsigned)list[i]);
    printf("\n");
}

/* The nodes of a hull's table; a hull of a model has one of these two. */
static size_t nodes_of(const struct map *map, const uint64_t *hull)
{
    return (size_t)count(map, hull[BSP_HULL_TABLE] == BSP_TABLE_RENDER ? BSP_RENDER_NODES : BSP_CLIP_NODES);
}

/* The tree check: from a root that passed, every walk and trace is answered. And how many of the
   table's nodes the root's tree has. */
static void check(const struct map *map, const uint64_t *hull)
{
    size_t nodes = nodes_of(map, hull);
    uint8_t *marks = (uint8_t *)room_for(nodes, 1);
    uint64_t height, checked[BSP_HULL_WORDS];
    answered(bsp_tree_check(map->file, map->length, map->words, BSP_MAP_WORDS,
                            (uint32_t)hull[BSP_HULL_TABLE], hull[BSP_HULL_ROOT],
                            marks, nodes, &height, 1));
    answered(bsp_hull_check(map->file, map->length, map->words, BSP_MAP_WORDS,
                            hull, BSP_HULL_WORDS, marks, nodes, checked, BSP_HULL_WORDS));
    free(marks);
    printf("hull: table %s root %llu nodes %llu height %llu\n",
           hull[BSP_HULL_TABLE] == BSP_TABLE_RENDER ? "Render" : "Clip",
           (unsigned long long)hull[BSP_HULL_ROOT],
           (unsigned long long)checked[BSP_HULL_TREE_NODES], (unsigned long long)height);
}

/* The leaves that can be seen from a leaf of the world. */
static void see(const struct map *map, uint64_t leaf)
{
    uint64_t world[BSP_RECORD_WORDS], leaf_count, seen;
    uint32_t *list;
    answered(bsp_record(map->file, map->length, map->words, BSP_MAP_WORDS, BSP_MODELS, 0,
                        world, BSP_RECORD_WORDS));
    leaf_count = world[BSP_MODEL_LEAF_COUNT] + 1;
    list = (uint32_t *)room_for((size_t)leaf_count + 7, sizeof *list);
    answered(bsp_pvs(map->file, map->length, map->words, BSP_MAP_WORDS, leaf, leaf_count,
                     list, (size_t)leaf_count + 7, &seen, 1));
    print_list("visible leaves", list, seen);
    free(list);
}

/* What is at a point, and which leaves can be seen from there. */
static void look(const struct map *map, const uint64_t *hull, const float *point)
{
    uint64_t at[BSP_CONTENTS_WORDS], leaf[BSP_LEAF_WORDS];
    answered(bsp_contents(map->file, map->length, map->words, BSP_MAP_WORDS, hull, BSP_HULL_WORDS,
                          point, 3, at, BSP_CONTENTS_WORDS));
    answered(bsp_find_leaf(map->file, map->length, map->words, BSP_MAP_WORDS, 0,
                           point, 3, leaf, BSP_LEAF_WORDS));
    printf("start: %s visits %llu, leaf %llu visits %llu\n", contents_name(at[0]),
           (unsigned long long)at[1], (unsigned long long)leaf[0], (unsigned long long)leaf[1]);
    see(map, leaf[0]);
}

static void print_trace(const uint64_t *trace)
{
    printf("trace: through %s, started solid %llu, visits %llu\n",
           contents_name(trace[BSP_TRACE_CONTENTS]),
           (unsigned long long)trace[BSP_TRACE_START_SOLID],
           (unsigned long long)trace[BSP_TRACE_VISITS]);
    printf("from:");
    print_floats(trace + BSP_TRACE_START, 3);
    printf(" ratio");
    print_floats(trace + BSP_TRACE_START_RATIO, 1);
    printf("\nto:");
    print_floats(trace + BSP_TRACE_END, 3);
    if (trace[BSP_TRACE_KIND] == 0) {
        printf(" terminal\n");
        return;
    }
    printf(" boundary ratio");
    print_floats(trace + BSP_TRACE_RATIO, 1);
    printf("\nplane: kind %llu normal", (unsigned long long)trace[BSP_TRACE_PLANE_KIND]);
    print_floats(trace + BSP_TRACE_NORMAL, 3);
    printf(" dist");
    print_floats(trace + BSP_TRACE_DIST, 1);
    printf("\n");
}

/* The nodes entered. From a root that passed the check none is entered twice, so a list as long as
   the table is enough. */
static void print_nodes(const struct map *map, const uint64_t *hull, const float *segment)
{
    size_t nodes = nodes_of(map, hull), render = (size_t)count(map, BSP_RENDER_NODES);
    uint32_t *list = (uint32_t *)room_for(nodes > render ? nodes : render, sizeof *list);
    uint64_t n;
    answered(bsp_contents_nodes(map->file, map->length, map->words, BSP_MAP_WORDS,
                                hull, BSP_HULL_WORDS, segment, 3, list, nodes, &n, 1));
    print_list("nodes to the contents", list, n);
    answered(bsp_find_leaf_nodes(map->file, map->length, map->words, BSP_MAP_WORDS, 0,
                                 segment, 3, list, render, &n, 1));
    print_list("nodes to the leaf", list, n);
    answered(bsp_trace_nodes(map->file, map->length, map->words, BSP_MAP_WORDS,
                             hull, BSP_HULL_WORDS, segment, 6, list, nodes, &n, 1));
    print_list("nodes of the trace", list, n);
    free(list);
}

int main(int argc, char **argv)
{
    struct map map;
    uint64_t index, hull[BSP_HULL_WORDS], trace[BSP_TRACE_WORDS];
    float segment[6];

    if (!arguments(argc, argv, &index, segment)) {
        fprintf(stderr, "usage: trace MAP HULL X Y Z X Y Z\n");
        return 2;
    }
    load(argv[1], &map);
    answered(bsp_hull(map.file, map.length, map.words, BSP_MAP_WORDS, 0, index, hull, BSP_HULL_WORDS));
    check(&map, hull);
    look(&map, hull, segment);
    answered(bsp_trace(map.file, map.length, map.words, BSP_MAP_WORDS, hull, BSP_HULL_WORDS,
                       segment, 6, trace, BSP_TRACE_WORDS));
    print_trace(trace);
    print_nodes(&map, hull, segment);
    free(map.file);
    return 0;
}
