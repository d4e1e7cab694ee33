/*
 * What trace.c does, over the structs and wrappers of bsp29_easy.h.
 *
 *   easy MAP HULL X Y Z X Y Z
 *
 * It prints what trace.c prints; examples/run compares them.
 */
#include "bsp29_easy.h"
#include "shared.h"

/* A list with room for so many entries. */
static struct bsp_list list_of(uint64_t room)
{
    struct bsp_list list;
    list.entries = (uint32_t *)calloc((size_t)room + 1, sizeof *list.entries);
    list.room = (size_t)room;
    list.count = 0;
    if (list.entries == NULL)
        stop("memory");
    return list;
}

static void print_list(const char *name, const struct bsp_list *list)
{
    size_t i;
    printf("%s:", name);
    for (i = 0; i < list->count; i++)
        printf(" %u", (unsigned)list->entries[i]);
    printf("\n");
}

static void print_point(const float *point, int count)
{
    int i;
    for (i = 0; i < count; i++)
        print_float(point[i]);
}

static void print_trace(const struct bsp_trace_result *trace)
{
    printf("trace: through %s, started solid %d, visits %llu\nfrom:", contents_name(trace->contents),
           trace->start_solid, (unsigned long long)trace->visits);
    print_point(trace->start, 3);
    printf(" ratio");
    print_float(trace->start_ratio);
    printf("\nto:");
    print_point(trace->end, 3);
    if (!trace->boundary) {
        printf(" terminal\n");
        return;
    }
    printf(" boundary ratio");
    print_float(trace->ratio);
    printf("\nplane: kind %u normal", (unsigned)trace->plane.kind);
    print_point(trace->plane.normal, 3);
    printf(" dist");
    print_float(trace->plane.dist);
    printf("\n");
}

/* What is at the start of a segment and what can be seen from there, what the segment meets, and the
   nodes entered. */
static void run(const struct bsp_map *map, uint64_t index, const float *segment)
{
    struct bsp_hull hull;
    struct bsp_contents_result at;
    struct bsp_leaf_result leaf;
    struct bsp_trace_result trace;
    struct bsp_model world;
    struct bsp_list list;
    uint64_t height, render = bsp_map_count(map, BSP_RENDER_NODES), clip = bsp_map_count(map, BSP_CLIP_NODES);
    int by_render;

    answered(bsp_map_hull(map, 0, index, &hull));
    by_render = hull.words[BSP_HULL_TABLE] == BSP_TABLE_RENDER;
    answered(bsp_map_tree_check(map, (uint32_t)hull.words[BSP_HULL_TABLE], hull.words[BSP_HULL_ROOT], &height));
    answered(bsp_map_hull_check(map, &hull));
    printf("hull: table %s root %llu nodes %llu height %llu\n", by_render ? "Render" : "Clip",
           (unsigned long long)hull.words[BSP_HULL_ROOT],
           (unsigned long long)hull.words[BSP_HULL_TREE_NODES], (unsigned long long)height);

    answered(bsp_map_contents(map, &hull, segment, &at));
    answered(bsp_map_find_leaf(map, 0, segment, &leaf));
    printf("start: %s visits %llu, leaf %llu visits %llu\n", contents_name(at.contents),
           (unsigned long long)at.visits, (unsigned long long)leaf.leaf, (unsigned long long)leaf.visits);
    answered(bsp_map_model(map, 0, &world));
    list = list_of(world.leaf_count + 1);
    answered(bsp_map_pvs(map, leaf.leaf, world.leaf_count + 1, &list));
    print_list("visible leaves", &list);
    free(list.entries);

    answered(bsp_map_trace(map, &hull, segment, &trace));
    print_trace(&trace);
    list = list_of(render > clip ? render : clip);
    answered(bsp_map_contents_nodes(map, &hull, segment, &list));
    print_list("nodes to the contents", &list);
    answered(bsp_map_find_leaf_nodes(map, 0, segment, &list));
    print_list("nodes to the leaf", &list);
    answered(bsp_map_trace_nodes(map, &hull, segment, &list));
    print_list("nodes of the trace", &list);
    free(list.entries);
}

int main(int argc, char **argv)
{
    struct map file;
    struct bsp_map map;
    uint64_t index;
    float segment[6];

    if (!arguments(argc, argv, &index, segment)) {
        fprintf(stderr, "usage: trace MAP HULL X Y Z X Y Z\n");
        return 2;
    }
    read_file(argv[1], &file);
    answered(bsp_map_load(&map, file.file, file.length));
    run(&map, index, segment);
    free(file.file);
    return 0;
}
