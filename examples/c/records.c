/*
 * Prints the entity text and every record of a map, field by field. The entity text is a stranger's: of
 * its control characters only line breaks and tabs are printed as they are.
 *
 *   records MAP
 *
 * Where a call is refused it says why and ends with status 1. examples/run builds and runs it.
 */
#include "shared.h"

/* How a field is printed. */
enum kind { NUMBER, SIGNED, FLOAT, OFFSET, CONTENTS, CHILD, CLIP_CHILD };

/* A field: its name, its first word, how many words it has, and how each is printed. */
struct field {
    const char *name;
    int at;
    int words;
    enum kind kind;
};

/* A section: its name, its number and its fields. */
struct section {
    const char *name;
    uint32_t number;
    struct field fields[12];
};

static const struct section sections[] = {
    {"plane", BSP_PLANES,
     {{"kind", BSP_PLANE_KIND, 1, NUMBER},
      {"normal", BSP_PLANE_NORMAL, 3, FLOAT},
      {"dist", BSP_PLANE_DIST, 1, FLOAT},
      {NULL, 0, 0, NUMBER}}},
    {"vertex", BSP_VERTICES, {{"point", BSP_VERTEX_POINT, 3, FLOAT}, {NULL, 0, 0, NUMBER}}},
    {"render node", BSP_RENDER_NODES,
     {{"plane", BSP_RENDER_NODE_PLANE, 1, NUMBER},
      {"front", BSP_RENDER_NODE_FRONT_TAG, 2, CHILD},
      {"back", BSP_RENDER_NODE_BACK_TAG, 2, CHILD},
      {"min", BSP_RENDER_NODE_MIN, 3, SIGNED},
      {"max", BSP_RENDER_NODE_MAX, 3, SIGNED},
      {"face", BSP_RENDER_NODE_FACE, 1, NUMBER},
      {"face_count", BSP_RENDER_NODE_FACE_COUNT, 1, NUMBER},
      {NULL, 0, 0, NUMBER}}},
    {"texture info", BSP_TEXTURE_INFOS,
     {{"s", BSP_TEXTURE_INFO_S, 3, FLOAT},
      {"s_offset", BSP_TEXTURE_INFO_S_OFFSET, 1, FLOAT},
      {"t", BSP_TEXTURE_INFO_T, 3, FLOAT},
      {"t_offset", BSP_TEXTURE_INFO_T_OFFSET, 1, FLOAT},
      {"texture", BSP_TEXTURE_INFO_TEXTURE, 1, NUMBER},
      {"special", BSP_TEXTURE_INFO_SPECIAL, 1, NUMBER},
      {NULL, 0, 0, NUMBER}}},
    {"face", BSP_FACES,
     {{"plane", BSP_FACE_PLANE, 1, NUMBER},
      {"side", BSP_FACE_SIDE, 1, NUMBER},
      {"edge", BSP_FACE_EDGE, 1, NUMBER},
      {"edge_count", BSP_FACE_EDGE_COUNT, 1, NUMBER},
      {"texture_info", BSP_FACE_TEXTURE_INFO, 1, NUMBER},
      {"light_styles", BSP_FACE_LIGHT_STYLES, 4, NUMBER},
      {"lightmap", BSP_FACE_LIGHTMAP, 1, OFFSET},
      {"texture_mins", BSP_FACE_TEXTURE_MINS, 2, SIGNED},
      {"extents", BSP_FACE_EXTENTS, 2, SIGNED},
      {NULL, 0, 0, NUMBER}}},
    {"clip node", BSP_CLIP_NODES,
     {{"plane", BSP_CLIP_NODE_PLANE, 1, NUMBER},
      {"front", BSP_CLIP_NODE_FRONT_TAG, 2, CLIP_CHILD},
      {"back", BSP_CLIP_NODE_BACK_TAG, 2, CLIP_CHILD},
      {NULL, 0, 0, NUMBER}}},
    {"leaf", BSP_LEAVES,
     {{"contents", BSP_LEAF_CONTENTS, 1, CONTENTS},
      {"visibility", BSP_LEAF_VISIBILITY, 1, OFFSET},
      {"min", BSP_LEAF_MIN, 3, SIGNED},
      {"max", BSP_LEAF_MAX, 3, SIGNED},
      {"face_list", BSP_LEAF_FACE_LIST, 1, NUMBER},
      {"face_list_count", BSP_LEAF_FACE_LIST_COUNT, 1, NUMBER},
      {"sounds", BSP_LEAF_SOUNDS, 4, NUMBER},
      {NULL, 0, 0, NUMBER}}},
    {"face list entry", BSP_FACE_LIST, {{"face", BSP_FACE_LIST_FACE, 1, NUMBER}, {NULL, 0, 0, NUMBER}}},
    {"edge", BSP_EDGES,
     {{"first", BSP_EDGE_FIRST, 1, NUMBER},
      {"second", BSP_EDGE_SECOND, 1, NUMBER},
      {NULL, 0, 0, NUMBER}}},
    {"edge list entry", BSP_EDGE_LIST,
     {{"direction", BSP_EDGE_LIST_DIRECTION, 1, NUMBER},
      {"edge", BSP_EDGE_LIST_EDGE, 1, NUMBER},
      {NULL, 0, 0, NUMBER}}},
    {"model", BSP_MODELS,
     {{"min", BSP_MODEL_MIN, 3, FLOAT},
      {"max", BSP_MODEL_MAX, 3, FLOAT},
      {"origin", BSP_MODEL_ORIGIN, 3, FLOAT},
      {"hull_roots", BSP_MODEL_HULL_ROOTS, 3, NUMBER},
      {"hull_node_counts", BSP_MODEL_HULL_NODE_COUNTS, 3, NUMBER},
      {"leaf", BSP_MODEL_LEAF, 1, NUMBER},
      {"leaf_count", BSP_MODEL_LEAF_COUNT, 1, NUMBER},
      {"face", BSP_MODEL_FACE, 1, NUMBER},
      {"face_count", BSP_MODEL_FACE_COUNT, 1, NUMBER},
      {"last_leaf", BSP_MODEL_LAST_LEAF, 1, NUMBER},
      {NULL, 0, 0, NUMBER}}},
};

static void print_number(uint64_t word)
{
    printf(" %llu", (unsigned long long)word);
}

/* A child is two words, its tag and its number. */
static void print_child(const uint64_t *words, enum kind kind)
{
    if (words[0] == 0)
        printf(" Node %llu", (unsigned long long)words[1]);
    else if (kind == CHILD)
        printf(" Leaf %llu", (unsigned long long)words[1]);
    else
        printf(" %s", contents_name(words[1]));
}

static void print_field(const struct field *field, const uint64_t *record)
{
    const uint64_t *words = record + field->at;
    int i;
    printf(" %s", field->name);
    if (field->kind == CHILD || field->kind == CLIP_CHILD) {
        print_child(words, field->kind);
        return;
    }
    for (i = 0; i < field->words; i++) {
        if (field->kind == FLOAT)
            print_float(bsp_float(words[i]));
        else if (field->kind == SIGNED)
            printf(" %lld", (long long)(int64_t)words[i]);
        else if (field->kind == CONTENTS)
            printf(" %s", contents_name(words[i]));
        else if (field->kind == OFFSET && words[i] == BSP_NONE)
            printf(" none");
        else
            print_number(words[i]);
    }
}

static void print_section(const struct map *map, const struct section *section)
{
    uint64_t record[BSP_RECORD_WORDS], n = count(map, section->number), i;
    const struct field *field;
    for (i = 0; i < n; i++) {
        answered(bsp_record(map->file, map->length, map->words, BSP_MAP_WORDS,
                            section->number, i, record, BSP_RECORD_WORDS));
        printf("%s %llu:", section->name, (unsigned long long)i);
        for (field = section->fields; field->name != NULL; field++)
            print_field(field, record);
        printf("\n");
    }
}

/* How many of the bytes at the front of a UTF-8 text are a control character: one below 32 but for line
   break and tab, 127, or one from 128 to 159, which UTF-8 has as two bytes; 0 where another stands there. */
static size_t control(const uint8_t *text, size_t length)
{
    if (text[0] == '\n' || text[0] == '\t')
        return 0;
    if (text[0] < 32 || text[0] == 127)
        return 1;
    return text[0] == 0xc2 && length > 1 && text[1] < 0xa0 ? 2 : 0;
}

/* A text of a stranger: a terminal would obey the control characters in it, so each is printed as its
   number. */
static void print_text(const uint8_t *text, size_t length)
{
    size_t i = 0, n;
    while (i < length) {
        n = control(text + i, length - i);
        if (n == 0)
            putchar(text[i]);
        else
            printf("\\x%02x", (unsigned)text[i + n - 1]);
        i += n == 0 ? 1 : n;
    }
}

/* The text without its zero byte. */
static void print_entities(const struct map *map)
{
    uint64_t part[BSP_ENTITIES_WORDS];
    size_t length;
    answered(bsp_entities(map->file, map->length, map->words, BSP_MAP_WORDS, part, BSP_ENTITIES_WORDS));
    length = (size_t)part[1];
    if (length > 0 && map->file[part[0] + length - 1] == 0)
        length--;
    print_text(map->file + part[0], length);
}

int main(int argc, char **argv)
{
    struct map map;
    size_t i;
    if (argc != 2) {
        fprintf(stderr, "usage: records MAP\n");
        return 2;
    }
    load(argv[1], &map);
    print_entities(&map);
    printf("textures: %u\n", (unsigned)map.words[BSP_MAP_TEXTURE_COUNT]);
    for (i = 0; i < sizeof sections / sizeof sections[0]; i++)
        print_section(&map, &sections[i]);
    free(map.file);
    return 0;
}
