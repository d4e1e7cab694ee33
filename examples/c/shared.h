/* What the example programs share: reading a file, stopping with a sentence, arguments, printing floats. */
#ifndef SHARED_H
#define SHARED_H

#include "bsp29.h"

#include <errno.h>
#include <stdio.h>
#include <stdlib.h>

/* A file and its map record: what the calls are lent. */
struct map {
    uint8_t *file;
    size_t length;
    uint32_t words[BSP_MAP_WORDS];
};

/* Goes on where a call was answered; else says why it was not, and ends with status 1. */
static inline void answered(uint32_t refusal)
{
    if (refusal != BSP_OK) {
        fprintf(stderr, "refused %u: %s\n", (unsigned)refusal, bsp_sentence(refusal));
        exit(1);
    }
}

/* Says what the system refused, and ends with status 1. */
static inline void stop(const char *what)
{
    fprintf(stderr, "%s: %s\n", what, strerror(errno));
    exit(1);
}

/* The bytes of a file. A buffer of no bytes is still no null pointer. */
static inline void read_file(const char *path, struct map *map)
{
    FILE *in = fopen(path, "rb");
    size_t room = 65536, got;
    if (in == NULL)
        stop(path);
    map->file = (uint8_t *)malloc(room);
    map->length = 0;
    while (map->file != NULL && (got = fread(map->file + map->length, 1, room - map->length, in)) > 0) {
        map->length += got;
        if (map->length == room)
            map->file = (uint8_t *)realloc(map->file, room *= 2);
    }
    if (map->file == NULL || ferror(in))
        stop(path);
    fclose(in);
}

static inline void load(const char *path, struct map *map)
{
    read_file(path, map);
    answered(bsp_load(map->file, map->length, map->words, BSP_MAP_WORDS));
}

static inline uint64_t count(const struct map *map, uint32_t section)
{
    uint64_t n;
    answered(bsp_count(map->words, BSP_MAP_WORDS, section, &n, 1));
    return n;
}

/* The same digits as the program in Rust prints. */
static inline void print_float(float x)
{
    if (x != x)
        printf(" nan");
    else
        printf(" %.6f", (double)x);
}

static inline void print_floats(const uint64_t *words, int n)
{
    int i;
    for (i = 0; i < n; i++)
        print_float(bsp_float(words[i]));
}

static inline const char *contents_name(uint64_t code)
{
    switch (code) {
    case BSP_EMPTY: return "Empty";
    case BSP_SOLID: return "Solid";
    case BSP_WATER: return "Water";
    case BSP_SLIME: return "Slime";
    case BSP_LAVA: return "Lava";
    case BSP_SKY: return "Sky";
    case BSP_CURRENT_0: return "Current0";
    case BSP_CURRENT_90: return "Current90";
    case BSP_CURRENT_180: return "Current180";
    case BSP_CURRENT_270: return "Current270";
    case BSP_CURRENT_UP: return "CurrentUp";
    case BSP_CURRENT_DOWN: return "CurrentDown";
    default: return "?";
    }
}

/* Whether a word is a number, all of it: digits, with a plus before them or none. */
static inline int number_of(const char *word, uint64_t *number)
{
    const char *digits = word + (word[0] == '+');
    errno = 0;
    *number = strtoull(digits, NULL, 10);
    return digits[0] != '\0' && strspn(digits, "0123456789") == strlen(digits) && errno == 0;
}

/* Whether a word is a float, all of it, as the program in Rust has it: decimal, inf or nan. */
static inline int float_of(const char *word, float *value)
{
    char *end;
    *value = strtof(word, &end);
    return end != word && *end == '\0' && strspn(word, "+-.0123456789aefintyAEFINTY") == strlen(word);
}

/* The hull and the segment of the arguments; 0 where one of them is no number. */
static inline int arguments(int argc, char **argv, uint64_t *hull, float *segment)
{
    int i;
    if (argc != 9 || !number_of(argv[2], hull))
        return 0;
    for (i = 0; i < 6; i++)
        if (!float_of(argv[3 + i], &segment[i]))
            return 0;
    return 1;
}

#endif
