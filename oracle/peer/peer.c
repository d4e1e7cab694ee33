/*
 * id Software's own hull check, point contents and unpacking of visibility rows as peers of bsp_trace_line,
 * bsp_contents and bsp_pvs. The functions themselves are taken from the source package of quakespasm when
 * `oracle/run line-peer` or `oracle/run real` builds this (hull.inc and vis.inc, in oracle/target/); none of
 * their text is here. What stands here are the types and names that they ask for, with single-precision
 * dot products and constants, as document 02 says.
 */
#include <stdlib.h>

typedef float vec3_t[3];
typedef enum { false, true } qboolean;

typedef struct {
    vec3_t normal;
    float dist;
    int type;
} mplane_t;

typedef struct {
    int planenum;
    int children[2];
} mclipnode_t;

typedef struct {
    const mclipnode_t *clipnodes;
    const mplane_t *planes;
    int firstclipnode;
    int lastclipnode;
} hull_t;

typedef struct {
    vec3_t normal;
    float dist;
} plane_t;

typedef struct {
    qboolean allsolid, startsolid, inopen, inwater;
    float fraction;
    vec3_t endpos;
    plane_t plane;
} trace_t;

#define CONTENTS_EMPTY (-1)
#define CONTENTS_SOLID (-2)
#define DIST_EPSILON 0.03125f
#define DotProduct(a, b) ((a)[0] * (b)[0] + (a)[1] * (b)[1] + (a)[2] * (b)[2])
#define DoublePrecisionDotProduct DotProduct
#define VectorCopy(from, to) ((to)[0] = (from)[0], (to)[1] = (from)[1], (to)[2] = (from)[2])
#define VectorSubtract(a, b, to) \
    ((to)[0] = (a)[0] - (b)[0], (to)[1] = (a)[1] - (b)[1], (to)[2] = (a)[2] - (b)[2])
#define Sys_Error(...) abort()
#define Con_DPrintf(text) ((void)0)
/* the functions change neither nodes nor planes */
#define mclipnode_t const mclipnode_t
#define mplane_t const mplane_t

static const vec3_t vec3_origin = {0, 0, 0};

#include "hull.inc"

#undef mclipnode_t
#undef mplane_t

/* A whole line from a root, which is the hull's first node: the answer's eight floats and four flags. */
void peer_line_from(const mplane_t *planes, const mclipnode_t *nodes, int count, int root,
                    const float *segment, float *out, int *flags)
{
    hull_t hull = {nodes, planes, root, count - 1};
    trace_t trace = {0};
    vec3_t start, end;
    VectorCopy(segment, start);
    VectorCopy(segment + 3, end);
    trace.fraction = 1;
    trace.allsolid = true;
    VectorCopy(end, trace.endpos);
    SV_RecursiveHullCheck(&hull, root, 0, 1, start, end, &trace);
    out[0] = trace.fraction;
    VectorCopy(trace.endpos, out + 1);
    VectorCopy(trace.plane.normal, out + 4);
    out[7] = trace.plane.dist;
    flags[0] = trace.allsolid;
    flags[1] = trace.startsolid;
    flags[2] = trace.inopen;
    flags[3] = trace.inwater;
}

/* The same from the root 0. */
void peer_line(const mplane_t *planes, const mclipnode_t *nodes, int count, const float *segment,
               float *out, int *flags)
{
    peer_line_from(planes, nodes, count, 0, segment, out, flags);
}

/* The contents at a point, from a root. */
int peer_contents(const mplane_t *planes, const mclipnode_t *nodes, int count, int root, const float *point)
{
    hull_t hull = {nodes, planes, root, count - 1};
    vec3_t p;
    VectorCopy(point, p);
    return SV_HullPointContents(&hull, root, p);
}

/* What the unpacking of rows asks for. */
typedef unsigned char byte;
typedef struct {
    int numleafs;
    qboolean viswarn;
    const char *name;
} qmodel_t;
static byte *mod_decompressed;
static int mod_decompressed_capacity;
#define Con_Warning(...) ((void)0)

#include "vis.inc"

/* A row for so many leaves, whose bytes start there: a bit a leaf, leaf 1 first. */
const byte *peer_row(byte *row, int leaves)
{
    qmodel_t model = {leaves, false, ""};
    return Mod_DecompressVis(row, &model);
}
