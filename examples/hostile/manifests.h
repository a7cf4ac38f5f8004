/*
 * manifests.h - consists with blocks of each kind: right ones, and such as break one rule at its edge.
 */
#ifndef MANIFESTS_H
#define MANIFESTS_H

#include "calls.h"

enum {
    MOST = BUONGILACH_BLOCKS_MOST,
    ROOM_BLOCKS = MOST + 8,
    CONSIST = BUONGILACH_CONSIST_BYTES,
    BLOCK = BUONGILACH_BLOCK_BYTES,
    KINDS = 21
};

/* A consist on the way to its bytes. */
typedef struct {
    uint8_t front[CONSIST];
    uint32_t length, weight;
    uint16_t lengths[ROOM_BLOCKS], weights[ROOM_BLOCKS];
    uint8_t spares[ROOM_BLOCKS];
    size_t count;
    int more; /* bytes past whole blocks, or below */
} manifest;

typedef struct {
    const char *name;
    unsigned due;
    size_t least, most; /* blocks */
    void (*slip)(manifest *);
} kind;

extern const kind kinds[KINDS];

void make_manifest(const kind *k, manifest *m);

/* Its bytes, in a room for ROOM_BLOCKS; the answer is how many. */
size_t manifest_bytes(const manifest *m, uint8_t *bytes);

#endif
