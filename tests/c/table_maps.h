/* Keeps the items of the table maps that are in force. C11 and C++. */
#ifndef TABLE_MAPS_H
#define TABLE_MAPS_H

#include "binlog.h"
#include <stdlib.h>
#include <string.h>

enum { TABLE_MAP_EVENT = 19, ROTATE_EVENT = 4 };

typedef struct table_maps {
    binlog_item *all;   /* the newest of each table */
    binlog_item *found; /* those for one event */
    size_t count;
    size_t room;
} table_maps;

static inline int is_rows_type(uint8_t type) {
    return (type >= 23 && type <= 25) || (type >= 30 && type <= 32) || type == 39;
}

/* Whether the data of both begins with the same bytes, as many as this. */
static inline int begin_alike(const uint8_t *log, const binlog_item *one, const binlog_item *other, size_t bytes) {
    return memcmp(log + one->data_position, log + other->data_position, bytes) == 0;
}

static inline void keep_map(table_maps *maps, const uint8_t *log, const binlog_item *item) {
    size_t kept = 0;
    for (size_t i = 0; i < maps->count; i++) {
        if (!begin_alike(log, &maps->all[i], item, 6)) {
            maps->all[kept++] = maps->all[i];
        }
    }
    maps->count = kept;
    if (maps->count == maps->room) {
        maps->room = 2 * maps->room + 1;
        maps->all = (binlog_item *)realloc(maps->all, maps->room * sizeof *maps->all);
        maps->found = (binlog_item *)realloc(maps->found, maps->room * sizeof *maps->found);
        require(maps->all != NULL && maps->found != NULL, "no memory");
    }
    maps->all[maps->count++] = *item;
}

/* How many table maps are found for an item: for a row event those whose data begins with the same four bytes, which are of
 * their ids. Another item may change which are in force. */
static inline size_t maps_for(table_maps *maps, const uint8_t *log, const binlog_item *item) {
    size_t found = 0;
    if (item->error != 0) {
        return 0;
    }
    if (is_rows_type(item->event_type) && item->data_size >= 4) {
        for (size_t i = 0; i < maps->count; i++) {
            if (begin_alike(log, &maps->all[i], item, 4)) {
                maps->found[found++] = maps->all[i];
            }
        }
    } else if (item->event_type == TABLE_MAP_EVENT) {
        keep_map(maps, log, item);
    } else if (item->event_type == ROTATE_EVENT && memcmp(log + item->data_position, "\0\0\0\0\0\0\0\0", 8) != 0) {
        maps->count = 0;
    }
    return found;
}

static inline void free_maps(table_maps *maps) {
    free(maps->all);
    free(maps->found);
}

#endif
