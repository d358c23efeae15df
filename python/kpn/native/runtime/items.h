/* items.h: files of items. */
#ifndef KPN_ITEMS_H
#define KPN_ITEMS_H

#include <stdbool.h>
#include <stddef.h>
#include <stdint.h>

struct kpn_text_items {
  int64_t *items;
  size_t count, room;
};

bool kpn_items_add(struct kpn_text_items *list, const int64_t *items, size_t count);

/* Reads a line without its line feed as an item. */
bool kpn_read_item(const char *line, size_t length, int64_t *item);

enum kpn_read { KPN_READ_OK, KPN_READ_BAD_ITEM, KPN_READ_FAILED, KPN_READ_NO_MEMORY };

/* Reads a whole file; of a bad item it tells the line. */
enum kpn_read kpn_read_items(const char *file, struct kpn_text_items *list, size_t *line);

#endif
