/*
 * flex_slot.h: flex blocks in a slot of the same rules and the same bytes as those of vervainfile.h, written in plain C,
 * with no proof. The tests compare every answer and byte with it, and the bench its times. Statuses are those of
 * vervainfile.h.
 */
#ifndef FLEX_SLOT_H
#define FLEX_SLOT_H

#include "vervainfile.h"

uint32_t flex_slot_start(uint8_t *memory, size_t len, struct vf_slot *slot);
uint32_t flex_slot_alloc(uint8_t *memory, size_t len, struct vf_slot *slot, uint32_t anchor, size_t n, size_t *place);
uint32_t flex_slot_free(uint8_t *memory, size_t len, struct vf_slot *slot, uint32_t anchor);
uint32_t flex_slot_extend(uint8_t *memory, size_t len, struct vf_slot *slot, uint32_t anchor, size_t n);

#endif
