/*
 * slot_check.h: whether bytes are a slot, as vf_flex_check of vervainfile.h answers it, written in plain C with no
 * proof. The tests compare every answer with it.
 */
#ifndef SLOT_CHECK_H
#define SLOT_CHECK_H

#include "vervainfile.h"

uint32_t slot_check(const uint8_t *memory, size_t len, const struct vf_slot *slot);

#endif
