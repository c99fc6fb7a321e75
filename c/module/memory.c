// SPDX-License-Identifier: GPL-2.0
/* The memory of the library (ivshm_c.h, "memory"). */
#include <linux/log2.h>
#include <linux/mm.h>
#include <linux/slab.h>

#include "ivshm_c.h"

/*
 * A block whose size is a power of two has that alignment, and each block has
 * that of ARCH_KMALLOC_MINALIGN.
 */
struct rattle_block rattle_alloc(size_t size, size_t align)
{
	struct rattle_block block = { .at = ZERO_SIZE_PTR };
	void *at;

	if (align > ARCH_KMALLOC_MINALIGN)
		size = roundup_pow_of_two(max(size, align));
	at = kvmalloc(size, GFP_KERNEL);
	if (at) {
		block.ok = 1;
		block.at = at;
	}
	return block;
}

void rattle_dealloc(void *at)
{
	if (!ZERO_OR_NULL_PTR(at))
		kvfree(at);
}
