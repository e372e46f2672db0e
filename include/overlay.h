/* Skeyndivar: an overlay join over layer tables in memory. The bytes of the tables and of the state are those of docs/ABI.md.
 *
 * Every function answers for any lengths and any bytes; none writes what it is not lent, and none keeps a pointer. The slices of one call
 * do not overlap; no alignment is asked; a slice of length 0 may come with a null pointer.
 *
 * Errno values are document 01's: 0 success; 1 a link of a directory, or a whiteout to be made; 2 a node unknown or whiteout, or a name absent
 * or whiteout; 17 a live name; 20 no directory; 22 a malformed name or argument, bad layers, or other lengths; 23 node places or numbers
 * don't suffice; 28 the upper layer would hold over 128 records or entries; 30 no upper layer; 36 a new name of over 28 bytes. A refused
 * call other than import changes nothing, except that a load done before it stays.
 */
#ifndef OVERLAY_H
#define OVERLAY_H

#include <stddef.h>
#include <stdint.h>

#ifdef __cplusplus
extern "C" {
#endif

/* What is lent: the state, one layer's table, a node's place in the state. */
#define OVERLAY_STATE_BYTES 13324u
#define OVERLAY_TABLE_BYTES 8192u
#define OVERLAY_NODE_BYTES 52u
/* The root's node number. */
#define OVERLAY_ROOT 1u

/* Makes the state of these layers and loads the root. `upper` has 0 or 8192 bytes; `lower` the lower tables one after another, the topmost
 * first, 0 to 24576 bytes. Refused (22 no layer, more than 3 lower ones or a broken table rule; 23 the root's names don't fit), a state of
 * 13324 bytes is left all zeros, in which every number is unknown. */
uint32_t overlay_import(uint8_t *state, size_t state_len, const uint8_t *upper, size_t upper_len, const uint8_t *lower, size_t lower_len);

/* The node that `parent` has under a name, its count raised: errno and node number. */
uint64_t overlay_lookup(uint8_t *state, size_t state_len, const uint8_t *upper, size_t upper_len, const uint8_t *lower, size_t lower_len,
                        uint64_t parent, const uint8_t *name, size_t name_len);

/* How many live and whiteout children a directory has: errno, and live + 65536 * whiteouts. */
uint64_t overlay_count(uint8_t *state, size_t state_len, const uint8_t *upper, size_t upper_len, const uint8_t *lower, size_t lower_len,
                       uint64_t node);

/* Writes the entries of a directory from `offset` on as FUSE dirents, as long as the next fits in the smaller of `size` and the buffer:
 * errno, and bytes written + 2147483648 where entries remain. What follows the written bytes is untouched. */
uint64_t overlay_list(uint8_t *state, size_t state_len, const uint8_t *upper, size_t upper_len, const uint8_t *lower, size_t lower_len,
                      uint64_t node, uint64_t offset, uint64_t size, uint8_t *buffer, size_t buffer_len);

/* Lowers a node's count by `amount`; at 0 the node goes, unless it has resident children. */
void overlay_forget(uint8_t *state, size_t state_len, uint64_t node, uint64_t amount);

/* Copies a node's 52 bytes into `out`: 2 unknown, then 22 if `out` has under 52 bytes. */
uint32_t overlay_node(const uint8_t *state, size_t state_len, uint64_t node, uint8_t *out, size_t out_len);

/* ---- the calls that write the upper layer
 *
 * A creation (mknod, create, symlink) puts a record and its entry into the lowest free places of `upper`, makes the parent's missing upper
 * directories before, from the root down (same permissions, not opaque), and deletes the upper whiteout of its name, if there is one: errno
 * and the number of the name's node, which is new (its count 1) unless the name has one. Refused in this order: 22; 2 the parent unknown;
 * 30; 2 the parent a whiteout; 20; 23 its names don't fit; 17; 1; 36; 23 the name has no node and none fits; 28, decided on what the upper
 * layer would hold after the whole call. */

/* A file, device, fifo or socket: `kind` is a dirent type number (fifo 1, character 2, block 6, regular 8, socket 12), the permissions are
 * those without the umask's bits, and `device` counts for a device only. 22 also for any other kind, and for permissions or a umask over 4095;
 * 1 for a character device with number 0, which would be a whiteout. */
uint64_t overlay_mknod(uint8_t *state, size_t state_len, uint8_t *upper, size_t upper_len, const uint8_t *lower, size_t lower_len,
                       uint64_t parent, const uint8_t *name, size_t name_len, uint32_t kind, uint32_t permissions, uint32_t umask,
                       uint64_t device);

/* A regular file, its permissions without the umask's bits; 22 also for permissions or a umask over 4095, never 1. */
uint64_t overlay_create(uint8_t *state, size_t state_len, uint8_t *upper, size_t upper_len, const uint8_t *lower, size_t lower_len,
                        uint64_t parent, const uint8_t *name, size_t name_len, uint32_t permissions, uint32_t umask);

/* A symlink of permissions 511 whose target the content number stands for; never 1. */
uint64_t overlay_symlink(uint8_t *state, size_t state_len, uint8_t *upper, size_t upper_len, const uint8_t *lower, size_t lower_len,
                         uint64_t parent, const uint8_t *name, size_t name_len, uint64_t content);

/* A further name for `source`, which is copied up before if it is not in the upper layer: errno and the number of the name's node. Deletes the
 * name's upper whiteout, copies the source up, makes the parent's missing directories, then puts the entry. Refused in this order: 22; 2
 * either unknown; 30; 2 either a whiteout; 1 the source a directory; 20; 23 the parent's names don't fit; 17; 36; 23; 28. */
uint64_t overlay_link(uint8_t *state, size_t state_len, uint8_t *upper, size_t upper_len, const uint8_t *lower, size_t lower_len,
                      uint64_t source, uint64_t parent, const uint8_t *name, size_t name_len);

/* Puts a node's top record into the upper layer, and before it the missing directories of its path. A directory is made with the same
 * permissions, not opaque, in front of its stack; anything else is copied whole (kind, permissions, device, size, content) and then stands
 * alone. Refused with 22 (lengths), 2 unknown, 30, 2 a whiteout, in this order; then success without change if the top record is upper;
 * then 28. */
uint32_t overlay_copy_up(uint8_t *state, size_t state_len, uint8_t *upper, size_t upper_len, const uint8_t *lower, size_t lower_len,
                         uint64_t node);

/* ---- an answer in 64 bits, taken apart */

static inline uint32_t overlay_errno(uint64_t answer) { return (uint32_t)(answer >> 32); }
static inline uint32_t overlay_value(uint64_t answer) { return (uint32_t)(answer & 0xffffffffu); }
/* of overlay_count */
static inline uint32_t overlay_live(uint64_t answer) { return overlay_value(answer) & 0xffffu; }
static inline uint32_t overlay_whiteouts(uint64_t answer) { return overlay_value(answer) >> 16; }
/* of overlay_list */
static inline uint32_t overlay_bytes(uint64_t answer) { return overlay_value(answer) & 0x7fffffffu; }
static inline int overlay_remains(uint64_t answer) { return (int)(overlay_value(answer) >> 31); }

#ifdef __cplusplus
}
#endif
#endif
