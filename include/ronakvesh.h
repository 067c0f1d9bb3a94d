/* Ronakvesh: page tables of RISC-V Sv39. The functions are written and proved in Rattle, and are linked from libinterface.a.
 *
 * Addresses, entries and permissions are plain 64-bit numbers. A function that can refuse returns a ronakvesh_reply:
 * look at its number before its value. Every other function answers for each argument. The numbers given here are
 *   1  a store of the wrong sizes
 *   2  a store that is not well formed
 *   3  a root that is none
 *   4  a child root that is its parent
 *   5  a source of 4096 bytes or more
 *   6  a result that leaves 64 bits, a level above 2, a page or byte at or above 2^38, or a size above 2^38
 *   7  an address or a size that is no multiple of 4096
 *   8  permissions above 1023
 *   9  a frame at or above 2^56
 *  10  a frame of the held window, 0x1_0000_0000 up to 0x1_2000_0000, where the store itself lies, that is to be mapped,
 *      or a pool frame that is to be unmapped without freeing
 *  11  a page that is not mapped
 *  12  a page that lacks U
 *  13  a page to be unmapped whose flags are exactly 1
 *  14  a page that is mapped already
 *  15  a page to be copied whose frame is none of the pool
 *  16  more frames needed than free
 *  17  more tables needed than free
 *  18  a root to be freed with a page that is mapped
 * Where more than one applies, the smallest is given, save by ronakvesh_copy_in_str and the calls made of parts, which are
 * ronakvesh_uvm_free, ronakvesh_free_shared_user_pagetable and ronakvesh_proc_free_pagetable. */
#ifndef RONAKVESH_H
#define RONAKVESH_H

#include <stdbool.h>
#include <stddef.h>
#include <stdint.h>

#ifdef __cplusplus
extern "C" {
#endif

/* An answer, with number 0 and its value; or a refusal, with its number and value 0. */
typedef struct {
    uint64_t number;
    uint64_t value;
} ronakvesh_reply;

/* The pages numbered from first up to, not including, end. */
typedef struct {
    uint64_t first;
    uint64_t end;
} ronakvesh_pages;

/* ---- virtual addresses */

/* The virtual address of this number, which is the number itself. */
uint64_t ronakvesh_virtual_new(uint64_t number);
/* Is va a multiple of 4096? */
bool ronakvesh_virtual_is_page_aligned(uint64_t va);
/* The lowest multiple of 4096 that is not below va; 6 where it is 2^64. */
ronakvesh_reply ronakvesh_virtual_pg_round_up(uint64_t va);
/* The highest multiple of 4096 that is not above va. */
uint64_t ronakvesh_virtual_pg_round_down(uint64_t va);
/* va + 4096; 6 where the sum is 2^64 or more. */
ronakvesh_reply ronakvesh_virtual_add_page(uint64_t va);
/* Is the first address above the second? */
bool ronakvesh_virtual_compare(uint64_t first, uint64_t second);
/* Are the two addresses equal? */
bool ronakvesh_virtual_equal(uint64_t first, uint64_t second);
/* va + addr, a number of bytes; 6 where the sum is 2^64 or more. */
ronakvesh_reply ronakvesh_virtual_add_addr(uint64_t va, uint64_t addr);
/* The index, 0 to 511, that va has in a table of this level, 0 to 2; 6 for a higher level. */
ronakvesh_reply ronakvesh_virtual_page_num(uint64_t va, uint64_t level);
/* The sum of two addresses; 6 where it is 2^64 or more. */
ronakvesh_reply ronakvesh_virtual_add(uint64_t first, uint64_t second);
/* The first address less the second; 6 where the second is the higher. */
ronakvesh_reply ronakvesh_virtual_sub(uint64_t first, uint64_t second);

/* ---- physical addresses */

/* The physical address of this number, which is the number itself. */
uint64_t ronakvesh_physical_new(uint64_t number);
/* Is pa a multiple of 4096? */
bool ronakvesh_physical_is_page_aligned(uint64_t pa);
/* The lowest multiple of 4096 that is not below pa; 6 where it is 2^64. */
ronakvesh_reply ronakvesh_physical_pg_round_up(uint64_t pa);
/* The highest multiple of 4096 that is not above pa. */
uint64_t ronakvesh_physical_pg_round_down(uint64_t pa);
/* pa + 4096; 6 where the sum is 2^64 or more. */
ronakvesh_reply ronakvesh_physical_add_page(uint64_t pa);
/* pa + addr, a number of bytes; 6 where the sum is 2^64 or more. */
ronakvesh_reply ronakvesh_physical_add_addr(uint64_t pa, uint64_t addr);

/* ---- numbers of bytes and ranges of pages */

/* The lowest multiple of 4096 that is not below addr; 6 where it is 2^64. */
ronakvesh_reply ronakvesh_page_round_up(uint64_t addr);
/* The highest multiple of 4096 that is not above addr. */
uint64_t ronakvesh_page_round_down(uint64_t addr);
/* The pages that size bytes from va cover: floor(va/4096) up to, not including, ceil((va+size)/4096), where va+size is
 * the whole sum, of 65 bits; never refused. */
ronakvesh_pages ronakvesh_page_range(uint64_t va, uint64_t size);

/* ---- entries
 * Bits 0 to 9 of an entry are its flags: V R W X U G A D and two software bits. Bits 10 to 53 are its frame number. */

/* The entry of this number, which is the number itself. */
uint64_t ronakvesh_entry_new(uint64_t number);
/* Has the entry V? */
bool ronakvesh_entry_is_valid(uint64_t entry);
/* Has the entry U? */
bool ronakvesh_entry_is_user(uint64_t entry);
/* Has the entry R? */
bool ronakvesh_entry_is_read(uint64_t entry);
/* Has the entry W? */
bool ronakvesh_entry_is_write(uint64_t entry);
/* Has the entry X? */
bool ronakvesh_entry_is_execute(uint64_t entry);
/* Has the entry one of R, W and X at least? */
bool ronakvesh_entry_is_leaf(uint64_t entry);
/* The entry with V set. */
uint64_t ronakvesh_entry_add_valid_bit(uint64_t entry);
/* The entry with U set. */
uint64_t ronakvesh_entry_add_user_bit(uint64_t entry);
/* The entry with U clear. */
uint64_t ronakvesh_entry_rm_user_bit(uint64_t entry);
/* The physical address of the frame that the entry names; bits 54 to 63 of the entry are no part of it. */
uint64_t ronakvesh_entry_as_pagetable(uint64_t entry);
/* The entry that names the frame of pa and has no flag; 9 for pa at or above 2^56. */
ronakvesh_reply ronakvesh_entry_as_pte(uint64_t pa);
/* The flags of the entry, its low ten bits. */
uint64_t ronakvesh_entry_as_flags(uint64_t entry);
/* The empty entry, 0. */
uint64_t ronakvesh_entry_write_zero(void);
/* The entry of the frame of pa: its number shifted left by 10, or-ed with perm and V. 8 for perm above 1023, 9 for pa at
 * or above 2^56, 8 where both hold. */
ronakvesh_reply ronakvesh_entry_write_perm(uint64_t pa, uint64_t perm);

/* ---- the store
 * Four slices that the caller lends: table words (512 a table), table marks, frame bytes (4096 a frame), frame marks. A slice is a
 * pointer that is aligned and not null, and the number of its elements; the four do not overlap. Their sizes are right where
 * there are 1 to 512 table marks and 1 to 4096 frame marks, and exactly as many words and bytes as these ask for. */

/* Writes zeros to all four slices; 1 where the sizes are wrong, and then nothing is written. */
ronakvesh_reply ronakvesh_set_up(uint64_t *words, size_t word_count, uint32_t *table_marks, size_t tables,
                                 uint8_t *bytes, size_t byte_count, uint32_t *frame_marks, size_t frames);

/* The value is 1 where the store is well formed and 0 where it is not; 1 where the sizes are wrong. */
ronakvesh_reply ronakvesh_check(const uint64_t *words, size_t word_count, const uint32_t *table_marks, size_t tables,
                                const uint8_t *bytes, size_t byte_count, const uint32_t *frame_marks, size_t frames);

/* The address of the frame that the page of va resolves to in a root, without the offset; 1, 2, 3, 6, 11, 12. */
ronakvesh_reply ronakvesh_pgt_translate(const uint64_t *words, size_t word_count, const uint32_t *table_marks, size_t tables,
                                        const uint8_t *bytes, size_t byte_count, const uint32_t *frame_marks,
                                        size_t frames, uint64_t root, uint64_t va);

/* The number that the satp register takes for a root; 1, 2, 3. */
ronakvesh_reply ronakvesh_as_satp(const uint64_t *words, size_t word_count, const uint32_t *table_marks, size_t tables,
                                  const uint8_t *bytes, size_t byte_count, const uint32_t *frame_marks, size_t frames,
                                  uint64_t root);

/* Makes the lowest free table a root without pages; the value is its number. 1, 2, 17. */
ronakvesh_reply ronakvesh_uvmcreate(const uint64_t *words, size_t word_count, uint32_t *table_marks, size_t tables,
                                    const uint8_t *bytes, size_t byte_count, const uint32_t *frame_marks,
                                    size_t frames);

/* Maps the pages that size bytes from va on lie in to the frames from pa on, with perm and V, in a root; the value is
 * how many tables it took. 1, 2, 3, 6, 8, 9, 10, 14, 17, and then nothing is written. */
ronakvesh_reply ronakvesh_map(uint64_t *words, size_t word_count, uint32_t *table_marks, size_t tables,
                              const uint8_t *bytes, size_t byte_count, const uint32_t *frame_marks, size_t frames,
                              uint64_t root, uint64_t va, uint64_t pa, uint64_t size, uint64_t perm);

/* Takes pages, from that of va on, out of a root. With freeing their pool frames are given back and keep their bytes;
 * without it there may be none. Tables stay. The value is 0. 1, 2, 3, 6, 7, 10, 11, 13, and then nothing is written. */
ronakvesh_reply ronakvesh_uvm_unmap(uint64_t *words, size_t word_count, const uint32_t *table_marks, size_t tables,
                                    const uint8_t *bytes, size_t byte_count, uint32_t *frame_marks, size_t frames,
                                    uint64_t root, uint64_t va, uint64_t pages, bool freeing);

/* Takes U away from the page of va; a page that is not mapped stays so. The value is 0. 1, 2, 3, 6, and 11 only where
 * the page has no level-0 table. */
ronakvesh_reply ronakvesh_uvm_clear(uint64_t *words, size_t word_count, const uint32_t *table_marks, size_t tables,
                                    const uint8_t *bytes, size_t byte_count, const uint32_t *frame_marks, size_t frames,
                                    uint64_t root, uint64_t va);

/* Gives page 0 of a root the lowest free frame, with V, R, W, X and U: it holds the source, then zeros. The source does
 * not overlap the store. The value is 0. 1, 2, 3, 5, 14, 16, 17, and then nothing is written. */
ronakvesh_reply ronakvesh_uvm_init(uint64_t *words, size_t word_count, uint32_t *table_marks, size_t tables,
                                   uint8_t *bytes, size_t byte_count, uint32_t *frame_marks, size_t frames,
                                   uint64_t root, const uint8_t *source, size_t source_count);

/* Grows what a root maps from page 0 on from old_size to new_size bytes: the pages past the old size each get the lowest
 * free frame, zeroed, with V, R, W, X and U. The value is the new size, or the old one where the new one is less. 1, 2, 3,
 * 6, 14, 16, 17, and then nothing is written. */
ronakvesh_reply ronakvesh_uvm_alloc(uint64_t *words, size_t word_count, uint32_t *table_marks, size_t tables,
                                    uint8_t *bytes, size_t byte_count, uint32_t *frame_marks, size_t frames,
                                    uint64_t root, uint64_t old_size, uint64_t new_size);

/* Shrinks what a root maps from page 0 on from old_size to new_size bytes: the pages past the new size leave, and their
 * pool frames are given back. The value is the new size, or the old one where the new one is no less. 1, 2, 3, 6, 11, 13,
 * and then nothing is written. */
ronakvesh_reply ronakvesh_uvm_dealloc(uint64_t *words, size_t word_count, const uint32_t *table_marks, size_t tables,
                                      const uint8_t *bytes, size_t byte_count, uint32_t *frame_marks, size_t frames,
                                      uint64_t root, uint64_t old_size, uint64_t new_size);

/* Copies count bytes from va on to the buffer, which does not overlap the store. The page of each byte is needed, and for
 * count 0 the page of va. The value is 0. 1, 2, 3, 6, 11, 12, 15, and then nothing is written. */
ronakvesh_reply ronakvesh_copy_in(const uint64_t *words, size_t word_count, const uint32_t *table_marks, size_t tables,
                                  const uint8_t *bytes, size_t byte_count, const uint32_t *frame_marks, size_t frames,
                                  uint64_t root, uint64_t va, uint8_t *buffer, size_t count);

/* Copies count bytes of the source, which does not overlap the store, to the bytes from va on. The page of each byte is
 * needed, and for count 0 the page of va. The value is 0. 1, 2, 3, 6, 11, 12, 15, and then nothing is written. */
ronakvesh_reply ronakvesh_copy_out(const uint64_t *words, size_t word_count, const uint32_t *table_marks, size_t tables,
                                   uint8_t *bytes, size_t byte_count, const uint32_t *frame_marks, size_t frames,
                                   uint64_t root, uint64_t va, const uint8_t *source, size_t count);

/* Copies the bytes from va on up to the first zero, at most count, to the buffer, which does not overlap the store; the
 * zero is not copied, and the rest of the buffer stays. The value is how many were copied; ronakvesh_zero_was_met tells
 * whether the zero was met. 1, 2, 3; or 6, 11, 12, 15, the smallest for the first page on the way that cannot be read, and
 * then nothing is written. Pages behind the zero or behind count bytes are not looked at; for count 0 the page of va is. */
ronakvesh_reply ronakvesh_copy_in_str(const uint64_t *words, size_t word_count, const uint32_t *table_marks, size_t tables,
                                      const uint8_t *bytes, size_t byte_count, const uint32_t *frame_marks, size_t frames,
                                      uint64_t root, uint64_t va, uint8_t *buffer, size_t count);

/* Was a zero met by ronakvesh_copy_in_str, with this reply and this count? It was where fewer bytes were copied; not where
 * the call was refused. */
static inline bool ronakvesh_zero_was_met(ronakvesh_reply reply, size_t count) {
    return reply.number == 0 && reply.value < count;
}

/* Copies the pages that size bytes from 0 on take from a parent root to a child root: each page of the child gets the lowest
 * free frame, with the flags and the bytes of the parent's. The value is 0. 1, 2, 3, 4, 6, 7, 11, 14, 15, 16, 17, and then
 * nothing is written. */
ronakvesh_reply ronakvesh_uvm_copy(uint64_t *words, size_t word_count, uint32_t *table_marks, size_t tables,
                                   uint8_t *bytes, size_t byte_count, uint32_t *frame_marks, size_t frames,
                                   uint64_t parent, uint64_t child, uint64_t size);

/* Gives back every table of a root, the root included, the tables below a table first; each becomes zero. The value is how
 * many they were. 1, 2, 3, 18, and then nothing is written. */
ronakvesh_reply ronakvesh_free(uint64_t *words, size_t word_count, uint32_t *table_marks, size_t tables,
                               const uint8_t *bytes, size_t byte_count, const uint32_t *frame_marks, size_t frames,
                               uint64_t root);

/* The next three are made of parts. Each part is judged on what the parts before it would leave; the first that refuses
 * gives its number, and then no part has written anything. The value is that of ronakvesh_free, which is the last part. */

/* Takes the pages that size bytes from 0 on lie in out of a root, with freeing as ronakvesh_uvm_unmap does it, and then gives
 * back its tables. 1, 2, 3; 6, 11, 13; 18. Size 0 has no unmapping part. */
ronakvesh_reply ronakvesh_uvm_free(uint64_t *words, size_t word_count, uint32_t *table_marks, size_t tables,
                                   const uint8_t *bytes, size_t byte_count, uint32_t *frame_marks, size_t frames,
                                   uint64_t root, uint64_t size);

/* As ronakvesh_uvm_free, after the page TRAMPOLINE, at 0x3F_FFFF_F000, has been unmapped without freeing. 1, 2, 3, 10, 11,
 * 13; then 6, 11, 13; then 18. */
ronakvesh_reply ronakvesh_free_shared_user_pagetable(uint64_t *words, size_t word_count, uint32_t *table_marks,
                                                     size_t tables, const uint8_t *bytes, size_t byte_count,
                                                     uint32_t *frame_marks, size_t frames, uint64_t root, uint64_t size);

/* As ronakvesh_uvm_free, after the page TRAMPOLINE and then the page TRAPFRAME, at 0x3F_FFFF_E000, have been unmapped
 * without freeing. 1, 2, 3, 10, 11, 13; then 10, 11, 13; then 6, 11, 13; then 18. */
ronakvesh_reply ronakvesh_proc_free_pagetable(uint64_t *words, size_t word_count, uint32_t *table_marks, size_t tables,
                                              const uint8_t *bytes, size_t byte_count, uint32_t *frame_marks,
                                              size_t frames, uint64_t root, uint64_t size);

#ifdef __cplusplus
}
#endif

#endif
