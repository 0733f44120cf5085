/* Crumbvessel for programs in C: MBR tables from extracts, as bytes and numbers. x86-64 Linux.
 *
 * `./build install PREFIX` puts libcrumbvessel.a, this header and crumbvessel.pc under PREFIX, where pkg-config finds them
 * (for /usr/local by itself, else by PKG_CONFIG_PATH=PREFIX/lib/pkgconfig). A program, examples/list.c for one, is built by
 *
 *     cc examples/list.c $(pkg-config --cflags --libs crumbvessel)
 *
 * The archive is one object, each function in a section of its own: linked with -Wl,--gc-sections a program has those
 * that it calls.
 *
 * Lent bytes are an address and a length. The address is never null, also where the length is 0. Bytes that a function
 * writes overlap nothing else that the same call is lent. No function keeps an address or allocates. A refusal leaves
 * every lent byte as it was.
 *
 * A block is lent whole, CV_BLOCK bytes, a header CV_HEADER, a lone slot CV_LONE_SLOT; any other length is
 * CV_BLOCK_LENGTH. An extract or an output of length 0 is allowed and refused (1, 19, 101).
 */
#ifndef CRUMBVESSEL_H
#define CRUMBVESSEL_H

#define CV_VERSION "0.1.0"

#include <stdbool.h>
#include <stddef.h>
#include <stdint.h>

#ifdef __cplusplus
extern "C" {
#endif

/* The refusals. */
enum cv_refusal {
    CV_DONE = 0,
    CV_BAD_EXTRACT = 1,        /* the extract breaks a rule; a lent record is not 512 bytes */
    CV_PAST_DISK = 2,          /* a record at or past the disk's end */
    CV_SIGNATURE = 3,          /* InvalidSignature */
    CV_BOOT_FLAG = 4,          /* InvalidBootFlag */
    CV_INCONSISTENT_EBR = 5,   /* InconsistentEBR */
    CV_TOO_MANY = 6,           /* one logical partition more than CV_LOGICALS; a table handed in with a greater count */
    CV_ARITHMETIC = 7,         /* arithmetic leaves 32 bits or divides by zero; alignment 0 or none found */
    CV_NO_EXTENDED = 8,        /* NoExtendedPartition */
    CV_TOO_FEW_SECTORS = 9,    /* NotEnoughSectorsToCreateLogicalPartition */
    CV_BEFORE_EXTENDED = 10,   /* the EBR before the extended partition */
    CV_NEAR_END = 11,          /* the EBR too near the extended partition's end */
    CV_AFTER_END = 12,         /* the partition ends after the extended one */
    CV_CYLINDER_1023 = 13,     /* a cylinder above 1,023 */
    CV_CYLINDER_DISK = 14,     /* a cylinder above the disk's */
    CV_NOT_FOUND = 15,         /* PartitionNotFound */
    CV_NO_SPACE = 16,          /* NoSpaceLeft: the free list is empty */
    CV_NO_SUCH_LOGICAL = 17,   /* a removal's number below 5 or absent */
    CV_NO_LINK = 18,           /* a later logical partition lacks its link fields */
    CV_OUTPUT_SHORT = 19,      /* the lent output is too short */
    CV_NOT_SOUND = 20,         /* careful: the table is not sound */
    CV_NO_GAP = 21,            /* careful push: no gap for it there: it would overlap a partition or an EBR, or stand before
                                * the first or between an EBR and its partition */
    CV_BEFORE_LAST = 21,       /* the former name of CV_NO_GAP */
    CV_TOO_MANY_RECORDS = 22,  /* one record more than CV_RECORDS */
    CV_BAD_REQUEST = 23,       /* careful push of type 0 or extended, or with more than 63 sectors in a geometry */
    /* none of the library's own: */
    CV_BLOCK_LENGTH = 101,     /* a lent block, header or slot is not of its length */
    CV_BLOCK_TAG = 102,        /* a tag in a block is above 3 */
    CV_NOTHING = 255           /* no refusal: there is no such value */
};

/* An answer of 64 bits: the value in the lower half, or a refusal in the upper one. */
static inline unsigned cv_refused(uint64_t answer) { return (unsigned)(answer >> 32); }
static inline uint32_t cv_value(uint64_t answer) { return (uint32_t)answer; }

/* An address: cylinder, head, sector in 16, 8 and 8 bits of the value. */
static inline uint16_t cv_cylinder(uint64_t answer) { return (uint16_t)(cv_value(answer) >> 16); }
static inline uint8_t cv_head(uint64_t answer) { return (uint8_t)(cv_value(answer) >> 8); }
static inline uint8_t cv_sector(uint64_t answer) { return (uint8_t)answer; }

/* The most logical partitions of a table, and the most records of an extract. */
#define CV_LOGICALS 24
#define CV_RECORDS 64

/* An extract, all numbers little-endian u32: sector size, disk sectors D, record count n (0 to CV_RECORDS), 24, 24 + 4n,
 * total length; then n LBAs, strictly ascending and below D; then n records, each the first 512 bytes of its sector. */
#define CV_EXTRACT(n) (24 + CV_STORE * (size_t)(n))

/* A store: LBA (u32, little-endian) and 512 bytes. Careful changes ask for room for two. */
#define CV_STORE 516
#define CV_STORES (2 * CV_STORE)

/* The listing asks for this room: 64 bytes for each logical partition, and for eight lines more. */
#define CV_LISTING (64 * (CV_LOGICALS + 8))

/* A run: start and length (u32, little-endian). Free runs ask for room for the most that a table has. */
#define CV_RUN 8
#define CV_RUNS (CV_RUN * (CV_LOGICALS + 6))

/* A table as a block, all numbers little-endian. Front: */
#define CV_SECTOR_SIZE 0 /* u32 */
#define CV_DISK_SIZE 4   /* u32, sectors */
#define CV_ALIGN 8       /* u32 */
#define CV_COUNT 12      /* u32, logical partitions, at most CV_LOGICALS */
#define CV_CYLINDERS 16  /* u16, with the next two the geometry; zeros for none */
#define CV_HEADS 18      /* u8 */
#define CV_SECTORS 19    /* u8 */
/* Header: */
#define CV_CODE 20                           /* 440 bytes */
#define CV_DISK_SIGNATURE 460                /* 4 bytes */
#define CV_COPY_MARK 464                     /* 2 bytes */
#define CV_PRIMARY(i) (466 + CV_ENTRY * (size_t)(i)) /* entry i, 0 to 3 */
#define CV_BOOT_SIGNATURE 538                /* 2 bytes, 55 AA */
#define CV_HEADER (446 + 4 * CV_ENTRY + 2)   /* bytes of a header: those from CV_CODE on */
/* Logical partitions, CV_LOGICALS slots, i from 0 on; those from the count on are unused: */
#define CV_SLOTS (CV_CODE + CV_HEADER)
#define CV_LOGICAL(i) (CV_SLOTS + CV_SLOT * (size_t)(i)) /* entry */
#define CV_EBR_LBA 18                           /* in a slot: u32, absolute */
#define CV_EBR_SECTORS 22                       /* u32, may be absent */
#define CV_EBR_FIRST 26                         /* address */
#define CV_EBR_LAST 30                          /* address, may be absent */
#define CV_EBR_CODE 34                          /* 446 bytes */
#define CV_EBR_MARK (CV_EBR_CODE + 446)         /* 32 bytes: the EBR's bytes 478 to 509 */
#define CV_SLOT (CV_EBR_MARK + 32)              /* bytes of a slot */
/* Behind the slots their tags: that of slot i is the sum of what is there. The bytes of an absent value are zeros when
 * written and ignored when read. */
#define CV_TAGS (CV_SLOTS + CV_SLOT * CV_LOGICALS)
#define CV_TAG(i) (CV_TAGS + (size_t)(i)) /* u8, 0 to 3 */
#define CV_TAG_EBR_SECTORS 1
#define CV_TAG_EBR_LAST 2
/* Bytes of a block. */
#define CV_BLOCK (CV_TAGS + CV_LOGICALS)
/* A slot alone: its CV_SLOT bytes, then its tag. */
#define CV_LONE_TAG CV_SLOT
#define CV_LONE_SLOT (CV_SLOT + 1)
/* In an entry of CV_ENTRY bytes: flag, first address, type, last address, start, sectors. An address: cylinder u16, head,
 * sector. */
#define CV_ENTRY 18
#define CV_ENTRY_FIRST 1
#define CV_ENTRY_TYPE 5
#define CV_ENTRY_LAST 6
#define CV_ENTRY_START 10
#define CV_ENTRY_SECTORS 14

/* Addresses and types. */

/* The address of a sector; 7, 13, 14. */
uint64_t cv_chs_from_lba_exact(uint32_t lba, uint16_t cylinders, uint8_t heads, uint8_t sectors);
/* The cylinder that begins at a sector, or the next one; 7, 13, 14. */
uint64_t cv_chs_from_lba_aligned(uint32_t lba, uint16_t cylinders, uint8_t heads, uint8_t sectors);
/* The sector of an address; 7. */
uint64_t cv_chs_to_lba(uint16_t cylinder, uint8_t head, uint8_t sector, uint8_t heads, uint8_t sectors);
bool cv_chs_is_valid(uint16_t cylinder, uint8_t head, uint8_t sector, uint16_t cylinders, uint8_t heads, uint8_t sectors);
/* The three bytes of an address as a number, the first byte lowest; higher bits of cylinder and sector are dropped. */
uint32_t cv_chs_to_bytes(uint16_t cylinder, uint8_t head, uint8_t sector);
/* The address in three bytes. */
uint64_t cv_chs_from_bytes(uint8_t one, uint8_t two, uint8_t three);
/* Whether a type is an extended partition's: 05, 0F, 85, C5, D5. */
bool cv_is_extended(uint8_t type);

/* Extracts and the listing. */

/* 0, or 1 for an extract that breaks a rule. */
uint8_t cv_extract_check(const uint8_t *x, size_t x_length);
/* The offset in the extract at which the record of a sector stands, 512 bytes; CV_NOTHING if it is absent or refused:
 * cv_look_up_answer says which. */
uint64_t cv_look_up(const uint8_t *x, size_t x_length, uint32_t lba);
/* What looking up a sector says: 0, 1 or 2. */
uint8_t cv_look_up_answer(const uint8_t *x, size_t x_length, uint32_t lba);
/* The sector that reading looks at first and the extract has no record for; 1; CV_NOTHING. */
uint64_t cv_wanted(const uint8_t *x, size_t x_length);
/* Lays a record of 512 bytes over an extract: the new one's length; 1, 2, 22, 19. */
uint64_t cv_lay_over(const uint8_t *x, size_t x_length, uint32_t lba, const uint8_t *record, size_t record_length,
                     uint8_t *out, size_t out_length);
/* The listing, or `refused ` and a number, as text: its length; 19. */
uint64_t cv_listing(const uint8_t *x, size_t x_length, uint8_t *out, size_t out_length);

/* Careful changes: the stores stand in `out` in the order in which they are to be written, each on the disk before the
 * next one is. An EBR that is stored again has its mark, a new one zeros. */

/* Careful push: the number of stores; 1 to 7 of reading, 20, 23, push's, 12, 21, 19. `track` is the geometry's sectors.
 * The new partition goes behind the others or into a gap between two: its number is 5 and as many more as there are EBRs
 * before its own, and the numbers behind it grow by one. */
uint64_t cv_careful_push(const uint8_t *x, size_t x_length, uint32_t align, uint16_t cylinders, uint8_t heads,
                         uint8_t track, uint8_t type, uint32_t start, uint32_t sectors, uint8_t *out, size_t out_length);
/* Careful removal of logical partition `number`, 5 and up: the number of stores; 1 to 7 of reading, 20, 17, 19. A first EBR
 * without a partition has number 5. */
uint64_t cv_careful_remove(const uint8_t *x, size_t x_length, uint32_t number, uint8_t *out, size_t out_length);

/* Tables as blocks: reading, push, removal. */

/* The table that an extract reads as, as a block: 0; 1 to 7 of reading, 101. */
uint8_t cv_read(const uint8_t *x, size_t x_length, uint8_t *out, size_t out_length);
/* push on the table of a block, in place: the new partition's number; 101, 6, 102, push's. Its slot, the first unused one,
 * the slot's tag and the count are written, and no other byte. */
uint64_t cv_push(uint8_t *block, size_t block_length, uint8_t type, uint32_t start, uint32_t sectors);
/* Removal of logical partition `number` from the table of a block, in place: 0; 101, 6, 102, 17. The slots behind slot
 * `number - 5` and their tags move down by one, the last one's bytes stay where they were too, the count falls by one; no
 * other byte is written. */
uint8_t cv_remove(uint8_t *block, size_t block_length, uint32_t number);

/* Removal by a sector, a new table, a table on another disk. */

/* Removal of the partition at a sector from the table of a block, in place: 0; 101, 6, 102, 7, 15. Its number is what
 * cv_find_at_sector says of the given block; a primary's entry becomes zeros. */
uint8_t cv_remove_at_sector(uint8_t *block, size_t block_length, uint32_t sector);
/* A new table for the disk of an extract, as a block: 0; 1, 101. The four bytes of the disk signature are the number's,
 * little-endian. */
uint8_t cv_new_from(const uint8_t *x, size_t x_length, uint32_t disk_signature, uint8_t *out, size_t out_length);
/* Puts the sector size and D of an extract into the table of a block, in place: 0; 101, 6, 102, 1. */
uint8_t cv_update_from(uint8_t *block, size_t block_length, const uint8_t *x, size_t x_length);

/* Lookup. */

/* The number of the partition at a sector, in the table of a block; 101, 6, 102, 7; CV_NOTHING. */
uint64_t cv_find_at_sector(const uint8_t *block, size_t block_length, uint32_t sector);
/* How many partitions the table of a block has, the four primaries always counted; 101, 6, 102. */
uint64_t cv_len(const uint8_t *block, size_t block_length);
/* The entry of partition `number`, 1 to 4 primary, 5 and up logical, as CV_ENTRY bytes at the start of `out`: 0; 101, 6,
 * 102; CV_NOTHING if there is none; 19. */
uint8_t cv_get(const uint8_t *block, size_t block_length, uint32_t number, uint8_t *out, size_t out_length);
/* Whether the geometry in the table of a block is complete, 1 or 0; 101, 6, 102. */
uint64_t cv_check_geometry(const uint8_t *block, size_t block_length);
/* The sectors of a cylinder by the geometry in the table of a block, heads times sectors; 101, 6, 102. */
uint64_t cv_get_cylinder_size(const uint8_t *block, size_t block_length);

/* Soundness. */

/* Whether the table of a block is sound, 1 or 0; 101, 6, 102. The first logical partition may be an EBR without a partition:
 * type 0, the start its EBR's place, no sectors. */
uint64_t cv_is_sound(const uint8_t *block, size_t block_length);

/* Free runs as mbrman finds them, which is no truth about what is free. */

/* The free runs of the table of a block, run i at CV_RUN * i of `out`, the bytes behind the last as before: their number,
 * at most CV_RUNS / CV_RUN; 101, 6, 102, 7, 19. */
uint64_t cv_find_free_sectors(const uint8_t *block, size_t block_length, uint8_t *out, size_t out_length);
/* A place for `size` sectors: the start of the first run that is long enough, the last aligned one in the last such run,
 * the start of the smallest; 101, 6, 102, 7; CV_NOTHING. */
uint64_t cv_find_first_place(const uint8_t *block, size_t block_length, uint32_t size);
uint64_t cv_find_last_place(const uint8_t *block, size_t block_length, uint32_t size);
uint64_t cv_find_optimal_place(const uint8_t *block, size_t block_length, uint32_t size);
/* The most sectors of a new partition, in whole alignments; 101, 6, 102, 7, 16. */
uint64_t cv_get_maximum_partition_size(const uint8_t *block, size_t block_length);
/* The sectors to which partition `number` can grow; 101, 6, 102, 7 of the free runs, 15, 7. */
uint64_t cv_get_maximum_partition_size_for(const uint8_t *block, size_t block_length, uint32_t number);

/* Writing. */

/* Writes the table of a block over an extract, the new extract to `out`: its length, at most CV_EXTRACT(CV_RECORDS); and
 * the block becomes that of the table as writing leaves it: its slots below the count and their tags are written, and no
 * other byte of it; without an extended entry no byte of it at all. The EBRs have zeros for their marks, which the block
 * keeps. 101, 6, 102 of the block; 1, 3, 4, 2, 7, 13, 14, 18, 22, 19. */
uint64_t cv_write_into(uint8_t *block, size_t block_length, const uint8_t *x, size_t x_length, uint8_t *out,
                       size_t out_length);

/* A header alone. */

/* The header of an extract, CV_HEADER bytes: 0; 1, 2, 3, 4, 101. */
uint8_t cv_read_header(const uint8_t *x, size_t x_length, uint8_t *out, size_t out_length);
/* Writes a header of CV_HEADER bytes over an extract, the new extract to `out`: its length; 101, 1, 3, 4, 2, 22, 19. */
uint64_t cv_write_header(const uint8_t *header, size_t header_length, const uint8_t *x, size_t x_length, uint8_t *out,
                         size_t out_length);

/* A logical partition alone. */

/* update_chs on the logical partition in a lone slot of CV_LONE_SLOT bytes, in place: its four addresses; the last link
 * address is there afterwards if the link sectors are, the bytes of an absent value become zero. 0; 101, 102, 7, 13, 14. */
uint8_t cv_update_chs(uint8_t *slot, size_t slot_length, uint16_t cylinders, uint8_t heads, uint8_t sectors);

#ifdef __cplusplus
}
#endif

#endif
