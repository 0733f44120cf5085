/* Uses every function of include/crumbvessel.h on document 01's disk K and its numbers, on K with a first EBR that has no
 * partition, and on K with a gap between two zones. Prints what fails. */
#include <stdio.h>
#include <string.h>

#include "crumbvessel.h"

_Static_assert(CV_CODE + CV_HEADER == CV_LOGICAL(0) && CV_EBR_CODE + 446 == CV_EBR_MARK, "the header, then slots");
_Static_assert(CV_EBR_MARK + 32 == CV_SLOT, "a slot ends with the mark");
_Static_assert(CV_LOGICAL(CV_LOGICALS) == CV_TAG(0) && CV_TAG(CV_LOGICALS) == CV_BLOCK, "the slots, then their tags");
_Static_assert(CV_LONE_TAG == CV_SLOT && CV_LONE_SLOT == CV_SLOT + 1, "a slot, then its tag");

static int failed, tried;

static void is(int line, uint64_t got, uint64_t wanted)
{
    tried++;
    if (got != wanted) {
        failed++;
        printf("line %d: %llu, not %llu\n", line, (unsigned long long)got, (unsigned long long)wanted);
    }
}

#define IS(got, wanted) is(__LINE__, (uint64_t)(got), (uint64_t)(wanted))
#define REFUSED(number) ((uint64_t)(number) << 32)
#define BOTH (CV_TAG_EBR_SECTORS + CV_TAG_EBR_LAST)

static void put32(uint8_t *p, uint32_t v)
{
    for (int i = 0; i < 4; i++)
        p[i] = (uint8_t)(v >> 8 * i);
}

static uint32_t get32(const uint8_t *p)
{
    return p[0] | (uint32_t)p[1] << 8 | (uint32_t)p[2] << 16 | (uint32_t)p[3] << 24;
}

/* Are n bytes all v? */
static bool all(const uint8_t *p, size_t n, uint8_t v)
{
    for (size_t i = 0; i < n; i++)
        if (p[i] != v)
            return false;
    return true;
}

static void entry(uint8_t *p, uint8_t type, uint32_t start, uint32_t sectors)
{
    p[4] = type;
    put32(p + 8, start);
    put32(p + 12, sectors);
}

static uint8_t k[CV_EXTRACT(2)];

static void make_k(void)
{
    const uint32_t front[] = {512, 20480, 2, 24, 32, sizeof k, 0, 4096};
    for (int i = 0; i < 8; i++)
        put32(k + 4 * i, front[i]);
    entry(k + 32 + 446, 0x05, 4096, 16384);
    entry(k + 544 + 446, 0x83, 2048, 2048);
    for (int i = 0; i < 2; i++)
        memcpy(k + 32 + 512 * i + 510, "\x55\xAA", 2);
}

static void addresses(void)
{
    uint64_t a = cv_chs_from_lba_exact(2048, 1023, 255, 63);
    IS(cv_refused(a), CV_DONE);
    IS(cv_cylinder(a), 0);
    IS(cv_head(a), 32);
    IS(cv_sector(a), 33);
    a = cv_chs_from_lba_exact(16450559, 1023, 255, 63);
    IS(cv_cylinder(a), 1023);
    IS(cv_head(a), 254);
    IS(cv_sector(a), 63);
    IS(cv_chs_is_valid(1023, 254, 63, 1023, 255, 63), false);
    IS(cv_chs_is_valid(1022, 254, 63, 1023, 255, 63), true);
    IS(cv_chs_from_lba_exact(16450560, 1023, 255, 63), REFUSED(CV_CYLINDER_1023));
    IS(cv_chs_from_lba_exact(66, 10, 2, 3), REFUSED(CV_CYLINDER_DISK));
    IS(cv_cylinder(cv_chs_from_lba_aligned(7, 10, 2, 3)), 2);
    IS(cv_chs_from_lba_aligned(0, 10, 2, 3), REFUSED(CV_ARITHMETIC));
    IS(cv_chs_to_lba(0, 32, 33, 255, 63), 2048);
    IS(cv_chs_to_lba(0, 0, 0, 255, 63), REFUSED(CV_ARITHMETIC));
    IS(cv_chs_to_bytes(0, 32, 33), 0x002120);
    IS(cv_chs_to_bytes(514, 3, 5), 0x028503);
    IS(cv_chs_to_bytes(1023, 254, 63), 0xFFFFFE);
    IS(cv_chs_to_bytes(1024, 0, 64), 0);
    IS(cv_chs_from_bytes(0x03, 0x85, 0x02), 514 << 16 | 3 << 8 | 5);
    for (int type = 0; type < 256; type++)
        IS(cv_is_extended((uint8_t)type),
           type == 0x05 || type == 0x0F || type == 0x85 || type == 0xC5 || type == 0xD5);
}

static void extracts(void)
{
    static const char text[] = "disk 20480 align 2048 logical 1\n1 05 00 4096 16384\n5 83 00 6144 2048\n";
    uint8_t out[CV_LISTING];
    IS(cv_extract_check(k, sizeof k), CV_DONE);
    IS(cv_extract_check(k, sizeof k - 1), CV_BAD_EXTRACT);
    IS(cv_extract_check(k, 0), CV_BAD_EXTRACT);
    IS(cv_look_up_answer(k, sizeof k, 20479), CV_DONE);
    IS(cv_look_up_answer(k, sizeof k, 20480), CV_PAST_DISK);
    IS(cv_look_up(k, sizeof k, 0), 32);
    IS(cv_look_up(k, sizeof k, 4096), 544);
    IS(cv_look_up(k, sizeof k, 20479), REFUSED(CV_NOTHING));
    IS(cv_look_up(k, sizeof k, 20480), REFUSED(CV_NOTHING));
    IS(cv_look_up(k, sizeof k - 1, 0), REFUSED(CV_NOTHING));
    IS(cv_wanted(k, sizeof k), REFUSED(CV_NOTHING));
    memset(out, 7, sizeof out);
    IS(cv_listing(k, sizeof k, out, sizeof out - 1), REFUSED(CV_OUTPUT_SHORT));
    IS(all(out, sizeof out, 7), true);
    IS(cv_listing(k, sizeof k, out, sizeof out), sizeof text - 1);
    IS(memcmp(out, text, sizeof text - 1), 0);
    IS(all(out + sizeof text - 1, sizeof out - (sizeof text - 1), 7), true);
}

static uint64_t push(uint32_t start, uint32_t sectors, uint8_t *out)
{
    return cv_careful_push(k, sizeof k, 2048, 0, 0, 0, 0x83, start, sectors, out, CV_STORES);
}

static void careful_refusals(void)
{
    uint8_t out[CV_STORES];
    memset(out, 7, sizeof out);
    IS(push(16384, 4097, out), REFUSED(CV_AFTER_END));
    IS(push(16385, 4096, out), REFUSED(CV_NEAR_END));
    IS(push(2048, 4096, out), REFUSED(CV_BEFORE_EXTENDED));
    IS(push(6144, 4096, out), REFUSED(CV_NO_GAP));
    IS(push(0, 4096, out), REFUSED(CV_ARITHMETIC));
    IS(push(8192, 2048, out), REFUSED(CV_TOO_FEW_SECTORS));
    IS(cv_careful_push(k, sizeof k, 2048, 0, 0, 0, 0, 8192, 4096, out, sizeof out), REFUSED(CV_BAD_REQUEST));
    IS(cv_careful_push(k, sizeof k, 2048, 1023, 255, 64, 0x83, 8192, 4096, out, sizeof out), REFUSED(CV_BAD_REQUEST));
    IS(cv_careful_push(k, sizeof k, 2048, 0, 0, 0, 0x83, 8192, 4096, out, sizeof out - 1), REFUSED(CV_OUTPUT_SHORT));
    IS(cv_careful_push(k, sizeof k - 1, 2048, 0, 0, 0, 0x83, 8192, 4096, out, sizeof out), REFUSED(CV_BAD_EXTRACT));
    IS(cv_careful_remove(k, sizeof k, 4, out, sizeof out), REFUSED(CV_NO_SUCH_LOGICAL));
    IS(cv_careful_remove(k, sizeof k, 6, out, sizeof out), REFUSED(CV_NO_SUCH_LOGICAL));
    IS(cv_careful_remove(k, sizeof k, 5, out, 0), REFUSED(CV_OUTPUT_SHORT));
    IS(all(out, sizeof out, 7), true);
}

static void careful_changes(void)
{
    static const char text[] =
        "disk 20480 align 2048 logical 2\n1 05 00 4096 16384\n5 83 00 6144 2048\n6 83 00 10240 2048\n";
    uint8_t out[CV_STORES], same[CV_STORES], one[CV_EXTRACT(3)], two[CV_EXTRACT(3)], list[CV_LISTING];
    IS(push(16384, 4096, out), 2);
    IS(push(8192, 2049, out), 2);
    IS(push(8191, 4096, same), 2);
    IS(push(8192, 4096, out), 2);
    IS(memcmp(out, same, sizeof out), 0);
    IS(get32(out), 8192);
    IS(get32(out + CV_STORE), 4096);
    IS(cv_lay_over(k, sizeof k, 8192, out + 4, 512, one, sizeof one), sizeof one);
    IS(cv_lay_over(one, sizeof one, 4096, out + CV_STORE + 4, 512, two, sizeof two), sizeof two);
    IS(cv_listing(two, sizeof two, list, sizeof list), sizeof text - 1);
    IS(memcmp(list, text, sizeof text - 1), 0);
    memset(out, 7, sizeof out);
    IS(cv_careful_remove(k, sizeof k, 5, out, sizeof out), 1);
    IS(get32(out), 4096);
    IS(all(out + 4, 512, 0), true);
    IS(all(out + CV_STORE, CV_STORE, 7), true);
}

/* A store: its sector, and an EBR of a partition and a link, each its type, start and sectors. */
static bool is_ebr(const uint8_t *s, uint32_t lba, uint8_t type, uint32_t start, uint32_t sectors, uint8_t link_type,
                   uint32_t link_start, uint32_t link_sectors)
{
    uint8_t wanted[CV_STORE] = {0};
    put32(wanted, lba);
    entry(wanted + 4 + 446, type, start, sectors);
    entry(wanted + 4 + 462, link_type, link_start, link_sectors);
    memcpy(wanted + 4 + 510, "\x55\xAA", 2);
    return memcmp(s, wanted, sizeof wanted) == 0;
}

/* Disk K with a first EBR that has no partition: a zone is put behind it, and either is removed. */
static void careful_empty_first(void)
{
    static const char text[] = "disk 20480 align 4096 logical 1\n1 05 00 4096 16384\n";
    static const char after[] = "disk 20480 align 4096 logical 2\n1 05 00 4096 16384\n6 83 00 8192 2048\n";
    uint8_t e[sizeof k], out[CV_STORES], one[CV_EXTRACT(3)], two[CV_EXTRACT(3)], list[CV_LISTING];
    memcpy(e, k, sizeof e);
    memset(e + 544 + 446, 0, 16);
    IS(cv_listing(e, sizeof e, list, sizeof list), sizeof text - 1);
    IS(memcmp(list, text, sizeof text - 1), 0);
    memset(out, 7, sizeof out);
    IS(cv_careful_push(e, sizeof e, 2048, 0, 0, 0, 0x83, 4096, 4096, out, sizeof out), REFUSED(CV_NO_GAP));
    IS(cv_careful_push(e, sizeof e, 1, 0, 0, 0, 0x83, 4096, 2, out, sizeof out), REFUSED(CV_NO_GAP));
    IS(cv_careful_push(e, sizeof e, 1, 0, 0, 0, 0x83, 4097, 2, out, sizeof out - 1), REFUSED(CV_OUTPUT_SHORT));
    IS(cv_careful_remove(e, sizeof e, 6, out, sizeof out), REFUSED(CV_NO_SUCH_LOGICAL));
    IS(all(out, sizeof out, 7), true);
    IS(cv_careful_push(e, sizeof e, 1, 0, 0, 0, 0x83, 4097, 2, out, sizeof out), 2);
    IS(is_ebr(out, 4097, 0x83, 1, 1, 0, 0, 0), true);
    IS(is_ebr(out + CV_STORE, 4096, 0, 0, 0, 0x05, 1, 2), true);
    memset(out, 7, sizeof out);
    IS(cv_careful_remove(e, sizeof e, 5, out, sizeof out), 1);
    IS(get32(out), 4096);
    IS(all(out + 4, 512, 0), true);
    IS(all(out + CV_STORE, CV_STORE, 7), true);
    IS(cv_careful_push(e, sizeof e, 2048, 0, 0, 0, 0x83, 4097, 4096, out, sizeof out), 2);
    IS(is_ebr(out, 6144, 0x83, 2048, 2048, 0, 0, 0), true);
    IS(is_ebr(out + CV_STORE, 4096, 0, 0, 0, 0x05, 2048, 4096), true);
    IS(cv_lay_over(e, sizeof e, 6144, out + 4, 512, one, sizeof one), sizeof one);
    IS(cv_lay_over(one, sizeof one, 4096, out + CV_STORE + 4, 512, two, sizeof two), sizeof two);
    IS(cv_listing(two, sizeof two, list, sizeof list), sizeof after - 1);
    IS(memcmp(list, after, sizeof after - 1), 0);
    IS(cv_careful_remove(two, sizeof two, 5, out, sizeof out), 1);
    IS(is_ebr(out, 4096, 0x83, 4096, 2048, 0, 0, 0), true);
    IS(cv_careful_remove(two, sizeof two, 6, out, sizeof out), 1);
    IS(is_ebr(out, 4096, 0, 0, 0, 0, 0, 0), true);
    /* a first entry of type 0 with a start or with sectors, and a later one, are not sound */
    for (int at = 454; at < 462; at += 4) {
        put32(e + 544 + at, 1);
        IS(cv_careful_push(e, sizeof e, 2048, 0, 0, 0, 0x83, 8192, 4096, out, sizeof out), REFUSED(CV_NOT_SOUND));
        IS(cv_careful_remove(e, sizeof e, 5, out, sizeof out), REFUSED(CV_NOT_SOUND));
        put32(e + 544 + at, 0);
    }
    memset(two + 36 + 1024 + 446, 0, 16);
    IS(get32(two + 32), 6144);
    IS(cv_careful_remove(two, sizeof two, 5, out, sizeof out), REFUSED(CV_NOT_SOUND));
}

/* The extract with the stores of a careful change laid over it in order; answers its length. */
static size_t laid(const uint8_t *x, size_t n, const uint8_t *stores, unsigned count, uint8_t *to)
{
    static uint8_t from[CV_EXTRACT(4)];
    memcpy(to, x, n);
    for (unsigned i = 0; i < count; i++) {
        const uint8_t *s = stores + CV_STORE * i;
        memcpy(from, to, n);
        n = cv_value(cv_lay_over(from, n, get32(s), s + 4, 512, to, CV_EXTRACT(4)));
    }
    return n;
}

/* Disk K with zones at 6,144, 10,240 and 14,336, of which the middle one is removed: 8,192 to 12,288 is a gap. */
static void careful_gaps(void)
{
    static const char before[] =
        "disk 20480 align 2048 logical 2\n1 05 00 4096 16384\n5 83 00 6144 2048\n6 83 00 14336 2048\n";
    static const char after[] = "disk 20480 align 2048 logical 3\n1 05 00 4096 16384\n5 83 00 6144 2048\n"
                                "6 07 00 10240 2048\n7 83 00 14336 2048\n";
    /* align, start, sectors: on an EBR, in a zone, between the two, a sector too early or too long, or so once rounded */
    static const uint32_t none[][3] = {
        {2048, 4096, 4096}, {2048, 6144, 4096},  {2048, 8193, 4096},
        {2048, 8192, 4097}, {2048, 12288, 4096}, {2048, 14336, 4096},
        {1, 4096, 2},       {1, 4097, 2},        {1, 6143, 2},
        {1, 6144, 2},       {1, 8191, 2},        {1, 8192, 4097},
        {1, 12287, 2},      {1, 12288, 2},       {1, 12289, 2},
        {1, 14335, 2},      {1, 16383, 2},       {1, 4096, 16384},
    };
    static uint8_t one[CV_EXTRACT(4)], two[CV_EXTRACT(4)], x[CV_EXTRACT(4)], y[CV_EXTRACT(4)];
    uint8_t out[CV_STORES], list[CV_LISTING];
    IS(push(8192, 4096, out), 2);
    IS(laid(k, sizeof k, out, 2, one), CV_EXTRACT(3));
    IS(cv_careful_push(one, CV_EXTRACT(3), 2048, 0, 0, 0, 0x83, 12288, 4096, out, sizeof out), 2);
    IS(laid(one, CV_EXTRACT(3), out, 2, two), sizeof two);
    IS(cv_careful_remove(two, sizeof two, 6, out, sizeof out), 1);
    IS(laid(two, sizeof two, out, 1, x), sizeof x);
    IS(cv_listing(x, sizeof x, list, sizeof list), sizeof before - 1);
    IS(memcmp(list, before, sizeof before - 1), 0);
    memset(out, 7, sizeof out);
    for (size_t i = 0; i < sizeof none / sizeof *none; i++) {
        const uint32_t *n = none[i];
        IS(cv_careful_push(x, sizeof x, n[0], 0, 0, 0, 0x07, n[1], n[2], out, sizeof out), REFUSED(CV_NO_GAP));
    }
    IS(cv_careful_push(x, sizeof x, 1, 0, 0, 0, 0x07, 4095, 2, out, sizeof out), REFUSED(CV_BEFORE_EXTENDED));
    IS(cv_careful_push(x, sizeof x, 2048, 0, 0, 0, 0x07, 8192, 16384, out, sizeof out), REFUSED(CV_AFTER_END));
    IS(cv_careful_push(x, sizeof x, 2048, 0, 0, 0, 0x07, 8192, 4096, out, sizeof out - 1), REFUSED(CV_OUTPUT_SHORT));
    IS(cv_careful_push(x, sizeof x, 2048, 0, 0, 0, 0x07, 8192, 4097, out, 0), REFUSED(CV_NO_GAP));
    IS(all(out, sizeof out, 7), true);
    /* all of the gap, in the order of the stores: the new EBR with its link, then the one before it */
    IS(cv_careful_push(x, sizeof x, 2048, 0, 0, 0, 0x07, 8192, 4096, out, sizeof out), 2);
    IS(is_ebr(out, 8192, 0x07, 2048, 2048, 0x05, 8192, 4096), true);
    IS(is_ebr(out + CV_STORE, 4096, 0x83, 2048, 2048, 0x05, 4096, 4096), true);
    IS(laid(x, sizeof x, out, 1, y), sizeof y);
    IS(cv_listing(y, sizeof y, list, sizeof list), sizeof before - 1);
    IS(memcmp(list, before, sizeof before - 1), 0);
    IS(laid(x, sizeof x, out, 2, y), sizeof y);
    IS(cv_listing(y, sizeof y, list, sizeof list), sizeof after - 1);
    IS(memcmp(list, after, sizeof after - 1), 0);
    /* at its beginning, at its end, and behind the last zone */
    IS(cv_careful_push(x, sizeof x, 1, 0, 0, 0, 0x07, 8192, 2, out, sizeof out), 2);
    IS(is_ebr(out, 8192, 0x07, 1, 1, 0x05, 8192, 4096), true);
    IS(is_ebr(out + CV_STORE, 4096, 0x83, 2048, 2048, 0x05, 4096, 2), true);
    IS(cv_careful_push(x, sizeof x, 1, 0, 0, 0, 0x07, 12286, 2, out, sizeof out), 2);
    IS(is_ebr(out, 12286, 0x07, 1, 1, 0x05, 8192, 4096), true);
    IS(is_ebr(out + CV_STORE, 4096, 0x83, 2048, 2048, 0x05, 8190, 2), true);
    IS(cv_careful_push(x, sizeof x, 2048, 0, 0, 0, 0x07, 16384, 4096, out, sizeof out), 2);
    IS(is_ebr(out, 16384, 0x07, 2048, 2048, 0, 0, 0), true);
    IS(is_ebr(out + CV_STORE, 12288, 0x83, 2048, 2048, 0x05, 12288, 4096), true);
    IS(CV_BEFORE_LAST, CV_NO_GAP);
}

/* The test for a sound table, K's with a first entry that is empty. */
static void sound_empty_first(void)
{
    static uint8_t t[CV_BLOCK];
    uint8_t *first = t + CV_LOGICAL(0);
    IS(cv_read(k, sizeof k, t, sizeof t), CV_DONE);
    first[CV_ENTRY_TYPE] = 0;
    IS(cv_is_sound(t, sizeof t), 0);
    put32(first + CV_ENTRY_SECTORS, 0);
    IS(cv_is_sound(t, sizeof t), 0);
    put32(first + CV_ENTRY_START, 4096);
    IS(cv_is_sound(t, sizeof t), 1);
    put32(first + CV_ENTRY_SECTORS, 1);
    IS(cv_is_sound(t, sizeof t), 0);
    put32(first + CV_ENTRY_SECTORS, 0);
    first[CV_ENTRY_TYPE] = 0x83;
    IS(cv_is_sound(t, sizeof t), 0);
    first[CV_ENTRY_TYPE] = 0;
    first[0] = 0x80;
    IS(cv_is_sound(t, sizeof t), 1);
    first[0] = 1;
    IS(cv_is_sound(t, sizeof t), 0);
    first[0] = 0;
    first[CV_ENTRY_LAST + 3] = 63;
    IS(cv_is_sound(t, sizeof t), 1);
    first[CV_ENTRY_LAST + 3] = 64;
    IS(cv_is_sound(t, sizeof t), 0);
    first[CV_ENTRY_LAST + 3] = 0;
    put32(first + CV_EBR_LBA, 4097);
    put32(first + CV_ENTRY_START, 4097);
    IS(cv_is_sound(t, sizeof t), 0);
    put32(first + CV_EBR_LBA, 4096);
    put32(first + CV_ENTRY_START, 4096);
    put32(t + CV_PRIMARY(0) + CV_ENTRY_SECTORS, 1);
    IS(cv_is_sound(t, sizeof t), 1);
    put32(t + CV_PRIMARY(0) + CV_ENTRY_SECTORS, 16384);
    /* an unused slot is no empty first entry, and a later one is none either */
    t[CV_COUNT] = 2;
    IS(cv_is_sound(t, sizeof t), 0);
    memcpy(t + CV_LOGICAL(1), first, CV_SLOT);
    IS(cv_is_sound(t, sizeof t), 0);
    t[CV_COUNT] = 1;
    IS(cv_is_sound(t, sizeof t), 1);
    memset(first, 0, CV_SLOT);
    IS(cv_is_sound(t, sizeof t), 0);
}

static void tables(void)
{
    static uint8_t t[CV_BLOCK], u[CV_BLOCK];
    const uint8_t *slot = t + CV_LOGICAL(1);
    memset(t, 7, sizeof t);
    IS(cv_read(k, sizeof k - 1, t, sizeof t), CV_BAD_EXTRACT);
    IS(cv_read(k, sizeof k, t, sizeof t - 1), CV_BLOCK_LENGTH);
    IS(all(t, sizeof t, 7), true);
    IS(cv_read(k, sizeof k, t, sizeof t), CV_DONE);
    IS(get32(t + CV_SECTOR_SIZE), 512);
    IS(get32(t + CV_DISK_SIZE), 20480);
    IS(get32(t + CV_ALIGN), 2048);
    IS(get32(t + CV_COUNT), 1);
    IS(t[CV_PRIMARY(0) + CV_ENTRY_TYPE], 0x05);
    IS(get32(t + CV_PRIMARY(0) + CV_ENTRY_SECTORS), 16384);
    IS(get32(t + CV_LOGICAL(0) + CV_ENTRY_START), 6144);
    IS(get32(t + CV_LOGICAL(0) + CV_EBR_LBA), 4096);
    IS(get32(t + CV_LOGICAL(0) + CV_EBR_SECTORS), 0);
    IS(all(t + CV_LOGICAL(1), CV_BLOCK - CV_LOGICAL(1), 0), true);
    IS(cv_find_at_sector(t, sizeof t, 6144), 5);
    IS(cv_find_at_sector(t, sizeof t, 8191), 5);
    IS(cv_find_at_sector(t, sizeof t, 8192), REFUSED(CV_NOTHING));
    IS(cv_find_at_sector(t, sizeof t, 4096), REFUSED(CV_NOTHING));
    IS(cv_find_at_sector(t, sizeof t - 1, 6144), REFUSED(CV_BLOCK_LENGTH));
    memcpy(u, t, sizeof u);
    IS(cv_push(t, sizeof t, 0x83, 8192, 4096), 6);
    IS(get32(t + CV_COUNT), 2);
    IS(memcmp(t, u, CV_COUNT), 0);
    IS(memcmp(t + CV_COUNT + 4, u + CV_COUNT + 4, CV_LOGICAL(1) - CV_COUNT - 4), 0);
    IS(memcmp(t + CV_LOGICAL(2), u + CV_LOGICAL(2), CV_TAG(1) - CV_LOGICAL(2)), 0);
    IS(memcmp(t + CV_TAG(2), u + CV_TAG(2), CV_BLOCK - CV_TAG(2)), 0);
    IS(slot[CV_ENTRY_TYPE], 0x83);
    IS(get32(slot + CV_ENTRY_START), 10240);
    IS(get32(slot + CV_ENTRY_SECTORS), 2048);
    IS(get32(slot + CV_EBR_LBA), 8192);
    IS(get32(slot + CV_EBR_SECTORS), 4096);
    IS(all(slot + CV_EBR_FIRST, CV_SLOT - CV_EBR_FIRST, 0), true);
    IS(t[CV_TAG(1)], BOTH);
    memcpy(u, t, sizeof u);
    IS(cv_remove(t, sizeof t, 5), CV_DONE);
    IS(get32(t + CV_COUNT), 1);
    IS(memcmp(t, u, CV_COUNT), 0);
    IS(memcmp(t + CV_COUNT + 4, u + CV_COUNT + 4, CV_LOGICAL(0) - CV_COUNT - 4), 0);
    IS(memcmp(t + CV_LOGICAL(0), u + CV_LOGICAL(1), CV_SLOT), 0);
    IS(memcmp(t + CV_LOGICAL(1), u + CV_LOGICAL(1), CV_TAG(0) - CV_LOGICAL(1)), 0);
    IS(t[CV_TAG(0)], BOTH);
    IS(memcmp(t + CV_TAG(1), u + CV_TAG(1), CV_BLOCK - CV_TAG(1)), 0);
}

/* Four logical partitions, a tag of each kind; the second and the last are removed. */
static void tags(void)
{
    static uint8_t t[CV_BLOCK], u[CV_BLOCK];
    IS(cv_read(k, sizeof k, t, sizeof t), CV_DONE);
    for (uint32_t i = 1; i < 4; i++) {
        IS(cv_push(t, sizeof t, 0x83, 4096 + 4096 * i, 4096), 5 + i);
        IS(t[CV_TAG(i)], BOTH);
    }
    memcpy(t + CV_TAG(0), "\0\1\2\3\2\1", 6);
    t[CV_TAG(23)] = BOTH;
    memcpy(u, t, sizeof u);
    IS(cv_remove(t, sizeof t, 6), CV_DONE);
    IS(get32(t + CV_COUNT), 3);
    IS(memcmp(t + CV_COUNT + 4, u + CV_COUNT + 4, CV_LOGICAL(1) - CV_COUNT - 4), 0);
    IS(memcmp(t + CV_LOGICAL(1), u + CV_LOGICAL(2), 2 * CV_SLOT), 0);
    IS(memcmp(t + CV_LOGICAL(3), u + CV_LOGICAL(3), CV_TAG(0) - CV_LOGICAL(3)), 0);
    IS(memcmp(t + CV_TAG(0), "\0\2\3\3\2\1", 6), 0);
    IS(memcmp(t + CV_TAG(6), u + CV_TAG(6), CV_BLOCK - CV_TAG(6)), 0);
    memcpy(u, t, sizeof u);
    IS(cv_remove(t, sizeof t, 7), CV_DONE);
    IS(get32(t + CV_COUNT), 2);
    IS(memcmp(t + CV_COUNT + 4, u + CV_COUNT + 4, CV_BLOCK - CV_COUNT - 4), 0);
}

static void table_refusals(void)
{
    static uint8_t t[CV_BLOCK], u[CV_BLOCK];
    IS(cv_read(k, sizeof k, t, sizeof t), CV_DONE);
    memcpy(u, t, sizeof u);
    IS(cv_push(t, sizeof t, 0x83, 8192, 2048), REFUSED(CV_TOO_FEW_SECTORS));
    IS(cv_push(t, sizeof t - 1, 0x83, 8192, 4096), REFUSED(CV_BLOCK_LENGTH));
    IS(cv_push(t, 0, 0x83, 8192, 4096), REFUSED(CV_BLOCK_LENGTH));
    IS(cv_remove(t, sizeof t, 6), CV_NO_SUCH_LOGICAL);
    IS(cv_remove(t, sizeof t, 4), CV_NO_SUCH_LOGICAL);
    IS(cv_remove(t, 0, 5), CV_BLOCK_LENGTH);
    for (int i = 0; i < 24; i++) {
        t[CV_TAG(i)] = u[CV_TAG(i)] = BOTH;
        IS(cv_push(t, sizeof t, 0x83, 8192, 2048), REFUSED(CV_TOO_FEW_SECTORS));
        IS(cv_remove(t, sizeof t, 6), CV_NO_SUCH_LOGICAL);
        t[CV_TAG(i)] = u[CV_TAG(i)] = 4;
        IS(cv_push(t, sizeof t, 0x83, 8192, 4096), REFUSED(CV_BLOCK_TAG));
        IS(cv_remove(t, sizeof t, 5), CV_BLOCK_TAG);
        t[CV_TAG(i)] = u[CV_TAG(i)] = 0;
    }
    t[CV_TAG(0)] = u[CV_TAG(0)] = 255;
    IS(cv_push(t, sizeof t, 0x83, 8192, 4096), REFUSED(CV_BLOCK_TAG));
    IS(cv_remove(t, sizeof t, 5), CV_BLOCK_TAG);
    t[CV_COUNT] = u[CV_COUNT] = 25;
    IS(cv_push(t, sizeof t, 0x83, 8192, 4096), REFUSED(CV_TOO_MANY));
    IS(cv_remove(t, sizeof t, 5), CV_TOO_MANY);
    IS(memcmp(t, u, sizeof t), 0);
}

/* K's table, looked at. */
static void looks(void)
{
    static uint8_t t[CV_BLOCK];
    uint8_t out[CV_ENTRY + 1];
    IS(cv_read(k, sizeof k, t, sizeof t), CV_DONE);
    IS(cv_len(t, sizeof t), 5);
    IS(cv_len(t, sizeof t - 1), REFUSED(CV_BLOCK_LENGTH));
    IS(cv_is_sound(t, sizeof t), 1);
    IS(cv_is_sound(t, sizeof t - 1), REFUSED(CV_BLOCK_LENGTH));
    memset(out, 7, sizeof out);
    IS(cv_get(t, sizeof t, 0, out, sizeof out), CV_NOTHING);
    IS(cv_get(t, sizeof t, 6, out, 0), CV_NOTHING);
    IS(cv_get(t, sizeof t, 5, out, CV_ENTRY - 1), CV_OUTPUT_SHORT);
    IS(cv_get(t, sizeof t - 1, 5, out, sizeof out), CV_BLOCK_LENGTH);
    IS(all(out, sizeof out, 7), true);
    IS(cv_get(t, sizeof t, 5, out, sizeof out), CV_DONE);
    IS(memcmp(out, t + CV_LOGICAL(0), CV_ENTRY), 0);
    IS(out[CV_ENTRY], 7);
    IS(cv_get(t, sizeof t, 1, out, CV_ENTRY), CV_DONE);
    IS(memcmp(out, t + CV_PRIMARY(0), CV_ENTRY), 0);
    IS(cv_get(t, sizeof t, 4, out, sizeof out), CV_DONE);
    IS(all(out, CV_ENTRY, 0), true);
    IS(cv_check_geometry(t, sizeof t), 0);
    IS(cv_get_cylinder_size(t, sizeof t), 0);
    memcpy(t + CV_CYLINDERS, "\xFF\x03\xFF\x3F", 4);
    IS(cv_check_geometry(t, sizeof t), 1);
    IS(cv_get_cylinder_size(t, sizeof t), 16065);
    t[CV_SECTORS] = 64;
    IS(cv_check_geometry(t, sizeof t), 0);
    t[CV_LOGICAL(0) + CV_ENTRY_TYPE] = 0;
    IS(cv_is_sound(t, sizeof t), 0);
    t[CV_TAG(0)] = t[CV_TAG(23)] = BOTH;
    IS(cv_check_geometry(t, sizeof t), 0);
    t[CV_TAG(23)] = 4;
    IS(cv_check_geometry(t, sizeof t), REFUSED(CV_BLOCK_TAG));
    IS(cv_get(t, sizeof t, 5, out, sizeof out), CV_BLOCK_TAG);
    t[CV_COUNT] = 25;
    IS(cv_len(t, sizeof t), REFUSED(CV_TOO_MANY));
    IS(cv_get_cylinder_size(t, sizeof t), REFUSED(CV_TOO_MANY));
}

/* Removal by a sector, a new table, and K's table on another disk. */
static void edits(void)
{
    static uint8_t t[CV_BLOCK], u[CV_BLOCK];
    uint8_t larger[CV_EXTRACT(2)];
    IS(cv_read(k, sizeof k, t, sizeof t), CV_DONE);
    memcpy(u, t, sizeof u);
    IS(cv_remove_at_sector(t, sizeof t, 8192), CV_NOT_FOUND);
    IS(cv_remove_at_sector(t, sizeof t - 1, 6144), CV_BLOCK_LENGTH);
    IS(cv_update_from(t, sizeof t, k, sizeof k - 1), CV_BAD_EXTRACT);
    IS(cv_update_from(t, sizeof t - 1, k, 0), CV_BLOCK_LENGTH);
    IS(memcmp(t, u, sizeof t), 0);
    IS(cv_remove_at_sector(t, sizeof t, 6144), CV_DONE);
    IS(get32(t + CV_COUNT), 0);
    IS(memcmp(t, u, CV_COUNT), 0);
    IS(memcmp(t + CV_COUNT + 4, u + CV_COUNT + 4, CV_BLOCK - CV_COUNT - 4), 0);
    memcpy(t, u, sizeof t);
    memcpy(larger, k, sizeof k);
    put32(larger, 4096);
    put32(larger + 4, 40960);
    IS(cv_update_from(t, sizeof t, larger, sizeof larger), CV_DONE);
    IS(get32(t + CV_SECTOR_SIZE), 4096);
    IS(get32(t + CV_DISK_SIZE), 40960);
    IS(memcmp(u + CV_ALIGN, t + CV_ALIGN, CV_BLOCK - CV_ALIGN), 0);
    t[CV_PRIMARY(0) + CV_ENTRY_TYPE] = 0x83;
    put32(t + CV_PRIMARY(0) + CV_ENTRY_SECTORS, 0xFFFFFFFF);
    IS(cv_remove_at_sector(t, sizeof t, 6144), CV_ARITHMETIC);
    put32(t + CV_PRIMARY(0) + CV_ENTRY_SECTORS, 16384);
    IS(cv_remove_at_sector(t, sizeof t, 20479), CV_DONE);
    IS(all(t + CV_PRIMARY(0), CV_ENTRY, 0), true);
    IS(memcmp(t + CV_PRIMARY(1), u + CV_PRIMARY(1), CV_BLOCK - CV_PRIMARY(1)), 0);
    IS(get32(t + CV_COUNT), 1);
    memset(u, 7, sizeof u);
    IS(cv_new_from(k, sizeof k - 1, 1, u, sizeof u), CV_BAD_EXTRACT);
    IS(cv_new_from(k, sizeof k, 1, u, sizeof u - 1), CV_BLOCK_LENGTH);
    IS(all(u, sizeof u, 7), true);
    IS(cv_new_from(k, sizeof k, 0x04030201, u, sizeof u), CV_DONE);
    IS(memcmp(u + CV_DISK_SIGNATURE, "\x01\x02\x03\x04", 4), 0);
    IS(get32(u + CV_DISK_SIZE), 20480);
    IS(get32(u + CV_ALIGN), 2048);
    IS(get32(u + CV_COUNT), 0);
    IS(all(u + CV_PRIMARY(0), 4 * CV_ENTRY, 0), true);
    IS(memcmp(u + CV_BOOT_SIGNATURE, "\x55\xAA", 2), 0);
}

/* The free runs of K. */
static void free_runs(void)
{
    static const uint32_t runs[] = {2048, 2048, 6144, 4096, 12288, 8192};
    static uint8_t t[CV_BLOCK];
    uint8_t out[CV_RUNS + CV_RUN];
    IS(cv_read(k, sizeof k, t, sizeof t), CV_DONE);
    memset(out, 7, sizeof out);
    IS(cv_find_free_sectors(t, sizeof t, out, CV_RUNS - 1), REFUSED(CV_OUTPUT_SHORT));
    IS(cv_find_free_sectors(t, sizeof t - 1, out, sizeof out), REFUSED(CV_BLOCK_LENGTH));
    put32(t + CV_ALIGN, 0);
    IS(cv_find_free_sectors(t, sizeof t, out, 0), REFUSED(CV_ARITHMETIC));
    put32(t + CV_ALIGN, 2048);
    IS(all(out, sizeof out, 7), true);
    IS(cv_find_free_sectors(t, sizeof t, out, sizeof out), 3);
    for (int i = 0; i < 6; i++)
        IS(get32(out + 4 * i), runs[i]);
    IS(all(out + 3 * CV_RUN, sizeof out - 3 * CV_RUN, 7), true);
    IS(cv_find_first_place(t, sizeof t, 2049), 6144);
    IS(cv_find_last_place(t, sizeof t, 1000), 18432);
    IS(cv_find_optimal_place(t, sizeof t, 4097), 12288);
    IS(cv_find_optimal_place(t, sizeof t, 2048), 2048);
    IS(cv_find_optimal_place(t, sizeof t, 8193), REFUSED(CV_NOTHING));
    IS(cv_get_maximum_partition_size(t, sizeof t), 8192);
}

/* D 10,000, alignment 2,048, one primary at 2,048 of 2,048 sectors: one run, 4,096 of 5,904. */
static void places(void)
{
    static uint8_t t[CV_BLOCK];
    put32(t + CV_DISK_SIZE, 10000);
    put32(t + CV_ALIGN, 2048);
    t[CV_PRIMARY(0) + CV_ENTRY_TYPE] = 0x83;
    put32(t + CV_PRIMARY(0) + CV_ENTRY_START, 2048);
    put32(t + CV_PRIMARY(0) + CV_ENTRY_SECTORS, 2048);
    IS(cv_find_first_place(t, sizeof t, 5904), 4096);
    IS(cv_find_first_place(t, sizeof t, 5905), REFUSED(CV_NOTHING));
    IS(cv_find_first_place(t, 0, 5905), REFUSED(CV_BLOCK_LENGTH));
    IS(cv_find_last_place(t, sizeof t, 1000), 8192);
    IS(cv_get_maximum_partition_size(t, sizeof t), 4096);
    IS(cv_get_maximum_partition_size_for(t, sizeof t, 1), 7952);
    IS(cv_get_maximum_partition_size_for(t, sizeof t, 5), REFUSED(CV_NOT_FOUND));
    put32(t + CV_PRIMARY(0) + CV_ENTRY_START, 1);
    put32(t + CV_PRIMARY(0) + CV_ENTRY_SECTORS, 9999);
    IS(cv_get_maximum_partition_size(t, sizeof t), REFUSED(CV_NO_SPACE));
    put32(t + CV_ALIGN, 0);
    IS(cv_get_maximum_partition_size(t, sizeof t), REFUSED(CV_ARITHMETIC));
    put32(t + CV_COUNT, 25);
    IS(cv_find_optimal_place(t, sizeof t, 1), REFUSED(CV_TOO_MANY));
    IS(cv_get_maximum_partition_size_for(t, sizeof t, 1), REFUSED(CV_TOO_MANY));
}

static void headers(void)
{
    static uint8_t t[CV_BLOCK];
    uint8_t h[CV_HEADER], out[sizeof k];
    memset(h, 7, sizeof h);
    memset(out, 7, sizeof out);
    IS(cv_read_header(k, sizeof k - 1, h, sizeof h), CV_BAD_EXTRACT);
    IS(cv_read_header(k, sizeof k, h, sizeof h - 1), CV_BLOCK_LENGTH);
    k[32 + 511] = 0;
    IS(cv_read_header(k, sizeof k, h, 0), CV_SIGNATURE);
    k[32 + 511] = 0xAA;
    IS(all(h, sizeof h, 7), true);
    IS(cv_read_header(k, sizeof k, h, sizeof h), CV_DONE);
    IS(cv_read(k, sizeof k, t, sizeof t), CV_DONE);
    IS(memcmp(h, t + CV_CODE, sizeof h), 0);
    IS(cv_write_header(h, sizeof h - 1, k, 0, out, sizeof out), REFUSED(CV_BLOCK_LENGTH));
    IS(cv_write_header(h, sizeof h, k, 0, out, sizeof out), REFUSED(CV_BAD_EXTRACT));
    IS(cv_write_header(h, sizeof h, k, sizeof k, out, sizeof out - 1), REFUSED(CV_OUTPUT_SHORT));
    h[CV_PRIMARY(3) - CV_CODE] = 1;
    IS(cv_write_header(h, sizeof h, k, sizeof k, out, sizeof out), REFUSED(CV_BOOT_FLAG));
    h[CV_PRIMARY(3) - CV_CODE] = 0;
    IS(all(out, sizeof out, 7), true);
    IS(cv_write_header(h, sizeof h, k, sizeof k, out, sizeof out), sizeof out);
    IS(memcmp(out, k, sizeof k), 0);
    h[CV_DISK_SIGNATURE - CV_CODE] = 9;
    IS(cv_write_header(h, sizeof h, k, sizeof k, out, sizeof out), sizeof out);
    IS(out[32 + 440], 9);
}

/* The logical partition of K: 6,144 to 8,191, its EBR at 4,096. */
static void slots(void)
{
    static uint8_t t[CV_BLOCK];
    uint8_t s[CV_LONE_SLOT], before[CV_LONE_SLOT];
    IS(cv_read(k, sizeof k, t, sizeof t), CV_DONE);
    memcpy(s, t + CV_LOGICAL(0), CV_SLOT);
    s[CV_LONE_TAG] = t[CV_TAG(0)];
    memcpy(before, s, sizeof s);
    IS(cv_update_chs(s, CV_SLOT, 1023, 255, 63), CV_BLOCK_LENGTH);
    IS(cv_update_chs(s, 0, 1023, 255, 63), CV_BLOCK_LENGTH);
    IS(cv_update_chs(s, sizeof s, 1023, 0, 63), CV_ARITHMETIC);
    IS(cv_update_chs(s, sizeof s, 10, 2, 3), CV_CYLINDER_1023);
    IS(cv_update_chs(s, sizeof s, 10, 2, 60), CV_CYLINDER_DISK);
    IS(memcmp(s, before, sizeof s), 0);
    IS(cv_update_chs(s, sizeof s, 1023, 255, 63), CV_DONE);
    IS(memcmp(s + CV_ENTRY_FIRST, "\0\0\x61\x22", 4), 0);
    IS(memcmp(s + CV_ENTRY_LAST, "\0\0\x82\x02", 4), 0);
    IS(memcmp(s + CV_EBR_FIRST, "\0\0\x41\x02", 4), 0);
    memset(s + CV_ENTRY_FIRST, 0, 4);
    memset(s + CV_ENTRY_LAST, 0, 4);
    memset(s + CV_EBR_FIRST, 0, 4);
    IS(memcmp(s, before, sizeof s), 0);
    /* with link sectors the link has a last address too */
    put32(s + CV_EBR_SECTORS, 4096);
    s[CV_LONE_TAG] = CV_TAG_EBR_SECTORS;
    IS(cv_update_chs(s, sizeof s, 1023, 255, 63), CV_DONE);
    IS(get32(s + CV_EBR_SECTORS), 4096);
    IS(memcmp(s + CV_EBR_LAST, "\0\0\x82\x02", 4), 0);
    IS(s[CV_LONE_TAG], BOTH);
    memcpy(before, s, sizeof s);
    IS(cv_update_chs(s, sizeof s, 1023, 255, 63), CV_DONE);
    IS(memcmp(s, before, sizeof s), 0);
    /* and without them none */
    s[CV_LONE_TAG] = CV_TAG_EBR_LAST;
    IS(cv_update_chs(s, sizeof s, 1023, 255, 63), CV_DONE);
    IS(all(s + CV_EBR_SECTORS, 4, 0), true);
    IS(all(s + CV_EBR_LAST, 4, 0), true);
    IS(s[CV_LONE_TAG], 0);
    s[CV_LONE_TAG] = 4;
    memcpy(before, s, sizeof s);
    IS(cv_update_chs(s, sizeof s, 1023, 0, 63), CV_BLOCK_TAG);
    IS(memcmp(s, before, sizeof s), 0);
}

/* push on K, written: it lists as after the careful push, and the table afterwards is the one that was pushed. */
static void writing(void)
{
    static const char text[] =
        "disk 20480 align 2048 logical 2\n1 05 00 4096 16384\n5 83 00 6144 2048\n6 83 00 10240 2048\n";
    static uint8_t u[CV_BLOCK], v[CV_BLOCK];
    uint8_t out[CV_EXTRACT(3)], list[CV_LISTING];
    IS(cv_read(k, sizeof k, u, sizeof u), CV_DONE);
    IS(cv_push(u, sizeof u, 0x83, 8192, 4096), 6);
    memset(out, 7, sizeof out);
    memcpy(v, u, sizeof v);
    IS(cv_write_into(u, sizeof u, k, sizeof k, out, sizeof out - 1), REFUSED(CV_OUTPUT_SHORT));
    IS(cv_write_into(u, sizeof u, k, sizeof k - 1, out, sizeof out), REFUSED(CV_BAD_EXTRACT));
    IS(cv_write_into(u, sizeof u - 1, k, sizeof k - 1, out, sizeof out), REFUSED(CV_BLOCK_LENGTH));
    u[CV_BOOT_SIGNATURE]++;
    IS(cv_write_into(u, sizeof u, k, sizeof k, out, sizeof out), REFUSED(CV_SIGNATURE));
    u[CV_BOOT_SIGNATURE]--;
    IS(all(out, sizeof out, 7), true);
    IS(memcmp(u, v, sizeof v), 0);
    IS(cv_write_into(u, sizeof u, k, sizeof k, out, sizeof out), sizeof out);
    IS(cv_listing(out, sizeof out, list, sizeof list), sizeof text - 1);
    IS(memcmp(list, text, sizeof text - 1), 0);
    IS(memcmp(u, v, sizeof v), 0);
    /* the first logical partition's EBR is put at X, without link sectors */
    IS(cv_remove(u, sizeof u, 5), CV_DONE);
    IS(u[CV_TAG(0)], BOTH);
    memcpy(v, u, sizeof v);
    IS(cv_write_into(u, sizeof u, k, sizeof k, out, sizeof out), CV_EXTRACT(2));
    IS(get32(u + CV_LOGICAL(0) + CV_EBR_LBA), 4096);
    IS(all(u + CV_LOGICAL(0) + CV_EBR_SECTORS, 4, 0), true);
    IS(all(u + CV_LOGICAL(0) + CV_EBR_LAST, 4, 0), true);
    IS(u[CV_TAG(0)], 0);
    IS(memcmp(u, v, CV_LOGICAL(0) + CV_EBR_LBA), 0);
    IS(memcmp(u + CV_LOGICAL(0) + CV_EBR_CODE, v + CV_LOGICAL(0) + CV_EBR_CODE, 446), 0);
    IS(memcmp(u + CV_LOGICAL(1), v + CV_LOGICAL(1), CV_TAG(0) - CV_LOGICAL(1)), 0);
    IS(memcmp(u + CV_TAG(1), v + CV_TAG(1), CV_BLOCK - CV_TAG(1)), 0);
}

/* K with a mark, which reading, push and removal carry along, careful changes store, and writing leaves out. */
static void marks(void)
{
    static uint8_t t[CV_BLOCK], u[CV_BLOCK];
    uint8_t marked[CV_EXTRACT(2)], out[CV_STORES], one[CV_EXTRACT(3)], two[CV_EXTRACT(3)], mark[32], second[32];
    memcpy(marked, k, sizeof marked);
    for (int i = 0; i < 32; i++) {
        mark[i] = (uint8_t)(200 + i);
        second[i] = (uint8_t)(100 + i);
    }
    memcpy(marked + 544 + 478, mark, 32);
    IS(cv_read(marked, sizeof marked, t, sizeof t), CV_DONE);
    IS(memcmp(t + CV_LOGICAL(0) + CV_EBR_MARK, mark, 32), 0);
    IS(all(t + CV_LOGICAL(0) + CV_EBR_CODE, 446, 0), true);
    IS(all(t + CV_LOGICAL(1), CV_SLOT, 0), true);
    IS(cv_push(t, sizeof t, 0x83, 8192, 4096), 6);
    IS(memcmp(t + CV_LOGICAL(0) + CV_EBR_MARK, mark, 32), 0);
    IS(all(t + CV_LOGICAL(1) + CV_EBR_MARK, 32, 0), true);
    memcpy(t + CV_LOGICAL(1) + CV_EBR_MARK, second, 32);
    memcpy(u, t, sizeof u);
    IS(cv_write_into(t, sizeof t, k, sizeof k, one, sizeof one), sizeof one);
    IS(memcmp(t, u, sizeof t), 0);
    IS(all(one + 36 + 512 + 478, 32, 0), true);
    IS(all(one + 36 + 1024 + 478, 32, 0), true);
    IS(cv_remove(t, sizeof t, 5), CV_DONE);
    IS(memcmp(t + CV_LOGICAL(0) + CV_EBR_MARK, second, 32), 0);
    IS(cv_careful_push(marked, sizeof marked, 2048, 0, 0, 0, 0x83, 8192, 4096, out, sizeof out), 2);
    IS(all(out + 4 + 478, 32, 0), true);
    IS(memcmp(out + CV_STORE + 4 + 478, mark, 32), 0);
    memcpy(out + 4 + 478, second, 32);
    IS(cv_lay_over(marked, sizeof marked, 8192, out + 4, 512, one, sizeof one), sizeof one);
    IS(cv_lay_over(one, sizeof one, 4096, out + CV_STORE + 4, 512, two, sizeof two), sizeof two);
    IS(cv_careful_remove(two, sizeof two, 5, out, sizeof out), 1);
    IS(get32(out), 4096);
    IS(memcmp(out + 4 + 478, second, 32), 0);
    IS(cv_careful_remove(two, sizeof two, 6, out, sizeof out), 1);
    IS(get32(out), 4096);
    IS(memcmp(out + 4 + 478, mark, 32), 0);
}

int main(void)
{
    make_k();
    addresses();
    extracts();
    careful_refusals();
    careful_changes();
    careful_empty_first();
    careful_gaps();
    sound_empty_first();
    tables();
    tags();
    table_refusals();
    looks();
    edits();
    free_runs();
    places();
    headers();
    slots();
    writing();
    marks();
    printf("%d of %d answers as document 01 has them\n", tried - failed, tried);
    return failed != 0;
}
