/* The board's twelve examples, through the C face. Each line is the one that the Rattle program `program_board` prints for the same
 * case.
 *
 * K is a Distributor of 40 SPIs with explicit claims; 33 and 64 are claimed by software, 65 physically for the core 0.0.0.1. Each
 * case starts from a new K, unless it names another number of SPIs. */

#include "dhunglebi.h"

#include <inttypes.h>
#include <stdio.h>
#include <stdlib.h>
#include <string.h>

enum { MOST = 988, K = 40, FRAME = 0x10000 };
enum { ALL_OWNED = 0, EXPLICIT = 1 };
enum { BYTE = 1, DWORD = 4, QWORD = 8 };

/* The registers of the examples. */
enum {
    CTLR = 0x0,
    TYPER = 0x4,
    ISENABLER1 = 0x104,
    ISENABLER2 = 0x108,
    ISENABLER31 = 0x17c,
    ISPENDR1 = 0x204,
    ICPENDR1 = 0x284,
    IPRIORITYR254 = 0x7f8,
    IROUTER33 = 0x6108,
    IROUTER65 = 0x6208,
    PIDR2 = 0xffe8
};

static uint8_t bytes[DHUNGLEBI_IMAGE_BYTES(MOST)];
static dhunglebi_bytes_mut image;
static uint8_t list[4 * MOST];

static dhunglebi_bytes shown(void)
{
    dhunglebi_bytes whole = {image.first, image.count};
    return whole;
}

/* A call that is part of a case's beginning, and has to be done. */
static void must(uint32_t refusal)
{
    if (refusal != DHUNGLEBI_DONE) {
        fprintf(stderr, "board: refused %" PRIu32 "\n", refusal);
        exit(2);
    }
}

static uint32_t create(uint32_t count, uint32_t ownership, uint64_t *out)
{
    /* More SPIs than there can be are refused before the length is looked at. */
    image.first = bytes;
    image.count = count <= MOST ? DHUNGLEBI_IMAGE_BYTES(count) : sizeof bytes;
    return dhunglebi_create(image, count, ownership, 0, 0, FRAME, out);
}

static void start_k(void)
{
    uint64_t out;
    must(create(K, EXPLICIT, &out));
    must(dhunglebi_claim_software(image, 33, &out));
    must(dhunglebi_claim_software(image, 64, &out));
    must(dhunglebi_claim_physical(image, 65, 1, &out));
}

static void show_refusal(uint32_t refusal, uint64_t out)
{
    printf(" refused %" PRIu32, refusal);
    if (refusal == DHUNGLEBI_INVALID_INTID)
        printf(" (%" PRIu64 ")", out);
}

static void show_create(uint32_t count)
{
    uint64_t out;
    uint32_t refusal = create(count, EXPLICIT, &out);
    if (refusal == DHUNGLEBI_DONE)
        printf(" made");
    else
        show_refusal(refusal, out);
}

static void show_read(uint64_t offset, uint32_t width)
{
    uint64_t out;
    uint32_t refusal = dhunglebi_read(shown(), offset, width, &out);
    if (refusal == DHUNGLEBI_DONE)
        printf(" 0x%" PRIx64, out);
    else
        show_refusal(refusal, out);
}

/* A write whose list has `count` places, each 9 before. */
static void show_write(uint32_t count, uint64_t offset, uint32_t width, uint64_t value)
{
    dhunglebi_bytes_mut places = {list, (size_t)4 * count};
    uint64_t out;
    memset(list, 0, sizeof list);
    for (uint32_t place = 0; place < count; place++)
        list[4 * place] = 9;
    uint32_t refusal = dhunglebi_write(image, places, offset, width, value, &out);
    if (refusal == DHUNGLEBI_DONE)
        printf(" done, lists %" PRIu64, out);
    else
        show_refusal(refusal, out);
}

static uint32_t place(size_t number)
{
    const uint8_t *first = list + 4 * number;
    return first[0] | (uint32_t)first[1] << 8 | (uint32_t)first[2] << 16 | (uint32_t)first[3] << 24;
}

/* A write on K, and the first two places of its list. */
static void show_write_on_k(uint64_t offset, uint32_t width, uint64_t value)
{
    show_write(K, offset, width, value);
    printf(", list %" PRIu32 " %" PRIu32, place(0), place(1));
}

static void cases_1_to_5(void)
{
    printf("1:");
    show_create(988);
    show_create(989);
    start_k();
    printf("\n2:");
    show_read(PIDR2, DWORD);
    show_read(PIDR2, BYTE);
    printf("\n3:");
    show_read(PIDR2 + 1, BYTE);
    show_read(0x102, DWORD);
    printf("\n4:");
    show_read(UINT64_MAX - 3, DWORD);
    printf("\n5:");
    show_read(TYPER, DWORD);
}

static void cases_6_to_9(void)
{
    printf("\n6:");
    start_k();
    show_write_on_k(ISENABLER2, DWORD, 0x1ff);
    printf(", enabled");
    show_read(ISENABLER2, DWORD);
    printf("\n7:");
    start_k();
    show_write_on_k(ISENABLER31, DWORD, 0xf0000000);
    printf(", enabled");
    show_read(ISENABLER1, DWORD);
    show_read(ISENABLER2, DWORD);
    printf("\n8:");
    start_k();
    show_write_on_k(IROUTER33, QWORD, 0x180020304);
    show_read(IROUTER33, QWORD);
    printf("\n9:");
    start_k();
    show_write_on_k(IROUTER65, QWORD, 2);
    show_read(IROUTER65, QWORD);
}

static void cases_10_and_11(void)
{
    uint64_t out;
    printf("\n10:");
    start_k();
    must(dhunglebi_set_level(image, 33, 1, &out));
    show_write_on_k(ICPENDR1, DWORD, 2);
    /* The face has no question: the guest, which owns 33, is asked. */
    must(dhunglebi_read(shown(), ISPENDR1, DWORD, &out));
    printf(", 33 pending %" PRIu64, out >> 1 & 1);
    printf("\n11:");
    start_k();
    /* The host cannot enable an SPI through the face: the guest does. */
    dhunglebi_bytes_mut places = {list, 4 * K};
    must(dhunglebi_write(image, places, ISENABLER1, DWORD, 2, &out));
    must(dhunglebi_pulse(image, 33, &out));
    must(dhunglebi_release(image, 33, &out));
    show_write_on_k(CTLR, DWORD, 2);
}

static void case_12(void)
{
    uint64_t out;
    printf("\n12:");
    must(create(988, ALL_OWNED, &out));
    show_write(988, IPRIORITYR254, QWORD, 0x8877665544332211);
    show_read(IPRIORITYR254, QWORD);
    printf("\n");
}

int main(void)
{
    cases_1_to_5();
    cases_6_to_9();
    cases_10_and_11();
    case_12();
    return 0;
}
