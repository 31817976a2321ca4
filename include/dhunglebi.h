/* Dhunglebi: a proved GICv3 Distributor, called from C.
 *
 * The Distributor answers a guest's accesses to its register frame and the host's calls on its SPIs (shared peripheral interrupts,
 * the lines of devices). It lists the SPIs that the host should look at for delivery. Its whole state lies in bytes that you lend to
 * each call, the image. The library keeps nothing between two calls, allocates nothing and has no global state.
 *
 *     uint8_t image[DHUNGLEBI_IMAGE_BYTES(40)];
 *     uint8_t places[4 * 40];
 *     dhunglebi_bytes_mut whole = {image, sizeof image};
 *     dhunglebi_bytes_mut list = {places, sizeof places};
 *     uint64_t out;
 *
 *     dhunglebi_create(whole, 40, 0, 0, 0, 0x10000, &out);    // 40 SPIs, INTIDs 32 to 71
 *     dhunglebi_write(whole, list, 0x104, 4, 2, &out);        // the guest enables SPI 33
 *     dhunglebi_pulse(whole, 33, &out);                       // its device sends an edge
 *     dhunglebi_write(whole, list, 0x0, 4, 2, &out);          // the guest turns the Distributor on:
 *                                                             // out is 1, and the list begins with 33 0 0 0
 *
 * WHAT A CALL ANSWERS
 *
 * Every call returns 0 when it is done, else the number of its refusal (enum dhunglebi_refusal). Every call also writes *out:
 *
 *     done       a read: the value; a write: how many SPIs it listed; any other call: 0
 *     refused 1  the number that the refusal is about
 *     refused    otherwise: 0
 *
 *     no.  name                          given when
 *     0    DHUNGLEBI_DONE                the call is done
 *     1    DHUNGLEBI_INVALID_INTID       a host call is on an INTID that is no SPI of this Distributor: out is the INTID. Or, with
 *                                        explicit claims, a flag bit that is written 1 or a field of GICD_IPRIORITYR<n> or GICD_ICFGR<n> is
 *                                        for an SPI that the Distributor does not have: out is the lowest such INTID. Or a creation
 *                                        asks for more than 988 SPIs: out is 1020
 *     2    DHUNGLEBI_RESOURCE_CONFLICT   a claim is on an SPI that is claimed already
 *     3    DHUNGLEBI_INVALID_ACCESS      a guest access leaves the frame, or its offset is no multiple of its width
 *     4    DHUNGLEBI_INVALID_WIDTH       the register takes another width
 *     5    DHUNGLEBI_SHORT_LIST          the list that a write is lent has fewer places than there are SPIs
 *     6    DHUNGLEBI_BAD_IMAGE           the image has a wrong length, a bad header, or a bad record of an SPI that the call is about
 *     7    DHUNGLEBI_NO_WIDTH            the width is not 1, 2, 4 or 8
 *
 * Where several reasons hold, the first of these counts:
 *
 *     1. 6 for the image's length and header
 *     2. 7
 *     3. 5, then 3, then 4; of a host call 1
 *     4. 6 for a bad record of an SPI that the call is about, whether the guest owns it or not
 *     5. of a guest access 1; of a claim 2
 *
 * dhunglebi_create has an order of its own: 1, then 6.
 *
 * A refused call changes neither image nor list. There is one exception: a write that is refused 1 has done its work on the SPIs that
 * are there, and has listed nothing. Look for deliverable SPIs yourself then.
 *
 * WHOSE BYTES THEY ARE
 *
 * Yours, always. The library uses what it is lent until the call returns, and keeps no pointer. Three things are for you to see to,
 * since no function can test them. Behind each pointer there are as many bytes as its count says; a NULL with a count of 0 is fine.
 * Image, list and *out lie apart. While a call runs, no other thread uses any of them. The slices need no alignment; *out is
 * a uint64_t like any other. Calls on different images may run at the same time.
 *
 * The bytes of the image are laid down below. You may save it, copy it and look into it. If you change it, the header and
 * the records that a call is about are tested: damaged ones are refused (6), and nothing worse happens. A record that you forge and that
 * is good, a claim for example, is taken at its word. A bad record does no harm to a call that is not about its SPI.
 * Such a call counts it as a new one, and leaves its bytes alone.
 *
 * WHY THE SLICES COME FIRST
 *
 * A slice is a pointer and a count. You pass a struct of the two; the library takes two arguments. In the C calling convention of
 * x86-64 these are the same two registers as long as two are free, and the first six arguments have registers. A slice behind five
 * other arguments would lie on the stack for you and half in a register for the library. So every call has its slices in front. */

#ifndef DHUNGLEBI_H
#define DHUNGLEBI_H

#include <stddef.h>
#include <stdint.h>

#ifdef __cplusplus
extern "C" {
#endif

/* The image: a header, then a record for each SPI, INTID 32 first. Numbers have their lowest byte first.
 *
 *     header  0       the Distributor's switch: 0 off, 1 on
 *             1       ownership: 0 all SPIs are the guest's, 1 those that are claimed
 *             2       flags: LPI, ITS, level-3 and range in bits 0 to 3
 *             4-5     how many SPIs, at most 988
 *             8-11    the LPI limit
 *             16-23   the frame's size in bytes
 *             others  0
 *
 *     record  0       from bit 0: enabled, pending, active, in flight, redelivery, line high, edge-triggered, claimed
 *             1       from bit 0: fixed route, route present, target mask present; the other bits 0
 *             2       priority
 *             3       target mask; 0 if it is not present
 *             4-7     the route: affinity levels 0 to 3; 0 if it is not present
 *
 * A record is bad if a bit that must be 0 is not, if route and target mask are both present, or if the route is fixed and the SPI is
 * not claimed. */
#define DHUNGLEBI_HEADER_BYTES 24
#define DHUNGLEBI_RECORD_BYTES 8
#define DHUNGLEBI_IMAGE_BYTES(count) (DHUNGLEBI_HEADER_BYTES + DHUNGLEBI_RECORD_BYTES * (size_t)(count))

enum dhunglebi_refusal {
    DHUNGLEBI_DONE = 0,
    DHUNGLEBI_INVALID_INTID = 1,
    DHUNGLEBI_RESOURCE_CONFLICT = 2,
    DHUNGLEBI_INVALID_ACCESS = 3,
    DHUNGLEBI_INVALID_WIDTH = 4,
    DHUNGLEBI_SHORT_LIST = 5,
    DHUNGLEBI_BAD_IMAGE = 6,
    DHUNGLEBI_NO_WIDTH = 7
};

/* Bytes that are lent to be read, and bytes that are lent to be read and written. */
typedef struct { const uint8_t *first; size_t count; } dhunglebi_bytes;
typedef struct { uint8_t *first; size_t count; } dhunglebi_bytes_mut;

/* Makes a new Distributor with `count` SPIs, INTIDs 32 to 31 + count. What the image held before does not matter; it has to have
 * DHUNGLEBI_IMAGE_BYTES(count) bytes.
 *
 *     ownership   0: every SPI is the guest's; 1: an SPI is the guest's while it is claimed
 *     flags       bit 0 LPIs, bit 1 an ITS, bit 2 affinity level 3, bit 3 the range selector; the guest sees them in GICD_TYPER
 *     lpi_limit   with an ITS, the largest INTID; GICD_TYPER tells the guest how many bits it takes
 *     frame_size  how many bytes the register frame has, mostly 0x10000
 *
 * All is off then: the switch, the SPIs, the claims. Every SPI is level-triggered with priority 0x80.
 * Refused 1 (out 1020) for a count above 988; then 6 for a wrong length, an ownership above 1, flags above 15. */
uint32_t dhunglebi_create(dhunglebi_bytes_mut image, uint32_t count, uint32_t ownership, uint32_t flags, uint32_t lpi_limit,
                          uint64_t frame_size, uint64_t *out);

/* The guest reads `width` bytes at `offset` of the frame. *out gets the value. Nothing is stored. Refused 6, 7, 3, 4, 1. */
uint32_t dhunglebi_read(dhunglebi_bytes image, uint64_t offset, uint32_t width, uint64_t *out);

/* The guest writes `width` bytes at `offset` of the frame; the bits of `value` past the width are dropped. *out gets how many SPIs
 * the write listed: those that the host should look at for delivery. They are in the list, ascending, a place each: 4 bytes, the
 * INTID, lowest byte first. The list has to have a place for each SPI of the Distributor, 4 * count bytes. A rest of fewer than 4
 * bytes at its end is not used. The bytes past what was listed stay as they were. Refused 6, 7, 5, 3, 4, 1. */
uint32_t dhunglebi_write(dhunglebi_bytes_mut image, dhunglebi_bytes_mut list, uint64_t offset, uint32_t width, uint64_t value,
                         uint64_t *out);

/* The host gives an SPI to the guest. By software the SPI keeps its route, and the guest may move it. Refused 6, 1, 2. */
uint32_t dhunglebi_claim_software(dhunglebi_bytes_mut image, uint32_t intid, uint64_t *out);

/* The same for a physical interrupt: its route is fixed to one core, and its target mask is dropped. The affinity is packed as in
 * GICD_IROUTER<n>: levels 0 to 2 in bits 0 to 23, level 3 in bits 32 to 39. Bits elsewhere are ignored. Refused 6, 1, 2. */
uint32_t dhunglebi_claim_physical(dhunglebi_bytes_mut image, uint32_t intid, uint64_t affinity, uint64_t *out);

/* The host takes an SPI back, claimed or not: the claim and the route are gone, and the SPI is level-triggered. It keeps whether it
 * is enabled and pending, its priority and its target mask. Refused 6, 1. */
uint32_t dhunglebi_release(dhunglebi_bytes_mut image, uint32_t intid, uint64_t *out);

/* A device drives its line: low with a level of 0, high with any other. Refused 6, 1. */
uint32_t dhunglebi_set_level(dhunglebi_bytes_mut image, uint32_t intid, uint32_t level, uint64_t *out);

/* A device sends an edge. Refused 6, 1. */
uint32_t dhunglebi_pulse(dhunglebi_bytes_mut image, uint32_t intid, uint64_t *out);

#ifdef __cplusplus
}
#endif

#endif
