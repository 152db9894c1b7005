/* A scan that forgets, to see that who goes by it notices. MISFEED has the length of a piece, a slot of the scan, and a number: a piece of that length which leaves the scan open leaves the number in the slot.
 * `tools/hosts` puts it into an archive in the place of the scan's own function, which is there under another name. */
#include "sporebasket.h"

#include <stdio.h>
#include <stdlib.h>

size_t sporebasket_feed_itself(const uint8_t *piece, size_t length, size_t *scan, size_t scan_slots);

size_t sporebasket_feed(const uint8_t *piece, size_t length, size_t *scan, size_t scan_slots)
{
    const char *fault = getenv("MISFEED");
    size_t wrong, slot, number;
    size_t refusal = sporebasket_feed_itself(piece, length, scan, scan_slots);

    if (fault != NULL && sscanf(fault, "%zu %zu %zu", &wrong, &slot, &number) == 3 && length == wrong && slot < scan_slots &&
        scan[SPOREBASKET_SCAN_STATE] != SPOREBASKET_SCAN_CLOSED) {
        scan[slot] = number;
    }
    return refusal;
}
