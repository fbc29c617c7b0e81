#include "wallathi_text.h"

#include <stddef.h>

#include "wallathi.h"
#include "wallathi_index.h"

/* By number; a gap is a number that is never answered. */
static const char *const texts[] = {
    [WALLATHI_OK] = "answered",
    [WALLATHI_NO_SLOT] = "the store is shorter than one slot of 4,096 bytes",
    [WALLATHI_DAMAGED] = "store and state are not the image of any ledger: damaged, or never set up",
    [WALLATHI_BAD_ARGUMENT] = "a slip, a name, a key, a batch's number, a reply or its number breaks its rule",
    [WALLATHI_LOW_ID] = "the ID is not above the last ID",
    [WALLATHI_NO_ID_LEFT] = "the last ID is the greatest, and the time is not above its ms",
    [WALLATHI_LONG_MESSAGE] = "the message is too large: a node of it alone exceeds 4,095 bytes",
    [WALLATHI_FULL] = "the store is full: a new node is needed and no slot is free",
    [WALLATHI_SHORT_OUTPUT] = "the output is shorter than the answer, or in a batch than the IDs asked for",
    [WALLATHI_NO_GROUP] = "no such group",
    [WALLATHI_GROUP_EXISTS] = "the group exists",
    [WALLATHI_MOST_GROUPS] = "there are 8 groups already",
    [WALLATHI_MOST_CONSUMERS] = "the group has 16 consumers already",
    [WALLATHI_MOST_PENDING] = "the group has 256 pending entries already",
    [WALLATHI_NOT_LIVE] = "no live message has this ID",
    [WALLATHI_MOST_NODES] = "the snapshot would need over 64 nodes",
    [WALLATHI_NO_SNAPSHOT] = "the file is not a snapshot",
    [WALLATHI_SMALL_STORE] = "the snapshot has more nodes than the store has slots",
    [WALLATHI_INDEX_FULL] = "the index holds 64 keys already",
    [WALLATHI_NONE] = "there is none",
    [WALLATHI_ABSENT] = "the message lacks the field",
    [WALLATHI_NOT_MOVED] = "not moved",
    [WALLATHI_NO_INTEGERS] = "no message of the report holds an integer in its range",
};

const char *wallathi_refusal_text(uint32_t code)
{
    if (code < sizeof texts / sizeof texts[0] && texts[code] != NULL) {
        return texts[code];
    }
    return "unknown code";
}
