/*
 * What the header declares beside the proved calls: names, sentences, the version. Plain C, since
 * the proved language hands out no texts; rust/tests holds the names and sentences against those of
 * the Rust package.
 */
#include "signalfern.h"

struct named {
    const char *name;
    const char *text;
};

/* By number. */
static const struct named refusals[] = {
    {"NONE", "nothing was refused"},
    {"LENGTHS", "there are not as many values as ids"},
    {"POWER", "the rank power must be 0 (no ranks) or 7 to 15"},
    {"ORDER", "ids must ascend, and one is not above the one before it"},
    {"RANGE", "an id is above the greatest allowed, 2147352575"},
    {0, 0}, /* 5 is not used: it was OFFSET, which cannot happen (document 02, [7]) */
    {"ROOM", "the output is too short for the column or the set (the number is the bytes needed)"},
    {"SHORT", "the bytes end within a number of the header, or of a set: they are empty or cut off (the number is "
              "their count)"},
    {"NUMBER", "a number of the header, or of a set, is not in its shortest form or needs more than 64 bits: the bytes "
               "are damaged, or neither column nor set (the number is the bad byte's place, from 0)"},
    {"EDITION", "the edition is not 1 to 4, or not 3 where a value is searched for: this is no column, or one of "
                "another edition"},
    {"HEADER", "the numbers of the header, or those told of an id section, break a rule (a limit, or sizes that do not "
               "agree)"},
    {"LENGTH", "the header tells of more or fewer bytes than there are: the column is cut off or "
               "something follows it"},
    {"BUFFER", "a lent list is too short for what goes into it (the number is the places needed)"},
    {"DAMAGED", "the bytes are not the column of any list of pairs, or not the set of any list of ids"},
    {"ID", "the id asked for is above the greatest allowed, 2147352575"},
    {"BROKEN", "the look-up met bytes that cannot be right: the column is damaged"},
    {"BACK", "the target is below the last one answered: from a cursor, targets stand still or grow"},
    {"PLAN", "the plan is rejected: a table has 2 to 256 entries that ascend, each value and no other, and makes "
             "the column shorter than edition 1 does"},
};

static const struct named no_refusal = {"UNKNOWN", "no refusal has this number"};

static const struct named *refusal_of(uint64_t number)
{
    int known = number < sizeof refusals / sizeof refusals[0] && refusals[number].name;
    return known ? &refusals[number] : &no_refusal;
}

/* Why an id section is faulty, by number. */
static const struct named reasons[] = {
    {"NONE", "nothing is wrong"},
    {"CUT_OFF", "the bytes end within a block, or within the six bytes of the end block"},
    {"BLOCK_ORDER", "the block's number is not above the one before it, or is 32766 or above 32767, which no"
                    " block has"},
    {"PLACE_ORDER", "the places of the block do not ascend"},
    {"ONES", "the block's bitmap has more or fewer ones than the block has ids"},
    {"RANK", "a rank of the block is not the count of ones before its stride"},
    {"END_BLOCK", "the end block, which a block numbered 32767 always is, is not FF 7F 00 00 FF FF, or 7F FF 00 00 FF "
                  "FF high byte first"},
    {"JUMPS", "the jump entries are not those of the blocks: their count, or the one at this place"},
    {"LEFT_OVER", "bytes follow the jump entries"},
};

static const struct named no_reason = {"UNKNOWN", "no reason has this number"};

static const struct named *reason_of(uint64_t number)
{
    return number < sizeof reasons / sizeof reasons[0] ? &reasons[number] : &no_reason;
}

/* The proved archive's version, in a name: one that was made for another does not link with this. */
#define ABI_OF(major, minor) signalfern_abi_##major##_##minor
#define ABI(major, minor) ABI_OF(major, minor)

const char *signalfern_version(void)
{
    (void)ABI(SIGNALFERN_VERSION_MAJOR, SIGNALFERN_VERSION_MINOR)();
    return SIGNALFERN_VERSION;
}

const char *signalfern_refusal_name(uint64_t refusal)
{
    return refusal_of(refusal)->name;
}

const char *signalfern_refusal_text(uint64_t refusal)
{
    return refusal_of(refusal)->text;
}

const char *signalfern_reason_name(uint64_t reason)
{
    return reason_of(reason)->name;
}

const char *signalfern_reason_text(uint64_t reason)
{
    return reason_of(reason)->text;
}

/* The header has 2v for v >= 0 and -2v-1 for v < 0; half of the latter is -v-1. */
int64_t signalfern_smallest(uint64_t smallest)
{
    int64_t half = (int64_t)(smallest >> 1);
    return smallest % 2 == 0 ? half : -1 - half;
}
