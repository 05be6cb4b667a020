/* A page of ids looked up in one call: an answer for each of them, in their order. */
#include <inttypes.h>
#include <stdio.h>

#include "signalfern.h"

enum { ASKED = 5 };

int main(void)
{
    const uint32_t ids[] = {0, 2, 7};
    const int64_t values[] = {150, 140, 135};
    uint8_t column[64];
    signalfern_reply written = signalfern_write(ids, 3, values, 3, SIGNALFERN_PLAIN, SIGNALFERN_USUAL_POWER, column, sizeof column);
    if (written.refusal != 0)
        return 1;

    /* In any order, and as often as one likes. */
    const uint32_t asked[ASKED] = {7, 5, 0, 7, SIGNALFERN_MAX_ID + 1};
    uint64_t ordinals[ASKED];
    int64_t scores[ASKED];
    uint8_t kinds[ASKED];
    signalfern_page page = signalfern_look_up_page(column, written.number, asked, ASKED, ordinals, ASKED, scores, ASKED,
                                                   kinds, ASKED);
    if (page.refusal != 0)
        return 1;
    for (uint64_t i = 0; i < page.number; i++) {
        switch (kinds[i]) {
        case SIGNALFERN_FOUND:
            printf("id %" PRIu32 ": value %" PRId64 ", ordinal %" PRIu64 "\n", asked[i], scores[i], ordinals[i]);
            break;
        case SIGNALFERN_ABSENT:
            printf("id %" PRIu32 ": not listed\n", asked[i]);
            break;
        default:
            printf("id %" PRIu32 ": refused, %s\n", asked[i], signalfern_refusal_name(kinds[i]));
        }
    }
    return 0;
}
