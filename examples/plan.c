/* Plans the day of ship_waiting.section from C, and judges the plan. */
#include <inttypes.h>
#include <stdio.h>

#include "pulpmitten.h"

int main(void)
{
    const int32_t loaded[] = {5, 5, 5}, empties[] = {1, 1};
    uint32_t departures[5], first, second;
    int64_t value;

    uint32_t refusal = pulpmitten_plan(2, 600, 180, loaded, 3, empties, 2, departures, 5, &value, &first, &second);
    if (refusal != 0) {
        printf("refused %" PRIu32 " %" PRIu32 " %" PRIu32 "\n", refusal, first, second);
        return 1;
    }
    printf("planned %" PRId64 "\n", value);
    for (int train = 0; train < 5; train++)
        printf("%" PRIu32 "\n", departures[train]);

    refusal = pulpmitten_judge(2, 600, 180, loaded, 3, empties, 2, departures, 5, &value, &first, &second);
    printf("refusal %" PRIu32 ", judged %" PRId64 "\n", refusal, value);

    departures[1] = 170;
    refusal = pulpmitten_judge(2, 600, 180, loaded, 3, empties, 2, departures, 5, &value, &first, &second);
    printf("refusal %" PRIu32 ", trains %" PRIu32 " and %" PRIu32 "\n", refusal, first, second);
    return 0;
}
