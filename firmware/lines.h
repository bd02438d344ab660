/* The lines of docs/CALLS.md, as the library answers them. */
#include <inttypes.h>
#include <stdio.h>
#include <string.h>

#include "../include/sambighjone.h"

static void numbers(FILE *to, const double *x, size_t n)
{
    for (size_t i = 0; i < n; i++) {
        uint64_t bits;
        memcpy(&bits, &x[i], sizeof bits);
        fprintf(to, " %016" PRIx64, bits);
    }
}

/* The answers' line; 1 where a question is refused. */
static int answers_line(FILE *to, const double *image)
{
    double gyr[4], tilt[4], both[4], delta[1], bias[4], deviations[2], reference[2];
    uint32_t rest[1], disturbed[1];
    int refused = 0;
    refused |= sambighjone_quat_3d(image, SAMBIGHJONE_SIZE, gyr, 4) != SAMBIGHJONE_DONE;
    refused |= sambighjone_quat_6d(image, SAMBIGHJONE_SIZE, tilt, 4) != SAMBIGHJONE_DONE;
    refused |= sambighjone_quat_9d(image, SAMBIGHJONE_SIZE, both, 4) != SAMBIGHJONE_DONE;
    refused |= sambighjone_delta(image, SAMBIGHJONE_SIZE, delta, 1) != SAMBIGHJONE_DONE;
    refused |= sambighjone_bias(image, SAMBIGHJONE_SIZE, bias, 4) != SAMBIGHJONE_DONE;
    refused |= sambighjone_rest(image, SAMBIGHJONE_SIZE, rest, 1) != SAMBIGHJONE_DONE;
    refused |= sambighjone_disturbed(image, SAMBIGHJONE_SIZE, disturbed, 1) != SAMBIGHJONE_DONE;
    refused |= sambighjone_relative_rest_deviations(image, SAMBIGHJONE_SIZE, deviations, 2) != SAMBIGHJONE_DONE;
    refused |= sambighjone_mag_ref(image, SAMBIGHJONE_SIZE, reference, 2) != SAMBIGHJONE_DONE;
    if (refused)
        return 1;
    fprintf(to, "?");
    numbers(to, gyr, 4);
    numbers(to, tilt, 4);
    numbers(to, both, 4);
    numbers(to, delta, 1);
    numbers(to, bias, 4);
    fprintf(to, " %" PRIu32 " %" PRIu32, rest[0], disturbed[0]);
    numbers(to, deviations, 2);
    numbers(to, reference, 2);
    fprintf(to, "\n");
    return 0;
}
