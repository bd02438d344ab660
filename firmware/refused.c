/* What the Rust source cannot show: arrays of another length, and flags and switches that are neither
 * 0 nor 1. Each call is to answer as the header says and to leave every array as it was; a flag
 * that is taken is to be held. It ends with 1 where a call does otherwise. */
#include <stdio.h>
#include <string.h>

#include "../include/sambighjone.h"

#define SIZE SAMBIGHJONE_SIZE
#define SETTINGS SAMBIGHJONE_SETTINGS
#define LENGTH SAMBIGHJONE_WRONG_LENGTH

static double image[SIZE + 1], before[SIZE + 1];
static double out[SETTINGS];
static uint32_t words[3];
static int tried = 0, wrong = 0;

static void prepare(void)
{
    sambighjone_fresh(image, SIZE);
    sambighjone_set_tau_acc(image, SIZE, 2.0);
    memcpy(before, image, sizeof image);
    for (int i = 0; i < SETTINGS; i++)
        out[i] = i + 0.5;
    for (int i = 0; i < 3; i++)
        words[i] = 70 + (uint32_t)i;
}

static int untouched(void)
{
    int same = memcmp(before, image, sizeof image) == 0;
    for (int i = 0; i < SETTINGS; i++)
        same &= out[i] == i + 0.5;
    for (int i = 0; i < 3; i++)
        same &= words[i] == 70 + (uint32_t)i;
    return same;
}

static void told(const char *call, uint32_t answer, uint32_t expected, int as_it_should_be)
{
    tried++;
    if (answer == expected && as_it_should_be)
        return;
    wrong = 1;
    printf("%s answers %u%s\n", call, (unsigned)answer, as_it_should_be ? "" : ", and leaves something else");
}

#define REFUSED(call, expected) (prepare(), told(#call, call, expected, untouched()))

static void wrong_images(size_t n)
{
    double settings[SETTINGS], samples[9] = {0.0, 0.0, 0.0, 0.0, 0.0, 9.81, 0.0, 1.0, 0.0};
    sambighjone_fresh(image, SIZE);
    sambighjone_settings(image, SIZE, settings, SETTINGS);
    REFUSED(sambighjone_fresh(image, n), LENGTH);
    REFUSED(sambighjone_build(image, n, 0.01, 0.01, 0.01, settings, SETTINGS), LENGTH);
    REFUSED(sambighjone_feed_gyr(image, n, 0.1, 0.0, 0.0), LENGTH);
    REFUSED(sambighjone_feed_gyr_with_ts(image, n, 0.1, 0.0, 0.0, 0.01), LENGTH);
    REFUSED(sambighjone_feed_acc(image, n, 0.0, 0.0, 9.81), LENGTH);
    REFUSED(sambighjone_feed_mag(image, n, 0.0, 1.0, 0.0), LENGTH);
    REFUSED(sambighjone_update(image, n, samples, 9, words, 3), LENGTH);
    REFUSED(sambighjone_set_tau_acc(image, n, 1.0), LENGTH);
    REFUSED(sambighjone_set_tau_mag(image, n, 1.0), LENGTH);
    REFUSED(sambighjone_set_motion_bias_est_enabled(image, n, 0), LENGTH);
    REFUSED(sambighjone_set_rest_bias_est_enabled(image, n, 0), LENGTH);
    REFUSED(sambighjone_set_mag_dist_rejection_enabled(image, n, 0), LENGTH);
    REFUSED(sambighjone_set_rest_detection_thresholds(image, n, 1.0, 1.0), LENGTH);
    REFUSED(sambighjone_set_bias_estimate(image, n, 0.1, 0.1, 0.1), LENGTH);
    REFUSED(sambighjone_set_bias_estimate_with_sigma(image, n, 0.1, 0.1, 0.1, 1.0), LENGTH);
    REFUSED(sambighjone_set_mag_ref(image, n, 1.0, 1.0), LENGTH);
    REFUSED(sambighjone_reset_state(image, n), LENGTH);
    REFUSED(sambighjone_quat_3d(image, n, out, 4), LENGTH);
    REFUSED(sambighjone_quat_6d(image, n, out, 4), LENGTH);
    REFUSED(sambighjone_quat_9d(image, n, out, 4), LENGTH);
    REFUSED(sambighjone_delta(image, n, out, 1), LENGTH);
    REFUSED(sambighjone_bias(image, n, out, 4), LENGTH);
    REFUSED(sambighjone_mag_ref(image, n, out, 2), LENGTH);
    REFUSED(sambighjone_relative_rest_deviations(image, n, out, 2), LENGTH);
    REFUSED(sambighjone_settings(image, n, out, SETTINGS), LENGTH);
    REFUSED(sambighjone_rest(image, n, words, 1), LENGTH);
    REFUSED(sambighjone_disturbed(image, n, words, 1), LENGTH);
}

static void wrong_lists(void)
{
    double settings[SETTINGS + 1] = {0.0}, samples[10] = {0.0, 0.0, 0.0, 0.0, 0.0, 9.81, 0.0, 1.0, 0.0, 0.0};
    REFUSED(sambighjone_build(image, SIZE, 0.01, 0.01, 0.01, settings, SETTINGS - 1), LENGTH);
    REFUSED(sambighjone_build(image, SIZE, 0.01, 0.01, 0.01, settings, SETTINGS + 1), LENGTH);
    for (size_t n = 0; n <= 10; n++)
        if (n != 6 && n != 9)
            REFUSED(sambighjone_update(image, SIZE, samples, n, words, 3), LENGTH);
    REFUSED(sambighjone_update(image, SIZE, samples, 9, words, 2), LENGTH);
    for (size_t n = 0; n <= 5; n++) {
        if (n != 4) {
            REFUSED(sambighjone_quat_3d(image, SIZE, out, n), LENGTH);
            REFUSED(sambighjone_quat_6d(image, SIZE, out, n), LENGTH);
            REFUSED(sambighjone_quat_9d(image, SIZE, out, n), LENGTH);
            REFUSED(sambighjone_bias(image, SIZE, out, n), LENGTH);
        }
        if (n != 2) {
            REFUSED(sambighjone_mag_ref(image, SIZE, out, n), LENGTH);
            REFUSED(sambighjone_relative_rest_deviations(image, SIZE, out, n), LENGTH);
        }
        if (n != 1)
            REFUSED(sambighjone_delta(image, SIZE, out, n), LENGTH);
        REFUSED(sambighjone_settings(image, SIZE, out, n), LENGTH);
    }
    REFUSED(sambighjone_rest(image, SIZE, words, 0), LENGTH);
    REFUSED(sambighjone_rest(image, SIZE, words, 2), LENGTH);
    REFUSED(sambighjone_disturbed(image, SIZE, words, 0), LENGTH);
    REFUSED(sambighjone_disturbed(image, SIZE, words, 2), LENGTH);
}

static void wrong_switches(uint32_t on)
{
    REFUSED(sambighjone_set_motion_bias_est_enabled(image, SIZE, on), SAMBIGHJONE_BAD_SETTING);
    REFUSED(sambighjone_set_rest_bias_est_enabled(image, SIZE, on), SAMBIGHJONE_BAD_SETTING);
    REFUSED(sambighjone_set_mag_dist_rejection_enabled(image, SIZE, on), SAMBIGHJONE_BAD_SETTING);
}

/* A flag that is taken leaves a filter that has it; one that is refused leaves the house filter. */
static void flags(int place)
{
    volatile double zero = 0.0;
    const double refused[] = {0.5, -1.0, 2.0, 255.0, zero / zero, 1.0 / zero, -1.0 / zero};
    const double taken[] = {0.0, -0.0, 1.0};
    double house[SIZE], settings[SETTINGS], held[SETTINGS];
    sambighjone_fresh(house, SIZE);
    for (size_t i = 0; i < sizeof refused / sizeof *refused; i++) {
        prepare();
        memcpy(settings, house, sizeof settings);
        settings[place] = refused[i];
        uint32_t answer = sambighjone_build(image, SIZE, 0.01, 0.01, 0.01, settings, SETTINGS);
        told("a flag that is neither", answer, SAMBIGHJONE_BAD_SETTING, memcmp(house, image, sizeof house) == 0);
    }
    for (size_t i = 0; i < sizeof taken / sizeof *taken; i++) {
        prepare();
        memcpy(settings, house, sizeof settings);
        settings[place] = taken[i];
        uint32_t answer = sambighjone_build(image, SIZE, 0.01, 0.01, 0.01, settings, SETTINGS);
        sambighjone_settings(image, SIZE, held, SETTINGS);
        told("a flag", answer, SAMBIGHJONE_DONE, held[place] == taken[i]);
    }
}

int main(void)
{
    wrong_images(0);
    wrong_images(SIZE - 1);
    wrong_images(SIZE + 1);
    wrong_lists();
    wrong_switches(2);
    wrong_switches(UINT32_MAX);
    flags(SAMBIGHJONE_REST_BIAS_EST_ENABLED);
    flags(SAMBIGHJONE_MAG_DIST_REJECTION_ENABLED);
    flags(SAMBIGHJONE_MOTION_BIAS_EST_ENABLED);
    if (!wrong)
        printf("%d calls answer as the header says\n", tried);
    return wrong;
}
