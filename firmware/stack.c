/* How much stack each call needs: it is made on a stack that was filled with a pattern, and what lies
 * between the lowest byte that was written and the top is counted, less what a call of an empty
 * function takes. Each call is made many times, over a reader that turns and then rests, and the most
 * is printed. For x86-64 with glibc. */
#define _XOPEN_SOURCE 700
#include <stdio.h>
#include <string.h>
#include <ucontext.h>

#include "../include/sambighjone.h"

#define SIZE SAMBIGHJONE_SIZE
#define SETTINGS SAMBIGHJONE_SETTINGS
#define STACK (1 << 18)
#define PATTERN 0xa5

static unsigned char stack[STACK] __attribute__((aligned(64)));
static ucontext_t here, there;

static double image[SIZE], settings[SETTINGS], out[SETTINGS], samples[9];
static uint32_t words[3];

static size_t used(void (*call)(void))
{
    size_t low = 0;
    memset(stack, PATTERN, sizeof stack);
    getcontext(&there);
    there.uc_stack.ss_sp = stack;
    there.uc_stack.ss_size = sizeof stack;
    there.uc_link = &here;
    makecontext(&there, call, 0);
    swapcontext(&here, &there);
    while (low < sizeof stack && stack[low] == PATTERN)
        low++;
    return sizeof stack - low;
}

static void nothing(void) {}
static void fresh(void) { sambighjone_fresh(image, SIZE); }
static void build(void) { sambighjone_build(image, SIZE, 0.01, 0.01, 0.01, settings, SETTINGS); }
static void feed_gyr(void) { sambighjone_feed_gyr(image, SIZE, samples[0], samples[1], samples[2]); }
static void feed_gyr_with_ts(void) { sambighjone_feed_gyr_with_ts(image, SIZE, samples[0], samples[1], samples[2], 0.01); }
static void feed_acc(void) { sambighjone_feed_acc(image, SIZE, samples[3], samples[4], samples[5]); }
static void feed_mag(void) { sambighjone_feed_mag(image, SIZE, samples[6], samples[7], samples[8]); }
static void update(void) { sambighjone_update(image, SIZE, samples, 9, words, 3); }
static void set_tau_acc(void) { sambighjone_set_tau_acc(image, SIZE, image[SAMBIGHJONE_TAU_ACC] == 3.0 ? 2.0 : 3.0); }
static void set_tau_mag(void) { sambighjone_set_tau_mag(image, SIZE, 8.0); }
static void set_motion(void) { sambighjone_set_motion_bias_est_enabled(image, SIZE, image[SAMBIGHJONE_MOTION_BIAS_EST_ENABLED] == 0.0); }
static void set_rest(void) { sambighjone_set_rest_bias_est_enabled(image, SIZE, image[SAMBIGHJONE_REST_BIAS_EST_ENABLED] == 0.0); }
static void set_dist(void) { sambighjone_set_mag_dist_rejection_enabled(image, SIZE, image[SAMBIGHJONE_MAG_DIST_REJECTION_ENABLED] == 0.0); }
static void set_thresholds(void) { sambighjone_set_rest_detection_thresholds(image, SIZE, 2.0, 0.5); }
static void set_bias(void) { sambighjone_set_bias_estimate(image, SIZE, 0.0, 0.0, 0.0); }
static void set_bias_with_sigma(void) { sambighjone_set_bias_estimate_with_sigma(image, SIZE, 0.0, 0.0, 0.0, 0.01); }
static void set_mag_ref(void) { sambighjone_set_mag_ref(image, SIZE, 48.0, 1.1); }
static void reset_state(void) { sambighjone_reset_state(image, SIZE); }
static void quat_3d(void) { sambighjone_quat_3d(image, SIZE, out, 4); }
static void quat_6d(void) { sambighjone_quat_6d(image, SIZE, out, 4); }
static void quat_9d(void) { sambighjone_quat_9d(image, SIZE, out, 4); }
static void delta(void) { sambighjone_delta(image, SIZE, out, 1); }
static void bias(void) { sambighjone_bias(image, SIZE, out, 4); }
static void mag_ref(void) { sambighjone_mag_ref(image, SIZE, out, 2); }
static void deviations(void) { sambighjone_relative_rest_deviations(image, SIZE, out, 2); }
static void all_settings(void) { sambighjone_settings(image, SIZE, out, SETTINGS); }
static void rest(void) { sambighjone_rest(image, SIZE, words, 1); }
static void disturbed(void) { sambighjone_disturbed(image, SIZE, words, 1); }

static const struct {
    const char *name;
    void (*call)(void);
} calls[] = {
    {"fresh", fresh}, {"build", build}, {"feed_gyr", feed_gyr}, {"feed_gyr_with_ts", feed_gyr_with_ts},
    {"feed_acc", feed_acc}, {"feed_mag", feed_mag}, {"update", update}, {"set_tau_acc", set_tau_acc},
    {"set_tau_mag", set_tau_mag}, {"set_motion_bias_est_enabled", set_motion},
    {"set_rest_bias_est_enabled", set_rest}, {"set_mag_dist_rejection_enabled", set_dist},
    {"set_rest_detection_thresholds", set_thresholds}, {"set_bias_estimate", set_bias},
    {"set_bias_estimate_with_sigma", set_bias_with_sigma}, {"set_mag_ref", set_mag_ref},
    {"reset_state", reset_state}, {"quat_3d", quat_3d}, {"quat_6d", quat_6d}, {"quat_9d", quat_9d},
    {"delta", delta}, {"bias", bias}, {"mag_ref", mag_ref}, {"relative_rest_deviations", deviations},
    {"settings", all_settings}, {"rest", rest}, {"disturbed", disturbed},
};

#define CALLS (sizeof calls / sizeof *calls)

/* Samples of a reader that turns for two seconds out of four. */
static void next_samples(int i)
{
    double moves = i % 400 < 200 ? 1.0 : 0.0;
    double turning[9] = {0.3 * moves, -0.2 * moves, 0.6 * moves, moves * (i % 7), 0.0, 9.81, 20.0 - moves * (i % 11), 5.0, -40.0};
    memcpy(samples, turning, sizeof samples);
}

int main(void)
{
    size_t most[CALLS] = {0}, empty;
    sambighjone_fresh(image, SIZE);
    sambighjone_settings(image, SIZE, settings, SETTINGS);
    used(nothing);
    empty = used(nothing);
    for (size_t k = 0; k < CALLS; k++) {
        sambighjone_fresh(image, SIZE);
        for (int i = 0; i < 1200; i++) {
            size_t n;
            next_samples(i);
            n = used(calls[k].call);
            if (i > 0 && n > most[k])
                most[k] = n;
            sambighjone_update(image, SIZE, samples, 9, words, 3);
        }
        printf("%-32s %6zu\n", calls[k].name, most[k] - empty);
    }
    return 0;
}
