/* Sambighjone: an orientation filter for a gyroscope, an accelerometer and a magnetometer.
 * It follows the Rust filter vqf-rs 0.3.0, and adds the refusals below.
 *
 * The caller keeps the filter as an image of SAMBIGHJONE_SIZE doubles and lends it to each call; the
 * library keeps nothing of its own. Each array is passed as a pointer and its number of elements. A
 * call writes to the image, to `out` or to `answers` alone, never past the number given, and
 * allocates nothing. Arrays of one call must not overlap.
 *
 * Units: rates in rad/s, accelerations in m/s^2, any unit for the magnetic field, times in seconds.
 * Each quaternion is w, x, y, z.
 *
 * Every call answers a number of enum sambighjone_answer. After any but SAMBIGHJONE_DONE the image,
 * `out` and `answers` are as they were, save that sambighjone_build leaves the house filter beside
 * SAMBIGHJONE_BAD_SETTING, and that sambighjone_update tells three answers. (An image that this
 * library did not make is first read as docs/FIRMWARE.md says, and after 1 to 6 is the image of what
 * was read.) */
#ifndef SAMBIGHJONE_H
#define SAMBIGHJONE_H

#include <stddef.h>
#include <stdint.h>

#define SAMBIGHJONE_VERSION_MAJOR 1
#define SAMBIGHJONE_VERSION_MINOR 0
#define SAMBIGHJONE_VERSION_PATCH 0
#define SAMBIGHJONE_VERSION "1.0.0"

/* The numbers of an image, and how many of them, from the first on, are the settings. */
#define SAMBIGHJONE_SIZE 170
#define SAMBIGHJONE_SETTINGS 25

enum sambighjone_answer {
    SAMBIGHJONE_DONE = 0,
    /* an accelerometer or magnetometer sample is all zero */
    SAMBIGHJONE_ZERO_SAMPLE = 1,
    /* a sample's component is a NaN or outside its limits: rates 200, accelerations 1000, field
     * 1000000 */
    SAMBIGHJONE_BAD_SAMPLE = 2,
    /* the interval of a sample is outside 0.0001 to 1 */
    SAMBIGHJONE_BAD_INTERVAL = 3,
    /* a setting, a flag, the value of a setter or an interval of sambighjone_build is outside its
     * limits */
    SAMBIGHJONE_BAD_SETTING = 4,
    /* a matrix has no inverse: its determinant is within 2^-52 of 0, a NaN or infinite
     * (accelerometer) */
    SAMBIGHJONE_SINGULAR = 5,
    /* a number to be stored would not be finite */
    SAMBIGHJONE_NOT_FINITE = 6,
    /* The library's own numbers start at 100; the filter's stay below.
     * An array has another number of elements than the call asks for. */
    SAMBIGHJONE_WRONG_LENGTH = 100
};

/* The place of each setting, in an image and in what sambighjone_build and sambighjone_settings take.
 * A flag is 0.0 or 1.0. */
#define SAMBIGHJONE_TAU_ACC 0
#define SAMBIGHJONE_REST_BIAS_EST_ENABLED 1 /* flag */
#define SAMBIGHJONE_MAG_DIST_REJECTION_ENABLED 2 /* flag */
#define SAMBIGHJONE_BIAS_CLIP 3
#define SAMBIGHJONE_REST_MIN_T 4
#define SAMBIGHJONE_REST_FILTER_TAU 5
#define SAMBIGHJONE_REST_TH_GYR 6
#define SAMBIGHJONE_REST_TH_ACC 7
#define SAMBIGHJONE_MOTION_BIAS_EST_ENABLED 8 /* flag */
#define SAMBIGHJONE_BIAS_SIGMA_INIT 9
#define SAMBIGHJONE_BIAS_FORGETTING_TIME 10
#define SAMBIGHJONE_BIAS_SIGMA_MOTION 11
#define SAMBIGHJONE_BIAS_VERTICAL_FORGETTING_FACTOR 12
#define SAMBIGHJONE_BIAS_SIGMA_REST 13
#define SAMBIGHJONE_TAU_MAG 14
#define SAMBIGHJONE_MAG_CURRENT_TAU 15
#define SAMBIGHJONE_MAG_REF_TAU 16
#define SAMBIGHJONE_MAG_NORM_TH 17
#define SAMBIGHJONE_MAG_DIP_TH 18
#define SAMBIGHJONE_MAG_NEW_TIME 19
#define SAMBIGHJONE_MAG_NEW_FIRST_TIME 20
#define SAMBIGHJONE_MAG_NEW_MIN_GYR 21
#define SAMBIGHJONE_MAG_MIN_UNDISTURBED_TIME 22
#define SAMBIGHJONE_MAG_MAX_REJECTION_TIME 23
#define SAMBIGHJONE_MAG_REJECTION_FACTOR 24

#ifdef __cplusplus
extern "C" {
#endif

/* ---- make: before the first other call */

/* The house filter: intervals of 0.01 s and the house settings. */
uint32_t sambighjone_fresh(double *image, size_t size);

/* A filter with intervals and settings of its own: `count` is SAMBIGHJONE_SETTINGS. */
uint32_t sambighjone_build(double *image, size_t size, double gyr_ts, double acc_ts, double mag_ts,
                           const double *settings, size_t count);

/* ---- feed: one sample */

uint32_t sambighjone_feed_gyr(double *image, size_t size, double x, double y, double z);

/* With the time since the gyroscope sample before. */
uint32_t sambighjone_feed_gyr_with_ts(double *image, size_t size, double x, double y, double z,
                                      double ts);

uint32_t sambighjone_feed_acc(double *image, size_t size, double x, double y, double z);

uint32_t sambighjone_feed_mag(double *image, size_t size, double x, double y, double z);

/* A sample of each sensor: 6 numbers, of the gyroscope and the accelerometer, or 9 with the
 * magnetometer's. The three steps are taken in turn; a refused one does not stop the next. `answers`
 * has 3 elements and is told the answer of each, 0 for a magnetometer that is absent. The call answers
 * the first of them that is not 0. */
uint32_t sambighjone_update(double *image, size_t size, const double *samples, size_t count,
                            uint32_t *answers, size_t answers_count);

/* ---- set: a value outside its limits is SAMBIGHJONE_BAD_SETTING */

uint32_t sambighjone_set_tau_acc(double *image, size_t size, double tau);

uint32_t sambighjone_set_tau_mag(double *image, size_t size, double tau);

/* `on` is 0 or 1; any other number is SAMBIGHJONE_BAD_SETTING. */
uint32_t sambighjone_set_motion_bias_est_enabled(double *image, size_t size, uint32_t on);

uint32_t sambighjone_set_rest_bias_est_enabled(double *image, size_t size, uint32_t on);

uint32_t sambighjone_set_mag_dist_rejection_enabled(double *image, size_t size, uint32_t on);

/* In degrees per second and m/s^2. */
uint32_t sambighjone_set_rest_detection_thresholds(double *image, size_t size, double th_gyr,
                                                   double th_acc);

/* The gyroscope's bias in rad/s, each component within the filter's own clip: the setting at
 * SAMBIGHJONE_BIAS_CLIP, which is in degrees per second. How sure it is stays. */
uint32_t sambighjone_set_bias_estimate(double *image, size_t size, double x, double y, double z);

/* With its standard deviation in rad/s, 0 to 100. */
uint32_t sambighjone_set_bias_estimate_with_sigma(double *image, size_t size, double x, double y,
                                                  double z, double sigma);

/* The norm of the undisturbed field, and its dip in rad. */
uint32_t sambighjone_set_mag_ref(double *image, size_t size, double norm, double dip);

/* The filter as it was built, with the settings that it has now. */
uint32_t sambighjone_reset_state(double *image, size_t size);

/* ---- ask */

/* The gyroscope alone: `out` has 4 elements. */
uint32_t sambighjone_quat_3d(const double *image, size_t size, double *out, size_t count);

/* The tilt, without the magnetometer: 4 elements. */
uint32_t sambighjone_quat_6d(const double *image, size_t size, double *out, size_t count);

/* Tilt and heading: 4 elements. */
uint32_t sambighjone_quat_9d(const double *image, size_t size, double *out, size_t count);

/* The heading of the magnetometer against that of the gyroscope, in rad: 1 element. */
uint32_t sambighjone_delta(const double *image, size_t size, double *out, size_t count);

/* The gyroscope's bias in rad/s, x, y, z, and its standard deviation: 4 elements. */
uint32_t sambighjone_bias(const double *image, size_t size, double *out, size_t count);

/* The norm of the undisturbed field, and its dip in rad: 2 elements. */
uint32_t sambighjone_mag_ref(const double *image, size_t size, double *out, size_t count);

/* How far the last samples are from rest, of the gyroscope and of the accelerometer, each against its
 * threshold: 2 elements. */
uint32_t sambighjone_relative_rest_deviations(const double *image, size_t size, double *out,
                                              size_t count);

/* The settings: SAMBIGHJONE_SETTINGS elements. */
uint32_t sambighjone_settings(const double *image, size_t size, double *out, size_t count);

/* Whether the sensor rests: 1 element, which is told 0 for no or 1 for yes. What the call returns is
 * its answer as of any other, and no yes. */
uint32_t sambighjone_rest(const double *image, size_t size, uint32_t *out, size_t count);

/* Whether the magnetic field is disturbed: the same. */
uint32_t sambighjone_disturbed(const double *image, size_t size, uint32_t *out, size_t count);

#ifdef __cplusplus
}
#endif

#endif
