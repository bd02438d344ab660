/* Two uses of the filter in a reader that has a sensor for each call: which way the reader points at
 * the return trolley, and how far it is turned from one shelf to the next.
 *
 * The parts to carry over are `at_the_trolley`, `between_two_shelves` and what they call. The driver
 * at the end stands in for a sensor: it makes the counts that one would give. */
#include <math.h>
#include <stdio.h>
#include <stdlib.h>

#include "../include/sambighjone.h"

#define SAMPLES_PER_SECOND 100

/* ---- the driver's side: counts of a gyroscope in 1/1024 rad/s, of an accelerometer in 1/128 m/s^2
 * and of a magnetometer in 1/16 microtesla */
struct counts {
    int16_t gyr[3], acc[3], mag[3];
};

/* Puts the sensor level and still, its second axis north. */
static void driver_start(void);
/* From here on it turns about its first axis, or about its third, at this many rad/s. */
static void driver_turns(int axis, double rate);
/* The next counts, a hundredth of a second after the last. */
static struct counts driver_read(void);

/* ---- the filter's side */

/* 1360 bytes that the firmware keeps between calls. */
static double image[SAMBIGHJONE_SIZE];

/* Every call answers. What a reader does with a refused sample is its own affair: the filter is as it
 * was before. Here nothing is expected to be refused. */
static void check(uint32_t answer, const char *call)
{
    if (answer == SAMBIGHJONE_DONE)
        return;
    printf("%s answers %u\n", call, (unsigned)answer);
    exit(1);
}

static void to_units(double *out, const int16_t *counts, double in_a_unit)
{
    for (int i = 0; i < 3; i++)
        out[i] = counts[i] / in_a_unit;
}

/* One call for each sensor: for sensors that come at their own times. */
static void feed_tilt(int samples)
{
    for (int i = 0; i < samples; i++) {
        struct counts c = driver_read();
        double gyr[3], acc[3];
        to_units(gyr, c.gyr, 1024.0);
        to_units(acc, c.acc, 128.0);
        check(sambighjone_feed_gyr(image, SAMBIGHJONE_SIZE, gyr[0], gyr[1], gyr[2]), "feed_gyr");
        check(sambighjone_feed_acc(image, SAMBIGHJONE_SIZE, acc[0], acc[1], acc[2]), "feed_acc");
    }
}

/* One call for all three: for sensors that are read together. */
static void feed_all(int samples)
{
    for (int i = 0; i < samples; i++) {
        struct counts c = driver_read();
        double nine[9];
        uint32_t answers[3];
        to_units(nine, c.gyr, 1024.0);
        to_units(nine + 3, c.acc, 128.0);
        to_units(nine + 6, c.mag, 16.0);
        check(sambighjone_update(image, SAMBIGHJONE_SIZE, nine, 9, answers, 3), "update");
    }
}

/* The third component of [0, 0, 1] rotated by the quaternion: 1 where the reader's face looks
 * straight up, -1 where it looks straight down. */
static double face(const double *q)
{
    return q[0] * q[0] - q[1] * q[1] - q[2] * q[2] + q[3] * q[3];
}

/* A scan counts as a return where the reader points down into the trolley. */
static void scan(void)
{
    double tilt[4];
    check(sambighjone_quat_6d(image, SAMBIGHJONE_SIZE, tilt, 4), "quat_6d");
    if (face(tilt) < 0.0)
        printf("pointed down (%.3f): return\n", face(tilt));
    else
        printf("not pointed down (%.3f): shelf check\n", face(tilt));
}

static void at_the_trolley(void)
{
    check(sambighjone_fresh(image, SAMBIGHJONE_SIZE), "fresh");
    driver_start();
    feed_tilt(SAMPLES_PER_SECOND);
    scan();
    driver_turns(0, 1.5);
    feed_tilt(160);
    driver_turns(0, 0.0);
    feed_tilt(50);
    scan();
}

/* The turn about the vertical that leads from one orientation to the other, in degrees. */
static double turn(const double *from, const double *to)
{
    double w = to[0] * from[0] + to[1] * from[1] + to[2] * from[2] + to[3] * from[3];
    double z = -to[0] * from[3] - to[1] * from[2] + to[2] * from[1] + to[3] * from[0];
    double degrees = 2.0 * atan2(z, w) * 180.0 / 3.141592653589793;
    return degrees > 180.0 ? degrees - 360.0 : degrees < -180.0 ? degrees + 360.0 : degrees;
}

static void between_two_shelves(void)
{
    double first[4], second[4];
    check(sambighjone_fresh(image, SAMBIGHJONE_SIZE), "fresh");
    driver_start();
    feed_all(2 * SAMPLES_PER_SECOND);
    check(sambighjone_quat_9d(image, SAMBIGHJONE_SIZE, first, 4), "quat_9d");
    driver_turns(2, 0.75);
    feed_all(209);
    driver_turns(2, 0.0);
    feed_all(2 * SAMPLES_PER_SECOND);
    check(sambighjone_quat_9d(image, SAMBIGHJONE_SIZE, second, 4), "quat_9d");
    printf("turned by %.2f degrees\n", turn(first, second));
}

int main(void)
{
    at_the_trolley();
    between_two_shelves();
    return 0;
}

/* ---- the stand-in for the driver: a reader in a field of 20 microtesla to the north and 44 down,
 * whose gyroscope has a bias of 5 counts, and whose sensors all have noise of a few counts. The four
 * operations alone, so that the counts are the same everywhere. */
static struct {
    int axis;
    double rate;
    double cosine, sine; /* of the angle by which it is turned about the axis */
    uint32_t noise;
} reader;

static void driver_start(void)
{
    reader.axis = 0;
    reader.rate = 0.0;
    reader.cosine = 1.0;
    reader.sine = 0.0;
    reader.noise = 1;
}

static void driver_turns(int axis, double rate)
{
    reader.axis = axis;
    reader.rate = rate;
}

static int16_t noisy(double counts)
{
    reader.noise = reader.noise * 1664525u + 1013904223u;
    int noise = (int)(reader.noise >> 24) % 7 - 3;
    return (int16_t)((int)(counts < 0.0 ? counts - 0.5 : counts + 0.5) + noise);
}

static struct counts driver_read(void)
{
    double step = reader.rate / SAMPLES_PER_SECOND, half = step / 2.0;
    double c = (1.0 - half * half) / (1.0 + half * half), s = step / (1.0 + half * half);
    double cosine = reader.cosine * c - reader.sine * s;
    reader.sine = reader.sine * c + reader.cosine * s;
    reader.cosine = cosine;

    /* north and up, as the reader's axes see them */
    double north[3] = {0.0, reader.cosine, -reader.sine}, up[3] = {0.0, reader.sine, reader.cosine};
    if (reader.axis == 2) {
        north[0] = reader.sine;
        north[2] = 0.0;
        up[1] = 0.0;
        up[2] = 1.0;
    }

    struct counts out;
    for (int i = 0; i < 3; i++) {
        out.gyr[i] = noisy((i == reader.axis ? reader.rate * 1024.0 : 0.0) + 5.0);
        out.acc[i] = noisy(up[i] * 9.81 * 128.0);
        out.mag[i] = noisy((north[i] * 20.0 - up[i] * 44.0) * 16.0);
    }
    return out;
}
