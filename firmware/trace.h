/* Put before firmware/example.c, this writes each call that the example makes to the error stream, as
 * a line of a call script after "> ", and below it what the library answers. */
#include <stdlib.h>

#include "lines.h"

static void traced(const char *word, const double *x, size_t n)
{
    fprintf(stderr, "> %s", word);
    numbers(stderr, x, n);
    fprintf(stderr, "\n");
}

static uint32_t traced_fresh(double *image, size_t size)
{
    uint32_t answer = sambighjone_fresh(image, size);
    fprintf(stderr, "> new 3f847ae147ae147b - - house\nnew %" PRIu32 "\n", answer);
    return answer;
}

static uint32_t traced_feed_gyr(double *image, size_t size, double x, double y, double z)
{
    double sample[3] = {x, y, z};
    uint32_t answer = sambighjone_feed_gyr(image, size, x, y, z);
    traced("gyr", sample, 3);
    fprintf(stderr, "gyr %" PRIu32 "\n", answer);
    return answer;
}

static uint32_t traced_feed_acc(double *image, size_t size, double x, double y, double z)
{
    double sample[3] = {x, y, z};
    uint32_t answer = sambighjone_feed_acc(image, size, x, y, z);
    traced("acc", sample, 3);
    fprintf(stderr, "acc %" PRIu32 "\n", answer);
    return answer;
}

static uint32_t traced_update(double *image, size_t size, const double *samples, size_t count, uint32_t *answers,
                              size_t answers_count)
{
    uint32_t answer = sambighjone_update(image, size, samples, count, answers, answers_count);
    traced("upd", samples, count);
    fprintf(stderr, "upd %" PRIu32 " %" PRIu32 " %" PRIu32 "\n", answers[0], answers[1], answers[2]);
    return answer;
}

static void traced_get(const double *image)
{
    fprintf(stderr, "> get\n");
    if (answers_line(stderr, image))
        exit(1);
}

static uint32_t traced_quat_6d(const double *image, size_t size, double *out, size_t count)
{
    traced_get(image);
    return sambighjone_quat_6d(image, size, out, count);
}

static uint32_t traced_quat_9d(const double *image, size_t size, double *out, size_t count)
{
    traced_get(image);
    return sambighjone_quat_9d(image, size, out, count);
}

#define sambighjone_fresh traced_fresh
#define sambighjone_feed_gyr traced_feed_gyr
#define sambighjone_feed_acc traced_feed_acc
#define sambighjone_update traced_update
#define sambighjone_quat_6d traced_quat_6d
#define sambighjone_quat_9d traced_quat_9d
