/* Plays a call script from the standard input through the library and prints what docs/CALLS.md says,
 * but of the state line the settings alone. It ends with 1 at a line that it does not know, and where
 * a call does not answer as the header says. */
#include <stdlib.h>

#include "lines.h"

#define WORDS 32

static double image[SAMBIGHJONE_SIZE];

/* Where an image has the settings, in the order of the source's Params. */
static const int in_source_order[SAMBIGHJONE_SETTINGS] = {
    SAMBIGHJONE_TAU_ACC,
    SAMBIGHJONE_TAU_MAG,
    SAMBIGHJONE_MOTION_BIAS_EST_ENABLED,
    SAMBIGHJONE_REST_BIAS_EST_ENABLED,
    SAMBIGHJONE_MAG_DIST_REJECTION_ENABLED,
    SAMBIGHJONE_BIAS_SIGMA_INIT,
    SAMBIGHJONE_BIAS_FORGETTING_TIME,
    SAMBIGHJONE_BIAS_CLIP,
    SAMBIGHJONE_BIAS_SIGMA_MOTION,
    SAMBIGHJONE_BIAS_VERTICAL_FORGETTING_FACTOR,
    SAMBIGHJONE_BIAS_SIGMA_REST,
    SAMBIGHJONE_REST_MIN_T,
    SAMBIGHJONE_REST_FILTER_TAU,
    SAMBIGHJONE_REST_TH_GYR,
    SAMBIGHJONE_REST_TH_ACC,
    SAMBIGHJONE_MAG_CURRENT_TAU,
    SAMBIGHJONE_MAG_REF_TAU,
    SAMBIGHJONE_MAG_NORM_TH,
    SAMBIGHJONE_MAG_DIP_TH,
    SAMBIGHJONE_MAG_NEW_TIME,
    SAMBIGHJONE_MAG_NEW_FIRST_TIME,
    SAMBIGHJONE_MAG_NEW_MIN_GYR,
    SAMBIGHJONE_MAG_MIN_UNDISTURBED_TIME,
    SAMBIGHJONE_MAG_MAX_REJECTION_TIME,
    SAMBIGHJONE_MAG_REJECTION_FACTOR,
};

static int is_flag(int place)
{
    return place == SAMBIGHJONE_MOTION_BIAS_EST_ENABLED || place == SAMBIGHJONE_REST_BIAS_EST_ENABLED ||
           place == SAMBIGHJONE_MAG_DIST_REJECTION_ENABLED;
}

static int read_line(char *line, int room)
{
    int c, n = 0;
    while ((c = getchar()) != EOF && c != '\n' && n < room - 1)
        line[n++] = (char)c;
    line[n] = 0;
    return c == '\n';
}

static int split(char *line, char **words)
{
    int n = 0;
    for (char *at = line; n < WORDS; at++) {
        words[n++] = at;
        while (*at != ' ' && *at != 0)
            at++;
        if (*at == 0)
            return n;
        *at = 0;
    }
    return n;
}

static double number(const char *word)
{
    uint64_t bits = strtoull(word, NULL, 16);
    double x;
    memcpy(&x, &bits, sizeof x);
    return x;
}

static double interval(const char *word, double gyr_ts)
{
    return strcmp(word, "-") == 0 ? gyr_ts : number(word);
}

static int build(char **words, int n, uint32_t *answer)
{
    double settings[SAMBIGHJONE_SETTINGS], house[SAMBIGHJONE_SIZE];
    double gyr_ts = number(words[1]);
    if (n == 4 + SAMBIGHJONE_SETTINGS) {
        for (int i = 0; i < SAMBIGHJONE_SETTINGS; i++) {
            int place = in_source_order[i];
            settings[place] = is_flag(place) ? words[4 + i][0] - '0' : number(words[4 + i]);
        }
    } else if (sambighjone_fresh(house, SAMBIGHJONE_SIZE) != SAMBIGHJONE_DONE ||
               sambighjone_settings(house, SAMBIGHJONE_SIZE, settings, SAMBIGHJONE_SETTINGS) != SAMBIGHJONE_DONE) {
        return 1;
    }
    *answer = sambighjone_build(image, SAMBIGHJONE_SIZE, gyr_ts, interval(words[2], gyr_ts),
                                interval(words[3], gyr_ts), settings, SAMBIGHJONE_SETTINGS);
    return 0;
}

static int update(char **words, int n)
{
    double samples[9];
    uint32_t answers[3] = {0, 0, 0};
    int count = n == 10 ? 9 : 6;
    for (int i = 0; i < count; i++)
        samples[i] = number(words[1 + i]);
    uint32_t first = sambighjone_update(image, SAMBIGHJONE_SIZE, samples, (size_t)count, answers, 3);
    printf("upd %" PRIu32 " %" PRIu32 " %" PRIu32 "\n", answers[0], answers[1], answers[2]);
    return first != (answers[0] ? answers[0] : answers[1] ? answers[1] : answers[2]);
}

static int settings_line(void)
{
    double settings[SAMBIGHJONE_SETTINGS];
    if (sambighjone_settings(image, SAMBIGHJONE_SIZE, settings, SAMBIGHJONE_SETTINGS) != SAMBIGHJONE_DONE)
        return 1;
    printf("=");
    for (int i = 0; i < SAMBIGHJONE_SETTINGS; i++) {
        int place = in_source_order[i];
        if (is_flag(place))
            printf(" %d", settings[place] == 1.0);
        else
            numbers(stdout, &settings[place], 1);
    }
    printf("\n");
    return 0;
}

static int play(char **w, int n)
{
    double x[4] = {0.0, 0.0, 0.0, 0.0};
    uint32_t answer = 0;
    int is_switch = n == 2 && w[1][1] == 0;
    for (int i = 1; i < n && i <= 4; i++)
        x[i - 1] = number(w[i]);
    if (strcmp(w[0], "get") == 0 && n == 1)
        return answers_line(stdout, image);
    if (strcmp(w[0], "state") == 0 && n == 1)
        return settings_line();
    if (strcmp(w[0], "upd") == 0 && (n == 8 || n == 10))
        return update(w, n);
    if (strcmp(w[0], "new") == 0 && (n == 5 || n == 4 + SAMBIGHJONE_SETTINGS)) {
        if (build(w, n, &answer))
            return 1;
    } else if (strcmp(w[0], "gyr") == 0 && n == 4)
        answer = sambighjone_feed_gyr(image, SAMBIGHJONE_SIZE, x[0], x[1], x[2]);
    else if (strcmp(w[0], "gyrts") == 0 && n == 5)
        answer = sambighjone_feed_gyr_with_ts(image, SAMBIGHJONE_SIZE, x[0], x[1], x[2], x[3]);
    else if (strcmp(w[0], "acc") == 0 && n == 4)
        answer = sambighjone_feed_acc(image, SAMBIGHJONE_SIZE, x[0], x[1], x[2]);
    else if (strcmp(w[0], "mag") == 0 && n == 4)
        answer = sambighjone_feed_mag(image, SAMBIGHJONE_SIZE, x[0], x[1], x[2]);
    else if (strcmp(w[0], "tau_acc") == 0 && n == 2)
        answer = sambighjone_set_tau_acc(image, SAMBIGHJONE_SIZE, x[0]);
    else if (strcmp(w[0], "tau_mag") == 0 && n == 2)
        answer = sambighjone_set_tau_mag(image, SAMBIGHJONE_SIZE, x[0]);
    else if (strcmp(w[0], "motion") == 0 && is_switch)
        answer = sambighjone_set_motion_bias_est_enabled(image, SAMBIGHJONE_SIZE, (uint32_t)(w[1][0] - '0'));
    else if (strcmp(w[0], "rest") == 0 && is_switch)
        answer = sambighjone_set_rest_bias_est_enabled(image, SAMBIGHJONE_SIZE, (uint32_t)(w[1][0] - '0'));
    else if (strcmp(w[0], "dist") == 0 && is_switch)
        answer = sambighjone_set_mag_dist_rejection_enabled(image, SAMBIGHJONE_SIZE, (uint32_t)(w[1][0] - '0'));
    else if (strcmp(w[0], "th") == 0 && n == 3)
        answer = sambighjone_set_rest_detection_thresholds(image, SAMBIGHJONE_SIZE, x[0], x[1]);
    else if (strcmp(w[0], "bias") == 0 && n == 5 && strcmp(w[4], "-") == 0)
        answer = sambighjone_set_bias_estimate(image, SAMBIGHJONE_SIZE, x[0], x[1], x[2]);
    else if (strcmp(w[0], "bias") == 0 && n == 5)
        answer = sambighjone_set_bias_estimate_with_sigma(image, SAMBIGHJONE_SIZE, x[0], x[1], x[2], x[3]);
    else if (strcmp(w[0], "magref") == 0 && n == 3)
        answer = sambighjone_set_mag_ref(image, SAMBIGHJONE_SIZE, x[0], x[1]);
    else if (strcmp(w[0], "reset") == 0 && n == 1)
        answer = sambighjone_reset_state(image, SAMBIGHJONE_SIZE);
    else
        return 1;
    printf("%s %" PRIu32 "\n", w[0], answer);
    return 0;
}

int main(void)
{
    char line[1024];
    char *words[WORDS];
    if (sambighjone_fresh(image, SAMBIGHJONE_SIZE) != SAMBIGHJONE_DONE)
        return 1;
    for (int number = 1; read_line(line, sizeof line); number++)
        if (play(words, split(line, words))) {
            printf("bad %d\n", number);
            return 1;
        }
    return 0;
}
