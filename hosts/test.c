/* A host in C: lends detectors to libhost.a and compares each answer, and every field after it, with the steps in the file that it is given.
 * A line of that file is a call's letter and nine numbers, then kind or refusal, score and flag, then the nine fields of the detector;
 * all hexadecimal, floats by their bits. The letter p is no call: this host puts the nine numbers into its detector.
 * The oracle's program `steps` writes the file from the original Rust, with the means that document 02 keeps. */
#include "shedgrommet_detector.h"

#include <float.h>
#include <inttypes.h>
#include <math.h>
#include <stdio.h>
#include <string.h>
#include <xmmintrin.h>

enum { ARGUMENTS = 9, ANSWERS = 3, FIELDS = 9, GUARD = 0x5AA5C33C };

/* The detector that this host keeps, between two numbers that no call may change. */
static struct {
    uint32_t before;
    EwmaDetector detector;
    uint32_t after;
} kept = {.before = GUARD, .after = GUARD};

static float float_of(uint32_t bits)
{
    float x;
    memcpy(&x, &bits, sizeof x);
    return x;
}

/* All NaNs count as one. */
static uint32_t bits_of(float x)
{
    uint32_t bits;
    memcpy(&bits, &x, sizeof bits);
    return isnan(x) ? 0x7FC00000 : bits;
}

static void made(MadeDetector m, uint32_t *answer)
{
    kept.detector = m.detector;
    answer[0] = m.refusal;
}

static void place(const uint32_t *n)
{
    kept.detector = (EwmaDetector){
        .mean = float_of(n[0]),
        .variance = float_of(n[1]),
        .alpha = float_of(n[2]),
        .z_threshold = float_of(n[3]),
        .count = n[4],
        .frozen = n[5] != 0,
        .freeze_remaining = n[6],
        .freeze_duration = n[7],
        .warmup_count = n[8],
    };
}

static void step(char call, const uint32_t *n, uint32_t *answer)
{
    SampleAnswer s;
    switch (call) {
    case 'a':
        made(detector_new(float_of(n[0]), float_of(n[1])), answer);
        break;
    case 'o':
        made(detector_with_options(float_of(n[0]), float_of(n[1]), n[2], n[3]), answer);
        break;
    case 'u':
        s = detector_update(&kept.detector, float_of(n[0]));
        answer[0] = s.kind;
        answer[1] = bits_of(s.z_score);
        answer[2] = s.is_anomalous;
        break;
    case 'p':
        place(n);
        break;
    case 'z':
        answer[0] = detector_set_freeze_duration(&kept.detector, n[0]);
        break;
    default:
        detector_recalibrate(&kept.detector, float_of(n[0]));
    }
}

static void look(uint32_t *fields)
{
    const EwmaDetector *d = &kept.detector;
    const uint32_t all[FIELDS] = {bits_of(d->mean), bits_of(d->variance), bits_of(d->alpha), bits_of(d->z_threshold), d->count, d->frozen, d->freeze_remaining, d->freeze_duration, d->warmup_count};
    memcpy(fields, all, sizeof all);
}

static int read_numbers(FILE *file, uint32_t *to, int count)
{
    for (int i = 0; i < count; i++)
        if (fscanf(file, "%" SCNx32, &to[i]) != 1)
            return 0;
    return 1;
}

static void show(const char *who, const uint32_t *got)
{
    fprintf(stderr, "%s", who);
    for (int i = 0; i < ANSWERS + FIELDS; i++)
        fprintf(stderr, " %" PRIX32, got[i]);
    fprintf(stderr, "\n");
}

/* A host may let the processor's flag for an invalid operation trap: no call raises it for a float that is infinite, whose square is, or that is a quiet NaN. */
static int raises_no_flag(void)
{
    EwmaDetector detector = detector_new(0.5f, 3.0f).detector;
    _mm_setcsr(_mm_getcsr() & ~(unsigned)_MM_EXCEPT_MASK);
    detector_new(INFINITY, 3.0f);
    detector_with_options(0.5f, -INFINITY, 1, 1);
    detector_update(&detector, 1.0f);
    detector_update(&detector, FLT_MAX);
    detector_update(&detector, INFINITY);
    detector_update(&detector, NAN);
    detector_recalibrate(&detector, -INFINITY);
    detector_recalibrate(&detector, NAN);
    return (_mm_getcsr() & _MM_EXCEPT_INVALID) == 0;
}

int main(int count, char **words)
{
    FILE *file = count == 2 ? fopen(words[1], "r") : NULL;
    if (file == NULL) {
        fprintf(stderr, "usage: test STEPS\n");
        return 2;
    }
    if (!raises_no_flag()) {
        fprintf(stderr, "hosts: a call raised the flag for an invalid operation\n");
        return 1;
    }
    char call;
    int steps = 0;
    uint32_t arguments[ARGUMENTS], expected[ANSWERS + FIELDS];
    while (fscanf(file, " %c", &call) == 1) {
        uint32_t got[ANSWERS + FIELDS] = {0};
        if (!read_numbers(file, arguments, ARGUMENTS) || !read_numbers(file, expected, ANSWERS + FIELDS)) {
            fprintf(stderr, "hosts: step %d of %s is cut\n", steps + 1, words[1]);
            return 2;
        }
        step(call, arguments, got);
        look(got + ANSWERS);
        steps++;
        if (memcmp(got, expected, sizeof got) != 0 || kept.before != GUARD || kept.after != GUARD) {
            fprintf(stderr, "hosts: DIFFERENT at step %d, %c %" PRIX32 "\n", steps, call, arguments[0]);
            show("the original:", expected);
            show("the library: ", got);
            return 1;
        }
    }
    fclose(file);
    printf("%d", steps);
    return steps > 0 ? 0 : 1;
}
