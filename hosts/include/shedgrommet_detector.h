/* The detector for hosts that keep their own: what libhost.a exports. Made by `rt lib` in crates/host_c, which names it
 * libhost_c.a (hosts/check copies it); x86-64, System V calls.
 * What each function promises is proved; crates/host/src/lib.rt states it, docs/PROMISES.md says it in words.
 *
 * The host owes the following, and nothing checks it:
 *  - a detector pointer is not null, is aligned to four bytes, and points to a whole EwmaDetector;
 *  - during a call the detector is the call's alone: no other thread reads or writes it;
 *  - the byte of `frozen` is 0 or 1;
 *  - the rounding mode and the treatment of subnormals in MXCSR are the usual ones: to nearest with ties to even, and nothing flushed to zero.
 * All other bytes may be anything: the promises hold for every detector, one that no call makes included.
 *
 * The library keeps no pointer, has no global state, allocates nothing and calls nothing outside itself.
 * So distinct detectors may be moved by distinct threads, and a detector may be copied, stored and read between calls.
 * All NaNs count as one: which NaN's bits stand in a field is not promised. A score is never a NaN, and a mean that is finite stays finite. */
#ifndef SHEDGROMMET_DETECTOR_H
#define SHEDGROMMET_DETECTOR_H

#include <stdbool.h>
#include <stddef.h>
#include <stdint.h>

#ifdef __cplusplus
extern "C" {
#endif

/* Mean and variance of the samples folded so far, the settings, and the freeze that runs. */
typedef struct {
    float mean;
    float variance;
    float alpha;
    float z_threshold;
    uint32_t count;
    bool frozen;
    uint32_t freeze_remaining;
    uint32_t freeze_duration;
    uint32_t warmup_count;
} EwmaDetector;

/* What a sample was to the detector. */
enum {
    SAMPLE_IGNORED = 0, /* not finite: it changed nothing, and has no score */
    SAMPLE_FIRST = 1,   /* the first sample: it set the mean, and has no score */
    SAMPLE_WARMING = 2, /* within the warm-up: it was folded where that leaves the mean finite, and scores 0 */
    SAMPLE_SCORED = 3   /* scored against the mean and variance before it */
};

/* The kind of a sample, its score, and whether it is anomalous. Where there is no score z_score is +0 and is_anomalous false. */
typedef struct {
    uint32_t kind;
    float z_score;
    bool is_anomalous;
} SampleAnswer;

/* The numbers that stand where nothing is refused, where alpha or the threshold is, and where the freeze duration is. */
enum {
    DETECTOR_ACCEPTED = 0,
    DETECTOR_SETTINGS_REFUSED = 7,
    DETECTOR_DURATION_REFUSED = 8
};

/* A new detector beside 0, or 7 beside a detector all of whose fields are 0. */
typedef struct {
    uint32_t refusal;
    EwmaDetector detector;
} MadeDetector;

/* A detector before its first sample, with a freeze of 10 and a warm-up of 5 samples.
 * Refused (7) exactly where alpha is not finite, not above 0 or above 1, or the threshold is not finite or below 0. */
MadeDetector detector_new(float alpha, float z_threshold);

/* The same with the host's own freeze and warm-up. Either may be 0; a freeze of 0 acts like 1. */
MadeDetector detector_with_options(float alpha, float z_threshold, uint32_t freeze_duration, uint32_t warmup_count);

/* One sample, any float: the detector becomes the one after it, and the answer says what the sample was.
 * A sample that is not finite leaves every field as it was. One that would make the mean infinite or a NaN is not folded: mean and variance stay,
 * and the count rises. */
SampleAnswer detector_update(EwmaDetector *detector, float value);

/* Another freeze duration: 0 is answered; a freeze that runs stays as it is.
 * Refused (8) exactly where the duration is 0, and then every field stays as it was. */
uint32_t detector_set_freeze_duration(EwmaDetector *detector, uint32_t duration);

/* A finite baseline becomes the mean, variance and freeze are cleared, and the count is kept. One that is not finite changes nothing. */
void detector_recalibrate(EwmaDetector *detector, float baseline);

/* The layout that the library was compiled with. */
#ifdef __cplusplus
#define DETECTOR_ASSERT static_assert
#else
#define DETECTOR_ASSERT _Static_assert
#endif
#define DETECTOR_SIZE(type, size) DETECTOR_ASSERT(sizeof(type) == (size), #type " has another size in the library")
#define DETECTOR_PLACE(type, field, place) DETECTOR_ASSERT(offsetof(type, field) == (place), #type "." #field " stands elsewhere in the library")
DETECTOR_SIZE(float, 4);
DETECTOR_SIZE(bool, 1);
DETECTOR_SIZE(EwmaDetector, 36);
DETECTOR_PLACE(EwmaDetector, mean, 0);
DETECTOR_PLACE(EwmaDetector, variance, 4);
DETECTOR_PLACE(EwmaDetector, alpha, 8);
DETECTOR_PLACE(EwmaDetector, z_threshold, 12);
DETECTOR_PLACE(EwmaDetector, count, 16);
DETECTOR_PLACE(EwmaDetector, frozen, 20);
DETECTOR_PLACE(EwmaDetector, freeze_remaining, 24);
DETECTOR_PLACE(EwmaDetector, freeze_duration, 28);
DETECTOR_PLACE(EwmaDetector, warmup_count, 32);
DETECTOR_SIZE(SampleAnswer, 12);
DETECTOR_PLACE(SampleAnswer, kind, 0);
DETECTOR_PLACE(SampleAnswer, z_score, 4);
DETECTOR_PLACE(SampleAnswer, is_anomalous, 8);
DETECTOR_SIZE(MadeDetector, 40);
DETECTOR_PLACE(MadeDetector, refusal, 0);
DETECTOR_PLACE(MadeDetector, detector, 4);
#undef DETECTOR_PLACE
#undef DETECTOR_SIZE
#undef DETECTOR_ASSERT

#ifdef __cplusplus
}
#endif

#endif
