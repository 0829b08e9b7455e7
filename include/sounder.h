/* The crossing sounder for C: images of coefficient tables, read, rewritten and merged; voices, made and played; how loud by the minute.
 *
 * Every function answers for every argument; none allocates, and none writes but to the target or the output that it is lent, or, of those
 * that are handed a pointer to a voice, to that voice. A slice is a pointer and a length in elements. A pointer may not be null, also where
 * its length is 0. Nothing that a function writes to may overlap another of its arguments. */
#ifndef SOUNDER_H
#define SOUNDER_H

#include <stddef.h>
#include <stdint.h>

#ifdef __cplusplus
extern "C" {
#endif

/* The number of the question that was answered no, with the values that it names (0 where it names none); number 0 where all
 * were answered yes.
 *   1 the image is longer than 65,536 bytes
 *   2 the bytes that a field needs are not there
 *   3 the mark is not MSCT
 *   4 the version is neither 0 nor 1                   first: the version
 *   5 a string is not UTF-8
 *   6 an entry's coefficient count is not k * (M + j)  first: the entry's index
 *   7 the noise-band spans do not agree                first: the entry they go by (its own index where one of the
 *                                                      two keys is missing), second: the entry that breaks the rule
 *   8 more than 16 entries, 32 partials or 16 bands
 *   9 a pitch, stretch, coefficient or gain            first: the entry's index
 *  10 no entry has the channel
 *  11 the sample rate is not 8,000 to 192,000 (of a making, and of a retune)
 *  12 the centres are not as many as the bands, or not all finite
 *  13 the voice breaks the voice rules
 *  14 the output is not a block of 0 to 128 samples by 1 to 8 channels, or not samples * channels long
 *  15 a connected input is not 1 to 8 channels of the block's length, or its slice is not that long
 *  16 a finite frequency is above 20,000
 *  17 the target does not hold the rewritten image
 *  18 more than 64 windows, or an edge above 10,079   first: the first window with such an edge; 64 where there are more windows than 64
 *  19 a loudness step above 100                       first: the first window with such a step
 *  20 the minute of the week is above 10,079
 *  21 the noise-band spans of two images, joined, do not agree
 *  22 the merged image would be longer than 65,536 bytes
 *  23 the target does not hold the merged image */
struct sounder_answer {
    uint32_t number;
    size_t first;
    size_t second;
};

/* A part of the caller's image. */
struct sounder_place {
    size_t start;
    size_t len;
};

/* What the desk gets for a voice: its band count, and the span's ends as the bits of floats. All 0 of a refused image. */
struct sounder_desk_answer {
    struct sounder_answer answer;
    uint32_t bands;
    uint32_t min_hz;
    uint32_t max_hz;
};

/* A merge reads two images: of a refusal 1 to 7 `image` says which it speaks of, 1 the first, 2 the second. It is 0 where the merge is
 * accepted, and of 21 to 23, which speak of both. */
struct sounder_merge_answer {
    struct sounder_answer answer;
    uint32_t image;
};

struct sounder_biquad_coeffs {
    float b0, b1, b2, a1, a2;
};

struct sounder_biquad_state {
    float z1, z2;
};

/* The running state: phases, two memories for each band, and the noise number. */
struct sounder_state {
    float phases[32];
    struct sounder_biquad_state memories[16];
    uint32_t noise;
};

/* A voice: everything that a tone is made of. Places that are not in use are 0 in a fresh voice. A play leaves them as given; a reset
 * writes all of the state, a reseed all memories and the noise number, a retune all bands and compensations. */
struct sounder_voice {
    uint32_t blend;    /* 0: a single voice of the channel below; else a blend */
    uint32_t channel;  /* a single voice's channel of the table */
    size_t count;      /* entries */
    size_t k;          /* channels that are blended; 1 of a single voice */
    size_t m;          /* phases */
    size_t j;          /* bands */
    size_t live_count; /* how many bands are live: those that `live` lists first; a single voice plays all j, whatever they say */
    float sample_rate;
    uint8_t live[16];
    uint32_t gap; /* says nothing */
    float f0_hz[16]; /* pitches, ascending */
    float stretch[16];
    float mainlobe_gain[16];
    float noise_gain[16];
    struct sounder_biquad_coeffs bands[16];
    float compensation[16];
    float centres[16];    /* the bands' centre frequencies as the making was given them; a retune makes the bands from them */
    float partials[2048]; /* entry * 128 + channel * 32 + partial */
    float noise[1024];    /* entry * 64 + channel * 16 + band */
    struct sounder_state state;
};

/* How large a voice is, with its centres, where pointers have 64 bits, as the library has them; a compiler that can check it does. It
 * changes where a voice gets another field: then callers have to be compiled anew, and stored voices do not fit any more. */
#define SOUNDER_VOICE_BYTES 13328

#if defined(SIZE_MAX) && SIZE_MAX > 0xFFFFFFFF
#if defined(__cplusplus) && __cplusplus >= 201103L
static_assert(sizeof(struct sounder_voice) == SOUNDER_VOICE_BYTES, "struct sounder_voice has another size than the library's");
#elif defined(__STDC_VERSION__) && __STDC_VERSION__ >= 201112L
_Static_assert(sizeof(struct sounder_voice) == SOUNDER_VOICE_BYTES, "struct sounder_voice has another size than the library's");
#endif
#endif

/* A block's numbers: how long and how wide the output is, and how many channels each input has, 0 for unconnected (the frequency is then
 * 220, gain 0 is 1, the others 0). */
struct sounder_shape {
    size_t samples;
    size_t channels;
    size_t freq;
    size_t g0;
    size_t g1;
    size_t g2;
    size_t g3;
};

/* The voice is all zero where the making is refused. */
struct sounder_made_answer {
    struct sounder_answer answer;
    struct sounder_voice voice;
};

/* A refusal returns the voice as given, and changes no sample of the output. */
struct sounder_played_answer {
    uint32_t number;
    struct sounder_voice voice;
};

/* The power that white noise has after a band, and how many times the band was rung for it. */
struct sounder_noise_power {
    float power;
    uint32_t n;
};

/* A quiet window: from the minute of the week `start` on and before the minute `end` the pole sounds at `step` hundredths. Minutes are 0
 * to 10,079; minute 0 is where your week starts, and the bundled programs start it on Monday at 00:00. With start above end it runs over
 * the week's end, and with start equal to end it holds no minute. */
struct sounder_window {
    uint32_t start;
    uint32_t end;
    uint32_t step; /* 0 to 100 */
};

#define SOUNDER_MAX_WINDOWS 64

/* A plan: the first `count` windows. The places beyond may hold anything: they are not looked at. All numbers have 32 bits, so that each is
 * asked about as the planner wrote it: 65,596 minutes are refused, and do not become minute 60 on the way into a narrower field. */
struct sounder_plan {
    uint32_t count;
    struct sounder_window windows[SOUNDER_MAX_WINDOWS];
};

/* How large a plan is, wherever it is compiled: there is no pointer in it, and nothing between its fields. */
#define SOUNDER_PLAN_BYTES 772

#if defined(__cplusplus) && __cplusplus >= 201103L
static_assert(sizeof(struct sounder_plan) == SOUNDER_PLAN_BYTES, "struct sounder_plan has another size than the library's");
#elif defined(__STDC_VERSION__) && __STDC_VERSION__ >= 201112L
_Static_assert(sizeof(struct sounder_plan) == SOUNDER_PLAN_BYTES, "struct sounder_plan has another size than the library's");
#endif

/* The gain of a refusal is 1, so that a pole sounds as it does without a plan, and is never silent, where the number is not looked at. */
struct sounder_quiet_answer {
    struct sounder_answer answer;
    float gain;
};

/* Reads an image. Accepted: first is the entry count, second the end of the last entry. */
struct sounder_answer sounder_from_bytes(const uint8_t *image, size_t image_len);

/* Where the table's name stands in the image; 0 and 0 of a refused image. */
struct sounder_place sounder_name(const uint8_t *image, size_t image_len);

/* What the desk gets of an image for a voice: kind 0 is a single voice of the channel, any other kind a blend. */
struct sounder_desk_answer sounder_desk(uint32_t kind, uint32_t channel, const uint8_t *image, size_t image_len);

/* Rewrites an image as version 1, with nothing after the last entry. Accepted: first is the entry count, second the bytes written.
 * The target's bytes beyond stay; a refusal changes none. */
struct sounder_answer sounder_to_bytes(const uint8_t *image, size_t image_len, uint8_t *target, size_t target_len);

/* Makes one image of two: version 1, the first one's name, and every entry of both exactly one time, ascending by pitch, with nothing after
 * the last entry. Pitches stand as Rust's `f32::total_cmp` orders floats: negative ones before positive ones, -0 before 0, NaNs at the two
 * ends, by their sign. Accepted: answer.first is the entry count, the sum of both, and answer.second the bytes written; the target's first
 * answer.second bytes are an image that sounder_from_bytes accepts. The target's bytes beyond stay; a refusal changes none.
 *
 * Refused, asked in this order: the first image's questions 1 to 7 with their values (image 1), then the second's (image 2), then 21, 22
 * and 23, without values (image 0). A target of 65,536 bytes holds every result. The images may overlap each other, or be one and the same;
 * the target may overlap neither. It takes some 36 KB of stack on x86-64, most of it an array of 2,340 keys of 8 bytes, in which the
 * entries are put in order, and one of half as many to join by: no result has more entries. (A voice is made of at most 16: question 8.)
 *
 * Entries whose pitches have the same 32 bits may stand in either order. Which of them a voice plays goes by that order, so who wants to
 * know what is heard has no pitch twice. */
struct sounder_merge_answer sounder_merge(const uint8_t *first, size_t first_len, const uint8_t *second, size_t second_len, uint8_t *target,
                                          size_t target_len);

/* Makes a voice: kind 0 is a single voice of the channel, any other kind a blend. The centres are the bands' centre frequencies, as many
 * as sounder_desk answers. */
struct sounder_made_answer sounder_make(uint32_t kind, uint32_t channel, const uint8_t *image, size_t image_len, float sample_rate,
                                        const float *centres, size_t centres_len);

/* Plays a block of the voice itself, which moves on, and answers 0; or answers the refusal's number, and then changes neither the
 * voice nor the output. The output holds channel after channel, shape.samples * shape.channels floats; an input its channels in the
 * same way, and output channel n reads input channel n modulo the input's channels. */
uint32_t sounder_play_in(struct sounder_voice *voice, struct sounder_shape shape, const float *freq, size_t freq_len, const float *g0,
                         size_t g0_len, const float *g1, size_t g1_len, const float *g2, size_t g2_len, const float *g3, size_t g3_len,
                         float *out, size_t out_len);

/* The voice's phases and memories become 0, and its noise starts from the default seed. Answers 0; or 13, and then changes nothing. */
uint32_t sounder_reset_in(struct sounder_voice *voice);

/* The voice's noise starts from the seed and its memories become 0; its phases go on. Answers 0; or 13, and then changes nothing. */
uint32_t sounder_reseed_in(struct sounder_voice *voice, uint32_t seed);

/* The voice goes on at another sample rate: its rate, and the coefficients and compensations of its bands, become those of a voice that is
 * made at that rate with the same centres, and 0 beyond its bands. Phases, memories and noise number stay, and so does all else. Each band
 * is rung anew, which takes most of the time of a making: the longer, the lower the centres and the higher the rate. Answers 0; or 13, or
 * 11 for the rate, asked in this order, and then changes nothing. */
uint32_t sounder_retune_in(struct sounder_voice *voice, float sample_rate);

/* The same four of a voice by value: the answer has the voice to go on with. Each copies some 13 KB in and out, which tells in short
 * blocks. */
struct sounder_played_answer sounder_play(struct sounder_voice voice, struct sounder_shape shape, const float *freq, size_t freq_len,
                                          const float *g0, size_t g0_len, const float *g1, size_t g1_len, const float *g2, size_t g2_len,
                                          const float *g3, size_t g3_len, float *out, size_t out_len);

struct sounder_played_answer sounder_reset(struct sounder_voice voice);

struct sounder_played_answer sounder_reseed(struct sounder_voice voice, uint32_t seed);

struct sounder_played_answer sounder_retune(struct sounder_voice voice, float sample_rate);

/* The gain of a minute of the week by a plan: the first window that holds the minute gives step / 100, one division of floats, and where
 * none does the gain is 1. Accepted: first is the index of the window that holds the minute, or plan.count where none does. Refused, each
 * asked of the whole plan, in this order: 18, 19, 20. The windows are looked through three times at most, so the time goes by their number:
 * on x86-64 some 50 ns and 1.4 for each window. It takes 1.6 KB of stack beside the plan's 772 bytes. A plan of zeros has no window.
 *
 * The gain is played with: input g0 becomes shape.samples times the gain, and shape.g0 1, which question 15 accepts.
 *
 *     float gain = sounder_quiet_gain(plan, minute).gain;
 *     for (size_t i = 0; i < 128; i++) g0[i] = gain;
 *     struct sounder_shape shape = {128, 1, 1, 1, 0, 0, 0};
 *     uint32_t refused = sounder_play_in(&voice, shape, freq, 128, g0, 128, g0, 0, g0, 0, g0, 0, out, 128);
 *
 * Who plays with gains of their own multiplies each by it, of a blend all four; an unconnected g0 counts as 1, so it has to be connected.
 * No gain enters the running state: phases, memories and noise number after a block are the same by every plan, and without one. */
struct sounder_quiet_answer sounder_quiet_gain(struct sounder_plan plan, uint32_t minute);

/* How loud white noise comes out of a band at centre freq with quality q: the sum of the squares of an impulse's response. n, the samples
 * summed, is 25 * max(q * sample_rate / (pi * max(freq, 1)), 1), its whole part, held to 64 to 2,000,000, for every argument. The power is
 * the sum itself, which may be infinite or no number. */
struct sounder_noise_power sounder_noise_power_gain(float freq, float q, float sample_rate, struct sounder_biquad_coeffs coeffs);

#ifdef __cplusplus
}
#endif

#endif
