/* include/sounder.h against the library: sizes and offsets, a read, a refusal, a rewriting, merges, and voices of both kinds: what a making
 * puts into each field, and blocks played and rates changed both ways, beside stored samples; and plans of quiet windows.
 * compare/try_headers compiles it, also against wrong headers; there without the sizes and offsets (VALUES_ALONE), so that the values alone
 * have to tell. */
#include "sounder.h"
#include <math.h>
#include <stdio.h>
#include <string.h>

#ifndef VALUES_ALONE
#define AT(type, field, at) _Static_assert(offsetof(struct type, field) == (at), #type ", " #field)
#define SIZE(type, size) _Static_assert(sizeof(struct type) == (size), #type)
SIZE(sounder_answer, 24);
AT(sounder_answer, number, 0);
AT(sounder_answer, first, 8);
AT(sounder_answer, second, 16);
SIZE(sounder_place, 16);
AT(sounder_place, start, 0);
AT(sounder_place, len, 8);
SIZE(sounder_desk_answer, 40);
AT(sounder_desk_answer, answer, 0);
AT(sounder_desk_answer, bands, 24);
AT(sounder_desk_answer, min_hz, 28);
AT(sounder_desk_answer, max_hz, 32);
SIZE(sounder_merge_answer, 32);
AT(sounder_merge_answer, answer, 0);
AT(sounder_merge_answer, image, 24);
SIZE(sounder_biquad_coeffs, 20);
AT(sounder_biquad_coeffs, b0, 0);
AT(sounder_biquad_coeffs, b1, 4);
AT(sounder_biquad_coeffs, b2, 8);
AT(sounder_biquad_coeffs, a1, 12);
AT(sounder_biquad_coeffs, a2, 16);
SIZE(sounder_biquad_state, 8);
AT(sounder_biquad_state, z1, 0);
AT(sounder_biquad_state, z2, 4);
SIZE(sounder_state, 260);
AT(sounder_state, phases, 0);
AT(sounder_state, memories, 128);
AT(sounder_state, noise, 256);
SIZE(sounder_voice, 13328);
_Static_assert(SOUNDER_VOICE_BYTES == 13328, "SOUNDER_VOICE_BYTES");
AT(sounder_voice, blend, 0);
AT(sounder_voice, channel, 4);
AT(sounder_voice, count, 8);
AT(sounder_voice, k, 16);
AT(sounder_voice, m, 24);
AT(sounder_voice, j, 32);
AT(sounder_voice, live_count, 40);
AT(sounder_voice, sample_rate, 48);
AT(sounder_voice, live, 52);
AT(sounder_voice, f0_hz, 72);
AT(sounder_voice, stretch, 72 + 16 * 4);
AT(sounder_voice, mainlobe_gain, 72 + 32 * 4);
AT(sounder_voice, noise_gain, 72 + 48 * 4);
AT(sounder_voice, bands, 72 + 64 * 4);
AT(sounder_voice, compensation, 72 + 144 * 4);
AT(sounder_voice, centres, 72 + 160 * 4);
AT(sounder_voice, partials, 776);
AT(sounder_voice, noise, 8968);
AT(sounder_voice, state, 13064);
SIZE(sounder_shape, 56);
AT(sounder_shape, samples, 0);
AT(sounder_shape, channels, 8);
AT(sounder_shape, freq, 16);
AT(sounder_shape, g0, 24);
AT(sounder_shape, g1, 32);
AT(sounder_shape, g2, 40);
AT(sounder_shape, g3, 48);
SIZE(sounder_made_answer, 24 + 13328);
AT(sounder_made_answer, voice, 24);
SIZE(sounder_played_answer, 8 + 13328);
AT(sounder_played_answer, voice, 8);
SIZE(sounder_noise_power, 8);
AT(sounder_noise_power, power, 0);
AT(sounder_noise_power, n, 4);
SIZE(sounder_window, 12);
AT(sounder_window, start, 0);
AT(sounder_window, end, 4);
AT(sounder_window, step, 8);
SIZE(sounder_plan, 772);
_Static_assert(SOUNDER_PLAN_BYTES == 772 && SOUNDER_MAX_WINDOWS == 64, "SOUNDER_PLAN_BYTES, SOUNDER_MAX_WINDOWS");
AT(sounder_plan, count, 0);
AT(sounder_plan, windows, 4);
SIZE(sounder_quiet_answer, 32);
AT(sounder_quiet_answer, answer, 0);
AT(sounder_quiet_answer, gain, 24);
#endif

static int failures;

static void expect(int yes, const char *what)
{
    if (!yes) {
        printf("check_header: %s\n", what);
        failures++;
    }
}

static int is(struct sounder_answer a, uint32_t number, size_t first, size_t second)
{
    return a.number == number && a.first == first && a.second == second;
}

/* version 0, the name "ab", one entry of pitch 220 and stretch 1: no partials, one channel of 3 bands, metadata x = 1 */
static const uint8_t image[] = {'M', 'S', 'C', 'T', 0, 0, 2, 0, 0, 0, 'a', 'b', 1, 0, 0, 0, 0, 0, 0x5C, 0x43, 0, 0, 0x80, 0x3F, 0, 0, 0, 0, 1, 0, 0, 0, 3, 0, 0, 0,
                                3, 0, 0, 0, 0, 0, 0, 0, 0, 0, 0, 0, 0, 0, 0, 0, 1, 0, 0, 0, 1, 0, 0, 0, 'x', 0, 0, 0x80, 0x3F, 0xEE};

/* ---- a table of two entries with four channels, three partials and two bands, and other numbers in every place */
static uint8_t table[2048];
static size_t table_len;

static void put(uint32_t word, size_t bytes)
{
    for (size_t i = 0; i < bytes; i++) {
        table[table_len++] = (uint8_t)(word >> 8 * i);
    }
}

static uint32_t bits(float x)
{
    uint32_t b;
    memcpy(&b, &x, 4);
    return b;
}

static void put_gain(const char *key, float gain)
{
    put((uint32_t)strlen(key), 4);
    for (const char *c = key; *c; c++) {
        put((uint8_t)*c, 1);
    }
    put(bits(gain), 4);
}

static float coefficient(size_t entry, size_t channel, size_t column)
{
    return (float)(1 + entry * 20 + channel * 5 + column) / 64;
}

/* the head of a table of the name "ab" */
static void put_head(uint32_t entries)
{
    static const char head[] = {'M', 'S', 'C', 'T', 1, 0, 2, 0, 0, 0, 'a', 'b'};
    table_len = 0;
    for (size_t i = 0; i < sizeof head; i++) {
        put((uint8_t)head[i], 1);
    }
    put(entries, 4);
}

static void make_table(void)
{
    put_head(2);
    for (size_t e = 0; e < 2; e++) {
        put(bits(220 * (float)(e + 1)), 4);
        put(bits(1 + (float)e / 4), 4);
        put(3, 4);
        for (size_t i = 1; i <= 3; i++) {
            put(bits(220 * (float)i), 4);
        }
        put(4, 4);
        put(2, 4);
        put(20, 4);
        for (size_t i = 0; i < 20; i++) {
            put(bits(coefficient(e, i / 5, i % 5)), 4);
        }
        put(2, 4);
        put_gain("mainlobe_gain", 0.5f + (float)e / 4);
        put_gain("noise_gain", 0.75f + (float)e / 8);
    }
}

/* five entries with eight channels, six partials and three bands, of which the second is silent: no two counts of its blend are equal */
static void make_wide_table(void)
{
    put_head(5);
    for (size_t e = 0; e < 5; e++) {
        put(bits(220 * (float)(e + 1)), 4);
        put(bits(1), 4);
        put(6, 4);
        for (size_t i = 1; i <= 6; i++) {
            put(bits(220 * (float)i), 4);
        }
        put(8, 4);
        put(3, 4);
        put(72, 4);
        for (size_t i = 0; i < 72; i++) {
            put(i % 9 == 7 ? 0 : bits(0.125f), 4);
        }
        put(0, 4);
    }
}

static int same_floats(const float *a, const float *b, size_t n)
{
    return memcmp(a, b, n * sizeof *a) == 0;
}

static int near(float a, float b)
{
    return a - b < 0.000001f && b - a < 0.000001f;
}

/* field by field: what C leaves between them says nothing */
static int same_voice(const struct sounder_voice *a, const struct sounder_voice *b)
{
    return a->blend == b->blend && a->channel == b->channel && a->count == b->count && a->k == b->k && a->m == b->m && a->j == b->j &&
           a->live_count == b->live_count && a->sample_rate == b->sample_rate && memcmp(a->live, b->live, sizeof a->live) == 0 &&
           same_floats(a->f0_hz, b->f0_hz, 16) && same_floats(a->stretch, b->stretch, 16) && same_floats(a->mainlobe_gain, b->mainlobe_gain, 16) &&
           same_floats(a->noise_gain, b->noise_gain, 16) && memcmp(a->bands, b->bands, sizeof a->bands) == 0 &&
           same_floats(a->compensation, b->compensation, 16) && same_floats(a->centres, b->centres, 16) &&
           same_floats(a->partials, b->partials, 2048) && same_floats(a->noise, b->noise, 1024) &&
           same_floats(a->state.phases, b->state.phases, 32) && memcmp(a->state.memories, b->state.memories, sizeof a->state.memories) == 0 &&
           a->state.noise == b->state.noise;
}

/* what a making of the table puts into each field: slot q of an entry holds channel first + q */
static void check_voice(const struct sounder_voice *v, uint32_t blend, uint32_t channel, size_t slots)
{
    expect(v->blend == blend && v->channel == channel && v->count == 2 && v->k == slots && v->m == 3 && v->j == 2, "a voice's numbers");
    expect(v->live_count == 2 && v->live[0] == 0 && v->live[1] == 1 && v->sample_rate == 48000, "live bands and rate");
    for (size_t e = 0; e < 2; e++) {
        expect(v->f0_hz[e] == 220 * (float)(e + 1) && v->stretch[e] == 1 + (float)e / 4, "pitches and stretches");
        expect(v->mainlobe_gain[e] == 0.5f + (float)e / 4 && v->noise_gain[e] == 0.75f + (float)e / 8, "gains");
        for (size_t q = 0; q < 4; q++) {
            for (size_t i = 0; i < 5; i++) {
                float at = i < 3 ? v->partials[e * 128 + q * 32 + i] : v->noise[e * 64 + q * 16 + i - 3];
                expect(at == (q < slots ? coefficient(e, channel + q, i) : 0), "coefficients");
            }
        }
    }
    expect(v->centres[0] == 500 && v->centres[1] == 3000 && v->centres[2] == 0 && v->centres[15] == 0, "centres");
    for (size_t b = 0; b < 2; b++) {
        struct sounder_noise_power power = sounder_noise_power_gain(b ? 3000 : 500, 1, 48000, v->bands[b]);
        float square = v->compensation[b] * v->compensation[b] * power.power;
        expect(power.n == (b ? 127 : 763) && near(square, 1), "bands and compensations");
        struct sounder_biquad_coeffs c = v->bands[b];
        expect(c.b0 > 0 && c.b1 == 0 && c.b2 == -c.b0 && c.a1 < -1 && near(c.a2, 1 - 2 * c.b0), "coefficients of a band");
    }
    expect(v->state.noise == 0x9A271E56u && v->state.phases[0] == 0 && v->state.memories[1].z2 == 0, "the state at first");
}

/* voices with another number in each place, and a block with another number of channels in each input */
static void check_numbers(void)
{
    const float centres[] = {500, 1000, 3000};
    static const float ones[48] = {1};
    static float out[16];
    make_wide_table();
    struct sounder_made_answer single = sounder_make(0, 6, table, table_len, 44100, centres, 3);
    struct sounder_made_answer blend = sounder_make(1, 0, table, table_len, 44100, centres, 3);
    struct sounder_voice *v = &blend.voice;
    expect(is(single.answer, 0, 0, 0) && single.voice.blend == 0 && single.voice.channel == 6 && single.voice.k == 1, "a single voice of channel 6");
    expect(is(blend.answer, 0, 0, 0) && v->blend == 1 && v->channel == 0 && v->count == 5 && v->k == 4 && v->m == 6, "counts");
    expect(v->j == 3 && v->live_count == 2 && v->live[0] == 0 && v->live[1] == 2 && v->sample_rate == 44100, "counts of bands");
    struct sounder_shape wide = {.samples = 8, .channels = 2, .freq = 1, .g0 = 3, .g1 = 4, .g2 = 5, .g3 = 6};
    expect(sounder_play_in(v, wide, ones, 8, ones, 24, ones, 32, ones, 40, ones, 48, out, 16) == 0, "another number of channels in each input");
    expect(sounder_play(*v, wide, ones, 8, ones, 24, ones, 32, ones, 40, ones, 48, out, 16).number == 0, "the same by value");
    expect(sounder_reseed(*v, 5).voice.state.noise == 6, "a seed");
    expect(sounder_reseed_in(v, 7) == 0 && v->state.noise == 8, "a seed in place");
}

/* two channels of eight samples: the frequency has two channels, gain 1 two, gain 0 and 2 one each, and gain 3 one or none */
static const float freq[16] = {220, 230, 240, 250, 260, 270, 280, 290, 300, 310, 320, 330, 340, 350, 360, 370};
static const float g0[8] = {1, 0.9f, 0.8f, 0.7f, 0.6f, 0.5f, 0.4f, 0.3f};
static const float g1[16] = {0.5f, 0.5f, 0.5f, 0.5f, 0.5f, 0.5f, 0.5f, 0.5f, -0.5f, -0.5f, -0.5f, -0.5f, -0.5f, -0.5f, -0.5f, -0.5f};
static const float g2[8] = {0.25f, 0.25f, 0.25f, 0.25f, 0.25f, 0.25f, 0.25f, 0.25f};
static const float g3[8] = {0.125f, 0.25f, 0.375f, 0.5f, 0.625f, 0.75f, 0.875f, 1};
static const struct sounder_shape shape = {.samples = 8, .channels = 2, .freq = 2, .g0 = 1, .g1 = 2, .g2 = 1, .g3 = 1};

/* the samples that the library gave when it had been compared with the original bit for bit */
static const uint32_t samples[2][16] = {
    {0xbda04428, 0xbc9eaca0, 0x3bc00076, 0xbe143ddb, 0xbe197ca6, 0xbdca668a, 0xbd84f690, 0x3cd9cbd5,
     0xbe042252, 0xbb873d78, 0x3d58a348, 0xbe43c3d4, 0xbe411c6a, 0xbdcee7a7, 0xbd48a8b2, 0x3dad62a7},
    {0xbd6e6f66, 0x3a7386c0, 0x3d449021, 0xbe347d3c, 0xbe6e3c33, 0xbe25b0fd, 0xbdd06f1e, 0x3eb00142,
     0xbe054b72, 0xbc502ec4, 0x3d8248d1, 0xbe96eda8, 0xbebbcae0, 0xbe840fd3, 0xbe379a17, 0x3ed53274},
};

/* after the block, in the same way: the second phase, and the second band's memories, which are those of both voices */
static const uint32_t moved[3] = {0x3db56931, 0x3f04fe63, 0xbea0417a};

/* the first sample of a block after that one at another rate: of each voice */
static const uint32_t after_retune[2] = {0x3e7afd7e, 0x3e8be639};

static void expect_bits(float x, uint32_t stored, const char *what, size_t i)
{
    if (bits(x) != stored) {
        printf("check_header: %s %zu is %08x\n", what, i, (unsigned)bits(x));
        failures++;
    }
}

/* a block by value and of the voice where it lies: they are one, and the stored samples are played */
static void check_block(const struct sounder_voice *fresh, const uint32_t *stored)
{
    float out[16], heard[16];
    struct sounder_voice own = *fresh;
    struct sounder_played_answer played = sounder_play(*fresh, shape, freq, 16, g0, 8, g1, 16, g2, 8, g3, 8, out, 16);
    uint32_t number = sounder_play_in(&own, shape, freq, 16, g0, 8, g1, 16, g2, 8, g3, 8, heard, 16);
    expect(played.number == 0 && number == 0, "a block");
    expect(memcmp(heard, out, sizeof out) == 0 && same_voice(&own, &played.voice), "it is the same both ways");
    expect(!same_voice(&own, fresh) && own.state.noise != fresh->state.noise && own.state.phases[3] == 0, "a block moves the voice");
    for (size_t i = 0; i < 16; i++) {
        expect_bits(heard[i], stored[i], "sample", i);
    }
    expect_bits(own.state.phases[1], moved[0], "phase", 1);
    expect_bits(own.state.memories[1].z1, moved[1], "z1 of band", 1);
    expect_bits(own.state.memories[1].z2, moved[2], "z2 of band", 1);
    float high[16];
    memcpy(high, freq, sizeof high);
    high[15] = 20001;
    for (size_t i = 0; i < 16; i++) {
        out[i] = heard[i] = 7;
    }
    struct sounder_voice before = own;
    played = sounder_play(own, shape, high, 16, g0, 8, g1, 16, g2, 8, g3, 8, out, 16);
    number = sounder_play_in(&own, shape, high, 16, g0, 8, g1, 16, g2, 8, g3, 8, heard, 16);
    expect(played.number == 16 && number == 16 && same_voice(&own, &before) && same_voice(&played.voice, &before), "a refused block");
    for (size_t i = 0; i < 16; i++) {
        expect(out[i] == 7 && heard[i] == 7, "it writes nothing");
    }
    expect(sounder_play_in(&own, shape, freq, 15, g0, 8, g1, 16, g2, 8, g3, 8, heard, 16) == 15, "an input that is too short");
    expect(sounder_play_in(&own, shape, freq, 16, g0, 8, g1, 16, g2, 8, g3, 8, heard, 15) == 14, "an output that is too short");
    played = sounder_reseed(own, 0);
    expect(played.number == 0 && played.voice.state.noise == 1 && played.voice.state.memories[0].z1 == 0, "a reseed");
    expect(same_floats(played.voice.state.phases, own.state.phases, 32), "it keeps the phases");
    struct sounder_voice seeded = own;
    expect(sounder_reseed_in(&seeded, 0) == 0 && same_voice(&seeded, &played.voice), "a reseed in place");
    played = sounder_reset(own);
    expect(played.number == 0 && same_voice(&played.voice, fresh), "a reset");
    expect(sounder_reset_in(&seeded) == 0 && same_voice(&seeded, fresh), "a reset in place");
    own.count = 17;
    before = own;
    expect(sounder_reset(own).number == 13 && sounder_reseed(own, 1).number == 13, "a voice that breaks a rule");
    expect(sounder_reset_in(&own) == 13 && sounder_reseed_in(&own, 1) == 13 && same_voice(&own, &before), "it stays as it is");
}

/* the same bytes, but for those that say nothing: after the live bands, and at the end */
static int untouched(const struct sounder_voice *a, const struct sounder_voice *b)
{
    const size_t numbers = offsetof(struct sounder_voice, live) + sizeof a->live;
    const size_t lists = offsetof(struct sounder_voice, state) - offsetof(struct sounder_voice, f0_hz);
    return memcmp(a, b, numbers) == 0 && memcmp(a->f0_hz, b->f0_hz, lists) == 0 && memcmp(&a->state, &b->state, sizeof a->state) == 0;
}

/* a retune both ways is refused with the number, and changes nothing */
static void check_refused(const struct sounder_voice *v, float rate, uint32_t number, const char *what)
{
    struct sounder_voice own = *v;
    struct sounder_played_answer answer = sounder_retune(*v, rate);
    expect(sounder_retune_in(&own, rate) == number && untouched(&own, v), what);
    expect(answer.number == number && untouched(&answer.voice, v), what);
}

/* a voice that has played goes on at another rate: with the bands and compensations of one that is made at that rate, and its own state */
static void check_retune(const struct sounder_voice *fresh, const struct sounder_voice *other, const uint32_t *stored)
{
    float out[16], heard[16];
    struct sounder_voice own = *fresh;
    expect(sounder_play_in(&own, shape, freq, 16, g0, 8, g1, 16, g2, 8, g3, 8, out, 16) == 0, "a block before a retune");
    struct sounder_voice before = own, wanted = *other;
    wanted.state = own.state;
    struct sounder_played_answer answer = sounder_retune(own, 44100);
    expect(answer.number == 0 && sounder_retune_in(&own, 44100) == 0, "a retune");
    expect(same_voice(&own, &wanted) && same_voice(&answer.voice, &wanted), "it gives the rate, the bands and the compensations");
    expect(own.sample_rate == 44100 && own.bands[0].b0 > before.bands[0].b0 && own.bands[1].a1 > before.bands[1].a1, "rate and bands");
    expect(own.compensation[0] < before.compensation[0] && own.compensation[1] < before.compensation[1], "compensations");
    expect(own.state.phases[1] > 0 && same_floats(own.state.phases, before.state.phases, 32), "the phases are kept");
    expect(own.state.memories[1].z1 == before.state.memories[1].z1 && own.state.noise == before.state.noise, "memories and noise are kept");
    check_refused(&own, 7999, 11, "a rate below 8,000");
    check_refused(&own, 192001, 11, "a rate above 192,000");
    check_refused(&own, -44100, 11, "a negative rate");
    check_refused(&own, HUGE_VALF, 11, "an infinite rate");
    check_refused(&own, HUGE_VALF - HUGE_VALF, 11, "a rate that is no number");
    struct sounder_voice broken = own;
    broken.centres[1] = HUGE_VALF;
    check_refused(&broken, 48000, 13, "a centre that is not finite");
    check_refused(&broken, 7999, 13, "that is asked before the rate");
    expect(sounder_reset_in(&broken) == 13 && sounder_reseed(broken, 1).number == 13, "no call takes such a centre");
    broken = before;
    broken.centres[2] = broken.bands[2].a2 = broken.compensation[15] = HUGE_VALF;
    expect(sounder_retune_in(&broken, 44100) == 0 && broken.centres[2] == HUGE_VALF, "a centre beyond the bands may be anything");
    expect(broken.bands[2].a2 == 0 && broken.compensation[15] == 0, "coefficients and compensations beyond the bands become 0");
    answer = sounder_play(answer.voice, shape, freq, 16, g0, 8, g1, 16, g2, 8, g3, 8, out, 16);
    expect(answer.number == 0, "a block after a retune");
    expect(sounder_play_in(&own, shape, freq, 16, g0, 8, g1, 16, g2, 8, g3, 8, heard, 16) == 0, "a block after a retune in place");
    expect(memcmp(heard, out, sizeof out) == 0 && same_voice(&own, &answer.voice), "it is the same after both");
    expect_bits(heard[0], *stored, "sample after a retune", 0);
}

static void check_voices(void)
{
    const float centres[] = {500, 3000};
    make_table();
    struct sounder_made_answer single = sounder_make(0, 1, table, table_len, 48000, centres, 2);
    struct sounder_made_answer blend = sounder_make(1, 0, table, table_len, 48000, centres, 2);
    struct sounder_made_answer none = sounder_make(0, 1, table, table_len, 48000, centres, 1);
    expect(is(single.answer, 0, 0, 0) && is(blend.answer, 0, 0, 0), "makings");
    expect(is(none.answer, 12, 0, 0) && none.voice.count == 0, "a refused making");
    check_voice(&single.voice, 0, 1, 1);
    check_voice(&blend.voice, 1, 0, 4);
    check_block(&single.voice, samples[0]);
    check_block(&blend.voice, samples[1]);
    struct sounder_made_answer single_slow = sounder_make(0, 1, table, table_len, 44100, centres, 2);
    struct sounder_made_answer blend_slow = sounder_make(1, 0, table, table_len, 44100, centres, 2);
    check_retune(&single.voice, &single_slow.voice, &after_retune[0]);
    check_retune(&blend.voice, &blend_slow.voice, &after_retune[1]);
}

/* ---- merges: an image of two smallest entries, of pitches 440 and 110, named "c" */
static const uint8_t extra[] = {'M', 'S', 'C', 'T', 1, 0, 1, 0, 0, 0, 'c', 2, 0, 0, 0,
                                0, 0, 0xDC, 0x43, 0, 0, 0x80, 0x3F, 0, 0, 0, 0, 0, 0, 0, 0, 0, 0, 0, 0, 0, 0, 0, 0, 0, 0, 0, 0,
                                0, 0, 0xDC, 0x42, 0, 0, 0x80, 0x3F, 0, 0, 0, 0, 0, 0, 0, 0, 0, 0, 0, 0, 0, 0, 0, 0, 0, 0, 0, 0};

/* where the entries of the two images start, and how long one of the second is */
#define IMAGE_FROM 16
#define EXTRA_FROM 15
#define EXTRA_ENTRY 28
#define IMAGE_ENTRY (sizeof image - 1 - IMAGE_FROM)

static uint8_t merged[65536 + 8];

/* all that a merge answers */
static void expect_merge(struct sounder_merge_answer a, uint32_t number, size_t first, size_t second, uint32_t which, const char *what)
{
    expect(is(a.answer, number, first, second) && a.image == which, what);
}

static void clear(void)
{
    memset(merged, 0x55, sizeof merged);
}

/* the target from a byte on is as it was */
static void expect_stays(size_t from, const char *what)
{
    for (size_t i = from; i < sizeof merged; i++) {
        if (merged[i] != 0x55) {
            expect(0, what);
            return;
        }
    }
}

/* n bytes at a position of the target */
static int stands(size_t at, const void *bytes, size_t n)
{
    return memcmp(merged + at, bytes, n) == 0;
}

/* the entries of both by their pitch, under either name: with version 1, and without the byte after the last entry of `image` */
static void check_merge(void)
{
    static const uint8_t three[] = {3, 0, 0, 0};
    const size_t low = IMAGE_FROM, middle = low + EXTRA_ENTRY, high = middle + IMAGE_ENTRY, end = high + EXTRA_ENTRY;
    clear();
    expect_merge(sounder_merge(image, sizeof image, extra, sizeof extra, merged, end), 0, 3, end, 0, "a merge");
    expect(stands(0, "MSCT\1\0\2\0\0\0ab", 12) && stands(12, three, 4), "mark, version, name and count of a merge");
    expect(stands(low, extra + EXTRA_FROM + EXTRA_ENTRY, EXTRA_ENTRY), "the lowest pitch");
    expect(stands(middle, image + IMAGE_FROM, IMAGE_ENTRY), "the pitch between");
    expect(stands(high, extra + EXTRA_FROM, EXTRA_ENTRY), "the highest pitch");
    expect_stays(end, "bytes beyond the merged image");
    expect(is(sounder_from_bytes(merged, end), 0, 3, end), "a merged image is accepted");
    clear();
    expect_merge(sounder_merge(extra, sizeof extra, image, sizeof image, merged, sizeof merged), 0, 3, end - 1, 0, "the other way round");
    expect(stands(0, "MSCT\1\0\1\0\0\0c", 11) && stands(11, three, 4), "the name of the first");
    expect(stands(EXTRA_FROM, extra + EXTRA_FROM + EXTRA_ENTRY, EXTRA_ENTRY), "the same order");
    expect_stays(end - 1, "bytes beyond the merged image, in a long target");
    clear();
    expect_merge(sounder_merge(image, sizeof image, image, sizeof image, merged, sizeof merged), 0, 2, IMAGE_FROM + 2 * IMAGE_ENTRY, 0,
                 "an image with itself");
    expect(stands(IMAGE_FROM + IMAGE_ENTRY, image + IMAGE_FROM, IMAGE_ENTRY), "its entry a second time");
}

/* the first image's questions, then the second's: of which a refusal speaks, and its values */
static void check_refused_images(void)
{
    static uint8_t other[sizeof extra], none[1];
    const size_t n = sizeof extra;
    memcpy(other, extra, n);
    other[4] = 7;
    clear();
    expect_merge(sounder_merge(other, n, image, 20, merged, sizeof merged), 4, 7, 0, 1, "the first image's version");
    expect_merge(sounder_merge(image, 20, other, n, merged, 0), 2, 0, 0, 1, "the first image's end");
    expect_merge(sounder_merge(image, sizeof image, other, n, merged, 1), 4, 7, 0, 2, "the second image's version, before the target");
    expect_merge(sounder_merge(extra, n, extra, n - 1, merged, sizeof merged), 2, 0, 0, 2, "the second image's end");
    memcpy(other, extra, n);
    other[EXTRA_FROM + EXTRA_ENTRY + 12] = other[EXTRA_FROM + EXTRA_ENTRY + 16] = 1; /* a channel of one band, and no coefficients */
    expect_merge(sounder_merge(other, n, image, 20, merged, sizeof merged), 6, 1, 0, 1, "an entry of the first image");
    expect_merge(sounder_merge(image, sizeof image, other, n, merged, sizeof merged), 6, 1, 0, 2, "an entry of the second image");
    expect_merge(sounder_merge(merged, 65537, other, n, none, 0), 1, 0, 0, 1, "a first image of 65,537 bytes");
    expect_merge(sounder_merge(extra, n, merged, 65537, none, 0), 1, 0, 0, 2, "a second image of 65,537 bytes");
    expect_stays(0, "a merge that refuses an image writes nothing");
}

/* a table of two entries with a span each, the second's end as given; named "ab" */
static void make_spans(float end)
{
    put_head(2);
    for (size_t e = 0; e < 2; e++) {
        put(bits(110), 4);
        put(bits(1), 4);
        for (size_t i = 0; i < 4; i++) {
            put(0, 4);
        }
        put(2, 4);
        put_gain("noise_band_min_hz", 80);
        put_gain("noise_band_max_hz", e ? end : 12000);
    }
}

/* 21, 22 and 23 in their order, with no values and no image */
static void check_refused_merges(void)
{
    static uint8_t named[65536] = {'M', 'S', 'C', 'T', 1, 0, 0xF2, 0xFF};
    const size_t n = sizeof extra, end = IMAGE_FROM + IMAGE_ENTRY + 2 * EXTRA_ENTRY;
    memset(named + 10, 'n', 65522);
    clear();
    expect_merge(sounder_merge(image, sizeof image, extra, n, merged, end - 1), 23, 0, 0, 0, "a target that is too short for a merge");
    expect_merge(sounder_merge(named, 65536, extra, n, merged, 0), 22, 0, 0, 0, "a result that is too long, asked before the target");
    make_spans(12001);
    expect_merge(sounder_merge(image, sizeof image, table, table_len, merged, sizeof merged), 7, 0, 1, 2, "spans of the second image");
    make_spans(12000);
    expect_merge(sounder_merge(image, sizeof image, table, table_len, merged, 0), 21, 0, 0, 0, "spans of both, asked before the target");
    expect_stays(0, "a refused merge writes nothing");
    expect_merge(sounder_merge(named, 65536, named, 65536, merged, 65536), 0, 0, 65536, 0, "a result of 65,536 bytes");
    expect(memcmp(named, merged, 65536) == 0, "no entries");
    expect_stays(65536, "bytes beyond it");
}

/* ---- quiet windows: a plan of three windows, and what would hold, or be refused, in the places beyond */
static struct sounder_plan three_windows(void)
{
    struct sounder_plan plan = {.count = 3};
    for (size_t i = 3; i < SOUNDER_MAX_WINDOWS; i++) {
        plan.windows[i] = (struct sounder_window){.start = i % 2 ? 0 : 0xFFFFFFFFu, .end = 10079, .step = 7 + 1000 * (uint32_t)(i % 3)};
    }
    plan.windows[0] = (struct sounder_window){.start = 1320, .end = 1440, .step = 35};
    plan.windows[1] = (struct sounder_window){.start = 10000, .end = 360, .step = 20};
    plan.windows[2] = (struct sounder_window){.start = 300, .end = 1400, .step = 60};
    return plan;
}

/* one answer: number, first and gain; the second value is always 0 */
static void expect_gain(struct sounder_plan plan, uint32_t minute, uint32_t number, size_t first, float gain, const char *what)
{
    struct sounder_quiet_answer a = sounder_quiet_gain(plan, minute);
    expect(is(a.answer, number, first, 0) && bits(a.gain) == bits(gain), what);
}

/* both edges of each window, and the first that holds */
static void check_windows(void)
{
    struct sounder_plan plan = three_windows();
    expect_gain(plan, 1319, 0, 2, 0.6f, "before a window another holds");
    expect_gain(plan, 1320, 0, 0, 0.35f, "the minute of a start");
    expect_gain(plan, 1399, 0, 0, 0.35f, "the first of two windows counts");
    expect_gain(plan, 1439, 0, 0, 0.35f, "the minute before an end");
    expect_gain(plan, 1440, 0, 3, 1, "the minute of an end");
    expect_gain(plan, 9999, 0, 3, 1, "before a window over the week's end");
    expect_gain(plan, 10000, 0, 1, 0.2f, "its start");
    expect_gain(plan, 10079, 0, 1, 0.2f, "the week's last minute");
    expect_gain(plan, 0, 0, 1, 0.2f, "the week's first minute");
    expect_gain(plan, 359, 0, 1, 0.2f, "the minute before its end");
    expect_gain(plan, 360, 0, 2, 0.6f, "its end");
    plan.windows[0].start = plan.windows[0].end = 700;
    expect_gain(plan, 700, 0, 2, 0.6f, "equal edges hold nothing");
    plan.count = 0;
    expect_gain(plan, 700, 0, 0, 1, "no windows");
    /* one division: 20 * 0.01f is 3e4ccccc */
    expect_bits(sounder_quiet_gain(three_windows(), 0).gain, 0x3e4ccccd, "gain of step", 20);
}

static void check_last_window(void)
{
    struct sounder_plan plan = {.count = 64};
    struct sounder_window *last = &plan.windows[SOUNDER_MAX_WINDOWS - 1];
    *last = (struct sounder_window){.start = 10079, .end = 0, .step = 100};
    expect_gain(plan, 10079, 0, 63, 1, "the last of 64 windows");
    last->step = 0;
    expect_gain(plan, 10079, 0, 63, 0, "step 0");
    expect_gain(plan, 10078, 0, 64, 1, "none of 64 windows");
    last->step = 101;
    expect_gain(plan, 10078, 19, 63, 1, "the last step");
    last->end = 10080;
    expect_gain(plan, 10078, 18, 63, 1, "the last edge");
    plan.count = 63;
    expect_gain(plan, 10078, 0, 63, 1, "a window past the last is not looked at");
}

/* each refusal at its limit, and their order; a refusal's gain is 1 */
static void check_refused_plans(void)
{
    struct sounder_plan plan = three_windows();
    expect_gain(plan, 10080, 20, 0, 1, "a minute past the week");
    expect_gain(plan, 0x10000, 20, 0, 1, "a minute that 16 bits do not hold");
    plan.windows[2].step = 101;
    plan.windows[1].step = 100;
    expect_gain(plan, 10080, 19, 2, 1, "a step above 100, asked before the minute");
    plan.windows[1].step = 256;
    expect_gain(plan, 0, 19, 1, 1, "a step that 8 bits do not hold");
    plan.windows[2].end = 10080;
    expect_gain(plan, 10080, 18, 2, 1, "an end above 10,079, asked before the steps");
    plan.windows[1].start = 0x10000;
    expect_gain(plan, 0, 18, 1, 1, "a start that 16 bits do not hold");
    plan.count = 65;
    expect_gain(plan, 10080, 18, 64, 1, "65 windows, asked first");
    plan.count = 0x10003;
    expect_gain(plan, 0, 18, 64, 1, "a count that 16 bits do not hold");
}

/* a block at the gain of a plan: other samples, and the same running state */
static void check_quiet_block(void)
{
    const float centres[] = {500, 3000};
    static float constant[8], loud[8], quiet[8];
    make_table();
    struct sounder_made_answer made = sounder_make(0, 1, table, table_len, 48000, centres, 2);
    struct sounder_voice own = made.voice, other = made.voice;
    struct sounder_shape with = {.samples = 8, .channels = 1, .g0 = 1}, without = {.samples = 8, .channels = 1};
    for (size_t i = 0; i < 8; i++) {
        constant[i] = sounder_quiet_gain(three_windows(), 1320).gain;
    }
    expect(sounder_play_in(&own, with, freq, 0, constant, 8, g1, 0, g2, 0, g3, 0, quiet, 8) == 0, "a block at a plan's gain");
    expect(sounder_play_in(&other, without, freq, 0, g0, 0, g1, 0, g2, 0, g3, 0, loud, 8) == 0, "the same block without a plan");
    expect(same_voice(&own, &other) && !same_voice(&own, &made.voice), "no running state depends on the plan");
    for (size_t i = 0; i < 8; i++) {
        expect(loud[i] != 0 && near(quiet[i], 0.35f * loud[i]), "a softer sample");
    }
}

int main(void)
{
    const size_t n = sizeof image, end = n - 1;
    uint8_t target[sizeof image], whole[sizeof image];

    expect(is(sounder_from_bytes(image, n), 0, 1, end), "a read");
    expect(is(sounder_from_bytes(image, 20), 2, 0, 0), "a refusal");
    struct sounder_place p = sounder_name(image, n);
    expect(p.start == 10 && p.len == 2 && memcmp(image + p.start, "ab", 2) == 0, "the name");
    struct sounder_desk_answer d = sounder_desk(0, 0, image, n);
    expect(is(d.answer, 0, 0, 0) && d.bands == 3 && d.min_hz == 0x42A00000 && d.max_hz == 0x463B8000, "the desk, single");
    expect(sounder_desk(0, 1, image, n).bands == 0, "the desk, a channel that no entry has");
    expect(sounder_desk(1, 9, image, n).bands == 3, "the desk, blend");
    memset(target, 0x55, n);
    expect(is(sounder_to_bytes(image, n, target, end - 1), 17, 0, 0), "a target that is too short");
    for (size_t i = 0; i < n; i++) {
        expect(target[i] == 0x55, "a refusal changes nothing");
    }
    expect(is(sounder_to_bytes(image, n, target, n), 0, 1, end), "a rewriting");
    memcpy(whole, image, n);
    whole[4] = 1;
    whole[end] = 0x55;
    expect(memcmp(target, whole, n) == 0, "the rewritten image");
    check_voices();
    check_numbers();
    check_merge();
    check_refused_images();
    check_refused_merges();
    check_windows();
    check_last_window();
    check_refused_plans();
    check_quiet_block();
    if (failures) {
        return 1;
    }
    printf("check_header: ok\n");
    return 0;
}
