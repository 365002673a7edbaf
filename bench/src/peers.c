/* One resampler through the exported calls against libsamplerate (SRC_LINEAR), speexdsp (quality 0) and soxr (quick): 16-bit sound in
 * and out, state kept from block to block. All sides in turn, the best of many passes over the same sound. */
#include "muzgleur.h"

#include <math.h>
#include <samplerate.h>
#include <soxr.h>
#include <speex/speex_resampler.h>
#include <stdio.h>
#include <stdlib.h>
#include <time.h>

static const uint32_t RATES[][2] = {{48000, 16000}, {16000, 48000}, {44100, 16000}, {8000, 16000}};
static const size_t BLOCKS[] = {64, 1024, 8192};
enum { MOST_CHANNELS = 2, LENGTHS = sizeof BLOCKS / sizeof *BLOCKS, ROWS = sizeof RATES / sizeof *RATES * MOST_CHANNELS * LENGTHS };
enum { SWEEPS = 10, ROUNDS = 300 };
enum { FRAMES = 8192, ROOM_FRAMES = 3 * FRAMES + 64, ROOM = MOST_CHANNELS * ROOM_FRAMES };
enum { PERIOD = 128, AMPLITUDE = 8000, MOST_APART = 8 };

/* The row that is timed. */
static uint32_t in_rate, out_rate;
static uint16_t channels;
static size_t block;

static void select_row(size_t row) {
    const uint32_t *rates = RATES[row / LENGTHS / MOST_CHANNELS];
    in_rate = rates[0];
    out_rate = rates[1];
    channels = (uint16_t)(row / LENGTHS % MOST_CHANNELS + 1);
    block = BLOCKS[row % LENGTHS];
}

static _Alignas(64) int16_t sound[MOST_CHANNELS * FRAMES], out[ROOM], other_half[ROOM];
static _Alignas(64) float sound_float[MOST_CHANNELS * FRAMES], out_float[ROOM];

static void require(int holds, const char *what) {
    if (!holds) {
        fprintf(stderr, "%s\n", what);
        exit(1);
    }
}

/* Each side: open it, turn a block into frames at the front of out, say how many, close it. */

static uint32_t chain[MUZGLEUR_CHAIN_WORDS];

static void open_muzgleur(void) {
    uint8_t recipe[12] = {10, 0, 4, 0};
    for (int i = 0; i < 4; i++) {
        recipe[4 + i] = (uint8_t)(in_rate >> 8 * i);
        recipe[8 + i] = (uint8_t)(out_rate >> 8 * i);
    }
    require(muzgleur_open(in_rate, channels, recipe, sizeof recipe, chain, MUZGLEUR_CHAIN_WORDS) == 0, "muzgleur: open");
}

static size_t run_muzgleur(const int16_t *in, size_t frames) {
    size_t width = 2 * channels;
    muzgleur_block_result done =
        muzgleur_block(chain, MUZGLEUR_CHAIN_WORDS, in_rate, channels, 0, (const uint8_t *)in, width * frames, (uint8_t *)out, sizeof out,
                       (uint8_t *)other_half, sizeof other_half);
    require(done.number == 0 && done.half == 0, "muzgleur: block");
    return done.len / width;
}

static void close_muzgleur(void) {}

static SRC_STATE *samplerate;

static void open_samplerate(void) {
    int error;
    samplerate = src_new(SRC_LINEAR, channels, &error);
    require(samplerate != NULL, "libsamplerate: open");
}

/* Its sound is float, so both conversions are part of the work. */
static size_t run_samplerate(const int16_t *in, size_t frames) {
    SRC_DATA data = {.data_in = sound_float,
                     .data_out = out_float,
                     .input_frames = (long)frames,
                     .output_frames = ROOM_FRAMES,
                     .src_ratio = (double)out_rate / in_rate};
    src_short_to_float_array(in, sound_float, (int)frames * channels);
    int error = src_process(samplerate, &data);
    require(error == 0 && data.input_frames_used == (long)frames, "libsamplerate: block");
    src_float_to_short_array(out_float, out, (int)data.output_frames_gen * channels);
    return (size_t)data.output_frames_gen;
}

static void close_samplerate(void) { src_delete(samplerate); }

static SpeexResamplerState *speex;

static void open_speex(void) {
    int error;
    speex = speex_resampler_init(channels, in_rate, out_rate, 0, &error);
    require(speex != NULL, "speexdsp: open");
}

static size_t run_speex(const int16_t *in, size_t frames) {
    spx_uint32_t taken = (spx_uint32_t)frames, delivered = ROOM_FRAMES;
    int error = speex_resampler_process_interleaved_int(speex, in, &taken, out, &delivered);
    require(error == 0 && taken == frames, "speexdsp: block");
    return delivered;
}

static void close_speex(void) { speex_resampler_destroy(speex); }

static soxr_t soxr;

/* Without dither, which the others do not add either. */
static void open_soxr(void) {
    soxr_error_t error;
    soxr_io_spec_t io = soxr_io_spec(SOXR_INT16_I, SOXR_INT16_I);
    soxr_quality_spec_t quality = soxr_quality_spec(SOXR_QQ, 0);
    io.flags |= SOXR_NO_DITHER;
    soxr = soxr_create(in_rate, out_rate, channels, &error, &io, &quality, NULL);
    require(soxr != NULL && !error, "soxr: open");
}

static size_t run_soxr(const int16_t *in, size_t frames) {
    size_t taken, delivered;
    soxr_error_t error = soxr_process(soxr, in, frames, &taken, out, ROOM_FRAMES, &delivered);
    require(!error && taken == frames, "soxr: block");
    return delivered;
}

static void close_soxr(void) { soxr_delete(soxr); }

typedef struct {
    const char *name;
    void (*open)(void);
    size_t (*run)(const int16_t *in, size_t frames);
    void (*close)(void);
} side;

enum { OURS, SIDES = 4 };

static const side SIDE[SIDES] = {{"muzgleur", open_muzgleur, run_muzgleur, close_muzgleur},
                                 {"libsamplerate", open_samplerate, run_samplerate, close_samplerate},
                                 {"speexdsp", open_speex, run_speex, close_speex},
                                 {"soxr", open_soxr, run_soxr, close_soxr}};

/* The same tone in each channel, whole periods, so that one pass joins the next. */
static void fill(void) {
    for (size_t i = 0; i < (size_t)FRAMES * channels; i++)
        sound[i] = (int16_t)lrint(AMPLITUDE * sin(2 * M_PI * (double)(i / channels) / PERIOD));
}

/* Two passes: ours delivers ceil((T - 1) out / in) frames of the T received, the others are at most a few frames apart from that,
 * and the second pass is as loud as the tone. */
static void check(int i) {
    size_t delivered = 0, samples = 0;
    double energy = 0;
    for (int pass = 0; pass < 2; pass++)
        for (size_t at = 0; at < FRAMES; at += block) {
            size_t frames = SIDE[i].run(sound + at * channels, block);
            delivered += frames;
            for (size_t k = 0; pass == 1 && k < frames * channels; k++, samples++) energy += (double)out[k] * out[k];
        }
    uint64_t received = 2 * FRAMES, exact = ((received - 1) * out_rate + in_rate - 1) / in_rate;
    double level = sqrt(energy / (double)samples) / (AMPLITUDE / sqrt(2));
    double apart = fabs((double)delivered - (double)exact);
    if (apart > (i == OURS ? 0 : MOST_APART) || !(fabs(level - 1) < 0.05)) {
        fprintf(stderr, "%s, %u to %u, %u channels, blocks of %zu: %zu frames instead of %llu, level %.3f\n", SIDE[i].name, in_rate,
                out_rate, channels, block, delivered, (unsigned long long)exact, level);
        exit(1);
    }
}

static double now(void) {
    struct timespec t;
    clock_gettime(CLOCK_MONOTONIC, &t);
    return 1e9 * (double)t.tv_sec + (double)t.tv_nsec;
}

/* Nanoseconds of a pass in blocks. */
static double pass(int i) {
    double start = now();
    for (size_t at = 0; at < FRAMES; at += block) SIDE[i].run(sound + at * channels, block);
    return now() - start;
}

/* The best pass of each side so far. */
static void time_row(double best[SIDES]) {
    fill();
    for (int i = 0; i < SIDES; i++) {
        SIDE[i].open();
        check(i);
    }
    for (int round = 0; round < ROUNDS; round++)
        for (int i = 0; i < SIDES; i++) best[i] = fmin(best[i], pass(i));
    for (int i = 0; i < SIDES; i++) SIDE[i].close();
}

static void print_row(const double best[SIDES]) {
    double peer = INFINITY;
    printf("%6u to %6u  %-6s %6zu", in_rate, out_rate, channels == 1 ? "mono" : "stereo", block);
    for (int i = 0; i < SIDES; i++) {
        if (i != OURS) peer = fmin(peer, best[i]);
        printf(" %13.2f", best[i] / FRAMES);
    }
    printf(" %6.2f\n", best[OURS] / peer);
}

/* Every row in each sweep, so that a busy moment of the machine spoils none. */
int main(void) {
    static double best[ROWS][SIDES];
    for (size_t row = 0; row < ROWS; row++)
        for (int i = 0; i < SIDES; i++) best[row][i] = INFINITY;
    for (int sweep = 0; sweep < SWEEPS; sweep++)
        for (size_t row = 0; row < ROWS; row++) {
            select_row(row);
            time_row(best[row]);
        }
    printf("ns for each frame that enters; best of %d passes of each, in turn; ratio of ours to the best other\n", SWEEPS * ROUNDS);
    printf("%-16s  %-6s %6s", "rates", "", "block");
    for (int i = 0; i < SIDES; i++) printf(" %13s", SIDE[i].name);
    printf("  ratio\n");
    for (size_t row = 0; row < ROWS; row++) {
        select_row(row);
        print_row(best[row]);
    }
    return 0;
}
