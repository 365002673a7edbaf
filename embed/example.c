/* A chain for 48,000 Hz mono: resample to 16,000 Hz, DC block at 20 Hz, low-pass at 3,000 Hz (q 0.707), gain 1.5.
 * Runs blocks of a made-up sound through it, in halves cut to the size that each call will want, finishes the stream and prints the
 * frames that come out and how many samples were clipped; the output goes to the file named by the first argument, if there is one. */
#include "muzgleur.h"

#include <stdbool.h>
#include <stdio.h>
#include <string.h>

static const uint8_t RECIPE[] = {
    0x0A, 0x00, 0x04, 0x00, 0x80, 0xBB, 0x00, 0x00, 0x80, 0x3E, 0x00, 0x00, /* resample 48,000 to 16,000 */
    0x06, 0x00, 0x05, 0x00, 0x00, 0x00, 0xA0, 0x41,                         /* DC block 20 Hz */
    0x1A, 0x00, 0x06, 0x00, 0x80, 0x3E, 0x00, 0x00,                         /* biquad at 16,000: */
    0xE1, 0x29, 0x3F, 0x3E, 0xE1, 0x29, 0xBF, 0x3E, 0xE1, 0x29, 0x3F, 0x3E, /*   b0, b1, b2 */
    0x98, 0x02, 0xED, 0xBE, 0xB4, 0xAC, 0x56, 0x3E,                         /*   a1, a2 */
    0x06, 0x00, 0x01, 0x00, 0x00, 0xC0, 0x00, 0x00,                         /* gain 49,152 / 32,768 */
};

enum { MOST_FRAMES = 480, MOST_BYTES = 2 * MOST_FRAMES, ROOM = 4096 };

/* A sawtooth of 441 frames beside an offset. */
static void made_up(uint8_t *sound, size_t frames, uint64_t from) {
    for (size_t i = 0; i < frames; i++) {
        uint16_t sample = (uint16_t)(3000 + (int)((from + i) % 441 * 40) - 8820);
        sound[2 * i] = (uint8_t)sample;
        sound[2 * i + 1] = (uint8_t)(sample >> 8);
    }
}

static uint8_t sound[MOST_BYTES], a[ROOM / 2], b[ROOM / 2];
static uint32_t chain[MUZGLEUR_CHAIN_WORDS];

enum { WORDS = MUZGLEUR_CHAIN_WORDS };

/* What a block or the finish answered; its sound goes to the file. */
static void show(uint8_t outcome, uint16_t number, size_t needed, uint8_t half, size_t len, FILE *out) {
    if (outcome == MUZGLEUR_REFUSED) {
        printf("refused: %u, needed %zu\n", number, needed);
    } else if (outcome == MUZGLEUR_NOTHING_YET) {
        printf("nothing yet\n");
    } else {
        printf("%3zu out in half %c\n", len / 2, half ? 'b' : 'a');
        if (out) fwrite(half ? b : a, 1, len, out);
    }
}

/* How many bytes of each half to lend: as many as the next call wants, or all, whose refusal then says what is wanted. */
static size_t cut_to_size(muzgleur_room_result room) {
    printf("%3zu will come, ", room.frames);
    return room.half <= sizeof a ? room.half : sizeof a;
}

/* Blocks cut anyhow, 1,921 frames in all: an output falls on the last of them, which the finish delivers. */
static void run_stream(FILE *out) {
    static const size_t frames[] = {480, 480, 1, 479, 1, 1, 479};
    uint64_t at = 0;
    size_t clipped = 0;
    for (size_t i = 0; i < sizeof frames / sizeof *frames; i++) {
        made_up(sound, frames[i], at);
        printf("%3zu frames in, ", frames[i]);
        size_t half = cut_to_size(muzgleur_block_room(chain, WORDS, frames[i]));
        muzgleur_block_result done = muzgleur_block(chain, WORDS, 48000, 1, at, sound, 2 * frames[i], a, half, b, half);
        at += frames[i];
        clipped += done.clipped;
        show(done.outcome, done.number, done.needed, done.half, done.len, out);
    }
    printf("finish, ");
    size_t half = cut_to_size(muzgleur_finish_room(chain, WORDS));
    muzgleur_finish_result last = muzgleur_finish(chain, WORDS, a, half, b, half);
    show(last.outcome, last.number, last.needed, last.half, last.len, out);
    clipped += last.clipped;
    printf("%zu samples clipped\n", clipped);
}

/* Calls that are refused; the chain stays as it was. */
static bool show_refusals(void) {
    uint32_t before[WORDS];
    memcpy(before, chain, sizeof chain);
    size_t half = muzgleur_block_room(chain, WORDS, MOST_FRAMES).half;
    muzgleur_block_result tight = muzgleur_block(chain, WORDS, 48000, 1, 0, sound, MOST_BYTES, a, half - 1, b, half - 1);
    printf("halves of %zu bytes: refused %u, needed %zu\n", half - 1, tight.number, tight.needed);
    printf("the room of no frames: refused %u\n", muzgleur_block_room(chain, WORDS, 0).number);
    printf("the room of 8,193 frames: refused %u\n", muzgleur_block_room(chain, WORDS, 8193).number);
    muzgleur_block_result odd = muzgleur_block(chain, WORDS, 48000, 1, 0, sound, 3, a, sizeof a, b, sizeof b);
    printf("a block of 3 bytes: refused %u\n", odd.number);
    muzgleur_block_result few = muzgleur_block(chain, WORDS - 1, 48000, 1, 0, sound, MOST_BYTES, a, sizeof a, b, sizeof b);
    printf("one word too few: refused %u\n", few.number);
    muzgleur_write_result written = muzgleur_write_recipe(chain, WORDS, a, 10);
    printf("a recipe to 10 bytes: refused %u, needed %zu\n", written.number, written.needed);
    return memcmp(before, chain, sizeof chain) == 0;
}

int main(int argc, char **argv) {
    uint16_t refusal = muzgleur_open(48000, 1, RECIPE, sizeof RECIPE, chain, WORDS);
    if (refusal != 0) {
        fprintf(stderr, "opening refused: %u\n", refusal);
        return 1;
    }
    muzgleur_format format = muzgleur_output_format(chain, WORDS);
    printf("48000 Hz to %u Hz\n", format.rate);

    muzgleur_scratch_result scratch = muzgleur_scratch_bytes(chain, WORDS, MOST_BYTES);
    if (scratch.number != 0 || scratch.value > ROOM) {
        fprintf(stderr, "halves too short: refusal %u, %zu bytes wanted\n", scratch.number, scratch.value);
        return 1;
    }

    FILE *out = NULL;
    if (argc > 1 && !(out = fopen(argv[1], "wb"))) {
        perror(argv[1]);
        return 1;
    }
    run_stream(out);
    if (out) fclose(out);
    bool kept = show_refusals();
    printf("after the refusals the chain is %s\n", kept ? "as it was" : "altered");

    muzgleur_write_result written = muzgleur_write_recipe(chain, WORDS, a, sizeof a);
    bool same = written.len == sizeof RECIPE && memcmp(a, RECIPE, sizeof RECIPE) == 0;
    printf("recipe written back %s\n", same ? "unchanged" : "otherwise");

    muzgleur_reset(chain, WORDS);
    muzgleur_counter_result counters = muzgleur_counters(chain, WORDS);
    printf("%llu blocks, %llu of them empty\n", (unsigned long long)counters.blocks, (unsigned long long)counters.empty_blocks);
    return same && kept ? 0 : 1;
}
