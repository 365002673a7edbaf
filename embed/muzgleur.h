/* Muzgleur for C: the calls of target/staticlib/libmuzgleur.a.
 *
 * A chain is MUZGLEUR_CHAIN_WORDS words of the caller's memory. There is no heap and nothing to free: copy the words, keep
 * them, forget them. Every buffer is the caller's and is read or written only during the call; the buffers of one call must
 * not overlap. A length counts elements; words past MUZGLEUR_CHAIN_WORDS are never touched. A pointer may not be NULL, even
 * with length 0.
 *
 * number is 0 or a refusal's: 1 rate, channels or chain not allowed, too few words, 2 format does not suit, 3 too little room
 * (needed says how much), 4 not whole frames, 5 record short, 6 kind unknown, 7 record length wrong, 8 more than eight stages,
 * 9 setting out of range, 10 more than 8,192 frames, 11 a note of more than 64 bytes. A value that there is not is 0. A refusal
 * alters no word and no byte. */
#ifndef MUZGLEUR_H
#define MUZGLEUR_H

#include <stddef.h>
#include <stdint.h>

#ifdef __cplusplus
extern "C" {
#endif

/* The words of a chain: count, rate, channels, blocks (low, high), empty blocks (low, high), 0, then 18 for each of eight
 * stages: kind as in a recipe, six settings, eight of a filter's memory, three of a resampler's; floats by their bits. Not to
 * be altered by hand: words that no call wrote are refused with 1 or play what they say. */
#define MUZGLEUR_CHAIN_WORDS 152

enum { MUZGLEUR_REFUSED = 0, MUZGLEUR_SOUND = 1, MUZGLEUR_NOTHING_YET = 2 };

typedef struct {
    uint16_t number;
    uint8_t outcome;
    size_t needed;
    uint32_t rate;
    uint16_t channels;
    uint64_t timestamp;
    uint8_t half; /* 0 is a, 1 is b */
    size_t len;
    size_t clipped; /* how many samples the stages held back in this call; 0 for a refusal */
} muzgleur_block_result;

typedef struct {
    uint16_t number;
    uint8_t outcome;
    size_t needed;
    uint32_t rate;
    uint16_t channels;
    uint8_t half; /* 0 is a, 1 is b */
    size_t len;
    size_t clipped; /* how many samples the stages held back in this call; 0 for a refusal */
} muzgleur_finish_result;

typedef struct {
    uint16_t number;
    uint64_t blocks, empty_blocks;
} muzgleur_counter_result;

typedef struct {
    uint32_t rate;
    uint16_t channels;
} muzgleur_format;

typedef struct {
    uint16_t number;
    size_t value;
} muzgleur_scratch_result;

typedef struct {
    uint16_t number;
    size_t frames; /* that leave the last stage; 0 where it would be NOTHING_YET */
    size_t half;   /* bytes of each of two equal halves */
} muzgleur_room_result;

typedef struct {
    uint16_t number;
    size_t needed, len;
} muzgleur_write_result;

/* The chain of a recipe, to the words. Notes in it, records of kinds 0x8000 and above, are passed over. */
uint16_t muzgleur_open(uint32_t rate, uint16_t channels, const uint8_t *recipe, size_t recipe_len, uint32_t *chain,
                       size_t chain_words);

/* One block through the chain. SOUND: len bytes at the front of the half named. needed counts both halves together. */
muzgleur_block_result muzgleur_block(uint32_t *chain, size_t chain_words, uint32_t rate, uint16_t channels,
                                     uint64_t timestamp, const uint8_t *sound, size_t sound_len, uint8_t *a, size_t a_len,
                                     uint8_t *b, size_t b_len);

/* The end of the stream. A resampler delivers the output that falls exactly on its newest frame, if there is one; that frame
 * runs on through the later stages, and they end in turn. SOUND: len bytes at the front of the half named, with no timestamp;
 * NOTHING_YET: the last stage delivered nothing. The sound memory is then as after muzgleur_open, so that the next block begins
 * a new stream; the counters do not move. One frame may become many, so halves by muzgleur_scratch_bytes need not suffice here:
 * muzgleur_finish_room says what will. needed counts both halves together and is that of the first stage short. */
muzgleur_finish_result muzgleur_finish(uint32_t *chain, size_t chain_words, uint8_t *a, size_t a_len, uint8_t *b,
                                       size_t b_len);

/* The sound memory cleared, the counters left alone. */
uint16_t muzgleur_reset(uint32_t *chain, size_t chain_words);

/* How many blocks were accepted, and how many of them brought nothing. */
muzgleur_counter_result muzgleur_counters(const uint32_t *chain, size_t chain_words);

/* The format that leaves the last stage; zeros where the words are no chain. */
muzgleur_format muzgleur_output_format(const uint32_t *chain, size_t chain_words);

/* Twice the bytes of a half: two such halves are enough for any block of size bytes, in any state. */
muzgleur_scratch_result muzgleur_scratch_bytes(const uint32_t *chain, size_t chain_words, size_t size);

/* What the next block, of so many frames in the chain's format, will bring, whatever its bytes, and the smallest two equal
 * halves that it is accepted with; longer or unequal ones of at least that size do as well, and with one byte less in each it is
 * refused with 3, needed being twice the figure. 0 frames are 4, more than 8,192 are 10. The figure may pass 2^32. */
muzgleur_room_result muzgleur_block_room(const uint32_t *chain, size_t chain_words, size_t frames);

/* The same of a finish. Where nothing is due both are 0, and halves of no bytes do. */
muzgleur_room_result muzgleur_finish_room(const uint32_t *chain, size_t chain_words);

/* The recipe that the chain was opened from, without its notes, at the front of out. */
muzgleur_write_result muzgleur_write_recipe(const uint32_t *chain, size_t chain_words, uint8_t *out, size_t out_len);

#ifdef __cplusplus
}
#endif

#endif
