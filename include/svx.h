/* Falkhubed: FORM 8SVX voices. Link with libsvx.a.
 *
 * A slice is a pointer and then a length; an empty slice may have any pointer, NULL too. Pointers are aligned for their elements, and
 * lent buffers don't overlap. A bool is 0 or 1; padding in a struct is unspecified.
 *
 * A function that can be refused returns 0 or the refusal's number. A refused call writes nothing: no buffer, and no place for a
 * length. Of an accepted one, what lies past the output in a buffer is kept.
 *
 * refusals.txt { written by tools/refusals.sh
 *  1  the file is shorter than 12 bytes
 *  2  the file doesn't begin with FORM
 *  3  the FORM's type isn't 8SVX
 *  4  a chunk runs past the FORM
 *  5  a second VHDR, CHAN, PAN, SEQN, FADE or BODY
 *  6  a chunk's length is wrong
 *  7  CHAN isn't 2, 4 or 6
 *  8  there is no VHDR
 *  9  there is no BODY
 * 10  the compression is neither 0 nor 1
 * 11  a Fibonacci BODY of two channels has an odd length
 * 12  a Fibonacci channel is shorter than 2 bytes
 * 13  the octaves have more samples than 64 bits can count
 * 14  a channel is shorter than its octaves
 * 15  the sheet ends inside a record
 * 16  a record's kind, order or value is wrong, or the sheet has no header
 * 17  a text isn't UTF-8
 * 18  the sample lengths don't suit the header and CHAN
 * 19  the length of the FORM or RIFF would be above 4,294,967,295
 * 20  an output buffer is too short
 * 21  a SEQN segment isn't on multiples of 4, runs backwards or ends past the highest octave
 * 22  there is a SEQN beside a one-shot part
 * 23  FADE names a segment that isn't there
 * 24  the sequence is longer than 4,294,967,295 samples
 * 25  the buffer to fill has an odd number of places
 * 31  the voice has no such octave
 * 32  the step is 0 or above 16,777,216
 * 33  the output rate is 0 or above 192,000
 * 34  the key-up frame is later than the frames filled
 * 41  the voice's rate is 0
 * 43  there is no crossing within reach
 * 44  the velocity is 0 or above 127
 * 45  an entry of the score starts before the entry before it
 * 46  the score has more than 16 entries
 * 47  an entry's key-up frame is before its start frame
 * 48  the starting number is 0
 * } refusals.txt
 */
#ifndef SVX_H
#define SVX_H

#include <stdbool.h>
#include <stddef.h>
#include <stdint.h>

#ifdef __cplusplus
extern "C" {
#endif

/* Files. A voice is its sheet (header, channel, pan, envelopes, sequence, fade and texts as records) and the samples of its left and
 * right side; one channel has its samples at left. */

/* The lengths that reading a file needs: sheet, left, right.
 * Refused as reading is (1 to 14), but never by 20. */
uint32_t svx_voice_lengths(const uint8_t *file, size_t file_len, uint64_t lengths[3]);

/* Reads a file into three lent buffers and gives their lengths; if one is too short, none is written.
 * Refused by 1 to 14, then 20. */
uint32_t svx_parse_voice(const uint8_t *file, size_t file_len, uint8_t *sheet, size_t sheet_len, int8_t *left, size_t left_len,
                         int8_t *right, size_t right_len, uint64_t lengths[3]);

/* The length that writing a file needs.
 * Refused as writing is, but never by 20. */
uint32_t svx_file_length(const uint8_t *sheet, size_t sheet_len, const int8_t *left, size_t left_len, const int8_t *right,
                         size_t right_len, uint64_t *length);

/* Writes the file of a voice and gives its length.
 * Refused by 15 to 17, then 10, 13, 18, 19, 20 in that order. */
uint32_t svx_encode_voice(const uint8_t *sheet, size_t sheet_len, const int8_t *left, size_t left_len, const int8_t *right,
                          size_t right_len, uint8_t *file, size_t file_len, uint64_t *length);

/* Octaves as sound files. An octave is a RIFF WAVE of 8-bit PCM at the voice's rate. Its data begin at byte 44, of two channels (CHAN 6)
 * left and right by turns; each value is the sample plus 128, so that -2 becomes 126. Odd data are padded by a byte 0, which only the
 * length of the RIFF counts. If one-shot and repeat part are both 0, octave 0 is all the samples, and there is no other. */

/* The length that writing octave `octave`, of which 0 is the highest, as a WAVE needs.
 * Refused as writing it is, but never by 20. */
uint32_t svx_octave_wave_length(const uint8_t *sheet, size_t sheet_len, const int8_t *left, size_t left_len, const int8_t *right,
                                size_t right_len, uint8_t octave, uint64_t *length);

/* Writes an octave of a voice as a WAVE and gives its length; one of no samples has 44 bytes.
 * Refused by 15 to 17, then 10, 13, 18, 31, 41, 19, 20 in that order. */
uint32_t svx_octave_wave(const uint8_t *sheet, size_t sheet_len, const int8_t *left, size_t left_len, const int8_t *right,
                         size_t right_len, uint8_t octave, uint8_t *file, size_t file_len, uint64_t *length);

/* Notes. A note is a value: each call takes it and gives the note after it, and what a host keeps of it is all there is to keep. The same
 * calls give the same frames, however the frames are cut into blocks. Of a voice with one channel PAN says how much each side gets, where
 * there is a PAN, else CHAN, else both get all of it; two channels have a side each, and their PAN isn't looked at. */

/* velocity is how hard the key was struck, from 1 to 127: a value becomes times velocity / 127, so 127 leaves it. Every call keeps the velocity.
 * step: 65,536 is one sample a frame; rate is the output's, in frames a second; frames is how many were filled. key_up is the frame of the
 * key-up, and 0 while the note is held: of a note handed in with released false it is ignored, and it comes back as 0, from every call. */
typedef struct {
    uint8_t octave;
    uint8_t velocity;
    uint32_t step;
    uint32_t rate;
    uint32_t frames;
    bool released;
    uint32_t key_up;
} SvxNote;

/* refusal is 0 or the refusal's number; sounding is how many frames of the block weren't over, and 0 where refused. */
typedef struct {
    uint32_t refusal;
    uint64_t sounding;
    SvxNote note;
} SvxFilled;

/* A fresh note: no frames filled, held.
 * Whatever it is given it keeps; a fill judges it. */
SvxNote svx_note_start(uint8_t octave, uint32_t step, uint32_t rate, uint8_t velocity);

/* The note after a key-up, which is at the frames filled.
 * Only the first key-up counts. */
SvxNote svx_note_key_up(SvxNote note);

/* Fills a buffer with the next frames of a note on a voice, left and right 16-bit values by turns; out_len counts places, two a frame.
 * Refused by 15 to 17, then 10, 13, 18, 21 to 25, 31 to 34, 44 in that order; then the note comes back as it was given, but that of a held
 * note key_up comes back as 0. */
SvxFilled svx_note_fill(SvxNote note, const uint8_t *sheet, size_t sheet_len, const int8_t *left, size_t left_len, const int8_t *right,
                        size_t right_len, int16_t *out, size_t out_len);

/* The ensemble. A score of up to 16 timed notes on one voice is mixed to one output: a mixed frame is the sum of what the entries give there,
 * held within 16 bits once, after summing. The place is all that a host keeps: it begins at 0, and each call is given the one that came
 * back last. The same score gives the same frames, however they are cut into blocks. */

/* start and key_up are mixed frames: at start the entry's first frame sounds, and before key_up, which may lie ahead of the block, the entry
 * is held. step, octave and velocity are a note's. In a score no start is below the one before it. */
typedef struct {
    uint32_t start;
    uint32_t key_up;
    uint32_t step;
    uint8_t octave;
    uint8_t velocity;
} SvxEntry;

/* Fills a buffer with the mixed frames from frame `place` on, left and right by turns as in a note's fill, and gives the place after them. It
 * stops at 4,294,967,295, and from that frame on all is silent. Refused by 46, then at the first bad entry by 45 or 47, then by 15 to 17,
 * 10, 13, 18, 21 to 23, 25 in that order, then entry by entry by 24, 31 to 33, 44; an empty score, which is silent, is never refused by 33. */
uint32_t svx_mix(const SvxEntry *score, size_t score_len, uint32_t rate, uint32_t place, const uint8_t *sheet, size_t sheet_len,
                 const int8_t *left, size_t left_len, const int8_t *right, size_t right_len, int16_t *out, size_t out_len,
                 uint32_t *after);

/* BODY and its channels. */

/* BODY as interleaved bytes, at most so many frames of each channel; 0 channels count as 1, more than 2 as 2.
 * The compression is the header's byte. Refused by 10, 11, 12, 20. */
uint32_t svx_decode_body(const uint8_t *body, size_t body_len, uint8_t compression, uint16_t channels, uint64_t frames, uint8_t *out,
                         size_t out_len, uint64_t *length);

/* The samples of a Fibonacci channel, each sum in a signed byte, which wraps from 127 to -128 and back.
 * Refused by 12, 20. */
uint32_t svx_fibonacci_decode_channel(const uint8_t *body, size_t body_len, int8_t *out, size_t out_len, uint64_t *length);

/* A channel's samples as Fibonacci bytes, each by the step that leads nearest, its sum wrapped, of those as near the smallest.
 * Refused by 20. */
uint32_t svx_fibonacci_encode_channel(const int8_t *samples, size_t samples_len, uint8_t *out, size_t out_len, uint64_t *length);

/* Difference order, in which a vault stores a channel: each octave for itself, its first sample as it is, then each sample less the one before,
 * modulo 256 as a signed byte; and of these values those at even places, counted from 0, before those at odd places. The header's lengths
 * and octave count say where the octaves lie; if one-shot and repeat part are both 0, the channel is one octave of any length. */

/* A channel in difference order, in a buffer as long.
 * Refused by 13, 18 (the length isn't the octaves' total), 20 in that order. */
uint32_t svx_difference_order(uint32_t one_shot, uint32_t repeat, uint8_t octaves, const int8_t *samples, size_t samples_len, int8_t *out,
                              size_t out_len, uint64_t *length);

/* The way back: the channel that these values are the difference order of. There is exactly one, whatever the values are.
 * Refused by 13, 18, 20 in that order. */
uint32_t svx_difference_restore(uint32_t one_shot, uint32_t repeat, uint8_t octaves, const int8_t *values, size_t values_len, int8_t *out,
                                size_t out_len, uint64_t *length);

/* Drawn voices, so that hosts on different machines can be put under the same load: a number says the voice whole, its channels, octaves,
 * lengths and rate, and every sample. Each of the 4,294,967,295 can be written, and reads back the same. */

/* The voice of a number, from 1 on, into three lent buffers, with their lengths; if one is too short, none is written.
 * Refused by 48, then 20; buffers of 23, 1,890 and 1,890 always do. */
uint32_t svx_drawn_voice(uint32_t number, uint8_t *sheet, size_t sheet_len, int8_t *left, size_t left_len, int8_t *right,
                         size_t right_len, uint64_t lengths[3]);

/* The sheet. */

/* step: 0 a record, 1 the end, 2 refused by 15, 3 refused by 16; the rest is 0 unless step is 0.
 * start is the place of the record's body, next the place past it. */
typedef struct {
    uint8_t step;
    uint8_t kind;
    uint64_t start;
    uint64_t next;
} SvxRecord;

/* The record at a place of a sheet; a place past the end is the end.
 * It judges neither order nor values. */
SvxRecord svx_sheet_record(const uint8_t *sheet, size_t sheet_len, uint64_t at);

/* Judges a whole sheet: 0 where it is a voice's.
 * Else 15, 16 or 17. */
uint32_t svx_sheet_judge(const uint8_t *sheet, size_t sheet_len);

/* Leaves. Where nothing is known, found or there, the other fields are 0. */

typedef struct {
    bool known;
    double hertz;
} SvxFrequency;

typedef struct {
    float left;
    float right;
} SvxPan;

typedef struct {
    bool found;
    uint8_t magnitude;
    uint64_t place;
} SvxPeak;

typedef struct {
    bool there;
    uint64_t start;
    uint64_t length;
} SvxPart;

/* The highest octave's cycle frequency, rate over samples per cycle.
 * Unknown where either is 0. */
SvxFrequency svx_hi_cycle_frequency_hz(uint16_t rate, uint32_t samples_per_cycle);

/* Both speakers' weights of a PAN position, 0 right to 65,536 left.
 * Together they are 1. */
SvxPan svx_pan_weights(int32_t position);

/* A 16.16 volume as a float: 65,536 is 1.0.
 * It isn't clamped. */
float svx_volume_f32(uint32_t volume);

/* The largest magnitude of samples, -128 counting as 128, and the first place that has it: no sample is louder, no earlier one as loud.
 * Not found where there are no samples; then the rest is 0. */
SvxPeak svx_peak(const int8_t *samples, size_t samples_len);

/* The nearest place i to `place`, any number, where sample i - 1 is below 0 and sample i isn't, or the other way round; of two as near
 * the earlier. Refused by 43 where none is at most `reach` away. */
uint32_t svx_nearest_crossing(const int8_t *samples, size_t samples_len, uint64_t place, uint64_t reach, uint64_t *crossing);

/* The level of an envelope t_ms milliseconds in, begun at `start`.
 * Points have 6 bytes as in ATAK; a remainder is ignored. */
int32_t svx_level_at_ms(const uint8_t *points, size_t points_len, int32_t start, uint64_t t_ms);

/* The length of octave k; start is always 0. With `repeat` 0 it is the one-shot part's length, with `one_shot` 0 the repeat part's.
 * Not there from k = 64 or the number of octaves on; bits past 64 are dropped. */
SvxPart svx_octave_samples(uint32_t one_shot, uint32_t repeat, uint8_t octaves, uint8_t k);

/* The repeat part of an octave k of that length; the one-shot part is places 0 to start.
 * Not there where the two parts by the header don't make up the octave. */
SvxPart svx_loop_repeat(uint32_t one_shot, uint32_t repeat, uint8_t octaves, uint8_t k, uint64_t octave_len);

/* The part of a side's buffer that holds its samples, given both buffers' lengths.
 * Not there where the sheet is refused, one channel has no right side, or the buffer is too short. */
SvxPart svx_side_samples(const uint8_t *sheet, size_t sheet_len, uint64_t left_len, uint64_t right_len, bool right);

/* Words. */

/* A refusal's number in words, for messages; 0 is "accepted".
 * A number that no function here gives is "unknown refusal". */
#ifdef __GNUC__
__attribute__((unused)) /* clang would warn where this header is compiled by itself */
#endif
static inline const char *svx_refusal_text(uint32_t number) {
    switch (number) {
    case 0: return "accepted";
    /* refusals.txt { written by tools/refusals.sh */
    case 1: return "the file is shorter than 12 bytes";
    case 2: return "the file doesn't begin with FORM";
    case 3: return "the FORM's type isn't 8SVX";
    case 4: return "a chunk runs past the FORM";
    case 5: return "a second VHDR, CHAN, PAN, SEQN, FADE or BODY";
    case 6: return "a chunk's length is wrong";
    case 7: return "CHAN isn't 2, 4 or 6";
    case 8: return "there is no VHDR";
    case 9: return "there is no BODY";
    case 10: return "the compression is neither 0 nor 1";
    case 11: return "a Fibonacci BODY of two channels has an odd length";
    case 12: return "a Fibonacci channel is shorter than 2 bytes";
    case 13: return "the octaves have more samples than 64 bits can count";
    case 14: return "a channel is shorter than its octaves";
    case 15: return "the sheet ends inside a record";
    case 16: return "a record's kind, order or value is wrong, or the sheet has no header";
    case 17: return "a text isn't UTF-8";
    case 18: return "the sample lengths don't suit the header and CHAN";
    case 19: return "the length of the FORM or RIFF would be above 4,294,967,295";
    case 20: return "an output buffer is too short";
    case 21: return "a SEQN segment isn't on multiples of 4, runs backwards or ends past the highest octave";
    case 22: return "there is a SEQN beside a one-shot part";
    case 23: return "FADE names a segment that isn't there";
    case 24: return "the sequence is longer than 4,294,967,295 samples";
    case 25: return "the buffer to fill has an odd number of places";
    case 31: return "the voice has no such octave";
    case 32: return "the step is 0 or above 16,777,216";
    case 33: return "the output rate is 0 or above 192,000";
    case 34: return "the key-up frame is later than the frames filled";
    case 41: return "the voice's rate is 0";
    case 43: return "there is no crossing within reach";
    case 44: return "the velocity is 0 or above 127";
    case 45: return "an entry of the score starts before the entry before it";
    case 46: return "the score has more than 16 entries";
    case 47: return "an entry's key-up frame is before its start frame";
    case 48: return "the starting number is 0";
    /* } refusals.txt */
    default: return "unknown refusal";
    }
}

#ifdef __cplusplus
}
#endif

#endif
