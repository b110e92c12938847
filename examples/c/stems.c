/* Plays one note of a voice twice, in blocks of 64 and of 1,000 frames, and subtracts the two stems. A note sounds the same however it is
 * cut into blocks, so nothing is left.
 *
 * Exit status: 0, or 1 where the voice is refused (or the stems differ), or 2 where there is no voice to judge: wrong usage, a file that
 * can't be read, no memory. */
#include "svx.h"

#include <inttypes.h>
#include <stdio.h>
#include <stdlib.h>

#define RATE 44100
#define KEY_UP (2 * RATE)
#define FRAMES (4 * RATE)

enum { PLAYED = 0, REFUSED = 1, NO_VOICE = 2 };

typedef struct {
    uint8_t *sheet;
    int8_t *left;
    int8_t *right;
    uint64_t lengths[3];
} Voice;

static int refused(const char *path, uint32_t number) {
    fprintf(stderr, "%s: refused by %" PRIu32 ": %s\n", path, number, svx_refusal_text(number));
    return REFUSED;
}

static int no_memory(void) {
    fprintf(stderr, "not enough memory\n");
    return NO_VOICE;
}

/* A buffer, of one byte at least: an empty one isn't told from a failure by every malloc. */
static void *buffer(uint64_t length) {
    size_t size = (size_t)length;
    if (size != length) return NULL; /* more than this machine can address */
    return malloc(size ? size : 1);
}

/* Twice the room for the same bytes. Where there is none, the bytes are freed too. */
static uint8_t *grown(uint8_t *bytes, size_t *room) {
    uint8_t *more = *room > SIZE_MAX / 2 ? NULL : realloc(bytes, 2 * *room);
    if (!more) free(bytes);
    *room *= 2;
    return more;
}

/* The whole of a file, or NULL once it has said why not. It is read to its end rather than measured first, which serves pipes too, and
 * a directory: that may open like a file, but then fails to be read. */
static uint8_t *read_file(const char *path, size_t *length) {
    FILE *file = fopen(path, "rb");
    if (!file) {
        perror(path);
        return NULL;
    }
    size_t room = 65536, n = 0;
    uint8_t *bytes = malloc(room);
    while (bytes && (n += fread(bytes + n, 1, room - n, file)) == room) bytes = grown(bytes, &room);
    if (!bytes) {
        no_memory();
    } else if (ferror(file)) {
        perror(path);
        free(bytes);
        bytes = NULL;
    }
    fclose(file);
    *length = n;
    return bytes;
}

static void free_voice(Voice *v) {
    free(v->sheet);
    free(v->left);
    free(v->right);
}

/* The voice of a file's bytes. The library allocates nothing: it says how much room the voice needs, and is lent it. */
static int read_voice(const char *path, const uint8_t *file, size_t length, Voice *v) {
    uint32_t refusal = svx_voice_lengths(file, length, v->lengths);
    if (refusal) return refused(path, refusal);
    v->sheet = buffer(v->lengths[0]);
    v->left = buffer(v->lengths[1]);
    v->right = buffer(v->lengths[2]);
    if (!v->sheet || !v->left || !v->right) return no_memory();
    refusal = svx_parse_voice(file, length, v->sheet, v->lengths[0], v->left, v->lengths[1], v->right, v->lengths[2], v->lengths);
    return refusal ? refused(path, refusal) : PLAYED;
}

/* The step at which the voice sounds at its own rate. A sheet begins with the header record, whose body holds the rate in its bytes 12
 * and 13. A rate of 0 says nothing: then each frame is one sample. */
static uint32_t own_step(const Voice *v) {
    SvxRecord header = svx_sheet_record(v->sheet, v->lengths[0], 0);
    uint64_t rate = 256u * v->sheet[header.start + 12] + v->sheet[header.start + 13];
    return rate ? (uint32_t)(65536 * rate / RATE) : 65536;
}

/* Fills the stem up to frame `end`, in blocks of `block` frames. The last is cut where it would pass the end: a key-up comes between
 * blocks, and it has to come at the same frame in every stem. */
static uint32_t fill_to(const Voice *v, SvxNote *note, int16_t *stem, uint32_t end, uint32_t block, uint64_t *sounded) {
    while (note->frames < end) {
        size_t frames = end - note->frames < block ? end - note->frames : block;
        SvxFilled filled = svx_note_fill(*note, v->sheet, v->lengths[0], v->left, v->lengths[1], v->right, v->lengths[2],
                                         stem + 2 * (size_t)note->frames, 2 * frames);
        if (filled.refusal) return filled.refusal;
        *sounded += filled.sounding;
        *note = filled.note;
    }
    return 0;
}

/* The highest octave's note, held for two seconds and then released. */
static uint32_t play(const Voice *v, int16_t *stem, uint32_t block) {
    uint64_t sounded = 0;
    SvxNote note = svx_note_start(0, own_step(v), RATE, 127);
    uint32_t refusal = fill_to(v, &note, stem, KEY_UP, block, &sounded);
    if (refusal) return refusal;
    note = svx_note_key_up(note);
    refusal = fill_to(v, &note, stem, FRAMES, block, &sounded);
    if (refusal) return refusal;
    printf("in blocks of %" PRIu32 " frames, %" PRIu64 " of %d frames sounded\n", block, sounded, FRAMES);
    return 0;
}

/* How many values are left once one stem is subtracted from the other. */
static size_t differing(const int16_t *a, const int16_t *b) {
    size_t count = 0;
    for (size_t i = 0; i < 2 * (size_t)FRAMES; i++) count += a[i] - b[i] != 0;
    return count;
}

static int compare_stems(const char *path, const Voice *v) {
    int16_t *first = buffer(2 * FRAMES * sizeof *first), *second = buffer(2 * FRAMES * sizeof *second);
    int status = PLAYED;
    if (!first || !second) {
        status = no_memory();
    } else {
        uint32_t refusal = play(v, first, 64);
        if (!refusal) refusal = play(v, second, 1000);
        if (refusal) {
            status = refused(path, refusal);
        } else {
            size_t count = differing(first, second);
            printf("%zu of %d values differ\n", count, 2 * FRAMES);
            if (count) status = REFUSED;
        }
    }
    free(first);
    free(second);
    return status;
}

int main(int argc, char **argv) {
    if (argc != 2) {
        fprintf(stderr, "usage: stems FILE\n");
        return NO_VOICE;
    }
    size_t length;
    uint8_t *file = read_file(argv[1], &length);
    if (!file) return NO_VOICE;
    Voice v = {NULL, NULL, NULL, {0, 0, 0}};
    int status = read_voice(argv[1], file, length, &v);
    free(file);
    if (status == PLAYED) {
        printf("%s: samples: %" PRIu64 " left, %" PRIu64 " right\n", argv[1], v.lengths[1], v.lengths[2]);
        status = compare_stems(argv[1], &v);
    }
    free_voice(&v);
    return status;
}
