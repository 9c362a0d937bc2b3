/* Files that are refused, and their neighbours that are not. */
#ifndef OPENINGS_H
#define OPENINGS_H

#include "desk.h"
#include "files.h"
#include "show.h"
#include "sound.h"

/* a string literal's bytes without the 0 at its end */
#define BYTES(text) {(const uint8_t *)(text), sizeof(text) - 1}

struct opening {
    const uint8_t *bytes;
    size_t length;
};

static const struct opening openings[] = {
    /* 1: the file ends within a number, or where one is due */
    BYTES(""), BYTES("\x80"), BYTES("\x80\x80"), BYTES("\x80\x80\x80"), BYTES("\x04"), BYTES("\x04\x05\x00\x01"),
    BYTES("\x02\x80\x02"), BYTES("\x02\x80\x80\x80"), BYTES("\x02\x01\x00\x01\xff\xff\xff"),
    /* 2: a fourth byte with the top bit */
    BYTES("\x80\x80\x80\x80"), BYTES("\x80\x80\x80\x80\x00"), BYTES("\x02\x80\x80\x80\x80"),
    BYTES("\x02\x01\x00\x01\xff\xff\xff\xff"),
    /* 3: a last group of zero */
    BYTES("\x80\x00"), BYTES("\x80\x80\x00"), BYTES("\x80\x80\x80\x00"), BYTES("\x02\x01\x00\x01\xff\xff\xff\x00"),
    BYTES("\x02\x01\x00\x01\x80\x00"), BYTES("\x02\x01\x80\x00"),
    /* 4 and 5: n, m */
    BYTES("\x00"), BYTES("\x41"), BYTES("\x80\x01"), BYTES("\x80\x80\x80\x01"), BYTES("\x40\x00"),
    BYTES("\x02\x81\x02"), BYTES("\x02\x81\x80\x80\x01"), BYTES("\x01\x00"),
    /* 6, 7, 8: a, b, c */
    BYTES("\x02\x01\x02"), BYTES("\x02\x01\x00\x02"), BYTES("\x04\x01\x80\x01"), BYTES("\x02\x01\x00\x00\x00"),
    BYTES("\x02\x01\x02\x02"), BYTES("\x02\x01\x01\x01\xff"), BYTES("\x02\x01\x00\x01\xc0\x84\x3d"),
    BYTES("\x02\x01\x00\x01\xc1\x84\x3d"), BYTES("\x02\x01\x01\x00\xff\xff\x7f"),
    BYTES("\x02\x01\x00\x01\x80\x80\x80\x01"), BYTES("\x02\x01\x00\x01\x80\xa4\xe8\x02"),
    BYTES("\x02\x01\x00\x01\x80\xa4\xe8\x03"), BYTES("\x02\x01\x00\x01\x81\xa4\xe8\x03"),
    BYTES("\x02\x01\x01\x00\xff\xff\xff\x7f"), BYTES("\x02\x01\x01\x00\x00"),
    /* 9: bytes follow */
    BYTES("\x01\x00\x00"), BYTES("\x02\x00\x80\x80"), BYTES("\x02\x01\x00\x01\x05\x00"),
};

/* the file is that of the plan, byte for byte */
static inline void must_write_back(struct desk *desk, const uint8_t *file, size_t length)
{
    struct question q = {.room = PAMZOLIT_FILE_MAX};
    MUST(called(WRITE, desk, &q) == 0);
    MUST(desk->used == length && memcmp(desk->file, file, length) == 0);
}

static inline void try_opening(struct desk *desk, const uint8_t *file, size_t length)
{
    struct question q = {.t = 1, .places = 5, .room = PAMZOLIT_FILE_MAX};
    cover_with_noise(desk, sizeof *desk);
    uint32_t number = opened(desk, file, length);
    printf(": number %u, place %zu\n", (unsigned)number, desk->place);
    if (number == PAMZOLIT_ACCEPTED) {
        MUST(sound(&desk->plan));
        must_be_blank_elsewhere(&desk->plan);
        must_write_back(desk, file, length);
    } else {
        MUST(all_zero(&desk->plan, sizeof desk->plan));
        must_refuse_all(desk, &q, PAMZOLIT_NOT_SOUND);
    }
}

static inline void try_openings(struct desk *desk)
{
    for (size_t i = 0; i < sizeof openings / sizeof openings[0]; i++) {
        printf("open");
        show_bytes(openings[i].bytes, openings[i].length);
        try_opening(desk, openings[i].bytes, openings[i].length);
    }
    struct file longest = longest_file();
    for (size_t length = PAMZOLIT_FILE_MAX - 1; length <= PAMZOLIT_FILE_MAX + 1; length++) {
        printf("open %zu bytes of the longest file", length);
        try_opening(desk, longest.bytes, length);
    }
}

#endif
