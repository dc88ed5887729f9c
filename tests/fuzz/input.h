/* The bytes of a fuzzer taken apart into numbers and models; after the last byte come zeros. */
#ifndef FUZZ_INPUT_H
#define FUZZ_INPUT_H

#include <hechroung.h>
#include <stdio.h>
#include <stdlib.h>

/* What does not hold ends the program, which the fuzzer reports with the input. */
#define HOLDS(claim) \
    do { \
        if (!(claim)) { \
            fprintf(stderr, "%s:%d: %s does not hold\n", __FILE__, __LINE__, #claim); \
            abort(); \
        } \
    } while (0)

struct input {
    const uint8_t *at;
    size_t left;
};

static inline uint64_t take(struct input *input, int bytes) {
    uint64_t number = 0;
    for (int i = 0; i < bytes && input->left > 0; i++, input->at++, input->left--)
        number |= (uint64_t)*input->at << (8 * i);
    return number;
}

/* Any numbers at all, or rising keys, small coefficients and the n that is asked for: mostly a sound model. */
static inline struct hechroung_model take_model(struct input *input, uint8_t n) {
    struct hechroung_model model;
    const uint64_t form = take(input, 1);
    const int last = n >= 1 && n <= HECHROUNG_MOST_VARIABLES ? 4 * (HECHROUNG_MOST_VARIABLES - n) : 0;
    uint32_t key = 0;
    memset(&model, 0, sizeof model);
    model.n = form & 1 ? n : (uint8_t)take(input, 1);
    model.count = form & 2 ? (size_t)take(input, 1) % 9 : (size_t)take(input, 8);
    model.radius = form & 4 ? take(input, 2) : take(input, 8);
    for (size_t i = 0; i < model.count && i < HECHROUNG_MOST_TERMS; i++) {
        key += form & 8 ? (uint32_t)take(input, 1) << last : (uint32_t)take(input, 4);
        model.keys[i] = key;
        model.coefficients[i] = form & 16 ? (int16_t)take(input, 2) : (int64_t)take(input, 8);
    }
    return model;
}

#endif
