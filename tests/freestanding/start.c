/* A program without any library but libhechroung.a, as for a machine without an operating system's: it brings memcpy
   and memset, and no more is asked of it. It runs the sheet of README.md and writes its lines. tools/try-library links
   it with -nostdlib and compares them. It ends by Linux's calls, which stand in for a machine's own way out. */
#include <hechroung.h>

#ifndef __x86_64__
#error "the calls below are those of Linux on x86-64"
#endif

void *memcpy(void *to, const void *from, size_t length) {
    void *start = to;
    __asm__ volatile("rep movsb" : "+D"(to), "+S"(from), "+c"(length) : : "memory");
    return start;
}

void *memset(void *to, int byte, size_t length) {
    void *start = to;
    __asm__ volatile("rep stosb" : "+D"(to), "+c"(length) : "a"(byte) : "memory");
    return start;
}

static size_t call(size_t number, size_t a, const void *b, size_t c) {
    size_t answer;
    __asm__ volatile("syscall" : "=a"(answer) : "a"(number), "D"(a), "S"(b), "d"(c) : "rcx", "r11", "memory");
    return answer;
}

/* (x + 1/2) squared. */
static const uint8_t sheet[] = {
    HECHROUNG_STEP_VARIABLE, 0, 0, 1, 0, 0, 0, 0, /* x */
    HECHROUNG_STEP_CONSTANT, 0, 0, 0, 0, 0, 8, 0, /* 1/2 */
    HECHROUNG_STEP_ADD, 0, 1, 0, 0, 0, 0, 0,      /* their sum */
    HECHROUNG_STEP_MULTIPLY, 2, 2, 0, 0, 0, 0, 0, /* squared */
    1, 2, 0, 4, 0, 0, 0x4D, 0x4B,
};

/* The functions of the header work here too. */
static int as_structs(void) {
    struct hechroung_summary summary;
    struct hechroung_model x, sum, square;
    return hechroung_run_sheet(sheet, sizeof sheet, &summary, NULL) == HECHROUNG_ACCEPTED &&
           hechroung_variable(1, 1, &x) == HECHROUNG_ACCEPTED &&
           hechroung_constant(1, HECHROUNG_UNIT / 2, &sum) == HECHROUNG_ACCEPTED &&
           hechroung_add(&x, &sum, &sum, NULL) == HECHROUNG_ACCEPTED &&
           hechroung_multiply(2, &sum, &sum, &square, NULL) == HECHROUNG_ACCEPTED &&
           square.count == 3 && square.coefficients[0] == summary.model.coefficients[0];
}

void begin(void) {
    static uint8_t lines[HECHROUNG_LONGEST_TEXT];
    size_t length = hechroung_print(sheet, sizeof sheet, lines, sizeof lines);
    call(1, 1, lines, length);
    call(60, as_structs() ? 0 : 1, NULL, 0);
}

/* The stack is aligned when a program starts; a call makes of it what a function expects. */
__asm__(".globl _start\n_start: call begin\n");
