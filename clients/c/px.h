/* px in process: column expressions that are checked, rewritten and evaluated.
 *
 * Link libpx.a or libpx.so. Nothing is to be started or freed: a call keeps nothing when it returns,
 * and there is no state between calls. Calls may run in several threads at once, each with a buffer
 * of its own, and each on half a mebibyte of stack, which sufficed for the deepest documents that are
 * tested. Of the C library px takes malloc, realloc, free, memcpy, memmove, memset and memcmp.
 *
 * px_select and px_filter below are the calls to make. The README of the repository says what a
 * document, a report and an error line are.
 */
#ifndef PX_H
#define PX_H

#include <stddef.h>
#include <stdint.h>

#ifdef __cplusplus
extern "C" {
#endif

/* What the expressions of a document are for. Any other number is answered with PX_OTHER_CONTEXT. */
enum {
    PX_SELECT = 0, /* each expression is a column of the answer, with its name */
    PX_FILTER = 1  /* each expression is a Boolean mask, and masks have no name */
};

/* How a call ended. The numbers are the exit statuses of the program px; its 4, a read that failed,
 * never comes here. */
enum {
    PX_REPORT = 0,         /* the reply is the report: one line of JSON and a line feed */
    PX_FAULT = 1,          /* an expression has a fault, and the reply is its line */
    PX_NO_DOCUMENT = 2,    /* the bytes are no document */
    PX_OUT_OF_MEMORY = 3,  /* malloc or realloc gave nothing */
    PX_SHORT_BUFFER = 5,   /* the reply is longer than the buffer; `length` says how long it is */
    PX_OTHER_CONTEXT = 6,  /* the context is neither PX_SELECT nor PX_FILTER */
    PX_LONG_DOCUMENT = 7,  /* the document has more than px_limit() bytes */
    PX_BAD_ARGUMENTS = 255 /* px_call alone: the pointers and lengths are not those of two buffers */
};

typedef struct {
    size_t length; /* of the reply in bytes, with the statuses 0, 1 and 5; else 0 */
    uint8_t status;
} px_answer_t;

/* The greatest length of a document: 64 MiB. */
size_t px_limit(void);

/* The version of px as 0xMMmmpp: major, minor, patch. */
uint32_t px_version(void);

/* The length of a buffer that holds the reply to nearly every document of so many bytes. It is an
 * estimate: be ready for PX_SHORT_BUFFER. */
size_t px_room(size_t document_length);

/* The function of the library. With PX_REPORT and PX_FAULT the reply stands at the front of the
 * buffer, and the rest of the buffer is as it was; with every other status all of it is as it was.
 *
 * It tests nothing of the following, which is the caller's to keep; px_call tests what can be tested:
 * - neither pointer is null, not even for no bytes, and neither length is above PTRDIFF_MAX;
 * - `document` points to `document_length` bytes that may be read, and nobody writes during the call;
 * - `buffer` points to `buffer_length` bytes that may be written, that were written before (as by
 *   calloc), and that nobody else reads or writes during the call;
 * - the two do not overlap. */
px_answer_t px_answer(uint32_t context, const uint8_t *document, size_t document_length,
                      uint8_t *buffer, size_t buffer_length);

/* Whether so many bytes can stand at the address, which is null at most for none. */
static inline int px_is_span(const void *start, size_t length) {
    return length <= (size_t)PTRDIFF_MAX && length <= UINTPTR_MAX - (uintptr_t)start
           && (start || !length);
}

/* Whether a byte belongs to both spans. */
static inline int px_is_overlap(const void *a, size_t a_length, const void *b, size_t b_length) {
    uintptr_t from = (uintptr_t)a, to = (uintptr_t)b;
    if (!a_length || !b_length) return 0;
    return from <= to ? to - from < a_length : from - to < b_length;
}

/* px_answer for any arguments: a null pointer stands for no bytes, and a null pointer with a length,
 * a length that no object has, and an overlap are answered with PX_BAD_ARGUMENTS. A short or absent
 * buffer is no fault of the arguments: it gives PX_SHORT_BUFFER, and so the length of the reply. */
static inline px_answer_t px_call(uint32_t context, const void *document, size_t document_length,
                                  void *buffer, size_t buffer_length) {
    const uint8_t no_document = 0;
    uint8_t no_buffer = 0;
    if (!px_is_span(document, document_length) || !px_is_span(buffer, buffer_length)
        || px_is_overlap(document, document_length, buffer, buffer_length)) {
        px_answer_t bad = {0, PX_BAD_ARGUMENTS};
        return bad;
    }
    return px_answer(context, document ? (const uint8_t *)document : &no_document, document_length,
                     buffer ? (uint8_t *)buffer : &no_buffer, buffer_length);
}

/* The columns that the document's expressions mean. */
static inline px_answer_t px_select(const void *document, size_t document_length, void *buffer,
                                    size_t buffer_length) {
    return px_call(PX_SELECT, document, document_length, buffer, buffer_length);
}

/* The masks that the document's expressions mean. */
static inline px_answer_t px_filter(const void *document, size_t document_length, void *buffer,
                                    size_t buffer_length) {
    return px_call(PX_FILTER, document, document_length, buffer, buffer_length);
}

#ifdef __cplusplus
}
#endif

#endif
