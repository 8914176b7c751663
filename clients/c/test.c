/* Tests of px.h and the library: each status, each wrong call, and calls in several threads. Prints
 * the checks that fail, and ends with 0 where none does. */
#include "px.h"
#include <pthread.h>
#include <stdio.h>
#include <stdlib.h>
#include <string.h>

#define DOCUMENT(columns, exprs) "{\"columns\":[" columns "],\"exprs\":[" exprs "]}"
#define COLUMN_A "{\"name\":\"a\",\"dtype\":\"Int32\",\"values\":[1,null,3]}"
#define COLUMN_P "{\"name\":\"p\",\"dtype\":\"Boolean\",\"values\":[true,null,false]}"
#define A_PLUS_5 "{\"binary\":[{\"col\":\"a\"},\"Plus\",{\"lit\":{\"dtype\":\"Int32\",\"value\":5}}]}"
#define TRUE_AND_P "{\"binary\":[{\"lit\":true},\"And\",{\"col\":\"p\"}]}"

static const char sum[] = DOCUMENT(COLUMN_A, A_PLUS_5);
static const char sum_report[] =
    "{\"columns\":[{\"dtype\":\"Int32\",\"name\":\"a\",\"values\":[6,null,8]}],\"rewrites\":0,\"trees\":[" A_PLUS_5 "]}\n";
static const char mask[] = DOCUMENT(COLUMN_P, TRUE_AND_P);

/* Documents, and the status and the reply that each has. */
static const struct {
    const char *name;
    uint32_t context;
    const char *document;
    uint8_t status;
    const char *reply;
} cases[] = {
    {"a sum", PX_SELECT, sum, PX_REPORT, sum_report},
    {"a literal whose type the check finds", PX_SELECT,
     DOCUMENT(COLUMN_A, "{\"binary\":[{\"col\":\"a\"},\"Plus\",{\"lit\":5}]}"), PX_REPORT, sum_report},
    {"a column in a select", PX_SELECT, mask, PX_REPORT,
     "{\"columns\":[{\"dtype\":\"Boolean\",\"name\":\"literal\",\"values\":[true,null,false]}],\"rewrites\":0,\"trees\":[" TRUE_AND_P "]}\n"},
    {"a mask in a filter", PX_FILTER, mask, PX_REPORT,
     "{\"columns\":[{\"dtype\":\"Boolean\",\"name\":\"\",\"values\":[true,null,false]}],\"rewrites\":1,\"trees\":[{\"col\":\"p\"}]}\n"},
    {"nothing asked", PX_SELECT, DOCUMENT("", ""), PX_REPORT, "{\"columns\":[],\"rewrites\":0,\"trees\":[]}\n"},
    {"a name that no column has", PX_SELECT, DOCUMENT("", "{\"col\":\"b\"}"), PX_FAULT, "{\"error\":\"ColumnNotFound\",\"name\":\"b\"}\n"},
    {"a name that comes twice", PX_SELECT, DOCUMENT(COLUMN_A, "{\"col\":\"a\"},{\"col\":\"a\"}"), PX_FAULT,
     "{\"error\":\"Duplicate\",\"name\":\"a\"}\n"},
    {"a mask that is no Boolean", PX_FILTER, DOCUMENT(COLUMN_A, "{\"col\":\"a\"}"), PX_FAULT, "{\"error\":\"InvalidOperation\"}\n"},
    {"no bytes", PX_SELECT, "", PX_NO_DOCUMENT, ""},
    {"an object without keys", PX_SELECT, "{}", PX_NO_DOCUMENT, ""},
    {"a byte that is no UTF-8", PX_FILTER, "\xff", PX_NO_DOCUMENT, ""},
    {"a context that is none", 2, sum, PX_OTHER_CONTEXT, ""},
    {"the greatest number as a context", UINT32_MAX, sum, PX_OTHER_CONTEXT, ""},
};

static int failures;

static void check(int is_good, const char *what) {
    if (is_good) return;
    failures++;
    fprintf(stderr, "FAILED: %s\n", what);
}

/* Whether all these bytes are x. */
static int is_untouched(const char *bytes, size_t length) {
    for (size_t i = 0; i < length; i++)
        if (bytes[i] != 'x') return 0;
    return 1;
}

/* Whether the call is answered as it should be in a buffer of the length, and leaves the rest. */
static int is_answered(size_t number, size_t room) {
    char buffer[1024];
    const char *reply = cases[number].reply;
    size_t due = strlen(reply);
    memset(buffer, 'x', sizeof buffer);
    px_answer_t answer = px_call(cases[number].context, cases[number].document, strlen(cases[number].document), buffer, room);
    if (answer.length != due) return 0;
    if (room < due) return answer.status == PX_SHORT_BUFFER && is_untouched(buffer, sizeof buffer);
    return answer.status == cases[number].status && memcmp(buffer, reply, due) == 0
           && is_untouched(buffer + due, sizeof buffer - due);
}

/* Each case in a buffer that is long, that the reply fills, that is one byte short, and that is none. */
static void test_cases(void) {
    for (size_t i = 0; i < sizeof cases / sizeof *cases; i++) {
        size_t due = strlen(cases[i].reply);
        check(is_answered(i, 1000) && is_answered(i, due), cases[i].name);
        check(is_answered(i, due ? due - 1 : 0) && is_answered(i, 0), cases[i].name);
    }
}

static void test_limit(void) {
    char buffer[1] = "x";
    size_t much = px_limit() + 1;
    char *spaces = malloc(much);
    check(px_limit() == (size_t)64 << 20, "the limit is 64 MiB");
    check(spaces != NULL, "there is memory for a long document");
    if (!spaces) return;
    memset(spaces, ' ', much);
    px_answer_t answer = px_select(spaces, much, buffer, 1);
    check(answer.status == PX_LONG_DOCUMENT && !answer.length && *buffer == 'x', "more bytes than the limit");
    answer = px_filter(spaces, much - 1, buffer, 1);
    check(answer.status == PX_NO_DOCUMENT && !answer.length && *buffer == 'x', "as many bytes as the limit");
    free(spaces);
}

static int is_bad(px_answer_t answer) {
    return answer.status == PX_BAD_ARGUMENTS && answer.length == 0;
}

static void test_wrong_calls(void) {
    char buffer[1024];
    size_t length = strlen(sum), due = strlen(sum_report);
    memset(buffer, 'x', sizeof buffer);
    check(is_bad(px_select(NULL, 1, buffer, 9)), "a null document of one byte");
    check(is_bad(px_select(sum, length, NULL, 1)), "a null buffer of one byte");
    check(is_bad(px_select(buffer, 9, buffer, 9)), "the document as the buffer");
    check(is_bad(px_select(buffer, 9, buffer + 8, 9)), "a buffer that begins in the document");
    check(is_bad(px_select(buffer + 8, 9, buffer, 9)), "a document that begins in the buffer");
    check(is_bad(px_select(buffer + 3, 1, buffer, 9)), "a document inside the buffer");
    check(is_bad(px_select(sum, SIZE_MAX, buffer, 9)), "a document past the last address");
    check(is_bad(px_select(sum, length, buffer, (size_t)PTRDIFF_MAX + 1)), "a buffer that no object is");
    check(is_bad(px_select(sum, length, (void *)(UINTPTR_MAX - 3), 9)), "a buffer past the last address");
    check(is_untouched(buffer, sizeof buffer), "wrong calls write nothing");
    memcpy(buffer, sum, length);
    px_answer_t answer = px_select(buffer, length, buffer + length, due);
    check(answer.status == PX_REPORT && memcmp(buffer + length, sum_report, due) == 0, "a buffer that begins at the document's end");
    check(px_select(NULL, 0, NULL, 0).status == PX_NO_DOCUMENT, "no document and no buffer");
    answer = px_select(sum, length, NULL, 0);
    check(answer.status == PX_SHORT_BUFFER && answer.length == due, "no buffer tells the length");
    check(px_select(sum, length, buffer, 0).status == PX_SHORT_BUFFER, "a buffer of no bytes");
}

static void test_sizes(void) {
    check(px_version() > 0 && px_version() <= 0xffffff, "the version has three bytes");
    check(px_room(strlen(sum)) >= strlen(sum_report), "the estimate holds the sum's report");
    check(px_room(0) <= px_room(1000), "the estimate grows");
}

static void *calls(void *wrong) {
    for (int i = 0; i < 100; i++)
        for (size_t j = 0; j < sizeof cases / sizeof *cases; j++)
            if (!is_answered(j, 1000)) return wrong;
    return NULL;
}

static void test_threads(void) {
    pthread_t threads[4];
    int started[4], wrong;
    for (int i = 0; i < 4; i++) started[i] = pthread_create(&threads[i], NULL, calls, &wrong) == 0;
    for (int i = 0; i < 4; i++) {
        void *seen = &wrong;
        if (started[i]) pthread_join(threads[i], &seen);
        check(seen == NULL, "calls in several threads");
    }
}

int main(void) {
    test_cases();
    test_limit();
    test_wrong_calls();
    test_sizes();
    test_threads();
    printf("C: %d checks failed\n", failures);
    return failures != 0;
}
