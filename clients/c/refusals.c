/* Refuses each allocation of a call in turn: a call that gets no memory answers PX_OUT_OF_MEMORY, or
 * does without, leaves the buffer as it was, and keeps nothing. Linked with
 * -Wl,--wrap=malloc,--wrap=realloc,--wrap=free, so that px's calls come here. */
#include "px.h"
#include <stdio.h>
#include <stdlib.h>
#include <string.h>

void *__real_malloc(size_t size);
void *__real_realloc(void *block, size_t size);
void __real_free(void *block);
void *__wrap_malloc(size_t size);
void *__wrap_realloc(void *block, size_t size);
void __wrap_free(void *block);

static long asked;  /* how often memory was asked for in this call */
static long refuse; /* which of these is refused, counted from 1; 0: none */
static long held;   /* how many blocks are not freed */

void *__wrap_malloc(size_t size) {
    void *block = ++asked == refuse ? NULL : __real_malloc(size);
    held += block != NULL;
    return block;
}

void *__wrap_realloc(void *block, size_t size) {
    void *moved = ++asked == refuse ? NULL : __real_realloc(block, size);
    held += !block && moved;
    return moved;
}

void __wrap_free(void *block) {
    held -= block != NULL;
    __real_free(block);
}

static const char *documents[] = {
    "{\"columns\":[{\"name\":\"qty\",\"dtype\":\"Int32\",\"values\":[2,null,5,1]},{\"name\":\"price\",\"dtype\":\"Int64\",\"values\":"
    "[1000,250,990,4000]},{\"name\":\"paid\",\"dtype\":\"Boolean\",\"values\":[true,false,null,false]}],\"exprs\":[{\"alias\":[{\"binary\":"
    "[{\"col\":\"qty\"},\"Multiply\",{\"col\":\"price\"}]},\"total\"]},{\"alias\":[{\"fn\":[\"not\",{\"binary\":[{\"col\":\"paid\"},\"Or\","
    "{\"binary\":[{\"col\":\"price\"},\"LtEq\",{\"lit\":500}]}]}]},\"due\"]}]}",
    "{\"columns\":[],\"exprs\":[{\"col\":\"a name that is longer than a short text\"}]}",
    "{\"columns\":[{\"name\":\"t\",\"dtype\":\"String\",\"values\":[\"a\",null]}],\"exprs\":[{\"col\":\"u\"}",
};

/* One call, in which one allocation is refused. */
static px_answer_t call(const char *document, char *buffer, size_t room, long which) {
    asked = 0;
    refuse = which;
    return px_select(document, strlen(document), buffer, room);
}

/* How many checks of the document fail. */
static int failures_of(const char *document) {
    static char reply[4096], seen[sizeof reply];
    int failures = 0;
    memset(reply, 'x', sizeof reply);
    px_answer_t whole = call(document, reply, sizeof reply, 0);
    long count = asked, refused = 0;
    for (long which = 1; which <= count; which++) {
        memset(seen, 'x', sizeof seen);
        px_answer_t answer = call(document, seen, sizeof seen, which);
        if (answer.status == PX_OUT_OF_MEMORY) {
            refused++;
            failures += answer.length || memchr(seen, 'x', 1) == NULL || memcmp(seen, seen + 1, sizeof seen - 1);
        } else {
            failures += answer.status != whole.status || answer.length != whole.length || memcmp(seen, reply, sizeof seen);
        }
    }
    printf("status %d: %ld allocations, %ld answered as out of memory, %ld blocks kept\n", whole.status, count, refused, held);
    return failures + (held != 0);
}

int main(void) {
    int failures = 0;
    for (size_t i = 0; i < sizeof documents / sizeof *documents; i++) failures += failures_of(documents[i]);
    printf("C, allocations refused: %d checks failed\n", failures);
    return failures != 0;
}
