/* Reads a document on standard input and writes its reply, as `px select` and `px filter` do, and
 * ends with their exit status.
 *
 *     example [select|filter] < document */
#include "px.h"
#include <stdio.h>
#include <stdlib.h>
#include <string.h>

/* All of the stream, or null where there is no memory or a read fails. Its length is put in `length`. */
static char *read_all(FILE *stream, size_t *length) {
    size_t room = 4096;
    char *bytes = malloc(room);
    *length = 0;
    while (bytes) {
        *length += fread(bytes + *length, 1, room - *length, stream);
        if (*length < room) break;
        char *longer = realloc(bytes, room *= 2);
        if (!longer) free(bytes);
        bytes = longer;
    }
    if (bytes && ferror(stream)) {
        free(bytes);
        return NULL;
    }
    return bytes;
}

/* The reply, in a buffer that the caller frees and that is null where there is no memory for one. */
static px_answer_t reply_to(uint32_t context, const char *document, size_t length, char **reply) {
    size_t room = px_room(length);
    for (;;) {
        px_answer_t answer = {0, PX_OUT_OF_MEMORY};
        *reply = calloc(room ? room : 1, 1);
        if (*reply) answer = px_call(context, document, length, *reply, room);
        if (answer.status != PX_SHORT_BUFFER) return answer;
        free(*reply);
        room = answer.length;
    }
}

int main(int count, char **words) {
    uint32_t context = count > 1 && strcmp(words[1], "filter") == 0 ? PX_FILTER : PX_SELECT;
    size_t length;
    char *document = read_all(stdin, &length), *reply;
    if (!document) return PX_OUT_OF_MEMORY;
    px_answer_t answer = reply_to(context, document, length, &reply);
    if (answer.status == PX_REPORT || answer.status == PX_FAULT) fwrite(reply, 1, answer.length, stdout);
    free(reply);
    free(document);
    return answer.status;
}
