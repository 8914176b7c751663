/* How long a call takes for the smallest document, a small one, a plan without values, and no context. */
#include "px.h"
#include <stdio.h>
#include <stdlib.h>
#include <string.h>
#include <time.h>

static double seconds(void) {
    struct timespec now;
    clock_gettime(CLOCK_MONOTONIC, &now);
    return (double)now.tv_sec + (double)now.tv_nsec * 1e-9;
}

static void report(const char *what, uint32_t context, const char *document, long calls) {
    static char buffer[4096];
    size_t length = strlen(document);
    px_answer_t answer = {0, 0};
    double start = seconds();
    for (long i = 0; i < calls; i++) answer = px_call(context, document, length, buffer, sizeof buffer);
    double taken = seconds() - start;
    printf("%-32s status %d, %8.3f microseconds a call, %9.0f calls a second\n", what, answer.status,
           taken / (double)calls * 1e6, (double)calls / taken);
}

int main(int count, char **words) {
    long calls = count > 1 ? atol(words[1]) : 200000;
    if (calls < 1) return 2;
    report("a context that is none", 9, "", calls);
    report("no document", PX_SELECT, "{}", calls);
    report("the smallest document", PX_SELECT, "{\"columns\":[],\"exprs\":[]}", calls);
    report("three rows", PX_SELECT,
           "{\"columns\":[{\"name\":\"a\",\"dtype\":\"Int32\",\"values\":[1,null,3]}],\"exprs\":[{\"binary\":[{\"col\":\"a\"},\"Plus\",{\"lit\":5}]}]}",
           calls);
    report("a plan without rows", PX_FILTER,
           "{\"columns\":[{\"name\":\"price\",\"dtype\":\"Int64\",\"values\":[]},{\"name\":\"paid\",\"dtype\":\"Boolean\",\"values\":[]}],"
           "\"exprs\":[{\"fn\":[\"not\",{\"binary\":[{\"col\":\"paid\"},\"Or\",{\"binary\":[{\"col\":\"price\"},\"LtEq\",{\"lit\":500}]}]}]}]}",
           calls);
    return 0;
}
