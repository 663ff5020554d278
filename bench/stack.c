/* How much stack find takes: stack SHEET-FILE SECONDS prints find's result, or that it was late, and the bytes of stack that the call used. The call
 * runs on a thread whose stack is painted first; the lowest byte that lost its paint shows how deep it went. */
#define _GNU_SOURCE
#include "../crates/gateway/c/deodarloo.h"
#include <pthread.h>
#include <stdio.h>
#include <stdlib.h>
#include <string.h>
#include <time.h>

enum { ROOM = 16 << 20, PAINT = 0xa5 };
static uint8_t sheet[4097], codes[128], tables[8 + 64 * 256];
static size_t length;
static uint8_t *volatile top;
static uint32_t result;

static void *call(void *unused)
{
    top = __builtin_frame_address(0);
    result = find(sheet, length, codes, sizeof codes, tables, sizeof tables);
    return unused;
}

int main(int count, char **words)
{
    FILE *file = count == 3 ? fopen(words[1], "rb") : NULL;
    uint8_t *room = aligned_alloc(4096, ROOM), *low = room;
    pthread_attr_t attributes;
    pthread_t thread;
    struct timespec until;
    if (!file || !room)
        return 2;
    length = fread(sheet, 1, sizeof sheet, file);
    fclose(file);
    memset(room, PAINT, ROOM);
    clock_gettime(CLOCK_REALTIME, &until);
    until.tv_sec += atoi(words[2]);
    pthread_attr_init(&attributes);
    if (pthread_attr_setstack(&attributes, room, ROOM) || pthread_create(&thread, &attributes, call, NULL))
        return 2;
    int late = pthread_timedjoin_np(thread, NULL, &until);
    while (*low == PAINT)
        low++;
    if (late)
        printf("late\n");
    else if (result >> 16)
        printf("refused %u %u\n", (unsigned)(result >> 16), (unsigned)(result & 0xffff));
    else
        printf("found %u\n", (unsigned)result);
    printf("%zu\n", (size_t)(top - low));
    return 0;
}
