/* A group in one process: its members are those of the library, its network is a queue. */
#ifndef GROUP_H
#define GROUP_H

#include <stdio.h>
#include <stdlib.h>
#include <string.h>
#include <time.h>

#include "juqhanep.h"

enum { MEMBERS = 3, PLACES = 1 << 12, MOST_BYTES = 600, LONGEST_FILE = 1 << 20 };

struct packet {
    uint32_t to;
    size_t length;
    uint8_t bytes[MOST_BYTES];
};

static juq_t members[MEMBERS];
static struct {
    struct packet packets[PLACES];
    unsigned first, last;
} under_way;
static unsigned long steps, commons, told, delivered;

static inline uint64_t nanoseconds(void) {
    struct timespec now;
    clock_gettime(CLOCK_MONOTONIC, &now);
    return (uint64_t)now.tv_sec * 1000000000u + (uint64_t)now.tv_nsec;
}

/* Of the processor's time that this process had. */
static inline uint64_t of_processor(void) {
    struct timespec now;
    clock_gettime(CLOCK_PROCESS_CPUTIME_ID, &now);
    return (uint64_t)now.tv_sec * 1000000000u + (uint64_t)now.tv_nsec;
}

/* Takes all outputs of a member's step; its datagrams are under way then. */
static inline void take(int me, uint32_t status) {
    static uint8_t room[JUQ_LONGEST_DATAGRAM];
    juq_event event;
    steps++;
    commons += status == JUQ_TAKEN_COMMON;
    while (juq_next(&members[me], &event, room, sizeof room) == JUQ_TOLD) {
        told++;
        delivered += event.kind == JUQ_EVENT_CAST || event.kind == JUQ_EVENT_SEND;
        if (event.kind != JUQ_EVENT_DATAGRAM || event.length > MOST_BYTES) continue;
        struct packet *packet = &under_way.packets[under_way.last++ % PLACES];
        packet->to = event.to;
        packet->length = event.length;
        memcpy(packet->bytes, room, event.length);
    }
}

static inline void open_members(const char *name, bool bypass) {
    static uint8_t layers[LONGEST_FILE + 1], sentence[JUQ_LONGEST_SENTENCE];
    FILE *file = fopen(name, "rb");
    if (!file) exit(4);
    size_t length = fread(layers, 1, sizeof layers, file);
    fclose(file);
    for (int me = 0; me < MEMBERS; me++) {
        juq_fault fault = {0};
        uint32_t status = juq_open(&members[me], layers, length, bypass, 7, 1, MEMBERS, (uint8_t)me, &fault, sentence, sizeof sentence);
        if (status != JUQ_OPENED) {
            fprintf(stderr, "%s: %u %.*s\n", name, status, (int)fault.length, (char *)sentence);
            exit(1);
        }
    }
}

static inline void close_members(void) {
    for (int me = 0; me < MEMBERS; me++) juq_close(&members[me]);
}

#endif
