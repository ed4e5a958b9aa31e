/* chat.c: a chat of a group over UDP, in C: the library has the protocol, and this the sockets and the clock. Each line of the standard input is cast to
 * all; what is delivered, in one order everywhere, is printed, and so is each view.
 *
 *     cc -O2 -I build/library examples/chat.c build/library/libjuqhanep.a -o chat        (tools/library.sh makes build/library)
 *     ./chat examples/chat.layers ME PORT..                                               one process for each port of the loopback, ME from 0
 */
#include <arpa/inet.h>
#include <poll.h>
#include <stdio.h>
#include <stdlib.h>
#include <string.h>
#include <sys/socket.h>
#include <time.h>
#include <unistd.h>

#include "juqhanep.h"

enum { EVERY = 10, MOST_LINE = 1024, LONGEST_FILE = 1 << 20 };

static juq_t member = JUQ_NONE;
static struct sockaddr_in peers[JUQ_MOST_MEMBERS];
static uint32_t view; /* the ids in it, as bits */
static uint32_t due;  /* the moment of the next tick */
static int udp;

/* The moment of the member's clock: milliseconds since the first call. */
static uint32_t moment(void) {
    static struct timespec began;
    struct timespec now;
    clock_gettime(CLOCK_MONOTONIC, &now);
    if (began.tv_sec == 0) began = now;
    return (uint32_t)((now.tv_sec - began.tv_sec) * 1000 + (now.tv_nsec - began.tv_nsec) / 1000000);
}

/* The id of the member of a rank: the rank-th bit of the view. */
static int id_of(uint32_t rank) {
    for (int id = 0; id < JUQ_MOST_MEMBERS; id++)
        if (view >> id & 1 && rank-- == 0) return id;
    return -1;
}

static void send_to_all(uint32_t ids, const uint8_t *bytes, size_t length) {
    for (int id = 0; id < JUQ_MOST_MEMBERS; id++)
        if (ids >> id & 1) (void)sendto(udp, bytes, length, 0, (struct sockaddr *)&peers[id], sizeof peers[id]);
}

/* Takes what came out of a step. It returns whether the member is still in a view. */
static bool take(uint32_t status) {
    static uint8_t room[JUQ_LONGEST_DATAGRAM];
    juq_event event;
    if (status > JUQ_TAKEN_COMMON) return status != JUQ_OUT; /* refused, and nothing has changed: strays are common */
    while (juq_next(&member, &event, room, sizeof room) == JUQ_TOLD) {
        switch (event.kind) {
        case JUQ_EVENT_DATAGRAM: send_to_all(event.to, room, event.length); break;
        case JUQ_EVENT_CAST: printf("%d: %.*s\n", id_of(event.peer), (int)event.length, (char *)room); break;
        case JUQ_EVENT_TIMER:
            if (event.number < due && event.number > moment()) due = event.number;
            break;
        case JUQ_EVENT_VIEW:
            view = event.to;
            printf("view %u: %#x\n", event.number, event.to);
            break;
        case JUQ_EVENT_OUT: return false;
        default: break;
        }
    }
    fflush(stdout);
    return true;
}

/* Gives the member the datagrams that wait. */
static bool receive_all(void) {
    static uint8_t datagram[65536];
    ssize_t length;
    while ((length = recv(udp, datagram, sizeof datagram, MSG_DONTWAIT)) >= 0)
        if (!take(juq_receive(&member, datagram, (size_t)length))) return false;
    return true;
}

/* Casts a line of the standard input. At its end the member says that it leaves, and goes. Should that be lost, its silence tells the others later. */
static bool read_line(void) {
    char line[MOST_LINE];
    if (!fgets(line, sizeof line, stdin)) {
        take(juq_leave(&member));
        return false;
    }
    return take(juq_cast(&member, (uint8_t *)line, strcspn(line, "\n")));
}

static void run(void) {
    struct pollfd ready[2] = {{udp, POLLIN, 0}, {STDIN_FILENO, POLLIN, 0}};
    setvbuf(stdin, NULL, _IONBF, 0);
    for (;;) {
        uint32_t now = moment();
        if (now >= due) {
            due = now + EVERY;
            if (!take(juq_tick(&member, now))) return;
        }
        if (poll(ready, 2, due > now ? (int)(due - now) : 0) < 0) return;
        if (ready[0].revents && !receive_all()) return;
        if (ready[1].revents && !read_line()) return;
    }
}

static bool open_member(const char *name, int members, int me) {
    static uint8_t layers[LONGEST_FILE + 1], sentence[JUQ_LONGEST_SENTENCE];
    FILE *file = fopen(name, "rb");
    if (!file) return false;
    size_t length = fread(layers, 1, sizeof layers, file);
    fclose(file);
    juq_fault fault = {0};
    uint32_t status = juq_open(&member, layers, length, true, 7, 1, (uint8_t)members, (uint8_t)me, &fault, sentence, sizeof sentence);
    if (status == JUQ_REFUSED) fprintf(stderr, "%s: %.*s\n", name, (int)fault.length, (char *)sentence);
    view = members == JUQ_MOST_MEMBERS ? UINT32_MAX : (1u << members) - 1;
    return status == JUQ_OPENED;
}

int main(int argc, char **argv) {
    int members = argc - 3, me = argc > 2 ? atoi(argv[2]) : 0;
    if (members < 1 || members > JUQ_MOST_MEMBERS || me < 0 || me >= members) {
        fprintf(stderr, "chat LAYERS ME PORT..\n");
        return 2;
    }
    for (int id = 0; id < members; id++) {
        peers[id].sin_family = AF_INET;
        peers[id].sin_port = htons((uint16_t)atoi(argv[3 + id]));
        peers[id].sin_addr.s_addr = htonl(INADDR_LOOPBACK);
    }
    udp = socket(AF_INET, SOCK_DGRAM, 0);
    if (bind(udp, (struct sockaddr *)&peers[me], sizeof peers[me])) return perror("bind"), 1;
    if (!open_member(argv[1], members, me)) return 1;
    run();
    juq_close(&member);
    return 0;
}
