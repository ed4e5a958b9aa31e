/* round LAYERS|- bypass|layered ROUNDS PORT: three processes over UDP on the loopback. Member 0 casts 64 bytes, member 1 answers each of its casts by a cast, and
 * member 0 times the way there and back; with - the same by bare datagrams. Ports are PORT to PORT + 2. Prints the median and the 99th percentile. */
#include <arpa/inet.h>
#include <poll.h>
#include <signal.h>
#include <sys/socket.h>
#include <sys/wait.h>
#include <unistd.h>

#include "group.h"

static int udp, me;
static bool plain;
static uint64_t answered;
static struct sockaddr_in peers[MEMBERS];

static void send_to(uint32_t ids, const uint8_t *bytes, size_t length) {
    for (int to = 0; to < MEMBERS; to++)
        if (ids >> to & 1) (void)sendto(udp, bytes, length, 0, (struct sockaddr *)&peers[to], sizeof peers[to]);
}

static void drain(void);

/* Casts 64 bytes; the first tells bare datagrams who sent them. */
static void cast(void) {
    uint8_t body[64] = {(uint8_t)me};
    if (plain) {
        send_to(7u & ~(1u << me), body, sizeof body);
    } else {
        juq_cast(&members[0], body, sizeof body);
        drain();
    }
}

static void heard(uint32_t from) {
    if (me == 0 && from == 1) answered = nanoseconds();
    if (me == 1 && from == 0) cast();
}

static void drain(void) {
    static uint8_t room[JUQ_LONGEST_DATAGRAM];
    uint32_t senders[64];
    int count = 0;
    juq_event event;
    while (juq_next(&members[0], &event, room, sizeof room) == JUQ_TOLD) {
        if (event.kind == JUQ_EVENT_DATAGRAM) send_to(event.to, room, event.length);
        if (event.kind == JUQ_EVENT_CAST && count < 64) senders[count++] = event.peer;
    }
    for (int k = 0; k < count; k++) heard(senders[k]);
}

/* Waits for a datagram, and takes it. */
static void receive(void) {
    static uint8_t datagram[65536];
    struct pollfd ready = {udp, POLLIN, 0};
    if (poll(&ready, 1, 5) != 1) return;
    ssize_t length = recv(udp, datagram, sizeof datagram, 0);
    if (length <= 0) return;
    if (plain) {
        heard(datagram[0]);
    } else {
        juq_receive(&members[0], datagram, (size_t)length);
        drain();
    }
}

/* A tick each 20 ms, of a clock that shows milliseconds. */
static void tick(void) {
    static uint64_t began, ticked;
    uint64_t now = nanoseconds() / 1000000;
    if (began == 0) began = now;
    if (plain || now < ticked + 20) return;
    ticked = now;
    juq_tick(&members[0], (uint32_t)(now - began));
    drain();
}

static int by_size(const void *one, const void *other) {
    uint32_t a = *(const uint32_t *)one, b = *(const uint32_t *)other;
    return (a > b) - (a < b);
}

static void time_rounds(int rounds) {
    uint32_t *times = malloc(sizeof *times * (size_t)rounds);
    int count = 0, lost = 0;
    while (count + lost < rounds) {
        uint64_t asked = nanoseconds();
        answered = 0;
        cast();
        while (!answered && nanoseconds() - asked < 300000000) {
            receive();
            tick();
        }
        if (answered) times[count++] = (uint32_t)(answered - asked);
        else lost++;
    }
    qsort(times, (size_t)count, sizeof *times, by_size);
    printf("rounds %d lost %d p50_us %.1f p99_us %.1f\n", count, lost, times[count / 2] / 1e3, times[count * 99 / 100] / 1e3);
}

static bool open_member(const char *name, bool bypass) {
    static uint8_t layers[LONGEST_FILE + 1], sentence[JUQ_LONGEST_SENTENCE];
    juq_fault fault;
    FILE *file = fopen(name, "rb");
    if (!file) return false;
    size_t length = fread(layers, 1, sizeof layers, file);
    fclose(file);
    return juq_open(&members[0], layers, length, bypass, 7, 1, MEMBERS, (uint8_t)me, &fault, sentence, sizeof sentence) == JUQ_OPENED;
}

int main(int argc, char **argv) {
    if (argc != 5) return 2;
    pid_t others[MEMBERS] = {0};
    plain = !strcmp(argv[1], "-");
    for (int id = 0; id < MEMBERS; id++) {
        peers[id].sin_family = AF_INET;
        peers[id].sin_port = htons((uint16_t)(atoi(argv[4]) + id));
        peers[id].sin_addr.s_addr = htonl(INADDR_LOOPBACK);
    }
    for (me = MEMBERS - 1; me > 0; me--)
        if ((others[me] = fork()) == 0) break;
    udp = socket(AF_INET, SOCK_DGRAM, 0);
    if (bind(udp, (struct sockaddr *)&peers[me], sizeof peers[me])) return perror("bind"), 1;
    if (!plain && !open_member(argv[1], !strcmp(argv[2], "bypass"))) return 1;
    if (me > 0)
        for (;;) {
            receive();
            tick();
        }
    usleep(200000);
    time_rounds(atoi(argv[3]));
    for (int id = 1; id < MEMBERS; id++) kill(others[id], SIGKILL);
    while (wait(NULL) > 0) {}
    return 0;
}
