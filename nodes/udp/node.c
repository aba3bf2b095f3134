/* One node of a design as a process, with messages over UDP (docs/c_nodes.md).

   node PATH PEERS START RECORD [OPTION ..] < SCENARIO runs the node of PATH (options.h, peers.h). Standard input has
   `rounds N` and `input NAME VALUE ..` (demo/scenario.h); RECORD gets its lines, for tools/join. node now SECONDS
   writes the reading of CLOCK_MONOTONIC in so many seconds, for START.

   Status: 0 if all rounds were run; 1 if the node stopped, with the cause on standard error; 2 if the arguments are
   invalid or the node started too late. */
#include <arpa/inet.h>
#include <inttypes.h>
#include <poll.h>
#include <stdio.h>
#include <stdlib.h>
#include <string.h>
#include <sys/mman.h>
#include <sys/socket.h>
#include <time.h>
#include <unistd.h>
#include "design.h"
#include "options.h"
#include "outgoing.h"
#include "peers.h"
#include "records.h"
#include "scenario.h"

enum { BILLION = 1000000000, KINDS = PALS_NOT_CANONICAL + 1, LINGER = 2, MOST_SECONDS = 86400 };

static options given;
static int port;
static FILE *out;
static pals_node *node;
static uint32_t self;
/* The message that a stop missed, and whether it is still expected. */
static uint32_t missed_link;
static uint64_t missed_round;
static int64_t missed_at;
static bool expected, foreign_design, told[KINDS];

static int64_t clock_now(void)
{
    struct timespec t;
    (void)clock_gettime(given.clock, &t);
    const int64_t reading = ((((int64_t)t.tv_sec * BILLION) + t.tv_nsec) - given.start) + given.ahead;
    return (reading < 0) ? 0 : reading;
}

/* ------------------------------------------------------------------------------------------------------- the hooks */

static void send_bytes(uint32_t target, const uint8_t bytes[], uint32_t length)
{
    const struct sockaddr_in *to = peer_address(target);
    if (sendto(port, bytes, length, MSG_DONTWAIT, (const struct sockaddr *)to, sizeof *to) != (ssize_t)length) {
        perror(given.path);
    }
}

static bool on_send(void *user, uint32_t link, uint64_t round, const pals_value values[], uint32_t count)
{
    uint8_t bytes[PALS_MESSAGE_BYTES];
    const uint32_t length = pals_encode(bytes, pals_design, link, round, values, count);
    (void)user;
    return outgoing_add(clock_now() + given.wait, pals_link_of[link].target, bytes, length);
}

static void on_record(void *user, const pals_node *of, const pals_record *record)
{
    (void)user;
    records_write(out, "", of, record);
}

static void on_stop(void *user, const pals_node *of, pals_event cause, uint32_t link, uint64_t round)
{
    const char *source = pals_path_of[pals_link_of[link].source];
    (void)user;
    missed_link = link;
    missed_round = round;
    missed_at = of->reading;
    expected = cause == PALS_STOP_MISSED;
    (void)fprintf(stderr, "%s: stopped in round %" PRIu64 ": the message of round %" PRIu64 " from %s %s\n",
                  of->of->path, of->count, round, source,
                  expected ? "was not there" : "came before this node had started the round");
}

static void on_trap(void *user, const pals_node *of, uint64_t round, uint32_t step, int32_t trap)
{
    (void)user;
    (void)fprintf(stderr, "%s: halted by %s in round %" PRIu64 ", step %" PRIu32 "\n", of->of->path,
                  (trap == PALS_OVERFLOW) ? "an overflow" : "a zero divisor", round, step);
}

static const pals_hooks HOOKS = {
    .send = on_send, .read = scenario_input, .record = on_record, .trap = on_trap, .stop = on_stop};

/* -------------------------------------------------------------------------------------------------------- messages */

/* Reports a datagram that is not a message for this node: the first of each kind. */
static void refuse(pals_decoded why, const uint8_t bytes[], const struct sockaddr_in *from)
{
    static const char *const WHY[KINDS] = {
        "it is for another node, or not from the node that sends on its link",
        "it is not a message", "its format has another version", "its length is wrong", "it is damaged",
        "its sender runs another design", "its unused bits are not 0"};
    char address[INET_ADDRSTRLEN];
    (void)inet_ntop(AF_INET, &from->sin_addr, address, sizeof address);
    foreign_design = foreign_design || ((why == PALS_OTHER_DESIGN) && (peer_at(from) < (uint32_t)MOST_PEERS));
    if (!told[why]) {
        told[why] = true;
        (void)fprintf(stderr, "%s: a datagram from %s:%u is refused: %s", given.path, address,
                      (unsigned int)ntohs(from->sin_port), WHY[why]);
        if (why == PALS_OTHER_DESIGN) {
            (void)fprintf(stderr, ", %016" PRIx64 ", and this node %016" PRIx64, pals_message_design(bytes),
                          pals_design);
        }
        (void)fprintf(stderr, "\n");
    }
}

/* The message that was missed has come after all. */
static void tell_late(int64_t reading)
{
    expected = false;
    (void)fprintf(stderr, "%s: that message came %" PRId64 " us after the start that missed it\n", given.path,
                  (reading - missed_at) / 1000);
    (void)fprintf(out, "# late %s %" PRIu64 " %" PRId64 "\n", pals_link_of[missed_link].name, missed_round, reading);
}

/* Takes all datagrams that are there, with one reading. */
static void take_datagrams(int64_t reading)
{
    uint8_t bytes[PALS_MESSAGE_BYTES + 1];
    struct sockaddr_in from = {0};
    socklen_t size = sizeof from;
    pals_message m;
    ssize_t length = recvfrom(port, bytes, sizeof bytes, MSG_DONTWAIT, (struct sockaddr *)&from, &size);
    while (length >= 0) {
        const pals_decoded result = pals_decode(bytes, (uint32_t)length, pals_design, &m);
        if (result != PALS_DECODED) {
            refuse(result, bytes, &from);
        } else if ((m.link >= pals_links) || (pals_link_of[m.link].name == NULL) ||
                   (pals_link_of[m.link].target != self) || (pals_link_of[m.link].source != peer_at(&from))) {
            refuse(PALS_DECODED, bytes, &from);
        } else if (expected && (m.link == missed_link) && (m.round == missed_round)) {
            tell_late(reading);
        } else {
            (void)pals_arrive(node, m.link, m.round, m.values, m.count, reading);
        }
        size = sizeof from;
        length = recvfrom(port, bytes, sizeof bytes, MSG_DONTWAIT, (struct sockaddr *)&from, &size);
    }
}

/* --------------------------------------------------------------------------------------------------------- the loop */

static void sleep_until(int64_t reading)
{
    const int64_t left = reading - clock_now();
    struct pollfd socket_of = {port, POLLIN, 0};
    const struct timespec t = {(time_t)(left / BILLION), (long)(left % BILLION)};
    if (left > 0) {
        (void)ppoll(&socket_of, 1, &t, NULL);
    }
}

/* Whether a peer with another design stops this node: in the first round, once its messages are sent, from which the
   peer learns the same. */
static bool has_other_peer(void)
{
    return foreign_design && (node->count == 1U) && node->sent && (outgoing_next() == PALS_NEVER);
}

static void run(void)
{
    int64_t end = PALS_NEVER;
    for (;;) {
        const int64_t reading = clock_now();
        take_datagrams(reading);
        if (has_other_peer()) {
            (void)fprintf(stderr, "%s: stopped: a peer runs another design\n", given.path);
            break;
        }
        const int64_t wake = pals_poll(node, reading);
        outgoing_flush(clock_now(), send_bytes);
        if ((wake == PALS_NEVER) && (end == PALS_NEVER)) {
            end = reading + (LINGER * node->of->period);
        }
        const int64_t leaves = outgoing_next();
        const int64_t next = (wake < leaves) ? wake : leaves;
        if ((wake == PALS_NEVER) && (leaves == PALS_NEVER) && (!expected || (reading >= end))) {
            break;
        }
        sleep_until((next < end) ? next : end);
    }
    if (expected) {
        (void)fprintf(stderr, "%s: that message did not come within %d periods\n", given.path, LINGER);
    }
}

/* ------------------------------------------------------------------------------------------------------------ main */

static bool open_all(void)
{
    self = peer_numbered(given.path);
    node = (self < (uint32_t)MOST_PEERS) ? pals_open_node(self, &HOOKS, NULL, scenario_rounds()) : NULL;
    if (node == NULL) {
        (void)fprintf(stderr, "%s: unknown node\n", given.path);
        return false;
    }
    node->policy = given.policy;
    if (clock_now() > node->of->period) {
        (void)fprintf(stderr, "%s: too late: the start was %" PRId64 " ms ago, and the other nodes have begun\n",
                      given.path, clock_now() / 1000000);
        return false;
    }
    port = socket(AF_INET, SOCK_DGRAM, 0);
    const struct sockaddr_in *own = peer_address(self);
    if ((port < 0) || (bind(port, (const struct sockaddr *)own, sizeof *own) != 0)) {
        perror(given.path);
        return false;
    }
    out = fopen(given.record, "w");
    if (out == NULL) {
        perror(given.record);
        return false;
    }
    /* Each line is written when it is complete, so that a killed node leaves its record. */
    (void)setvbuf(out, NULL, _IOLBF, BUFSIZ);
    records_open(out, "", node);
    return true;
}

static int write_now(const char *word)
{
    char *end = NULL;
    struct timespec t;
    const int64_t seconds = (int64_t)strtoll(word, &end, 10);
    if ((end == word) || (*end != '\0') || (seconds < 0) || (seconds > MOST_SECONDS)) {
        (void)fprintf(stderr, "usage: node now SECONDS\n");
        return 2;
    }
    (void)clock_gettime(CLOCK_MONOTONIC, &t);
    (void)printf("%" PRId64 "\n", (((int64_t)t.tv_sec + seconds) * BILLION) + t.tv_nsec);
    return 0;
}

int main(int argc, char **argv)
{
    if ((argc == 3) && (strcmp(argv[1], "now") == 0)) {
        return write_now(argv[2]);
    }
    if (!options_read(&given, argc - 1, &argv[1])) {
        (void)fprintf(stderr, "usage: node PATH PEERS START RECORD [OPTION ..] < SCENARIO; udp/options.h lists the "
                              "options\n       node now SECONDS\n");
        return 2;
    }
    if (!scenario_read()) {
        (void)fprintf(stderr, "%s: the scenario is not of the form of demo/scenario.h\n", given.path);
        return 2;
    }
    if (!peers_read(given.peers) || !open_all()) {
        return 2;
    }
    (void)mlockall(MCL_CURRENT | MCL_FUTURE);
    run();
    return ((fclose(out) == 0) && (node->phase == PALS_DONE)) ? 0 : 1;
}
