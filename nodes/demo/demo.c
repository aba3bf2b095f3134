/* A design on a host: a process a node, joined by socket pairs, by the host's clock.

   demo FOLDER SEED [FAULT ..] < SCENARIO. The scenario has `rounds N` and `input NAME VALUE ..` (scenario.h), and
   faults have the form in faults.h. Each node reads the host's monotonic clock with a skew and a drift of its own, both
   together within the bounds; messages take a random time within the network's, and steps up to half the maximum
   execution time. Each node writes its records to FOLDER/PATH, for tools/join. The status is 0 if all nodes ran. */
#include <poll.h>
#include <stdio.h>
#include <stdlib.h>
#include <sys/socket.h>
#include <sys/wait.h>
#include <time.h>
#include <unistd.h>
#include "design.h"
#include "faults.h"
#include "messages.h"
#include "random.h"
#include "records.h"
#include "scenario.h"

enum { MOST_LINKS = 4096, MILLION = 1000000, BILLION = 1000000000 };

static int ends[MOST_LINKS][2]; /* of each link: where its source writes, and where its target reads */
static int64_t zero;            /* the host's reading at the time 0, in nanoseconds */
static int64_t skew, drift;     /* of this node's clock: nanoseconds, and nanoseconds a millisecond */
static FILE *out;

/* ------------------------------------------------------------------------------------- the host's time and clocks */

static int64_t host_time(void)
{
    struct timespec t;
    (void)clock_gettime(CLOCK_MONOTONIC, &t);
    return (((int64_t)t.tv_sec * BILLION) + t.tv_nsec) - zero;
}

static int64_t clock_at(int64_t time)
{
    const int64_t reading = time + skew + ((time / MILLION) * drift);
    return (reading < 0) ? 0 : reading;
}

static struct timespec span(int64_t ns)
{
    return (struct timespec){(time_t)(ns / BILLION), (long)(ns % BILLION)};
}

/* A clock of this node: three quarters of the skew are for its constant offset, one quarter is for its drift. */
static void set_clock(const pals_node *node)
{
    const int64_t length = ((int64_t)(scenario_rounds() + 1U) * node->of->period) / MILLION;
    const int64_t ahead = fault_of("ahead", node->of->path, 0);
    const int64_t most_drift = (pals_skew / 4) / (length + 1);
    const int64_t most_skew = (pals_skew * 3) / 4;
    drift = random_in((most_drift < 200) ? -most_drift : -200, (most_drift < 200) ? most_drift : 200);
    skew = random_in(-most_skew, most_skew) + ((ahead < 0) ? 0 : ahead);
}

/* ------------------------------------------------------------------------------------------------------- the hooks */

static int copies_of(const char *link, uint64_t round)
{
    if (fault_of("lose", link, round) >= 0) {
        return 0;
    }
    return (fault_of("twice", link, round) >= 0) ? 2 : 1;
}

static bool on_send(void *user, uint32_t link, uint64_t round, const pals_value values[], uint32_t count)
{
    const char *name = pals_link_of[link].name;
    /* The host needs a part of the bound to wake a node up. */
    const int64_t most = pals_network_most - ((pals_network_most - pals_network_least) / 8);
    const int64_t late = fault_of("late", name, round);
    const int64_t takes = random_in(pals_network_least, most) + ((late < 0) ? 0 : late);
    message sent = message_of(host_time() + takes, link, round, values, count);
    (void)user;
    if (fault_of("wrong", name, round) >= 0) {
        sent.values[0] = (pals_value){(sent.values[0].number == 0) ? 1 : 0, true};
    }
    for (int copies = copies_of(name, round); copies > 0; copies--) {
        if (write(ends[link][0], &sent, sizeof sent) != (ssize_t)sizeof sent) {
            perror("write");
            return false;
        }
    }
    return true;
}

/* A step takes its time between the record of its beginning and that of its finish. */
static void on_record(void *user, const pals_node *node, const pals_record *record)
{
    (void)user;
    records_write(out, "", node, record);
    if ((record->event == PALS_STARTED) || (record->event == PALS_STEPPED)) {
        const struct timespec takes = span(random_in(0, pals_execution_most / 2));
        (void)nanosleep(&takes, NULL);
    }
}

static const pals_hooks HOOKS = {.send = on_send, .read = scenario_input, .record = on_record};

/* --------------------------------------------------------------------------------------------------- a node's loop */

/* What a node has been sent and may not take yet, and the sockets that it comes from. */
typedef struct {
    struct pollfd sockets[MOST_LINKS];
    uint32_t links;
    messages waiting;
} inbox;

static void open_inbox(inbox *in, uint32_t number)
{
    for (uint32_t l = 0; l < pals_links; l++) {
        if (pals_link_of[l].target == number) {
            in->sockets[in->links] = (struct pollfd){ends[l][1], POLLIN, 0};
            in->links++;
        }
    }
}

/* Passes the messages that have arrived by this time to the node. */
static void take_messages(inbox *in, pals_node *node, int64_t time, int64_t reading)
{
    message m;
    for (uint32_t s = 0; s < in->links; s++) {
        while (recv(in->sockets[s].fd, &m, sizeof m, MSG_DONTWAIT) == (ssize_t)sizeof m) {
            messages_add(&in->waiting, &m);
        }
    }
    for (uint32_t i = 0; i < in->waiting.count;) {
        if (in->waiting.of[i].arrives <= time) {
            m = messages_take(&in->waiting, i);
            (void)pals_arrive(node, m.link, m.round, m.values, m.count, reading);
        } else {
            i++;
        }
    }
}

/* Sleeps until a time, until a message that is waiting is there, or until one comes. */
static void sleep_until(inbox *in, int64_t time)
{
    int64_t until = time;
    for (uint32_t i = 0; i < in->waiting.count; i++) {
        until = (in->waiting.of[i].arrives < until) ? in->waiting.of[i].arrives : until;
    }
    const int64_t left = until - host_time();
    if (left > 0) {
        const struct timespec t = span(left);
        (void)ppoll(in->sockets, in->links, &t, NULL);
    }
}

_Noreturn static void run_node(uint32_t number, const char *folder)
{
    static inbox in;
    static pals_component hasty;
    char path[512];
    pals_node *node = pals_open_node(number, &HOOKS, NULL, scenario_rounds());
    (void)snprintf(path, sizeof path, "%s/%s", folder, node->of->path);
    out = fopen(path, "w");
    if (out == NULL) {
        perror(path);
        exit(1);
    }
    records_open(out, "", node);
    set_clock(node);
    if (fault_of("hasty", node->of->path, 0) >= 0) {
        hasty = *node->of;
        hasty.release = 0;
        node->of = &hasty;
    }
    open_inbox(&in, number);
    for (;;) {
        const int64_t time = host_time();
        const int64_t reading = clock_at(time);
        take_messages(&in, node, time, reading);
        const int64_t wake = pals_poll(node, reading);
        if (wake == PALS_NEVER) {
            break;
        }
        sleep_until(&in, time + (wake - reading));
    }
    exit((fclose(out) == 0) ? 0 : 1);
}

int main(int argc, char **argv)
{
    int status = 0;
    bool good = true;
    if ((argc < 3) || (pals_links > MOST_LINKS) || !scenario_read() || !faults_read(argc - 3, &argv[3])) {
        (void)fprintf(stderr, "usage: demo FOLDER SEED [FAULT ..] < SCENARIO; demo/faults.h lists the faults\n");
        return 2;
    }
    for (uint32_t l = 0; l < pals_links; l++) {
        if (socketpair(AF_UNIX, SOCK_DGRAM, 0, ends[l]) != 0) {
            perror("socketpair");
            return 1;
        }
    }
    zero = host_time() + (BILLION / 10);
    for (uint32_t number = 0; number < pals_nodes; number++) {
        const pid_t child = fork();
        if (child == 0) {
            random_begin(strtoull(argv[2], NULL, 10) + number);
            run_node(number, argv[1]);
        }
        good = good && (child > 0);
    }
    while (wait(&status) > 0) {
        good = good && (status == 0);
    }
    return good ? 0 : 1;
}
