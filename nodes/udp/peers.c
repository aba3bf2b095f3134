#include "peers.h"
#include <arpa/inet.h>
#include <stdio.h>
#include <string.h>
#include "design.h"

enum { LONGEST_LINE = 512, MOST_PORT = 65535 };

static struct sockaddr_in peers[MOST_PEERS];

uint32_t peer_numbered(const char *path)
{
    for (uint32_t j = 0; (j < pals_nodes) && (j < (uint32_t)MOST_PEERS); j++) {
        if ((pals_path_of[j] != NULL) && (strcmp(pals_path_of[j], path) == 0)) {
            return j;
        }
    }
    return MOST_PEERS;
}

const struct sockaddr_in *peer_address(uint32_t number)
{
    return &peers[number];
}

uint32_t peer_at(const struct sockaddr_in *address)
{
    for (uint32_t j = 0; (j < pals_nodes) && (j < (uint32_t)MOST_PEERS); j++) {
        if ((peers[j].sin_port == address->sin_port) && (peers[j].sin_addr.s_addr == address->sin_addr.s_addr)) {
            return j;
        }
    }
    return MOST_PEERS;
}

/* Takes a line. A node that the tables do not name is another processor's, and does not matter here. */
static bool take_line(const char *line)
{
    char path[LONGEST_LINE];
    char address[LONGEST_LINE];
    unsigned int port = 0;
    struct sockaddr_in made = {.sin_family = AF_INET};
    if ((sscanf(line, "%511s %511s %u", path, address, &port) != 3) || (port == 0U) || (port > MOST_PORT) ||
        (inet_pton(AF_INET, address, &made.sin_addr) != 1)) {
        return false;
    }
    made.sin_port = htons((uint16_t)port);
    const uint32_t number = peer_numbered(path);
    if (number < (uint32_t)MOST_PEERS) {
        peers[number] = made;
    }
    return true;
}

static bool take_lines(FILE *in, const char *file)
{
    char line[LONGEST_LINE];
    for (unsigned int number = 1; fgets(line, LONGEST_LINE, in) != NULL; number++) {
        if ((line[0] != '#') && (line[0] != '\n') && !take_line(line)) {
            (void)fprintf(stderr, "%s, line %u: expected PATH ADDRESS PORT\n", file, number);
            return false;
        }
    }
    for (uint32_t j = 0; j < pals_nodes; j++) {
        if ((pals_path_of[j] != NULL) && (peers[j].sin_port == 0U)) {
            (void)fprintf(stderr, "%s: the address of %s is missing\n", file, pals_path_of[j]);
            return false;
        }
    }
    return true;
}

bool peers_read(const char *file)
{
    FILE *in = fopen(file, "r");
    if (in == NULL) {
        perror(file);
        return false;
    }
    const bool good = take_lines(in, file);
    (void)fclose(in);
    return good;
}
