/* The addresses of the nodes, from a file with a line `PATH ADDRESS PORT` for each. */
#ifndef PALS_UDP_PEERS_H
#define PALS_UDP_PEERS_H
#include <netinet/in.h>
#include <stdbool.h>
#include <stdint.h>

enum { MOST_PEERS = 256 };

/* Reads the file; false, with a line on standard error, if it cannot be read, a line is wrong, or a node that the
   tables of the design name is missing. */
bool peers_read(const char *file);

/* The number of the node of a path, or MOST_PEERS if the design does not have it. */
uint32_t peer_numbered(const char *path);

/* The address of a node. */
const struct sockaddr_in *peer_address(uint32_t number);

/* The node that sends from an address, or MOST_PEERS. */
uint32_t peer_at(const struct sockaddr_in *address);

#endif
