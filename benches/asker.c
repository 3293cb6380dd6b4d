/* Asks a server on 127.0.0.1 for some seconds, and prints how many answers came a second.

     asker get PORT TARGET SECONDS    HTTP/1.1, one request after another on one connection
     asker ping PORT PACKET SECONDS   UDP, 32 packets on their way at a time; PACKET is in hex

   It ends with status 1 if an answer doesn't come, or isn't 200. */
#define _GNU_SOURCE
#include <arpa/inet.h>
#include <netinet/tcp.h>
#include <stdio.h>
#include <stdlib.h>
#include <string.h>
#include <sys/socket.h>
#include <sys/time.h>
#include <time.h>
#include <unistd.h>

#define WINDOW 32

static char room[1 << 20];

static double now(void) {
  struct timespec at;
  clock_gettime(CLOCK_MONOTONIC, &at);
  return at.tv_sec + at.tv_nsec / 1e9;
}

static void fail(const char *what) {
  fprintf(stderr, "asker: %s\n", what);
  exit(1);
}

static int connected(int kind, int port) {
  int link = socket(AF_INET, kind, 0), on = 1;
  struct sockaddr_in to = {.sin_family = AF_INET, .sin_port = htons(port), .sin_addr = {htonl(INADDR_LOOPBACK)}};
  struct timeval patience = {.tv_sec = 5};
  if (connect(link, (struct sockaddr *)&to, sizeof to) != 0) fail("no connection");
  setsockopt(link, SOL_SOCKET, SO_RCVTIMEO, &patience, sizeof patience);
  if (kind == SOCK_STREAM) setsockopt(link, IPPROTO_TCP, TCP_NODELAY, &on, sizeof on);
  return link;
}

/* Reads one answer. */
static void take_answer(int link) {
  size_t have = 0;
  char *body = NULL;
  for (;;) {
    ssize_t count = recv(link, room + have, sizeof room - 1 - have, 0);
    if (count <= 0) fail("no answer");
    have += count;
    room[have] = 0;
    if (body == NULL && (body = strstr(room, "\r\n\r\n")) == NULL) continue;
    char *length = strcasestr(room, "\r\ncontent-length:");
    if (strncmp(room, "HTTP/1.1 200", 12) != 0 || length == NULL || length > body) fail("an answer that isn't 200");
    if (room + have >= body + 4 + strtoul(length + 17, NULL, 10)) return;
  }
}

static long get(int port, const char *target, double end) {
  char request[1024];
  int size = snprintf(request, sizeof request, "GET %s HTTP/1.1\r\nHost: 127.0.0.1\r\n\r\n", target);
  int link = connected(SOCK_STREAM, port);
  long count = 0;
  for (; now() < end; count++) {
    if (send(link, request, size, 0) != size) fail("a request can't be sent");
    take_answer(link);
  }
  return count;
}

static long ping(int port, const char *hex, double end) {
  char packet[1024];
  int size = 0, link = connected(SOCK_DGRAM, port);
  for (; hex[0] && hex[1]; hex += 2, size++) sscanf(hex, "%2hhx", (unsigned char *)&packet[size]);
  for (int i = 0; i < WINDOW; i++) send(link, packet, size, 0);
  long count = 0;
  for (; now() < end; count++) {
    if (recv(link, room, sizeof room, 0) <= 0) fail("no Ack");
    send(link, packet, size, 0);
  }
  return count;
}

int main(int count, char **words) {
  if (count != 5) fail("usage: asker get|ping PORT TARGET|PACKET SECONDS");
  double begun = now(), seconds = strtod(words[4], NULL);
  long (*ask)(int, const char *, double) = strcmp(words[1], "get") == 0 ? get : ping;
  long answers = ask(atoi(words[2]), words[3], begun + seconds);
  printf("%.1f\n", answers / (now() - begun));
  return 0;
}
