/* Answers each datagram on 127.0.0.1 by its first bytes, as many as an Ack without claims has for a name of one letter,
   with the calls of the system that a node makes for each.

     echo PORT */
#include <arpa/inet.h>
#include <stdlib.h>
#include <sys/socket.h>
#include <sys/time.h>

#define MOST_BYTES 1024
#define ACK_BYTES 11

int main(int count, char **words) {
  static char room[MOST_BYTES];
  int link = socket(AF_INET, SOCK_DGRAM, 0), port = count == 2 ? atoi(words[1]) : 0;
  struct sockaddr_in own = {.sin_family = AF_INET, .sin_port = htons(port), .sin_addr = {htonl(INADDR_LOOPBACK)}}, from;
  struct timeval patience = {.tv_usec = 50000};
  if (port == 0 || bind(link, (struct sockaddr *)&own, sizeof own) != 0) return 1;
  setsockopt(link, SOL_SOCKET, SO_RCVTIMEO, &patience, sizeof patience);
  for (;;) {
    socklen_t size = sizeof from;
    if (recvfrom(link, room, sizeof room, 0, (struct sockaddr *)&from, &size) < ACK_BYTES) continue;
    sendto(link, room, ACK_BYTES, 0, (struct sockaddr *)&from, size);
  }
}
