/* Is loaded before a program (LD_PRELOAD), and holds up what it sends: as long as the file exists that BLOCK_WHILE
   names, no datagram goes out for BLOCK_MS milliseconds, then each does for FREE_MS, and so on. All programs so loaded
   are held up at the same times. */
#include <stdlib.h>
#include <sys/socket.h>
#include <sys/syscall.h>
#include <time.h>
#include <unistd.h>

static long number_in(const char *key) {
  const char *text = getenv(key);
  return text == NULL ? 0 : strtol(text, NULL, 10);
}

/* How many milliseconds it is until datagrams go out again. */
static long held_up(void) {
  const char *path = getenv("BLOCK_WHILE");
  long blocked = number_in("BLOCK_MS"), all = blocked + number_in("FREE_MS");
  struct timespec now;
  if (path == NULL || all == 0 || access(path, F_OK) != 0) return 0;
  clock_gettime(CLOCK_MONOTONIC, &now);
  long passed = (now.tv_sec * 1000 + now.tv_nsec / 1000000) % all;
  return passed < blocked ? blocked - passed : 0;
}

ssize_t sendto(int link, const void *data, size_t size, int flags, const struct sockaddr *to, socklen_t room) {
  for (long ms = held_up(); ms > 0; ms = held_up()) {
    struct timespec rest = {ms / 1000, ms % 1000 * 1000000};
    nanosleep(&rest, NULL);
  }
  return syscall(SYS_sendto, link, data, size, flags, to, room);
}
