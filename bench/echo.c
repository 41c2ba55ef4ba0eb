// A server on a port of this machine that sends back what it gets: the limit of what a server of lines can do here. Writes its port.
//
//   echo [LOOPS]
//
// With a thread for each connection; or with so many loops in threads, each of which waits by epoll for its share of them.
#include <arpa/inet.h>
#include <netinet/tcp.h>
#include <pthread.h>
#include <stdio.h>
#include <stdlib.h>
#include <sys/epoll.h>
#include <sys/resource.h>
#include <sys/socket.h>
#include <unistd.h>

enum { BYTES = 65536, EVENTS = 256 };

// Sends back what has come. 0 at the end.
static int answer(int fd, char *bytes) {
  ssize_t count = recv(fd, bytes, BYTES, 0);
  return count > 0 && send(fd, bytes, count, MSG_NOSIGNAL) == count;
}

static void *echo(void *link) {
  int fd = (int)(long)link;
  char bytes[BYTES];
  while (answer(fd, bytes)) {}
  close(fd);
  return 0;
}

static void *loop(void *link) {
  int poll = (int)(long)link;
  char bytes[BYTES];
  struct epoll_event events[EVENTS];
  for (;;) {
    int count = epoll_wait(poll, events, EVENTS, -1);
    for (int at = 0; at < count; at++)
      if (!answer(events[at].data.fd, bytes)) close(events[at].data.fd);
  }
  return 0;
}

int main(int count, char **words) {
  struct sockaddr_in at = {.sin_family = AF_INET, .sin_addr.s_addr = htonl(INADDR_LOOPBACK)};
  socklen_t size = sizeof at;
  struct rlimit most;
  int listener = socket(AF_INET, SOCK_STREAM, 0), loops = count > 1 ? atoi(words[1]) : 0, one = 1;
  int *polls = calloc(loops + 1, sizeof *polls);
  pthread_t thread;
  getrlimit(RLIMIT_NOFILE, &most);
  most.rlim_cur = most.rlim_max;
  setrlimit(RLIMIT_NOFILE, &most);
  for (int each = 0; each < loops; each++)
    if ((polls[each] = epoll_create1(0)) < 0 || pthread_create(&thread, 0, loop, (void *)(long)polls[each])) return 1;
  if (bind(listener, (struct sockaddr *)&at, size) || listen(listener, 4096)) return 1;
  getsockname(listener, (struct sockaddr *)&at, &size);
  printf("%d\n", ntohs(at.sin_port));
  fflush(stdout);
  for (long next = 0;; next++) {
    int fd = accept(listener, 0, 0);
    struct epoll_event event = {.events = EPOLLIN, .data.fd = fd};
    if (fd < 0) continue;
    setsockopt(fd, IPPROTO_TCP, TCP_NODELAY, &one, sizeof one);
    if (loops) epoll_ctl(polls[next % loops], EPOLL_CTL_ADD, fd, &event);
    else if (!pthread_create(&thread, 0, echo, (void *)(long)fd)) pthread_detach(thread);
  }
}
