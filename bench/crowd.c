// Statements a second of a server that answers ifdb's lines, by many connections in few threads, each of which waits by epoll.
//
//   crowd PORT BUSY IDLE SECONDS DEPTH ROWS TABLE TAG KEY (selects | updates)
//
// BUSY + IDLE connections say HELLO as admin and raise their label to TAG. Then the first BUSY send DEPTH statements in one write, each
// a SELECT or an UPDATE of a row by its key, the keys at random below ROWS, read the DEPTH replies, and begin again, until the time is
// over; the others stand idle. Written at the end: how many statements a second, how many there were, how many of them were refused,
// and the longest time from a write to the last of its replies, in microseconds. A server that sends each line back is loaded alike.
#define _GNU_SOURCE
#include <arpa/inet.h>
#include <errno.h>
#include <netinet/tcp.h>
#include <pthread.h>
#include <stdio.h>
#include <stdlib.h>
#include <string.h>
#include <sys/epoll.h>
#include <sys/resource.h>
#include <sys/socket.h>
#include <time.h>
#include <unistd.h>

enum { THREADS = 4, EVENTS = 256, HEAD = 16, PIECE = 65536, LINE = 160, MOST_DEPTH = 256 };

// A connection: how many replies it waits for, how many lines are missing of the one at hand, and that one's first bytes.
typedef struct {
  int socket, waits;
  long rows;
  int length;
  char head[HEAD];
  double asked;
} Connection;

typedef struct {
  pthread_t thread;
  Connection *all;
  int count, poll;
  unsigned seed;
  long statements, refused;
  double longest, took;
} Worker;

static int port, depth, rows, updates;
static double seconds;
static const char *table, *tag, *key;
static pthread_barrier_t start;

static void fail(const char *why) {
  fprintf(stderr, "crowd: %s\n", why);
  exit(1);
}

static double now(void) {
  struct timespec at;
  clock_gettime(CLOCK_MONOTONIC, &at);
  return at.tv_sec + at.tv_nsec * 1e-9;
}

static void write_all(int socket, const char *text, size_t length) {
  while (length > 0) {
    ssize_t count = send(socket, text, length, MSG_NOSIGNAL);
    if (count <= 0) fail("the server takes nothing");
    text += count, length -= count;
  }
}

// A line more of a reply has come, or of the replies that are waited for.
static void note_line(Worker *worker, Connection *it) {
  if (it->rows > 0) it->rows--;
  else if (!strncmp(it->head, "ROWS ", 5)) it->rows = strtol(it->head + 5, 0, 10);
  else worker->refused += !strncmp(it->head, "ERR ", 4);
  it->length = 0;
  if (it->rows == 0) it->waits--, worker->statements++;
}

// Reads what has come.
static void hear(Worker *worker, Connection *it) {
  char bytes[PIECE];
  ssize_t count = recv(it->socket, bytes, PIECE, 0);
  if (count <= 0) fail("the server ended a connection");
  for (ssize_t at = 0; at < count; at++) {
    if (bytes[at] == '\n') {
      it->head[it->length] = 0;
      note_line(worker, it);
    } else if (it->length + 1 < HEAD) it->head[it->length++] = bytes[at];
  }
}

static void ask(Worker *worker, Connection *it) {
  char text[MOST_DEPTH * LINE];
  int length = 0;
  for (int at = 0; at < depth; at++) {
    int id = rand_r(&worker->seed) % rows;
    length += updates ? snprintf(text + length, LINE, "UPDATE %s SET v = %d WHERE id = %d\n", table, rand_r(&worker->seed) % 1000, id)
                      : snprintf(text + length, LINE, "SELECT v FROM %s WHERE id = %d\n", table, id);
  }
  it->waits = depth;
  it->asked = now();
  write_all(it->socket, text, length);
}

static void say(Worker *worker, Connection *it, const char *form, const char *word) {
  char text[LINE];
  it->waits = 1;
  write_all(it->socket, text, snprintf(text, LINE, form, word));
  while (it->waits) hear(worker, it);
  if (worker->refused) fail(it->head);
}

static void begin(Worker *worker, Connection *it) {
  struct sockaddr_in at = {.sin_family = AF_INET, .sin_port = htons(port), .sin_addr.s_addr = htonl(INADDR_LOOPBACK)};
  int one = 1;
  it->socket = socket(AF_INET, SOCK_STREAM, 0);
  if (it->socket < 0 || connect(it->socket, (struct sockaddr *)&at, sizeof at)) fail(strerror(errno));
  setsockopt(it->socket, IPPROTO_TCP, TCP_NODELAY, &one, sizeof one);
  say(worker, it, "HELLO admin KEY '%s'\n", key);
  say(worker, it, "SET LABEL (%s)\n", tag);
}

static void *work(void *word) {
  Worker *worker = word;
  struct epoll_event events[EVENTS];
  pthread_barrier_wait(&start);
  worker->statements = 0;
  double begun = now();
  for (int at = 0; at < worker->count; at++) ask(worker, &worker->all[at]);
  while (worker->count && (worker->took = now() - begun) < seconds) {
    int count = epoll_wait(worker->poll, events, EVENTS, 100);
    for (int at = 0; at < count; at++) {
      Connection *it = events[at].data.ptr;
      hear(worker, it);
      if (it->waits) continue;
      double waited = now() - it->asked;
      if (waited > worker->longest) worker->longest = waited;
      ask(worker, it);
    }
  }
  return 0;
}

// Begins connections, of which a worker's own are asked.
static void begin_all(Worker *worker, int idle) {
  worker->all = calloc(worker->count + 1, sizeof *worker->all);
  worker->poll = epoll_create1(0);
  if (!worker->all || worker->poll < 0) fail("no memory");
  for (int at = 0; at < worker->count; at++) {
    struct epoll_event event = {.events = EPOLLIN, .data.ptr = &worker->all[at]};
    begin(worker, &worker->all[at]);
    if (epoll_ctl(worker->poll, EPOLL_CTL_ADD, worker->all[at].socket, &event)) fail(strerror(errno));
  }
  for (int at = 0; at < idle; at++) {
    Connection silent = {0};
    begin(worker, &silent);
  }
}

int main(int count, char **words) {
  if (count != 11) fail("usage: crowd PORT BUSY IDLE SECONDS DEPTH ROWS TABLE TAG KEY (selects | updates)");
  int busy = atoi(words[2]), idle = atoi(words[3]), threads = busy < THREADS ? busy : THREADS;
  port = atoi(words[1]), seconds = atof(words[4]), depth = atoi(words[5]), rows = atoi(words[6]);
  table = words[7], tag = words[8], key = words[9], updates = *words[10] == 'u';
  struct rlimit most;
  getrlimit(RLIMIT_NOFILE, &most);
  most.rlim_cur = most.rlim_max;
  setrlimit(RLIMIT_NOFILE, &most);
  Worker *all = calloc(THREADS, sizeof *all);
  if (!all || busy < 1 || rows < 1 || depth < 1 || depth > MOST_DEPTH || pthread_barrier_init(&start, 0, threads)) fail("wrong words");
  for (int at = 0; at < threads; at++) {
    all[at].seed = at + 1;
    all[at].count = busy / threads + (at < busy % threads);
    begin_all(&all[at], at ? 0 : idle);
  }
  double rate = 0, longest = 0;
  long statements = 0, refused = 0;
  for (int at = 0; at < threads; at++)
    if (pthread_create(&all[at].thread, 0, work, &all[at])) fail("no thread");
  for (int at = 0; at < threads; at++) {
    pthread_join(all[at].thread, 0);
    rate += all[at].statements / all[at].took;
    statements += all[at].statements, refused += all[at].refused;
    if (all[at].longest > longest) longest = all[at].longest;
  }
  printf("%.0f %ld %ld %.0f\n", rate, statements, refused, longest * 1e6);
}
