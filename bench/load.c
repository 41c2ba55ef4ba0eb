// Statements a second of a server that answers ifdb's lines, by clients that are threads with a raw socket each.
//
//   load PORT CLIENTS SECONDS ROWS TABLE TAG KEY [selects | updates | inserts [MOST]]
//
// Each client says HELLO as admin, raises its label to TAG, and then does, until the time is over, a SELECT of a row by its key
// and BEGIN, an UPDATE of such a row, and COMMIT: four statements, the keys at random below ROWS. With a last word it does those
// statements alone, outside transactions, and no more than MOST of them; an INSERT is of a row that nobody has. Written at the
// end: how many statements a second, how many there were, and how many of them were refused with Conflict and otherwise. A server
// that sends each line back is loaded in the same way.
#define _GNU_SOURCE
#include <arpa/inet.h>
#include <errno.h>
#include <limits.h>
#include <netinet/tcp.h>
#include <pthread.h>
#include <stdio.h>
#include <stdlib.h>
#include <string.h>
#include <sys/socket.h>
#include <time.h>
#include <unistd.h>

enum { BYTES = 65536, LINE = 512 };

typedef struct {
  pthread_t thread;
  int socket;
  unsigned seed;
  int number;
  size_t from, to;
  char bytes[BYTES];
  char line[LINE];
  long statements, conflicts, others;
  double took;
} Client;

static int port, rows;
static long most;
static double seconds;
static enum { MIXED, SELECTS, UPDATES, INSERTS } kind;
static const char *table, *tag, *key;
static pthread_barrier_t start;

static void fail(const char *why) {
  fprintf(stderr, "load: %s\n", why);
  exit(1);
}

static double now(void) {
  struct timespec at;
  clock_gettime(CLOCK_MONOTONIC, &at);
  return at.tv_sec + at.tv_nsec * 1e-9;
}

static void read_line(Client *client) {
  size_t length = 0;
  for (;;) {
    while (client->from < client->to) {
      char byte = client->bytes[client->from++];
      if (byte == '\n') {
        client->line[length] = 0;
        return;
      }
      if (length + 1 < LINE) client->line[length++] = byte;
    }
    ssize_t count = recv(client->socket, client->bytes, BYTES, 0);
    if (count <= 0) fail("the server ended a connection");
    client->from = 0;
    client->to = count;
  }
}

// Asks a statement, and reads the whole answer. 1 where it was refused.
static int ask(Client *client, const char *statement) {
  char text[LINE];
  int length = snprintf(text, LINE, "%s\n", statement);
  if (send(client->socket, text, length, MSG_NOSIGNAL) != length) fail("the server takes nothing");
  read_line(client);
  if (!strncmp(client->line, "ROWS ", 5))
    for (long left = strtol(client->line + 5, 0, 10); left > 0; left--) read_line(client);
  return !strncmp(client->line, "ERR ", 4);
}

static int counted(Client *client, const char *statement) {
  int refused = ask(client, statement);
  client->statements++;
  if (refused && strstr(client->line, "Conflict")) client->conflicts++;
  else if (refused) client->others++;
  return refused;
}

static void begin_work(Client *client) {
  char text[LINE];
  struct sockaddr_in at = {.sin_family = AF_INET, .sin_port = htons(port), .sin_addr.s_addr = htonl(INADDR_LOOPBACK)};
  int one = 1;
  client->socket = socket(AF_INET, SOCK_STREAM, 0);
  if (connect(client->socket, (struct sockaddr *)&at, sizeof at)) fail(strerror(errno));
  setsockopt(client->socket, IPPROTO_TCP, TCP_NODELAY, &one, sizeof one);
  snprintf(text, LINE, "HELLO admin KEY '%s'", key);
  if (ask(client, text)) fail(client->line);
  snprintf(text, LINE, "SET LABEL (%s)", tag);
  if (ask(client, text)) fail(client->line);
}

static int do_select(Client *client) {
  char text[LINE];
  snprintf(text, LINE, "SELECT v FROM %s WHERE id = %d", table, rand_r(&client->seed) % rows);
  return counted(client, text);
}

static int do_update(Client *client) {
  char text[LINE];
  snprintf(text, LINE, "UPDATE %s SET v = %d WHERE id = %d", table, rand_r(&client->seed) % 1000, rand_r(&client->seed) % rows);
  return counted(client, text);
}

static int do_insert(Client *client) {
  char text[LINE];
  snprintf(text, LINE, "INSERT INTO %s VALUES (%ld, 0)", table, (client->number + 1) * 1000000000L + client->statements);
  return counted(client, text);
}

static void do_some(Client *client) {
  if (kind == SELECTS) do_select(client);
  else if (kind == UPDATES) do_update(client);
  else if (kind == INSERTS) do_insert(client);
  else {
    do_select(client);
    if (!counted(client, "BEGIN")) counted(client, do_update(client) ? "ROLLBACK" : "COMMIT");
  }
}

static void *work(void *it) {
  Client *client = it;
  begin_work(client);
  pthread_barrier_wait(&start);
  double begun = now();
  while ((client->took = now() - begun) < seconds && client->statements < most) do_some(client);
  close(client->socket);
  return 0;
}

int main(int count, char **words) {
  if (count < 8 || count > 10) fail("usage: load PORT CLIENTS SECONDS ROWS TABLE TAG KEY [selects | updates | inserts [MOST]]");
  int clients = atoi(words[2]);
  port = atoi(words[1]), seconds = atof(words[3]), rows = atoi(words[4]);
  table = words[5], tag = words[6], key = words[7];
  if (count > 8) kind = *words[8] == 's' ? SELECTS : *words[8] == 'u' ? UPDATES : INSERTS;
  most = count > 9 ? atol(words[9]) : LONG_MAX;
  Client *all = calloc(clients, sizeof *all);
  if (!all || clients < 1 || rows < 1 || pthread_barrier_init(&start, 0, clients)) fail("wrong words");
  for (int at = 0; at < clients; at++) {
    all[at].seed = at + 1;
    all[at].number = at;
    if (pthread_create(&all[at].thread, 0, work, &all[at])) fail("no thread");
  }
  double rate = 0;
  long statements = 0, conflicts = 0, others = 0;
  for (int at = 0; at < clients; at++) {
    pthread_join(all[at].thread, 0);
    rate += all[at].statements / all[at].took;
    statements += all[at].statements, conflicts += all[at].conflicts, others += all[at].others;
  }
  printf("%.0f %ld %ld %ld\n", rate, statements, conflicts, others);
}
