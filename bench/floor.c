// The least time that nodes need if they sync each record: the writes, syncs and packets of urbd for a message, and nothing else.
//
//   floor NODES CLIENTS SECONDS [visible|read|together MOST UNDER_WAY]
//
// A node is one thread with a file, a UDP socket and the TCP connections of its clients, which submit 16 bytes each, one after
// the other. A record is 8,249 bytes in three writes into a file that has its length already, and one fdatasync. The sender
// stores a message, answers its client and tells the other nodes; each of these stores it and tells all others; the sender
// stores that it heard of one. So a message is one record in a group of one, and n + 1 in a greater one. Nothing is checked,
// nothing is kept in order and no packet is sent twice. Packets go before clients, so that none is lost for want of room.
//
// With `visible` a client submits again only once all nodes have the last message certified. With `read` one client more asks
// a thread of its own for a page of 300 bytes, one after the other, while the CLIENTS submit, which may be none then.
// With `together` a node takes all that waits, at most MOST messages and packets, stores their records with one fdatasync, and
// then answers and tells; and each client has UNDER_WAY submits under way. Prints
// submits a second, or pages a second, the median and the 99th percentile of what such a client waits, in microseconds. Files
// are made in the current folder.
#define _GNU_SOURCE
#include <arpa/inet.h>
#include <fcntl.h>
#include <netinet/tcp.h>
#include <poll.h>
#include <pthread.h>
#include <sched.h>
#include <stdatomic.h>
#include <stdint.h>
#include <stdio.h>
#include <stdlib.h>
#include <string.h>
#include <sys/socket.h>
#include <time.h>
#include <unistd.h>

enum { MOST_NODES = 7, MOST_CLIENTS = 64, MOST_TIMES = 1 << 20, MOST_NAMES = 1 << 20, LOG = 1 << 22, RECORD = 8249, PAYLOAD = 16, ASKED = 8, PAGE = 300, MOST_TOGETHER = 64 };

struct packet {
  uint32_t source, sender, number;
  unsigned char payload[PAYLOAD];
};

static int nodes, clients, is_visible, is_read, pages, together, under_way = 1;
static double seconds;
static int udp[MOST_NODES], file[MOST_NODES], listener[MOST_NODES];
static off_t place[MOST_NODES];
static struct sockaddr_in address[MOST_NODES];
static atomic_long certified[MOST_NODES];
static unsigned char is_known[MOST_NODES][MOST_NAMES];
// the reader's come last
static double *times[MOST_CLIENTS + 1];
static long done[MOST_CLIENTS + 1];

static double now(void) {
  struct timespec t;
  clock_gettime(CLOCK_MONOTONIC, &t);
  return t.tv_sec + t.tv_nsec * 1e-9;
}

static void failed(const char *what) {
  perror(what);
  exit(1);
}

static void write_record(int node) {
  static const size_t parts[] = {24, 24 + 4096 - 24, RECORD - 24 - 4096};
  static const unsigned char bytes[RECORD];
  if (place[node] + RECORD > LOG) place[node] = 0;
  for (int k = 0; k < 3; k++) {
    if (pwrite(file[node], bytes, parts[k], place[node]) != (ssize_t)parts[k]) failed("pwrite");
    place[node] += parts[k];
  }
}

static void sync_file(int node) {
  if (fdatasync(file[node])) failed("fdatasync");
}

static void store(int node) {
  write_record(node);
  sync_file(node);
}

static void tell(int node, struct packet packet) {
  packet.source = node;
  for (int to = 0; to < nodes; to++)
    if (to != node && sendto(udp[node], &packet, sizeof packet, 0, (void *)&address[to], sizeof address[to]) < 0) failed("sendto");
}

static void submitted(int node, int connection, uint32_t *number) {
  struct packet packet = {.sender = node, .number = ++*number};
  if (recv(connection, packet.payload, PAYLOAD, MSG_WAITALL) != PAYLOAD) return;
  store(node);
  send(connection, number, sizeof *number, 0);
  if (nodes == 1) certified[node]++;
  tell(node, packet);
}

static int arrived(int node) {
  struct packet packet;
  if (recv(udp[node], &packet, sizeof packet, MSG_DONTWAIT) != sizeof packet) return 0;
  if ((int)packet.sender == node) {
    if (packet.number >= MOST_NAMES || is_known[node][packet.number]++) return 1;
    store(node);
    certified[node]++;
  } else if (packet.source == packet.sender) {
    store(node);
    certified[node]++;
    tell(node, packet);
  }
  return 1;
}

// What a node does once a record is stored: it answers its client, if there is one, and tells the other nodes, if it should.
struct task {
  int connection, tells;
  uint32_t number;
  struct packet packet;
};

static int takes_packet(int node, struct task *task) {
  struct packet packet;
  while (recv(udp[node], &packet, sizeof packet, MSG_DONTWAIT) == sizeof packet) {
    int is_own = (int)packet.sender == node;
    if (is_own ? packet.number < MOST_NAMES && !is_known[node][packet.number]++ : packet.source == packet.sender) {
      *task = (struct task){.connection = -1, .tells = !is_own, .packet = packet};
      return 1;
    }
  }
  return 0;
}

static int takes_submit(int node, int connection, uint32_t *number, struct task *task) {
  struct packet packet = {.sender = node};
  if (recv(connection, packet.payload, PAYLOAD, MSG_DONTWAIT) != PAYLOAD) return 0;
  packet.number = ++*number;
  *task = (struct task){.connection = connection, .tells = 1, .number = *number, .packet = packet};
  return 1;
}

// Takes what waits, packets before clients, and stores all of it by one sync.
static int does_together(int node, int first, int count, struct pollfd *ends, uint32_t *number) {
  struct task tasks[MOST_TOGETHER];
  int some = 0;
  while (some < together && takes_packet(node, &tasks[some])) some++;
  for (int k = 0; k < count - 1; k++) {
    int at = 1 + (first + k) % (count - 1);
    while (some < together && ends[at].fd >= 0 && takes_submit(node, ends[at].fd, number, &tasks[some])) some++;
  }
  for (int k = 0; k < some; k++) write_record(node);
  if (some) sync_file(node);
  for (int k = 0; k < some; k++) {
    if (tasks[k].connection >= 0) send(tasks[k].connection, &tasks[k].number, sizeof tasks[k].number, 0);
    if (tasks[k].tells) tell(node, tasks[k].packet);
  }
  return some;
}

static void *node_runs(void *at) {
  int node = (int)(intptr_t)at, count = 1;
  uint32_t number = 0;
  struct pollfd ends[1 + MOST_CLIENTS] = {{.fd = udp[node], .events = POLLIN}};
  for (int client = node; client < clients; client += nodes) {
    int one = 1, it = accept(listener[node], NULL, NULL);
    setsockopt(it, IPPROTO_TCP, TCP_NODELAY, &one, sizeof one);
    ends[count++] = (struct pollfd){.fd = it, .events = POLLIN};
  }
  for (int first = 0; together && poll(ends, count, -1) >= 0; first++) {
    for (int k = 1; k < count; k++)
      if (ends[k].revents & POLLHUP) ends[k].fd = -1;
    while (does_together(node, first, count, ends, &number)) first++;
  }
  while (poll(ends, count, -1) >= 0)
    for (int k = 1; k < count || k == 1; k++) {
      while (arrived(node)) continue;
      if (k == count) break;
      if (ends[k].revents & POLLHUP) ends[k].fd = -1;
      else if (ends[k].revents & POLLIN) submitted(node, ends[k].fd, &number);
    }
  failed("poll");
  return NULL;
}

static int connected(int to_listener) {
  int one = 1, it = socket(AF_INET, SOCK_STREAM, 0);
  struct sockaddr_in to;
  socklen_t length = sizeof to;
  getsockname(to_listener, (void *)&to, &length);
  if (connect(it, (void *)&to, sizeof to)) failed("connect");
  setsockopt(it, IPPROTO_TCP, TCP_NODELAY, &one, sizeof one);
  return it;
}

static void *pages_are_served(void *at) {
  int one = 1, it = accept(pages, NULL, NULL);
  unsigned char asked[ASKED], page[PAGE] = {0};
  setsockopt(it, IPPROTO_TCP, TCP_NODELAY, &one, sizeof one);
  while (recv(it, asked, ASKED, MSG_WAITALL) == ASKED) send(it, page, PAGE, 0);
  return at;
}

static void *reader_runs(void *at) {
  int it = connected(pages);
  unsigned char asked[ASKED] = {0}, page[PAGE];
  for (double end = now() + seconds, begin; (begin = now()) < end && done[clients] < MOST_TIMES;) {
    if (send(it, asked, ASKED, 0) != ASKED) failed("send");
    if (recv(it, page, PAGE, MSG_WAITALL) != PAGE) failed("recv");
    times[clients][done[clients]++] = (now() - begin) * 1e6;
  }
  return at;
}

static void *client_runs(void *at) {
  int client = (int)(intptr_t)at, node = client % nodes, it = connected(listener[node]);
  unsigned char payload[PAYLOAD] = {0};
  uint32_t number;
  if (under_way > 1) {
    double begun[MOST_TOGETHER], end = now() + seconds;
    long sent = 0;
    for (; sent < under_way; sent++) {
      begun[sent] = now();
      if (send(it, payload, PAYLOAD, 0) != PAYLOAD) failed("send");
    }
    while (done[client] < MOST_TIMES) {
      if (recv(it, &number, sizeof number, MSG_WAITALL) != sizeof number) failed("recv");
      double *oldest = &begun[done[client] % under_way];
      times[client][done[client]++] = (now() - *oldest) * 1e6;
      if ((*oldest = now()) >= end) break;
      if (send(it, payload, PAYLOAD, 0) != PAYLOAD) failed("send");
    }
    return NULL;
  }
  for (double end = now() + seconds, begin; (begin = now()) < end && done[client] < MOST_TIMES;) {
    if (send(it, payload, PAYLOAD, 0) != PAYLOAD) failed("send");
    if (recv(it, &number, sizeof number, MSG_WAITALL) != sizeof number) failed("recv");
    if (is_visible)
      for (int k = 0; k < nodes; k++)
        while (certified[k] < (long)number) sched_yield();
    times[client][done[client]++] = (now() - begin) * 1e6;
  }
  return NULL;
}

static int rises(const void *a, const void *b) {
  double x = *(const double *)a, y = *(const double *)b;
  return (x > y) - (x < y);
}

static struct sockaddr_in any_port(void) {
  return (struct sockaddr_in){.sin_family = AF_INET, .sin_addr.s_addr = htonl(INADDR_LOOPBACK)};
}

static int listens(void) {
  struct sockaddr_in any = any_port();
  int it = socket(AF_INET, SOCK_STREAM, 0);
  if (bind(it, (void *)&any, sizeof any) || listen(it, MOST_CLIENTS)) failed("listen");
  return it;
}

static void opens(int node) {
  char name[32];
  struct sockaddr_in any = any_port();
  socklen_t length = sizeof any;
  snprintf(name, sizeof name, "floor-%d", node + 1);
  unsigned char *zeros = calloc(1, LOG);
  if ((file[node] = open(name, O_CREAT | O_TRUNC | O_RDWR, 0600)) < 0 || write(file[node], zeros, LOG) != LOG || fsync(file[node])) failed(name);
  free(zeros);
  udp[node] = socket(AF_INET, SOCK_DGRAM, 0);
  listener[node] = listens();
  if (bind(udp[node], (void *)&any, sizeof any)) failed("bind");
  getsockname(udp[node], (void *)&address[node], &length);
}

static void prints(int first, int behind) {
  long all = 0, k = 0;
  for (int client = first; client < behind; client++) all += done[client];
  double *sorted = malloc((all + 1) * sizeof *sorted);
  for (int client = first; client < behind; client++)
    for (long i = 0; i < done[client]; i++) sorted[k++] = times[client][i];
  qsort(sorted, all, sizeof *sorted, rises);
  printf("%.0f %.1f %.1f 0\n", all / seconds, sorted[all / 2], sorted[all * 99 / 100]);
}

int main(int count, char **words) {
  pthread_t thread, waiting[MOST_CLIENTS + 1];
  is_read = count > 4 && !strcmp(words[4], "read");
  if (count < 4 || (nodes = atoi(words[1])) < 1 || nodes > MOST_NODES || (clients = atoi(words[2])) < !is_read || clients > MOST_CLIENTS) {
    fprintf(stderr, "floor NODES CLIENTS SECONDS [visible|read|together MOST UNDER_WAY]\n");
    return 2;
  }
  seconds = atof(words[3]);
  if (count > 6 && !strcmp(words[4], "together")) together = atoi(words[5]), under_way = atoi(words[6]);
  if (together < 0 || together > MOST_TOGETHER || under_way < 1 || under_way > MOST_TOGETHER) return 2;
  is_visible = count > 4 && !is_read && !together && clients == 1;
  for (int node = 0; node < nodes; node++) opens(node);
  pages = listens();
  for (int client = 0; client <= clients; client++) times[client] = malloc(MOST_TIMES * sizeof *times[client]);
  for (int node = 0; node < nodes; node++) pthread_create(&thread, NULL, node_runs, (void *)(intptr_t)node);
  if (is_read) {
    pthread_create(&thread, NULL, pages_are_served, NULL);
    pthread_create(&waiting[clients], NULL, reader_runs, NULL);
  }
  for (int client = 0; client < clients; client++) pthread_create(&waiting[client], NULL, client_runs, (void *)(intptr_t)client);
  for (int client = 0; client < clients + is_read; client++) pthread_join(waiting[client], NULL);
  prints(is_read ? clients : 0, clients + is_read);
  return 0;
}
