// Closed-loop clients over TCP on 127.0.0.1, one connection a thread.
//
//   load KIND PORT CLIENTS SECONDS [PAYLOAD] [CLIENT] [MESSAGES] [UNDER_WAY]
//
// KIND  submit   urbd's SUBMIT, each thread with a client number of its own, from CLIENT on
//       killed   the same, until the connections break: then the answered submits count
//       read     urbd's READ of 8 entries from place 1 (fewer come if payloads are over 8,178 bytes)
//       visible  SUBMIT at PORT, then READ until each node shows the entry: at PORT + 1 .. PORT + CLIENTS - 1, and at PORT,
//                where it is shown last; one thread
//       xadd     redis' XADD of one field
//       xrange   redis' XRANGE of 8 entries from the beginning
//
// PAYLOAD is 0 to 16384 bytes (16), as many as a message may have, and CLIENT the first number of a client (1000). A thread ends
// after SECONDS, or once it has its share of MESSAGES (0: no end), rounded up. With `submit` and `xadd`, it may have UNDER_WAY
// requests under way (1, at most 64): it sends so many before the first answer, and one more after each.
// Prints operations a second, the median and the 99th percentile in microseconds, and how many were refused; for `killed` also
// how many were not.
#define _GNU_SOURCE
#include <arpa/inet.h>
#include <netinet/tcp.h>
#include <pthread.h>
#include <stdint.h>
#include <stdio.h>
#include <stdlib.h>
#include <string.h>
#include <sys/socket.h>
#include <time.h>
#include <unistd.h>

enum { MOST_CLIENTS = 256, MOST_TIMES = 4000000, LONGEST = 16384, ROOM = 70000, MOST_UNDER_WAY = 64 };

static const char *kind;
static int port, clients, payload_length = 16, first_client = 1000, may_break, under_way = 1;
static uint32_t share = UINT32_MAX;
static double seconds;
static unsigned char payload[ROOM];

struct session {
  int socket, index;
  unsigned char in[ROOM];
  size_t begin, end;
  double *times;
  long done, refused;
};

static double now(void) {
  struct timespec t;
  clock_gettime(CLOCK_MONOTONIC, &t);
  return t.tv_sec + t.tv_nsec * 1e-9;
}

static int opened(int number) {
  int one = 1, it = socket(AF_INET, SOCK_STREAM, 0);
  struct sockaddr_in to = {.sin_family = AF_INET, .sin_port = htons(number), .sin_addr.s_addr = htonl(INADDR_LOOPBACK)};
  if (connect(it, (void *)&to, sizeof to)) {
    perror("connect");
    exit(1);
  }
  setsockopt(it, IPPROTO_TCP, TCP_NODELAY, &one, sizeof one);
  return it;
}

static void write_all(int it, const void *bytes, size_t length) {
  for (size_t k = 0; k < length;) {
    ssize_t sent = send(it, (const char *)bytes + k, length - k, MSG_NOSIGNAL);
    if (sent <= 0 && may_break) pthread_exit(0);
    if (sent <= 0) {
      perror("send");
      exit(1);
    }
    k += sent;
  }
}

static int next_byte(struct session *s) {
  if (s->begin == s->end) {
    ssize_t got = recv(s->socket, s->in, sizeof s->in, 0);
    if (got <= 0 && may_break) pthread_exit(0);
    if (got <= 0) {
      perror("recv");
      exit(1);
    }
    s->begin = 0;
    s->end = got;
  }
  return s->in[s->begin++];
}

static uint32_t number_of(const unsigned char *bytes) {
  return (uint32_t)bytes[0] << 24 | bytes[1] << 16 | bytes[2] << 8 | bytes[3];
}

static void put_number(unsigned char *to, uint32_t it) {
  for (int k = 0; k < 4; k++) to[k] = it >> (24 - 8 * k);
}

// Reads one of urbd's frames into `body` and gives its length.
static size_t read_frame(struct session *s, unsigned char *body) {
  size_t length = next_byte(s) << 8;
  length |= next_byte(s);
  for (size_t k = 0; k < length; k++) body[k] = next_byte(s);
  return length;
}

static void submit(struct session *s, uint32_t number, int client) {
  unsigned char frame[ROOM];
  int length = 7 + payload_length;
  frame[0] = length >> 8, frame[1] = length, frame[2] = 1, frame[3] = client >> 8, frame[4] = client;
  put_number(frame + 5, number);
  memcpy(frame + 9, payload, payload_length);
  write_all(s->socket, frame, length + 2);
}

static void ask_entries(int it, uint32_t place, int most) {
  unsigned char frame[8] = {0, 6, 2, 0, 0, 0, 0, most};
  put_number(frame + 3, place);
  write_all(it, frame, sizeof frame);
}

static long redis_number(struct session *s) {
  long it = 0;
  int sign = 1, c = next_byte(s);
  if (c == '-') sign = -1, c = next_byte(s);
  for (; c != '\r'; c = next_byte(s)) it = it * 10 + c - '0';
  next_byte(s);
  return sign * it;
}

static void redis_reply(struct session *s) {
  int c = next_byte(s);
  if (c == '$') {
    long length = redis_number(s);
    for (long k = 0; length >= 0 && k < length + 2; k++) next_byte(s);
  } else if (c == '*') {
    long count = redis_number(s);
    for (long k = 0; k < count; k++) redis_reply(s);
  } else {
    s->refused += c == '-';
    while (next_byte(s) != '\n') {
    }
  }
}

static void add_to_redis(struct session *s) {
  char text[ROOM + 100];
  int length = sprintf(text, "*5\r\n$4\r\nXADD\r\n$1\r\ns\r\n$1\r\n*\r\n$1\r\nm\r\n$%d\r\n%s\r\n", payload_length, payload);
  write_all(s->socket, text, length);
}

static void once(struct session *s, uint32_t *number) {
  unsigned char body[ROOM];
  if (!strcmp(kind, "submit") || may_break) {
    submit(s, *number + 1, first_client + s->index);
    read_frame(s, body);
    if (body[0] == 0x81) ++*number;
    else s->refused++;
  } else if (!strcmp(kind, "read")) {
    ask_entries(s->socket, 1, 8);
    read_frame(s, body);
    s->refused += body[0] != 0x82;
  } else if (!strcmp(kind, "xadd")) {
    add_to_redis(s);
    redis_reply(s);
  } else {
    const char *words = "*6\r\n$6\r\nXRANGE\r\n$1\r\ns\r\n$1\r\n-\r\n$1\r\n+\r\n$5\r\nCOUNT\r\n$1\r\n8\r\n";
    write_all(s->socket, words, strlen(words));
    redis_reply(s);
  }
}

// Has several requests under way. Each answer is that of the oldest one.
static void run_ahead(struct session *s) {
  unsigned char body[ROOM];
  double begun[MOST_UNDER_WAY], end = now() + seconds;
  uint32_t sent = 0, answered = 0;
  int is_redis = !strcmp(kind, "xadd");
  while (answered < sent || !sent) {
    while (sent - answered < (uint32_t)under_way && sent < share && now() < end) {
      begun[sent % MOST_UNDER_WAY] = now();
      if (is_redis) add_to_redis(s);
      else submit(s, sent + 1, first_client + s->index);
      sent++;
    }
    if (answered == sent) break;
    if (is_redis) redis_reply(s);
    else {
      read_frame(s, body);
      s->refused += body[0] != 0x81;
    }
    if (s->done < MOST_TIMES) s->times[s->done++] = now() - begun[answered % MOST_UNDER_WAY];
    answered++;
  }
}

static void *run(void *given) {
  struct session *s = given;
  uint32_t number = 0;
  s->socket = opened(port);
  if (under_way > 1) {
    run_ahead(s);
    close(s->socket);
    return 0;
  }
  for (double end = now() + seconds, begin; (begin = now()) < end && number < share;) {
    once(s, &number);
    if (s->done < MOST_TIMES) s->times[s->done++] = now() - begin;
  }
  close(s->socket);
  return 0;
}

// Submits at the first node, and reads at each until it shows the entry, at the first one last.
static void *run_visible(void *given) {
  struct session *s = given, *readers = calloc(clients, sizeof *readers);
  uint32_t number = 0, *seen = calloc(clients, sizeof *seen);
  unsigned char body[ROOM];
  s->socket = opened(port);
  for (int k = 0; k < clients; k++) {
    readers[k].socket = opened(port + k);
    write_all(readers[k].socket, "\0\1\3", 3);
    read_frame(&readers[k], body);
    seen[k] = number_of(body + 6);
  }
  for (double end = now() + seconds, begin; (begin = now()) < end;) {
    submit(s, number + 1, first_client);
    read_frame(s, body);
    if (body[0] != 0x81) {
      s->refused++;
      continue;
    }
    number++;
    for (int turn = 1; turn <= clients; turn++) {
      int k = turn % clients;
      do {
        ask_entries(readers[k].socket, seen[k] + 1, 1);
        read_frame(&readers[k], body);
        if (now() - begin > 5) {
          fprintf(stderr, "not shown in 5 s\n");
          exit(1);
        }
      } while (body[0] != 0x82 || body[1] != 1);
      seen[k]++;
    }
    if (s->done < MOST_TIMES) s->times[s->done++] = now() - begin;
  }
  return 0;
}

static int rising(const void *a, const void *b) {
  double x = *(const double *)a, y = *(const double *)b;
  return x < y ? -1 : x > y;
}

int main(int count, char **words) {
  if (count < 5) {
    fprintf(stderr, "usage: load KIND PORT CLIENTS SECONDS [PAYLOAD] [CLIENT] [MESSAGES] [UNDER_WAY]\n");
    return 2;
  }
  kind = words[1], port = atoi(words[2]), clients = atoi(words[3]), seconds = atof(words[4]);
  if (count > 5) payload_length = atoi(words[5]);
  if (count > 6) first_client = atoi(words[6]);
  may_break = !strcmp(kind, "killed");
  if (clients < 1 || clients > MOST_CLIENTS || payload_length < 0 || payload_length > LONGEST) return 2;
  if (count > 7 && atoi(words[7])) share = (atoi(words[7]) + clients - 1) / clients;
  if (count > 8) under_way = atoi(words[8]);
  if (under_way < 1 || under_way > MOST_UNDER_WAY || (under_way > 1 && strcmp(kind, "submit") && strcmp(kind, "xadd"))) return 2;
  memset(payload, 'x', payload_length);
  int is_visible = !strcmp(kind, "visible"), threads = is_visible ? 1 : clients;
  struct session *sessions = calloc(threads, sizeof *sessions);
  pthread_t ids[MOST_CLIENTS];
  double begin = now();
  for (int k = 0; k < threads; k++) {
    sessions[k].index = k;
    sessions[k].times = malloc(MOST_TIMES * sizeof(double));
    pthread_create(&ids[k], 0, is_visible ? run_visible : run, &sessions[k]);
  }
  long done = 0, refused = 0;
  for (int k = 0; k < threads; k++) {
    pthread_join(ids[k], 0);
    done += sessions[k].done, refused += sessions[k].refused;
  }
  double took = now() - begin, *all = malloc((done + 1) * sizeof(double));
  long at = 0;
  for (int k = 0; k < threads; k++) {
    memcpy(all + at, sessions[k].times, sessions[k].done * sizeof(double));
    at += sessions[k].done;
  }
  if (!done) return 1;
  qsort(all, done, sizeof(double), rising);
  printf("%.1f %.2f %.2f %ld", done / took, all[done / 2] * 1e6, all[done * 99 / 100] * 1e6, refused);
  if (may_break) printf(" %ld", done - refused);
  printf("\n");
  return 0;
}
