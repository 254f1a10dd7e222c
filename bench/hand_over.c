// Measures what it costs to hand each sync over to another thread, without any rules, rooms or protocol. Clients in this
// process send lines over loopback, each has a file of its own, and a line is answered once it is on the disk. In the
// structure `threads` a thread of each client reads, syncs and answers. In `loops` threads with an epoll read and answer,
// and others sync: each looks for more for some microseconds before it sleeps. Prints the answered lines a second.
// usage: hand_over DIR CLIENTS SECONDS threads
//        hand_over DIR CLIENTS SECONDS loops LOOPS SYNCERS LOOK_MICROSECONDS
#define _GNU_SOURCE
#include <arpa/inet.h>
#include <fcntl.h>
#include <netinet/tcp.h>
#include <pthread.h>
#include <sched.h>
#include <stdatomic.h>
#include <stdio.h>
#include <stdlib.h>
#include <string.h>
#include <sys/epoll.h>
#include <sys/eventfd.h>
#include <time.h>
#include <unistd.h>

enum { MOST = 64, LINE = 110, WORK_MICROSECONDS = 5 };

// A client, its connection and its file.
struct line {
  int client, server, file, loop;
  long answered;
  char text[LINE];
  struct line *next;
};

// Lines that wait for one thread, or for one of several.
struct queue {
  pthread_mutex_t lock;
  pthread_cond_t added;
  struct line *first, *last;
  atomic_int count;
  int sleeping;
};

struct loop {
  int epoll, alarm;
  struct queue synced;
  atomic_int is_polling;
};

static struct line lines[MOST];
static struct loop loops[MOST];
static struct queue orders;
static int loop_count;
static double look;
static atomic_int is_looking, is_over;

static double seconds(void) {
  struct timespec time;
  clock_gettime(CLOCK_MONOTONIC, &time);
  return time.tv_sec + time.tv_nsec * 1e-9;
}

static void fail(const char *what) {
  perror(what);
  exit(1);
}

static void start(void *(*function)(void *), void *given) {
  pthread_t thread;
  if (pthread_create(&thread, 0, function, given)) fail("pthread_create");
}

static void push(struct queue *queue, struct line *line) {
  line->next = 0;
  if (queue->first) queue->last->next = line; else queue->first = line;
  queue->last = line;
  queue->count++;
}

static struct line *pop(struct queue *queue) {
  struct line *line = queue->first;
  if (line) {
    queue->first = line->next;
    queue->count--;
  }
  return line;
}

// Reads a line, and does what stands for the rules. Returns 0 at the end.
static int take(struct line *line) {
  for (int len = 0; len < LINE;) {
    int got = read(line->server, line->text + len, LINE - len);
    if (got <= 0) return 0;
    len += got;
  }
  for (double end = seconds() + WORK_MICROSECONDS * 1e-6; seconds() < end;) {
  }
  return 1;
}

static void sync_line(struct line *line) {
  if (write(line->file, line->text, LINE) != LINE || fdatasync(line->file)) fail("sync");
}

static void answer(struct line *line) {
  if (write(line->server, line->text, LINE) != LINE && !is_over) fail("answer");
}

static void *serve_one(void *given) {
  while (take(given)) {
    sync_line(given);
    answer(given);
  }
  return 0;
}

static struct line *next_order(void) {
  if (look > 0 && !atomic_exchange(&is_looking, 1)) {
    for (double end = seconds() + look; orders.count == 0 && seconds() < end;) sched_yield();
    is_looking = 0;
  }
  pthread_mutex_lock(&orders.lock);
  struct line *line;
  while (!(line = pop(&orders))) {
    orders.sleeping++;
    pthread_cond_wait(&orders.added, &orders.lock);
    orders.sleeping--;
  }
  pthread_mutex_unlock(&orders.lock);
  return line;
}

static void *sync_lines(void *unused) {
  while (!is_over) {
    struct line *line = next_order();
    sync_line(line);
    struct loop *loop = &loops[line->loop];
    pthread_mutex_lock(&loop->synced.lock);
    push(&loop->synced, line);
    pthread_mutex_unlock(&loop->synced.lock);
    if (!loop->is_polling && eventfd_write(loop->alarm, 1)) fail("eventfd");
  }
  return unused;
}

static void answer_synced(struct loop *loop) {
  pthread_mutex_lock(&loop->synced.lock);
  struct line *line = loop->synced.first;
  loop->synced.first = 0;
  loop->synced.count = 0;
  pthread_mutex_unlock(&loop->synced.lock);
  for (struct line *next; line; line = next) {
    next = line->next;
    answer(line);
  }
}

// Hands a line over, and wakes a thread that syncs unless one looks.
static void order(struct line *line) {
  pthread_mutex_lock(&orders.lock);
  push(&orders, line);
  int wakes = orders.sleeping > 0 && !is_looking;
  pthread_mutex_unlock(&orders.lock);
  if (wakes) pthread_cond_signal(&orders.added);
}

static void *run_loop(void *given) {
  struct loop *loop = given;
  struct epoll_event events[MOST];
  double until = 0;
  while (!is_over) {
    int polls = look > 0 && seconds() < until;
    loop->is_polling = polls;
    if (loop->synced.count > 0) answer_synced(loop);
    int count = epoll_wait(loop->epoll, events, MOST, polls ? 0 : -1);
    for (int place = 0; place < count; place++) {
      struct line *line = events[place].data.ptr;
      eventfd_t rings;
      if (!line) eventfd_read(loop->alarm, &rings);
      else if (take(line)) order(line);
      else epoll_ctl(loop->epoll, EPOLL_CTL_DEL, line->server, 0);
    }
    if (count > 0) until = seconds() + look;
    answer_synced(loop);
  }
  return 0;
}

static void *run_client(void *given) {
  struct line *line = given;
  char text[LINE] = {0}, got[LINE];
  while (!is_over) {
    if (write(line->client, text, LINE) != LINE) fail("client");
    for (int len = 0, more; len < LINE; len += more)
      if ((more = read(line->client, got, LINE - len)) <= 0) fail("client");
    line->answered++;
  }
  return 0;
}

static void connect_line(struct line *line, int listener, struct sockaddr_in *address) {
  int yes = 1;
  line->client = socket(AF_INET, SOCK_STREAM, 0);
  if (connect(line->client, (struct sockaddr *)address, sizeof *address)) fail("connect");
  line->server = accept(listener, 0, 0);
  setsockopt(line->client, IPPROTO_TCP, TCP_NODELAY, &yes, sizeof yes);
  setsockopt(line->server, IPPROTO_TCP, TCP_NODELAY, &yes, sizeof yes);
}

static void serve_line(struct line *line, int number, int is_threads) {
  if (is_threads) {
    start(serve_one, line);
    return;
  }
  line->loop = number % loop_count;
  struct epoll_event event = {.events = EPOLLIN, .data.ptr = line};
  epoll_ctl(loops[line->loop].epoll, EPOLL_CTL_ADD, line->server, &event);
}

static void start_loops(int syncers) {
  pthread_mutex_init(&orders.lock, 0);
  pthread_cond_init(&orders.added, 0);
  for (int number = 0; number < loop_count; number++) {
    struct loop *loop = &loops[number];
    struct epoll_event event = {.events = EPOLLIN, .data.ptr = 0};
    pthread_mutex_init(&loop->synced.lock, 0);
    loop->epoll = epoll_create1(0);
    loop->alarm = eventfd(0, EFD_NONBLOCK);
    epoll_ctl(loop->epoll, EPOLL_CTL_ADD, loop->alarm, &event);
    start(run_loop, loop);
  }
  for (int number = 0; number < syncers; number++) start(sync_lines, 0);
}

int main(int argc, char **words) {
  int is_threads = argc == 5 && !strcmp(words[4], "threads");
  if (!is_threads && (argc != 8 || strcmp(words[4], "loops"))) return 2;
  int clients = atoi(words[2]);
  double length = atof(words[3]);
  loop_count = is_threads ? 1 : atoi(words[5]);
  look = is_threads ? 0 : atof(words[7]) * 1e-6;
  if (clients < 1 || clients > MOST || loop_count < 1 || loop_count > MOST) return 2;
  if (!is_threads) start_loops(atoi(words[6]));
  struct sockaddr_in address = {.sin_family = AF_INET, .sin_addr.s_addr = htonl(INADDR_LOOPBACK)};
  socklen_t size = sizeof address;
  int listener = socket(AF_INET, SOCK_STREAM, 0);
  if (bind(listener, (struct sockaddr *)&address, size) || listen(listener, MOST)) fail("listen");
  getsockname(listener, (struct sockaddr *)&address, &size);
  for (int number = 0; number < clients; number++) {
    char path[4096];
    snprintf(path, sizeof path, "%s/%d.lines", words[1], number);
    lines[number].file = open(path, O_WRONLY | O_APPEND | O_CREAT | O_TRUNC, 0644);
    if (lines[number].file < 0) fail(path);
    connect_line(&lines[number], listener, &address);
    serve_line(&lines[number], number, is_threads);
  }
  double began = seconds();
  for (int number = 0; number < clients; number++) start(run_client, &lines[number]);
  while (seconds() - began < length) usleep(1000);
  double took = seconds() - began;
  long answered = 0;
  for (int number = 0; number < clients; number++) answered += lines[number].answered;
  printf("%.0f\n", answered / took);
  fflush(stdout);
  _exit(0);
}
