// Measures what a disk and its system allow. Clients add lines to rooms, and each waits until its line is on the disk.
// One of the waiting clients writes and syncs for all. In place of the room's rules, each line costs some microseconds
// under the room's lock. Prints the completed lines a second.
// usage: group_commit DIR CLIENTS ROOMS SECONDS LINE_LENGTH WORK_MICROSECONDS
#define _GNU_SOURCE
#include <fcntl.h>
#include <pthread.h>
#include <stdatomic.h>
#include <stdio.h>
#include <stdlib.h>
#include <string.h>
#include <time.h>
#include <unistd.h>

enum { MOST_ROOMS = 64, MOST_CLIENTS = 64, MOST_LINE = 4096 };

struct room {
  pthread_mutex_t record; // guards the unwritten lines
  char *pending;
  size_t len, capacity;
  long count;
  pthread_mutex_t desk; // guards `is_writing` and `kept`
  pthread_cond_t put_back;
  int is_writing;
  long kept;
  int file;
  char apart[128];
};

static struct room rooms[MOST_ROOMS];
static int room_count, line_len, work;
static atomic_int is_over;

static double seconds(void) {
  struct timespec time;
  clock_gettime(CLOCK_MONOTONIC, &time);
  return time.tv_sec + time.tv_nsec * 1e-9;
}

// Adds a line to the room. Returns its number.
static long add(struct room *room, const char *line) {
  pthread_mutex_lock(&room->record);
  for (double end = seconds() + work * 1e-6; seconds() < end;) {
  }
  if (room->len + line_len > room->capacity) {
    room->capacity = 2 * room->capacity + line_len;
    room->pending = realloc(room->pending, room->capacity);
  }
  memcpy(room->pending + room->len, line, line_len);
  room->len += line_len;
  long number = ++room->count;
  pthread_mutex_unlock(&room->record);
  return number;
}

// Writes and syncs all lines of the room. Returns their number.
static long write_all(struct room *room) {
  pthread_mutex_lock(&room->record);
  char *bytes = room->pending;
  size_t len = room->len;
  long count = room->count;
  room->pending = malloc(room->capacity);
  room->len = 0;
  pthread_mutex_unlock(&room->record);
  if (write(room->file, bytes, len) != (ssize_t)len || fdatasync(room->file)) {
    perror("group_commit");
    exit(1);
  }
  free(bytes);
  return count;
}

// Waits until the line of this number is on the disk.
static void keep(struct room *room, long number) {
  pthread_mutex_lock(&room->desk);
  while (room->kept < number) {
    if (room->is_writing) {
      pthread_cond_wait(&room->put_back, &room->desk);
      continue;
    }
    room->is_writing = 1;
    pthread_mutex_unlock(&room->desk);
    long kept = write_all(room);
    pthread_mutex_lock(&room->desk);
    room->kept = kept;
    room->is_writing = 0;
    pthread_cond_broadcast(&room->put_back);
  }
  pthread_mutex_unlock(&room->desk);
}

static void *client(void *number) {
  struct room *room = &rooms[(long)number % room_count];
  char line[MOST_LINE];
  memset(line, 'x', line_len);
  line[line_len - 1] = '\n';
  long completed = 0;
  while (!is_over) {
    keep(room, add(room, line));
    completed++;
  }
  return (void *)completed;
}

int main(int argc, char **words) {
  if (argc != 7) return 2;
  int clients = atoi(words[2]);
  room_count = atoi(words[3]);
  double length = atof(words[4]);
  line_len = atoi(words[5]);
  work = atoi(words[6]);
  if (clients < 1 || clients > MOST_CLIENTS || room_count < 1 || room_count > MOST_ROOMS || line_len < 1 || line_len > MOST_LINE) return 2;
  for (int place = 0; place < room_count; place++) {
    struct room *room = &rooms[place];
    pthread_mutex_init(&room->record, 0);
    pthread_mutex_init(&room->desk, 0);
    pthread_cond_init(&room->put_back, 0);
    room->capacity = 1 << 16;
    room->pending = malloc(room->capacity);
    char path[4096];
    snprintf(path, sizeof path, "%s/%d.lines", words[1], place);
    room->file = open(path, O_WRONLY | O_APPEND | O_CREAT | O_TRUNC, 0644);
    if (room->file < 0) {
      perror(path);
      return 1;
    }
  }
  pthread_t threads[MOST_CLIENTS];
  double start = seconds();
  for (long number = 0; number < clients; number++) pthread_create(&threads[number], 0, client, (void *)number);
  while (seconds() - start < length) usleep(1000);
  is_over = 1;
  long completed = 0;
  for (int number = 0; number < clients; number++) {
    void *one;
    pthread_join(threads[number], &one);
    completed += (long)one;
  }
  printf("%.0f\n", completed / (seconds() - start));
  return 0;
}
