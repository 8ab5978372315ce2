/* Time-dependent Dijkstra over the three tables, to compare with: dijkstra NODES ROADS PROFILES < SCRIPT
   SCRIPT has lines q,FROM,TO,SECOND; each is answered by the arrival, or by '-'. It trusts its tables. */
#include <stdint.h>
#include <stdio.h>
#include <stdlib.h>
#include <string.h>

enum { DAY = 86400, TRAVEL = 0, UNTIL = 1, CLOSED = 2 };
typedef struct { uint32_t start; uint32_t kind; int64_t value; } Piece;
typedef struct { uint32_t head; uint32_t first; uint32_t count; } Road; /* its pieces */
typedef struct { int64_t at; uint32_t node; } Entry;

static Piece *pieces;
static Road *roads;
static uint32_t *begins; /* the roads of each node, by its number */
static Entry *heap;
static size_t heap_count, heap_room;

static void *room(void *old, size_t count, size_t size) {
  void *new = realloc(old, (count ? count : 1) * size);
  if (!new) { fputs("dijkstra: out of memory\n", stderr); exit(1); }
  return new;
}

static FILE *table(const char *path) {
  FILE *file = fopen(path, "r");
  int c;
  if (!file) { perror(path); exit(1); }
  while ((c = getc(file)) != EOF && c != '\n') continue;
  return file;
}

static void push(int64_t at, uint32_t node) {
  size_t i = heap_count++;
  if (heap_count > heap_room) heap = room(heap, heap_room = 2 * heap_count + 1024, sizeof *heap);
  for (; i && heap[(i - 1) / 2].at > at; i = (i - 1) / 2) heap[i] = heap[(i - 1) / 2];
  heap[i] = (Entry){at, node};
}

static Entry pop(void) {
  Entry top = heap[0], last = heap[--heap_count];
  size_t i = 0, child;
  while ((child = 2 * i + 1) < heap_count) {
    if (child + 1 < heap_count && heap[child + 1].at < heap[child].at) child++;
    if (heap[child].at >= last.at) break;
    heap[i] = heap[child];
    i = child;
  }
  heap[i] = last;
  return top;
}

/* When one arrives who enters the road at second `at`; -1 where it is closed. */
static int64_t drive(const Road *road, int64_t at) {
  const Piece *low = pieces + road->first;
  int64_t of_day = at % DAY;
  for (uint32_t left = road->count; left > 1;) {
    uint32_t half = left / 2;
    if (low[half].start <= of_day) low += half;
    left -= half;
  }
  if (low->kind == CLOSED) return -1;
  return low->kind == UNTIL ? at - of_day + low->value : at + low->value;
}

static uint32_t nodes;

static void read_tables(char **path) {
  uint32_t count = 0, profiles = 0, filled = 0, size = 0, *first = NULL, (*rows)[3] = NULL, number, tail, head, profile, start;
  long long value;
  char kind[16];
  FILE *file = table(path[1]);
  while (fscanf(file, "%u,%*u,%*u", &number) == 1) nodes = number + 1;
  fclose(file);
  file = table(path[3]);
  while (fscanf(file, "%u,%u,%15[a-z],%lld", &profile, &start, kind, &value) == 4) {
    if (filled == size) pieces = room(pieces, size = 2 * size + 1024, sizeof *pieces), first = room(first, size + 1, sizeof *first);
    if (profile == profiles) first[profiles++] = filled;
    pieces[filled++] = (Piece){start, *kind == 't' ? TRAVEL : *kind == 'u' ? UNTIL : CLOSED, value};
  }
  first = room(first, profiles + 1, sizeof *first);
  first[profiles] = filled;
  fclose(file);
  begins = room(NULL, nodes + 2, sizeof *begins);
  memset(begins, 0, (nodes + 2) * sizeof *begins);
  file = table(path[2]);
  for (size = 0; fscanf(file, "%*u,%u,%u,%u", &tail, &head, &profile) == 3; count++) {
    if (count == size) rows = room(rows, size = 2 * size + 1024, sizeof *rows);
    memcpy(rows[count], (uint32_t[]){tail, head, profile}, sizeof *rows);
    begins[tail + 2]++;
  }
  fclose(file);
  for (uint32_t node = 0; node < nodes; node++) begins[node + 2] += begins[node + 1];
  roads = room(NULL, count, sizeof *roads);
  for (uint32_t i = 0; i < count; i++) /* begins[tail + 1] goes up to where the next node's begin */
    roads[begins[rows[i][0] + 1]++] = (Road){rows[i][1], first[rows[i][2]], first[rows[i][2] + 1] - first[rows[i][2]]};
}

int main(int argc, char **argv) {
  uint32_t now = 0, from, to, start;
  if (argc != 4) { fputs("dijkstra NODES ROADS PROFILES < SCRIPT\n", stderr); return 2; }
  read_tables(argv);
  int64_t *least = room(NULL, nodes, sizeof *least);
  uint32_t *seen = room(NULL, nodes, sizeof *seen);
  memset(seen, 0, nodes * sizeof *seen);
  while (scanf(" q,%u,%u,%u", &from, &to, &start) == 3) {
    int64_t found = -1;
    now++, heap_count = 0;
    least[from] = start, seen[from] = now;
    for (push(start, from); heap_count && found < 0;) {
      Entry top = pop();
      if (top.at > least[top.node]) continue;
      if (top.node == to) found = top.at;
      for (uint32_t i = begins[top.node]; i < begins[top.node + 1]; i++) {
        int64_t then = drive(roads + i, top.at);
        uint32_t node = roads[i].head;
        if (then < 0 || (seen[node] == now && least[node] <= then)) continue;
        least[node] = then, seen[node] = now;
        push(then, node);
      }
    }
    if (found < 0) puts("-");
    else printf("%lld\n", (long long)found);
  }
  return 0;
}
