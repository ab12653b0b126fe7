/* The times of the library for C, the least, the median and the most of 101 each: library TEXT HOST
 *
 * A parse of the text alone, a text opened to be edited, a print of its tree, and an edit of one byte near the end, the middle and the start,
 * which is put in the place of itself, from the call to the new tree. Times are of the clock, in milliseconds. */
#include "../include/workbench.h"

#include <stdio.h>
#include <stdlib.h>
#include <string.h>
#include <time.h>

enum { RUNS = 101 };

static wb_workbench bench;

static double now(void) {
  struct timespec at;
  if (clock_gettime(CLOCK_MONOTONIC, &at) != 0) exit(1);
  return (double)at.tv_sec * 1e3 + (double)at.tv_nsec / 1e6;
}

static void check(uint32_t status, const char *what) {
  if (status == WB_DONE) return;
  printf("%s: status %u\n", what, (unsigned)status);
  exit(1);
}

/* The bytes of a file of at most 2 MB, which the caller frees. */
static char *contents(const char *name, size_t *length) {
  size_t room = (size_t)2 << 20;
  char *bytes = malloc(room);
  FILE *file = fopen(name, "rb");
  if (file == NULL || bytes == NULL) {
    perror(name);
    exit(1);
  }
  *length = fread(bytes, 1, room, file);
  if (ferror(file)) exit(1);
  fclose(file);
  return bytes;
}

static int order(const void *one, const void *other) {
  double a = *(const double *)one, b = *(const double *)other;
  return (a > b) - (a < b);
}

static void show(const char *what, double *times) {
  qsort(times, RUNS, sizeof *times, order);
  printf("%-22s least %9.3f ms, median %9.3f, most %9.3f\n", what, times[0], times[RUNS / 2], times[RUNS - 1]);
}

/* Opens or parses the text, and closes it. */
static void time_text(const char *what, int opens, wb_handle language, const char *bytes, size_t length) {
  double times[RUNS];
  for (int i = 0; i < RUNS; i++) {
    wb_handle text;
    double from = now();
    check((opens ? wb_open : wb_parse)(&bench, language, bytes, length, &text), what);
    times[i] = now() - from;
    if (!wb_close_text(&bench, text)) exit(1);
  }
  show(what, times);
}

/* Puts a digit in the place of the digit before or at a place, and asks for the tree. Each edit builds nodes, and none goes. */
static void time_edit(const char *what, wb_handle text, const char *bytes, size_t at) {
  double times[RUNS];
  wb_edit_t done = {0};
  wb_answer_t answer;
  while (at > 0 && (bytes[at] < '0' || bytes[at] > '9')) at--;
  for (int i = 0; i < RUNS; i++) {
    char digit = (char)('1' + (bytes[at] - '0' + i) % 8);
    double from = now();
    check(wb_edit(&bench, text, at, at + 1, &digit, 1, &done), what);
    check(wb_answer(&bench, text, &answer), what);
    times[i] = now() - from;
    if (answer.kind != WB_TREE) exit(1);
  }
  show(what, times);
  printf("  at %zu: read anew from %zu to %zu, %zu tokens scanned, %zu nodes built, %zu leaves kept, %zu known\n", at, done.from, done.to,
         done.scanned, done.built, done.kept, done.known);
}

int main(int count, char **words) {
  if (count != 3) {
    fprintf(stderr, "usage: library TEXT HOST\n");
    return 2;
  }
  size_t length, host_length;
  wb_handle host, language, text;
  wb_answer_t answer;
  char *bytes = contents(words[1], &length), *host_bytes = contents(words[2], &host_length);
  check(wb_new(&bench.at), "new");
  check(wb_host(&bench, words[2], strlen(words[2]), host_bytes, host_length, &host), "host");
  check(wb_compose(&bench, host, &language), "compose");
  time_text("parse", 0, language, bytes, length);
  time_text("open", 1, language, bytes, length);
  check(wb_open(&bench, language, bytes, length, &text), "open");
  check(wb_answer(&bench, text, &answer), "answer");
  double times[RUNS];
  for (int i = 0; i < RUNS; i++) {
    double from = now();
    check(wb_print(&bench, text, answer.tree), "print");
    times[i] = now() - from;
  }
  show("print", times);
  time_edit("edit near the end", text, bytes, length - 1);
  time_edit("edit in the middle", text, bytes, length / 2);
  time_edit("edit near the start", text, bytes, length < 1000 ? length / 2 : 1000);
  wb_free(bench);
  free(bytes);
  free(host_bytes);
  return fflush(stdout) == 0 ? 0 : 1;
}
