/* What the programs of this folder share: a workbench, the bytes of files, a language from its files, and what is printed. */
#ifndef LOAD_H
#define LOAD_H

#include "../../include/workbench.h"

#include <inttypes.h>
#include <stdio.h>
#include <stdlib.h>
#include <string.h>

/* The one workbench of the program. It is there from `begin` to `leave`. */
static wb_workbench bench;

static void begin(void) {
  if (wb_new(&bench.at) != WB_DONE) {
    fprintf(stderr, "no memory\n");
    exit(WB_NO_MEMORY);
  }
}

/* Lets go of the workbench with all that it has, and ends the program with this status, or 10 where not all could be printed. */
static void leave(int status) {
  wb_free(bench);
  if (fflush(stdout) != 0 || ferror(stdout)) status = 10;
  exit(status);
}

/* What an allocation answered, where it isn't null. */
static void *there(void *memory) {
  if (memory == NULL) {
    fprintf(stderr, "no memory\n");
    leave(WB_NO_MEMORY);
  }
  return memory;
}

/* The bytes of a file, with a 0 after the last; `*length` is without it. The caller frees them. */
static char *contents(const char *name, size_t *length) {
  FILE *file = fopen(name, "rb");
  if (file == NULL) {
    perror(name);
    leave(8);
  }
  size_t room = 65536, count = 0;
  char *bytes = there(malloc(room));
  while ((count += fread(bytes + count, 1, room - 1 - count, file)) == room - 1) {
    room *= 2;
    bytes = there(realloc(bytes, room));
  }
  if (ferror(file)) {
    perror(name);
    leave(9);
  }
  fclose(file);
  bytes[count] = '\0';
  *length = count;
  return bytes;
}

/* Prints the note, part by part. */
static void show_note(void) {
  char part[4096];
  size_t from = 0, count;
  while ((count = wb_note_copy(&bench, from, part, sizeof part)) > 0) {
    fwrite(part, 1, count, stdout);
    from += count;
  }
}

/* Prints why a call is refused, and ends the program with that status. Refusals without a note leave an earlier one there. */
static void refuse(uint32_t status) {
  switch (status) {
    case WB_SPEC_REFUSED:
    case WB_NOT_CERTIFIED:
    case WB_DUPLICATE_EXTENSION:
    case WB_WRONG_HOST:
      show_note();
      break;
    case WB_TEXT_TOO_LONG:
      printf("text too long\n");
      break;
    case WB_TOO_LONG_TO_PRINT:
      printf("value too long to print\n");
      break;
    default:
      fprintf(stderr, "status %" PRIu32 "\n", status);
  }
  leave((int)status);
}

static void check(uint32_t status) {
  if (status != WB_DONE) refuse(status);
}

/* The language of a host's file, and those of extensions of it. */
static wb_handle language_of(int count, char **names) {
  size_t length;
  wb_handle host, language;
  char *bytes = contents(names[0], &length);
  check(wb_host(&bench, names[0], strlen(names[0]), bytes, length, &host));
  free(bytes);
  for (int i = 1; i < count; i++) {
    bytes = contents(names[i], &length);
    check(wb_extend(&bench, host, names[i], strlen(names[i]), bytes, length));
    free(bytes);
  }
  check(wb_compose(&bench, host, &language));
  return language;
}

/* Prints where and why a text stops. The end of a text has no terminal's name. */
static void show_stop(wb_handle language, const wb_answer_t *answer) {
  printf("stopped at %zu ", answer->at);
  if (answer->kind == WB_NO_TOKEN) {
    printf("no token\n");
    return;
  }
  uint32_t status = wb_terminal_name(&bench, language, answer->terminal);
  if (status == WB_OUT_OF_RANGE) {
    printf("unexpected end\n");
    return;
  }
  check(status);
  printf("unexpected ");
  show_note();
  printf("\n");
}

#endif
