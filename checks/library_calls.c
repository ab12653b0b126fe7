/* Makes the calls that lines of the standard input ask for, prints a line for each text that they make, and looks whether all that is
 * answered is as include/workbench.h says: library_calls < LINES
 *
 * A line has a letter and words, of which bytes are written as two hexadecimal digits each behind an `=`:
 *   H =CONTENTS         a host, named h; the language, texts and host before it are let go of
 *   X =CONTENTS         an extension of it, named e
 *   C                   composes them
 *   O =TEXT, P =TEXT    opens a text, or parses it alone, in the place of the one before; prints its line
 *   E FROM TO =BYTES    edits the open text; prints its line, or `refused`
 *   R                   drops the trees of its earlier texts; prints its line
 *   V STEPS =NAME       prints the line of a value
 *   N                   another workbench in the place of this one
 * `check failed at LINE: WHAT` and status 1 where something isn't as it should be. */
#include "../include/workbench.h"

#include <stdio.h>
#include <stdlib.h>
#include <string.h>

static wb_workbench bench;
static wb_handle host, language, text; /* those that are there, where `has_` says so */
static bool has_host, has_language, has_text, is_open;
static char *bytes_now; /* those of the text */
static size_t length_now;

#define SURE(claim) ((claim) ? (void)0 : failed(__LINE__, #claim))

static void failed(int line, const char *what) {
  printf("check failed at %d: %s\n", line, what);
  exit(1);
}

static void show_note(void) {
  size_t length = wb_note_length(&bench), from = 0, count;
  char part[61]; /* small, so that notes come in parts */
  while ((count = wb_note_copy(&bench, from, part, sizeof part)) > 0) {
    fwrite(part, 1, count, stdout);
    from += count;
  }
  SURE(from == length);
  SURE(wb_note_copy(&bench, length + 7, part, sizeof part) == 0);
}

/* The line of the text: its tree, or where it stops. */
static void show_line(const wb_answer_t *answer) {
  if (answer->kind == WB_TREE) {
    SURE(wb_print(&bench, text, answer->tree) == WB_DONE);
    show_note();
  } else {
    printf("stopped at %zu ", answer->at);
    if (answer->kind == WB_NO_TOKEN) {
      printf("no token");
    } else {
      uint32_t status = wb_terminal_name(&bench, language, answer->terminal);
      SURE(status == WB_DONE || status == WB_OUT_OF_RANGE);
      printf("unexpected ");
      if (status == WB_DONE) show_note();
      else printf("end");
    }
  }
  printf("\n");
}

/* The children of a node: earlier nodes, or leaves with a text. */
static void look_at_children(size_t number, const wb_node_t *node) {
  wb_child_t child;
  for (size_t place = 0; place < node->children; place++) {
    SURE(wb_child(&bench, text, number, place, &child) == WB_DONE);
    SURE(child.kind == WB_LEAF || (child.kind == WB_NODE && child.node < number));
    SURE(wb_leaf_text(&bench, text, number, place) == (child.kind == WB_LEAF ? WB_DONE : WB_OUT_OF_RANGE));
  }
  SURE(wb_child(&bench, text, number, node->children, &child) == WB_OUT_OF_RANGE);
  SURE(wb_child(&bench, text, number, SIZE_MAX, &child) == WB_OUT_OF_RANGE);
  SURE(wb_leaf_text(&bench, text, number, node->children) == WB_OUT_OF_RANGE);
}

/* All nodes by their numbers, and what is out of range. */
static void look_at_nodes(const wb_answer_t *answer) {
  wb_node_t node;
  for (size_t number = 0; number < answer->nodes; number++) {
    SURE(wb_node(&bench, text, number, &node) == WB_DONE);
    SURE(wb_production_name(&bench, language, node.production) == WB_DONE);
    SURE(wb_note_length(&bench) > 0);
    look_at_children(number, &node);
  }
  SURE(wb_node(&bench, text, answer->nodes, &node) == WB_OUT_OF_RANGE);
  SURE(wb_node(&bench, text, SIZE_MAX, &node) == WB_OUT_OF_RANGE);
  SURE(wb_print(&bench, text, answer->nodes) == WB_OUT_OF_RANGE && wb_leaf_text(&bench, text, answer->nodes, 0) == WB_OUT_OF_RANGE);
  SURE(wb_production_name(&bench, language, SIZE_MAX) == WB_OUT_OF_RANGE);
}

/* Whether the note is this piece of the text. */
static bool note_is(size_t from, size_t to) {
  size_t length = wb_note_length(&bench);
  char *note = malloc(length + 1);
  SURE(note != NULL && wb_note_copy(&bench, 0, note, length + 1) == length);
  bool same = length == to - from && memcmp(note, bytes_now + from, length) == 0;
  free(note);
  return same;
}

/* The leaves of the tree from left to right: each has the text that lies at its place. Answers how many there are. */
static size_t leaves_below(size_t root, size_t nodes) {
  struct step {
    size_t node, place;
  } *todo = malloc((nodes + 1) * sizeof *todo);
  size_t count = 1, leaves = 0;
  SURE(todo != NULL);
  todo[0] = (struct step){root, 0};
  while (count > 0) {
    struct step *at = &todo[count - 1];
    size_t number = at->node, place = at->place++;
    wb_node_t node;
    wb_child_t child;
    wb_place_t lies;
    SURE(wb_node(&bench, text, number, &node) == WB_DONE);
    if (place == node.children) {
      count--;
      continue;
    }
    SURE(wb_child(&bench, text, number, place, &child) == WB_DONE);
    if (child.kind == WB_NODE) {
      SURE(count <= nodes);
      todo[count++] = (struct step){child.node, 0};
      continue;
    }
    SURE(wb_place(&bench, text, leaves++, &lies) == WB_DONE);
    SURE(wb_leaf_text(&bench, text, number, place) == WB_DONE && note_is(lies.lexeme, lies.end));
  }
  free(todo);
  return leaves;
}

/* The places of leaves: one behind the other, and of the text's bytes. */
static void look_at_leaves(const wb_answer_t *answer) {
  wb_place_t place;
  size_t at = 0;
  for (size_t leaf = 0; leaf < answer->leaves; leaf++) {
    SURE(wb_place(&bench, text, leaf, &place) == WB_DONE);
    SURE(at <= place.begin && place.begin <= place.lexeme && place.lexeme < place.end && place.end <= answer->bytes);
    SURE(wb_terminal_name(&bench, language, place.terminal) == WB_DONE);
    at = place.end;
  }
  SURE(wb_place(&bench, text, answer->leaves, &place) == (is_open ? WB_OUT_OF_RANGE : WB_NOT_KEPT));
  if (is_open && answer->kind == WB_TREE) SURE(leaves_below(answer->tree, answer->nodes) == answer->leaves);
}

static void look_at_text(void) {
  wb_answer_t answer;
  SURE(wb_answer(&bench, text, &answer) == WB_DONE);
  SURE(answer.kind <= WB_UNEXPECTED && (answer.kind != WB_TREE || answer.tree < answer.nodes) && answer.at <= answer.bytes);
  show_line(&answer);
  look_at_nodes(&answer);
  look_at_leaves(&answer);
}

/* Each call by a handle that names no text. */
static void look_at_no_text(wb_handle none) {
  wb_answer_t answer;
  wb_node_t node;
  wb_child_t child;
  wb_place_t place;
  wb_edit_t done;
  SURE(wb_answer(&bench, none, &answer) == WB_WRONG_HANDLE && wb_node(&bench, none, 0, &node) == WB_WRONG_HANDLE);
  SURE(wb_child(&bench, none, 0, 0, &child) == WB_WRONG_HANDLE && wb_place(&bench, none, 0, &place) == WB_WRONG_HANDLE);
  SURE(wb_edit(&bench, none, 0, 0, "", 0, &done) == WB_WRONG_HANDLE && wb_release(&bench, none) == WB_WRONG_HANDLE);
  SURE(wb_print(&bench, none, 0) == WB_WRONG_HANDLE && wb_leaf_text(&bench, none, 0, 0) == WB_WRONG_HANDLE);
  SURE(wb_value(&bench, none, "a", 1, 1) == WB_WRONG_HANDLE && !wb_close_text(&bench, none));
}

/* Each call by a handle that names no language, and no host. */
static void look_at_no_language(wb_handle none) {
  wb_handle made;
  SURE(wb_parse(&bench, none, "", 0, &made) == WB_WRONG_HANDLE && wb_open(&bench, none, "", 0, &made) == WB_WRONG_HANDLE);
  SURE(wb_production_name(&bench, none, 0) == WB_WRONG_HANDLE && wb_terminal_name(&bench, none, 0) == WB_WRONG_HANDLE);
  SURE(!wb_close_language(&bench, none));
}

static void look_at_no_host(wb_handle none) {
  wb_handle made;
  SURE(wb_extend(&bench, none, "e", 1, "", 0) == WB_WRONG_HANDLE && wb_compose(&bench, none, &made) == WB_WRONG_HANDLE);
  SURE(!wb_close_host(&bench, none));
}

static bool is_same(wb_handle one, wb_handle other) {
  return one.place == other.place && one.generation == other.generation;
}

/* Handles that were never given, and the ones after and before those that were. */
static void look_at_wrong_handles(void) {
  wb_handle never[] = {{65535, 0}, {65536, 0}, {UINT32_MAX, UINT32_MAX}, {0, UINT32_MAX}, {host.place, host.generation + 1},
                       {text.place, text.generation + 1}, {language.place, language.generation + 1}, {text.place + 1, text.generation}};
  for (size_t i = 0; i < sizeof never / sizeof *never; i++) {
    if (!has_text || !is_same(never[i], text)) look_at_no_text(never[i]);
    if (!has_language || !is_same(never[i], language)) look_at_no_language(never[i]);
    if (!has_host || !is_same(never[i], host)) look_at_no_host(never[i]);
  }
}

/* Lets go of the text, and calls by its handle, which names nothing any more. */
static void close_text(void) {
  if (!has_text) return;
  look_at_wrong_handles();
  SURE(wb_close_text(&bench, text));
  look_at_no_text(text);
  free(bytes_now);
  bytes_now = NULL;
  has_text = false;
}

/* The code and the place that the note of a refusal shows, which is for a file of a name of one letter. */
static void look_at_reason(uint32_t status) {
  wb_reason_t reason;
  char note[64] = {0};
  wb_reason(&bench, &reason);
  if (status != WB_SPEC_REFUSED && status != WB_NOT_CERTIFIED) {
    SURE(reason.letter == 0 && reason.digit == 0 && reason.offset == WB_NOWHERE);
    return;
  }
  wb_note_copy(&bench, 0, note, sizeof note - 1);
  SURE(strncmp(note, "refused ", 8) == 0 && reason.letter == (uint8_t)note[10] && reason.digit == (uint8_t)note[11]);
  SURE(reason.offset == (strncmp(note + 12, " at ", 4) == 0 ? strtoull(note + 16, NULL, 10) : WB_NOWHERE));
}

/* The bytes of a word, in memory of just their length, so that a read past them is found; the caller frees it. */
static char *bytes_of(const char *word, size_t *length) {
  SURE(word != NULL && word[0] == '=');
  *length = strlen(word + 1) / 2;
  char *bytes = malloc(*length > 0 ? *length : 1);
  SURE(bytes != NULL);
  for (size_t i = 0; i < *length; i++) {
    char digits[3] = {word[1 + 2 * i], word[2 + 2 * i], '\0'};
    bytes[i] = (char)strtoul(digits, NULL, 16);
  }
  return bytes;
}

static void new_host(const char *bytes, size_t length) {
  close_text();
  if (has_language) SURE(wb_close_language(&bench, language)), look_at_no_language(language);
  if (has_host) SURE(wb_close_host(&bench, host)), look_at_no_host(host);
  has_language = false;
  uint32_t status = wb_host(&bench, "h", 1, bytes, length, &host);
  has_host = status == WB_DONE;
  if (!has_host) show_note(), look_at_reason(status);
}

static void extend(const char *bytes, size_t length) {
  uint32_t status = wb_extend(&bench, host, "e", 1, bytes, length);
  if (status != WB_DONE) show_note(), look_at_reason(status);
}

static void compose(void) {
  if (!has_host) return;
  SURE(wb_compose(&bench, host, &language) == WB_DONE);
  look_at_no_host(host);
  has_host = false;
  has_language = true;
}

static void new_text(bool opens, const char *bytes, size_t length) {
  wb_edit_t done;
  close_text();
  SURE((opens ? wb_open : wb_parse)(&bench, language, bytes, length, &text) == WB_DONE);
  has_text = true;
  is_open = opens;
  bytes_now = malloc(length + 1);
  SURE(bytes_now != NULL);
  memcpy(bytes_now, bytes, length);
  length_now = length;
  look_at_text();
  if (!opens) SURE(wb_edit(&bench, text, 0, 0, "", 0, &done) == WB_NOT_KEPT && wb_release(&bench, text) == WB_NOT_KEPT);
}

/* Makes the same edit of the bytes. */
static void edit_bytes(size_t from, size_t to, const char *bytes, size_t length) {
  char *made = malloc(length_now - (to - from) + length + 1);
  SURE(made != NULL);
  memcpy(made, bytes_now, from);
  memcpy(made + from, bytes, length);
  memcpy(made + from + length, bytes_now + to, length_now - to);
  free(bytes_now);
  bytes_now = made;
  length_now = length_now - (to - from) + length;
}

static void edit(size_t from, size_t to, const char *bytes, size_t length) {
  wb_edit_t done;
  uint32_t status = wb_edit(&bench, text, from, to, bytes, length, &done);
  if (status != WB_DONE) {
    SURE(status == WB_EDIT_REFUSED);
    printf("refused\n");
    return;
  }
  SURE(from <= to && to <= length_now);
  edit_bytes(from, to, bytes, length);
  SURE(done.from <= from && done.from <= done.to && done.to <= length_now);
  look_at_text();
}

static void release(void) {
  wb_answer_t before, after;
  SURE(wb_answer(&bench, text, &before) == WB_DONE && wb_release(&bench, text) == WB_DONE);
  SURE(wb_answer(&bench, text, &after) == WB_DONE && after.nodes <= before.nodes && after.leaves == before.leaves);
  look_at_text();
}

static void value(const char *name, size_t length, uint64_t steps) {
  uint32_t status = wb_value(&bench, text, name, length, steps);
  SURE(status == WB_DONE || (status >= WB_TEXT_STOPPED && status <= WB_MORE_STEPS) || status == WB_UNKNOWN_ATTRIBUTE);
  show_note();
}

static void new_bench(void) {
  wb_handle zero = {0, 0};
  wb_free(bench);
  free(bytes_now);
  bytes_now = NULL;
  has_host = has_language = has_text = false;
  SURE(wb_new(&bench.at) == WB_DONE);
  SURE(wb_note_length(&bench) == 0);
  look_at_reason(WB_DONE);
  look_at_no_text(zero);
  look_at_no_language(zero);
  look_at_no_host(zero);
}

/* Makes the calls of a line. Its words begin behind its letter and a space. */
static void act(char *line) {
  char *from = strtok(line + 1, " \n"), *to = line[0] == 'E' ? strtok(NULL, " \n") : NULL;
  char *last = line[0] == 'E' || line[0] == 'V' ? strtok(NULL, " \n") : from;
  size_t length = 0;
  char *bytes = strchr("CNR", line[0]) != NULL ? NULL : bytes_of(last, &length);
  switch (line[0]) {
    case 'H': new_host(bytes, length); break;
    case 'X': extend(bytes, length); break;
    case 'C': compose(); break;
    case 'O': new_text(true, bytes, length); break;
    case 'P': new_text(false, bytes, length); break;
    case 'E': edit(strtoull(from, NULL, 10), strtoull(to, NULL, 10), bytes, length); break;
    case 'R': release(); break;
    case 'V': value(bytes, length, strtoull(from, NULL, 10)); break;
    case 'N': new_bench(); break;
    default: failed(__LINE__, line);
  }
  free(bytes);
}

int main(void) {
  static char line[1 << 20];
  SURE(wb_new(&bench.at) == WB_DONE);
  while (fgets(line, sizeof line, stdin) != NULL) act(line);
  wb_free(bench);
  free(bytes_now);
  return fflush(stdout) == 0 && !ferror(stdout) ? 0 : 10;
}
