/* Replays a list of edits over a text, and prints what the command `edit` prints: replay TEXT EDITS HOST EXT..
 *
 * An edit that is out of range ends the list by a line of its own and status 21, after the lines of those before it. */
#include "load.h"

/* The line of a text: its tree, or where it stops. */
static void show_answer(wb_handle language, wb_handle text) {
  wb_answer_t answer;
  check(wb_answer(&bench, text, &answer));
  if (answer.kind != WB_TREE) {
    show_stop(language, &answer);
    return;
  }
  check(wb_print(&bench, text, answer.tree));
  show_note();
  printf("\n");
}

/* Ends the program by the line of a list that can't be read. */
static void unread(const char *name, size_t line) {
  fprintf(stderr, "%s: line %zu is no edit\n", name, line);
  leave(21);
}

/* A number and the space after it, from `*at` on, which is left behind both. Answers whether they are there. */
static int number_at(char **at, size_t *number) {
  char *end;
  if (**at < '0' || **at > '9') return 0;
  *number = (size_t)strtoull(*at, &end, 10);
  if (*end != ' ') return 0;
  *at = end + 1;
  return 1;
}

/* The byte that an escape stands for, from behind its backslash on, or -1; `*at` is left behind it. */
static int escaped_at(char **at) {
  char sign = *(*at)++;
  switch (sign) {
    case 'n': return '\n';
    case 't': return '\t';
    case 'r': return '\r';
    case '"':
    case '\\': return sign;
    case 'x': break;
    default: return -1;
  }
  char digits[3] = {0, 0, 0}, *end;
  for (int i = 0; i < 2; i++)
    if ((digits[i] = **at) == '\0' || strchr("0123456789abcdefABCDEF", **at) == NULL) return -1;
    else ++*at;
  return (int)strtoul(digits, &end, 16);
}

/* The bytes of a string between quotes, written over it from its begin on, as they are fewer. Answers whether it is one. */
static int string_at(char **at, size_t *length) {
  char *out = *at;
  *length = 0;
  if (*(*at)++ != '"') return 0;
  while (**at != '"') {
    int byte = (unsigned char)*(*at)++;
    if (byte == '\0' || byte == '\n') return 0;
    if (byte == '\\' && (byte = escaped_at(at)) < 0) return 0;
    out[(*length)++] = (char)byte;
  }
  return *++*at == '\n' && ++*at;
}

/* Edits the text by each line of a list, and prints the text's line after each. */
static void replay(wb_handle language, wb_handle text, const char *name) {
  size_t length;
  char *list = contents(name, &length), *at = list;
  for (size_t line = 1; at < list + length; line++) {
    size_t from = 0, to = 0, count = 0;
    wb_edit_t done;
    if (!number_at(&at, &from) || !number_at(&at, &to)) unread(name, line);
    char *string = at;
    if (!string_at(&at, &count)) unread(name, line);
    uint32_t status = wb_edit(&bench, text, from, to, string, count, &done);
    if (status == WB_EDIT_REFUSED) {
      printf("refused %s U2 line %zu\n", name, line);
      leave(WB_EDIT_REFUSED);
    }
    check(status);
    show_answer(language, text);
  }
  free(list);
}

int main(int count, char **words) {
  if (count < 4) {
    fprintf(stderr, "usage: replay TEXT EDITS HOST EXT..\n");
    return 2;
  }
  begin();
  wb_handle language = language_of(count - 3, words + 3), text;
  size_t length;
  char *bytes = contents(words[1], &length);
  check(wb_open(&bench, language, bytes, length, &text));
  free(bytes);
  show_answer(language, text);
  replay(language, text, words[2]);
  leave(WB_DONE);
}
