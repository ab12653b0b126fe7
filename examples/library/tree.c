/* Prints the tree of a text, a node or a leaf a line, with the place and the bytes of each leaf: tree TEXT HOST EXT..
 *
 * Where the text stops, it prints the line that the command `tree` prints, and ends with status 5. */
#include "load.h"

struct step {
  size_t node;  /* a node of the text */
  size_t place; /* how many of its children are printed */
};

static void indent(size_t depth) {
  while (depth-- > 0) printf("  ");
}

/* Prints bytes as a string of the program: between quotes, with escapes. */
static void show_string(const char *bytes, size_t length) {
  putchar('"');
  for (size_t i = 0; i < length; i++) {
    unsigned char byte = (unsigned char)bytes[i];
    if (byte == '"' || byte == '\\') printf("\\%c", byte);
    else if (byte == '\n') printf("\\n");
    else if (byte < 32 || byte > 126) printf("\\x%02x", byte);
    else putchar(byte);
  }
  putchar('"');
}

/* The leaf of a number: its terminal, from where to before where it lies, and its lexeme. */
static void show_leaf(wb_handle language, wb_handle text, const char *bytes, size_t leaf) {
  wb_place_t place;
  check(wb_place(&bench, text, leaf, &place));
  check(wb_terminal_name(&bench, language, place.terminal));
  show_note();
  printf(" %zu..%zu ", place.begin, place.end);
  show_string(bytes + place.lexeme, place.end - place.lexeme);
  printf("\n");
}

/* The tree at a node. Its leaves are numbered from left to right. A tree may be as deep as a text is long, so nothing recurses. */
static void show_tree(wb_handle language, wb_handle text, const char *bytes, size_t root) {
  size_t depth = 1, room = 64, leaf = 0;
  struct step *stack = there(malloc(room * sizeof *stack));
  stack[0] = (struct step){root, 0};
  while (depth > 0) {
    struct step *top = &stack[depth - 1];
    wb_node_t node;
    wb_child_t child;
    check(wb_node(&bench, text, top->node, &node));
    if (top->place == 0) {
      indent(depth - 1);
      check(wb_production_name(&bench, language, node.production));
      show_note();
      printf("\n");
    }
    if (top->place == node.children) {
      depth--;
      continue;
    }
    check(wb_child(&bench, text, top->node, top->place++, &child));
    if (child.kind == WB_LEAF) {
      indent(depth);
      show_leaf(language, text, bytes, leaf++);
      continue;
    }
    if (depth == room) {
      room *= 2;
      stack = there(realloc(stack, room * sizeof *stack));
    }
    stack[depth++] = (struct step){child.node, 0};
  }
  free(stack);
}

int main(int count, char **words) {
  if (count < 3) {
    fprintf(stderr, "usage: tree TEXT HOST EXT..\n");
    return 2;
  }
  begin();
  wb_handle language = language_of(count - 2, words + 2), text;
  size_t length;
  char *bytes = contents(words[1], &length);
  check(wb_open(&bench, language, bytes, length, &text));
  wb_answer_t answer;
  check(wb_answer(&bench, text, &answer));
  if (answer.kind == WB_TREE) show_tree(language, text, bytes, answer.tree);
  else show_stop(language, &answer);
  free(bytes);
  leave(answer.kind == WB_TREE ? WB_DONE : WB_TEXT_STOPPED);
}
