/* The workbench for C: languages that are composed of a host and extensions, texts in them with their trees, and edits of these.
 *
 * Link with libworkbench.a, which is crates/wb_library/out/libwb_library.a with the toolchain's liblibc_c.a, and with the C library.
 * No call prints, reads a file or keeps anything outside of a workbench.
 *
 * Ownership. A workbench owns all that its calls make, until it is let go of by wb_free. Hosts, languages and texts are named by
 * handles, which are checked at each call: one that names nothing of the sort, or whose value was let go of, is refused by
 * WB_WRONG_HANDLE, and no later value ever has it. A handle of another workbench may name another value here.
 * What a call is handed is read during the call alone. Pointers may not be null, also where there are 0 bytes, and a buffer and what is
 * written to may not overlap with anything else.
 *
 * Threads. One call at a time for a workbench, on one thread. Several workbenches on several threads don't touch each other.
 *
 * Errors. A call answers WB_DONE, which is 0, or why it is refused; nothing is written through `out` then. Memory comes from malloc; where
 * it runs out, the answer is WB_NO_MEMORY, and what was there stays.
 *
 * Units. Places in texts are bytes, from 0 on. Nodes, productions, terminals and leaves are numbers from 0 on. Texts have at most 1,048,576
 * bytes, and what is printed 16,777,216. */
#ifndef WORKBENCH_H
#define WORKBENCH_H

#include <stdbool.h>
#include <stddef.h>
#include <stdint.h>

#ifdef __cplusplus
extern "C" {
#endif

/* How a call ends. Numbers up to 31 are those of the program's statuses. */
enum {
  WB_DONE = 0,
  WB_SPEC_REFUSED = 3,         /* the contents aren't a specification of the form that is asked for: the note says why */
  WB_NOT_CERTIFIED = 4,        /* a rule of grammars, scanners or attributes fails: the note says which */
  WB_TEXT_STOPPED = 5,         /* of wb_value: the text has no tree; the note says where it stops */
  WB_OPERATION_FAULT = 6,      /* of wb_value: an operation has no result: the note names it */
  WB_MORE_STEPS = 7,           /* of wb_value: more steps are needed */
  WB_NO_MEMORY = 11,           /* memory ran out */
  WB_TEXT_TOO_LONG = 12,       /* the text has, or would have, more than 1,048,576 bytes */
  WB_TOO_LONG_TO_PRINT = 13,   /* what is to be printed has more than 16,777,216 bytes */
  WB_DUPLICATE_EXTENSION = 15, /* the host has an extension of that name */
  WB_WRONG_HOST = 16,          /* the extension is for another host: the note says which */
  WB_UNKNOWN_ATTRIBUTE = 17,   /* of wb_value: no attribute of that name may be asked for at the root */
  WB_EDIT_REFUSED = 21,        /* the places of an edit are not in order, or the second is past the end of the text */
  WB_WRONG_HANDLE = 32,        /* nothing of the sort that is asked for has this handle */
  WB_FULL = 33,                /* there are 65,536 values of this sort */
  WB_NOT_KEPT = 34,            /* the text was made by wb_parse, and so has no places and can't be edited */
  WB_OUT_OF_RANGE = 35         /* there is no such number */
};

typedef struct { void *at; } wb_workbench;
typedef struct { uint32_t place, generation; } wb_handle;

/* The answer of a text, and how much there is to be walked. */
enum { WB_TREE = 0, WB_NO_TOKEN = 1, WB_UNEXPECTED = 2 };
typedef struct {
  uint32_t kind;
  size_t tree;     /* of WB_TREE: the node of the tree */
  size_t at;       /* of a stop: its place, after the layout that is skipped there */
  size_t terminal; /* of WB_UNEXPECTED: the terminal that can't follow; the end of a text has the number of terminals */
  size_t bytes;    /* of the text */
  size_t nodes;    /* those of earlier texts among them */
  size_t leaves;   /* with a place: those of the tree, or those before the stop; 0 after wb_parse */
} wb_answer_t;

typedef struct { size_t production, children; } wb_node_t;
enum { WB_NODE = 0, WB_LEAF = 1 };
typedef struct { uint32_t kind; size_t node; } wb_child_t;

/* Where a leaf lies: from `begin` to `end`, and its lexeme, which is the text that the tree has, from `lexeme` to `end`. */
typedef struct { size_t terminal, begin, lexeme, end; } wb_place_t;

/* What an edit took. The new text was read anew from the place `from` to the place `to`: the scanner was asked `scanned` times, and
 * `built` nodes are new. The first `kept` leaves lie where they lay; the last `known` were taken over from behind the edit without a
 * scan, and lie as far from the end as they lay. */
typedef struct { size_t from, to, scanned, built, kept, known; } wb_edit_t;

/* The code of a refusal, as 'E' and '5', and the place in the contents that is told with it. 0 and 0 where there is no code, and WB_NOWHERE
 * where there is no place. */
#define WB_NOWHERE SIZE_MAX
typedef struct { uint8_t letter, digit; size_t offset; } wb_reason_t;

/* Makes a workbench, or answers WB_NO_MEMORY: wb_workbench w; wb_new(&w.at). */
uint32_t wb_new(void **at);

/* Lets go of a workbench with all that it has. It may not be used afterwards. */
void wb_free(wb_workbench workbench);

/* Certifies the contents of a host's file over the standard operations. The name is that which the note shows. Where they are refused
 * the note is the line that the program prints, ended by LF: `refused NAME CODE ..` after WB_SPEC_REFUSED and WB_NOT_CERTIFIED.
 * docs/REFUSALS.md has the codes, and what comes behind them. */
uint32_t wb_host(wb_workbench *workbench, const char *name, size_t name_length, const char *contents, size_t length, wb_handle *out);

/* Adds an extension to a host, after those before it. After a refusal the host is as before. The note is as that of wb_host; it is
 * `wrong host NAME names HOST` after WB_WRONG_HOST, and `duplicate extension EXTENSION` after WB_DUPLICATE_EXTENSION. */
uint32_t wb_extend(wb_workbench *workbench, wb_handle host, const char *name, size_t name_length, const char *contents, size_t length);

/* The code and the place of the last refusal by wb_host or wb_extend: after WB_SPEC_REFUSED and WB_NOT_CERTIFIED. */
void wb_reason(wb_workbench *workbench, wb_reason_t *out);

/* Composes the language of a host with its extensions. The host is let go of, also where there is no room for the language. */
uint32_t wb_compose(wb_workbench *workbench, wb_handle host, wb_handle *out);

/* Parses a text alone, or reads it to be edited, which takes longer and has the places of leaves. A text that stops is no refusal. The
 * bytes are copied, and the language stays as long as one of its texts. */
uint32_t wb_parse(wb_workbench *workbench, wb_handle language, const char *text, size_t length, wb_handle *out);
uint32_t wb_open(wb_workbench *workbench, wb_handle language, const char *text, size_t length, wb_handle *out);

/* Puts bytes in the place of those from `from` to before `to`. A node keeps its number; after a refusal the text, its answer and its
 * places are as before. Trees of earlier texts stay until wb_release. The first edit after wb_open or wb_release copies what is kept once,
 * in some tens of milliseconds for 1 MB; an editor may make an empty one first. */
uint32_t wb_edit(wb_workbench *workbench, wb_handle text, size_t from, size_t to, const char *bytes, size_t length, wb_edit_t *out);

/* Drops the trees of earlier texts of a text that was made by wb_open, by reading it once more. Nodes have other numbers then. */
uint32_t wb_release(wb_workbench *workbench, wb_handle text);

/* The answer of a text, the node of a number, a child of a node by its place, and the place of a leaf. The leaves of a tree, from left to
 * right, are numbered as wb_place numbers them. A child that is a node has a smaller number than its parent. */
uint32_t wb_answer(wb_workbench *workbench, wb_handle text, wb_answer_t *out);
uint32_t wb_node(wb_workbench *workbench, wb_handle text, size_t node, wb_node_t *out);
uint32_t wb_child(wb_workbench *workbench, wb_handle text, size_t node, size_t place, wb_child_t *out);
uint32_t wb_place(wb_workbench *workbench, wb_handle text, size_t leaf, wb_place_t *out);

/* Calls that answer in bytes put these into the workbench's note, which stays until the next such call or refusal of wb_host or
 * wb_extend. Names are as the program prints them; what is printed has no LF at its end. */
uint32_t wb_production_name(wb_workbench *workbench, wb_handle language, size_t production);
uint32_t wb_terminal_name(wb_workbench *workbench, wb_handle language, size_t terminal);
uint32_t wb_print(wb_workbench *workbench, wb_handle text, size_t node);

/* The text of a leaf, which is the child of a node at a place; WB_OUT_OF_RANGE where that child is a node. */
uint32_t wb_leaf_text(wb_workbench *workbench, wb_handle text, size_t node, size_t place);

/* The line that the program prints of the attribute's value at the root of the text, within so many steps, ended by LF; also where it
 * is refused. The text is parsed once more, so this takes what a parse takes beside the evaluation. */
uint32_t wb_value(wb_workbench *workbench, wb_handle text, const char *name, size_t name_length, uint64_t steps);

/* How many bytes the note has; and copies as many from a place of it on as there are and fit into a buffer, and answers how many. */
size_t wb_note_length(wb_workbench *workbench);
size_t wb_note_copy(wb_workbench *workbench, size_t from, char *buffer, size_t length);

/* Let go of a value, and answer whether there was one. */
bool wb_close_host(wb_workbench *workbench, wb_handle host);
bool wb_close_language(wb_workbench *workbench, wb_handle language);
bool wb_close_text(wb_workbench *workbench, wb_handle text);

#ifdef __cplusplus
}
#endif

#endif
