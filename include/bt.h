/* The engine of behavior trees, in the process of a program in C (C11) or C++ (C++17): link with libbt.a.
 *
 * A session is a tree in a world, which the program, its host, drives event by event. It calls nothing of the host, waits for
 * nobody, and does no input or output. What the robot's leaves answer the host says between ticks, by `bt_tell`.
 *
 *     bt_session *tree;
 *     uint32_t code = bt_open(xml, xml_length, NULL, 0, NULL, 0, &tree);
 *     ...
 *     code = bt_tick(tree, 1, now_ms);
 *     for (size_t place = 0; place < bt_note_count(tree); place++) {
 *         bt_note note = bt_note_at(tree, place);
 *         if (note.kind == BT_STARTED && note.status == BT_RUNNING) begin(note.uid);
 *         if (note.kind == BT_HALTED || note.kind == BT_QUENCHED) stop(note.uid);
 *     }
 *     ...
 *     code = bt_tell(tree, 1, uid, BT_SUCCESS, now_ms);
 *     ...
 *     bt_finish(tree, 1);
 *     bt_close(tree);
 *
 * Numbers. Nodes have uids, from 1 in pre-order; runners have numbers from 1; facts, entries, ports, inputs, outputs and notes
 * have places from 0. Moments are milliseconds from a beginning that the host chooses; they never go back, and the last one is
 * 10^12.
 *
 * Texts are UTF-8 without a zero at the end, given as a pointer and a number of bytes; the pointer may be null where the number
 * is 0. A call that gives a text takes room from the host, puts the front of the text there as far as there is place, and gives
 * the length of the whole text, so that a call with no room (NULL, 0) asks for the length.
 *
 * Pointers. A session comes from `bt_open`, and is no more after `bt_close`. No other pointer is a session, and nothing else may
 * touch its memory. What C can't tell of a pointer is the host's to keep: that it is a session, and that room has so many bytes.
 *
 * Threads. Two sessions share nothing. A session stays on the thread that has opened it. No call may come from a signal handler.
 *
 * Memory is taken of malloc, realloc and free, by the three functions rattle_alloc, rattle_realloc and rattle_dealloc, which
 * stand in an object of libbt.a of their own; a host may define the three itself. `bt_open`, `bt_explain`, `bt_print` and
 * events allocate; no other read does.
 */
#ifndef BT_H
#define BT_H

#include <stddef.h>
#include <stdint.h>

#ifdef __cplusplus
extern "C" {
#endif

/* A tree in a world, with its run. */
typedef struct bt_session bt_session;

/* How a call has ended. */
enum {
    BT_OK = 0,        /* it has done what it says */
    BT_FAULT = 1,     /* a node has faulted; every leaf that was held was quenched, and no event is taken any more */
    BT_NO_MEMORY = 2, /* memory was wanting. Of an event: where bt_is_usable gives 0, it was cut off, every leaf that was held was
                         quenched, and no event is taken any more; else nothing has changed */
    BT_MISUSE = 3,    /* the call was not taken, and nothing has changed: a runner, leaf, fact or output that is not there, a moment
                         that goes back or is too late, a status that can't be told, or any event after BT_FAULT or after memory
                         was wanting */
    BT_REFUSED = 4,   /* of bt_open: the files are refused; bt_explain says why */
    BT_NO_EVENT = 5   /* of bt_next: the world has no event of its own up to this moment */
};

/* Statuses and answers. */
enum {
    BT_IDLE = 0,
    BT_RUNNING = 1,
    BT_SUCCESS = 2,
    BT_FAILURE = 3,
    BT_SKIPPED = 4,    /* an answer; never the status of a node */
    BT_NO_STATUS = 255 /* there is none */
};

/* Opening and closing */

/* Opens a session before its first event: of the tree of the bytes of a tree file, in the world of the bytes of a world script,
 * with the main tree of this ID, or by no ID with that of the file. By no bytes of a world it has no facts, one runner, and a
 * told row for each leaf ID, as `bt serve` without a world. On BT_OK *session is the session; else it is as before. The world's
 * own events are not made: bt_next makes them. BT_REFUSED, BT_NO_MEMORY; BT_MISUSE where main_id is no UTF-8. */
uint32_t bt_open(const uint8_t *tree, size_t tree_length, const uint8_t *world, size_t world_length, const uint8_t *main_id,
                 size_t main_id_length, bt_session **session);

/* The line by which `bt` refuses these files, with a line feed at its end: `refused tree ChildCount 3`. No text where bt_open is
 * not refused, and for want of memory. */
size_t bt_explain(const uint8_t *tree, size_t tree_length, const uint8_t *world, size_t world_length, const uint8_t *main_id,
                  size_t main_id_length, uint8_t *room, size_t count);

/* Frees a session, at any moment. What the robot does then is the host's to stop. */
void bt_close(bt_session *session);

/* Events. Each leaves what it has done to be read below, until the next one that is taken. */

/* Ticks a runner. BT_OK, BT_FAULT, BT_NO_MEMORY, BT_MISUSE. */
uint32_t bt_tick(bt_session *session, uint32_t runner, uint64_t now_ms);

/* Halts a runner: its root is reset. */
uint32_t bt_halt(bt_session *session, uint32_t runner, uint64_t now_ms);

/* Changes a fact of the world. */
uint32_t bt_set(bt_session *session, uint32_t fact, int64_t value, uint64_t now_ms);

/* Tells a leaf of a runner that has a told row how it ended, or whether its condition holds: BT_SUCCESS or BT_FAILURE. With
 * BT_SUCCESS an action is told the outputs that were given since the last telling, which is BT_MISUSE where its row has no such
 * output or one was given twice; a condition has no outputs. The outputs are gone after it, unless it is BT_MISUSE. */
uint32_t bt_tell(bt_session *session, uint32_t runner, uint32_t uid, uint32_t status, uint64_t now_ms);

/* Gives an output of the next telling a number. BT_NO_MEMORY changes nothing. BT_MISUSE: the name is none that a row may have, or
 * there are 64 outputs. */
uint32_t bt_output_int(bt_session *session, const uint8_t *name, size_t name_length, int64_t value);

/* Gives an output of the next telling a text, of at most 4,096 bytes of UTF-8, else BT_MISUSE. */
uint32_t bt_output_text(bt_session *session, const uint8_t *name, size_t name_length, const uint8_t *text, size_t text_length);

/* Forgets the outputs for the next telling. */
void bt_output_clear(bt_session *session);

/* Makes the next of the events that the world script has itself, at its own moment, where that is at most this one. BT_NO_EVENT
 * where there is none; BT_MISUSE where its moment is before the last event, and then it stays the next one. */
uint32_t bt_next(bt_session *session, uint64_t until_ms);

/* Finishes a runner at the moment of the last event, as the end of a world script does: its root is reset, and its leaves that
 * are held are halted. */
uint32_t bt_finish(bt_session *session, uint32_t runner);

/* What the last event has done */

/* What the last event was. */
enum {
    BT_EVENT_TICK = 1,   /* runner */
    BT_EVENT_HALT = 2,   /* runner */
    BT_EVENT_SET = 3,    /* number: the fact */
    BT_EVENT_FINISH = 4, /* runner */
    BT_EVENT_TELL = 5    /* runner, number: the uid of the leaf, status: BT_SUCCESS or BT_FAILURE */
};

typedef struct {
    uint8_t kind;
    uint8_t runner;  /* or 0 */
    uint8_t status;  /* or BT_NO_STATUS */
    uint32_t number; /* or 0 */
    uint64_t at_ms;
} bt_event;

/* What happened, in order. */
enum {
    BT_NO_NOTE = 0,
    BT_CHANGED = 1, /* uid, before, status: the node's status has changed */
    BT_STARTED = 2, /* uid, status: the leaf was started and has answered; BT_RUNNING says that it is held from now on */
    BT_RAN = 3,     /* uid, status: the leaf, which was held, was asked again and has answered */
    BT_HALTED = 4,  /* uid: the leaf, which was held, was halted */
    BT_ROOT = 5,    /* runner, status: the tick of the runner has ended with this answer */
    BT_FAULTED = 6, /* runner, uid, cause, detail: the node has faulted */
    BT_QUENCHED = 7 /* runner, uid: the leaf, which was held, was stopped after a fault */
};

/* Why a node has faulted. */
enum {
    BT_NO_CAUSE = 0,
    BT_NO_ENTRY = 1,     /* a script reads an entry that is not there; detail: the entry */
    BT_NO_INPUT = 2,     /* a row reads an input that is not there; detail: the input's place */
    BT_OVERFLOW = 3,     /* a number would not fit 64 bits */
    BT_ZERO_DIVISOR = 4, /* a division by 0 */
    BT_NOT_WHOLE = 5,    /* a quotient that is no whole number */
    BT_MIXED = 6,        /* a number where a text must be, or the other way */
    BT_TEXT_TOO_LONG = 7,/* a joined text of more than 4,096 bytes */
    BT_RANGE = 8,        /* the length of an action is not 0 to 10^12 milliseconds */
    BT_BAD_PORT = 9      /* a numeric port holds no number of its range; detail: the port */
};

/* The port of BT_BAD_PORT. */
enum {
    BT_PORT_SUCCESS_COUNT = 1,
    BT_PORT_FAILURE_COUNT = 2,
    BT_PORT_NUM_ATTEMPTS = 3,
    BT_PORT_NUM_CYCLES = 4,
    BT_PORT_MSEC = 5,
    BT_PORT_DELAY_MSEC = 6,
    BT_PORT_THEN_SKIP = 7,
    BT_PORT_NUMBER_OF_RETRIES = 8,
    BT_PORT_HZ = 9
};

typedef struct {
    uint32_t uid;    /* or 0 */
    uint8_t kind;
    uint8_t runner;  /* or 0, where it is that of the event */
    uint8_t before;  /* or BT_NO_STATUS */
    uint8_t status;  /* or BT_NO_STATUS */
    uint32_t cause;  /* or BT_NO_CAUSE */
    uint32_t detail; /* or 0 */
} bt_note;

/* A fact that has changed. */
typedef struct {
    uint32_t fact;
    uint32_t known; /* 1, or 0 where there is none at this place */
    int64_t value;
} bt_changed_fact;

/* An entry of a runner's blackboard that has changed or is new. Its value is what bt_entry gives. */
typedef struct {
    uint32_t runner;
    uint32_t slot;
    uint32_t known; /* 1, or 0 where there is none at this place */
    uint32_t unused;
} bt_changed_entry;

/* What the last event was. Before the first one: BT_EVENT_SET of fact 0 at moment 0. */
bt_event bt_last_event(const bt_session *session);

/* How many notes the last event has left. */
size_t bt_note_count(const bt_session *session);

/* The note at a place; BT_NO_NOTE where there is none. */
bt_note bt_note_at(const bt_session *session, size_t place);

/* Puts the notes into room for `count` of them, as far as there is place, and gives the number of all. */
size_t bt_notes(const bt_session *session, bt_note *room, size_t count);

/* How many facts the last event has changed, and the one at a place, in the order of their numbers. */
size_t bt_changed_fact_count(const bt_session *session);
bt_changed_fact bt_changed_fact_at(const bt_session *session, size_t place);

/* How many entries the last event has changed or made, and the one at a place. */
size_t bt_changed_entry_count(const bt_session *session);
bt_changed_entry bt_changed_entry_at(const bt_session *session, size_t place);

/* The lines of the last event in the trace, as `bt tick` writes them: the event, its notes, and what has changed. No text for
 * want of memory. */
size_t bt_print(const bt_session *session, uint8_t *room, size_t count);

/* The session */

/* 1 where an event may be taken, else 0: an event has ended in a fault or for want of memory. */
uint32_t bt_is_usable(const bt_session *session);

/* The moment of the last event. */
uint64_t bt_last_ms(const bt_session *session);

/* How many nodes the tree has, how many of them are leaves for which rows stand, how many runners and how many facts there are. */
size_t bt_node_count(const bt_session *session);
size_t bt_leaf_count(const bt_session *session);
uint32_t bt_runner_count(const bt_session *session);
size_t bt_fact_count(const bt_session *session);

/* Values */

enum {
    BT_NO_VALUE = 0,
    BT_INT = 1,  /* number */
    BT_TEXT = 2, /* length: of the text, in bytes */
    BT_KEY = 3   /* length: of the key of an entry, in bytes; of what a port is given alone */
};

typedef struct {
    uint32_t kind;
    uint32_t length; /* or 0 */
    int64_t number;  /* or 0 */
} bt_value;

/* The value of a fact, and its name. */
bt_value bt_fact(const bt_session *session, uint32_t fact);
size_t bt_fact_name(const bt_session *session, uint32_t fact, uint8_t *room, size_t count);

/* How many entries the blackboard of a runner can have: one for each key that the tree names, in the scope that owns it. */
size_t bt_entry_count(const bt_session *session);

/* The scope that owns an entry, which is the uid of a SubTree node, or 0 of the main tree; and its key there. A name that a
   SubTree node maps to a key has no entry of its own: its value is that of the key. */
uint32_t bt_entry_scope(const bt_session *session, uint32_t slot);
size_t bt_entry_key(const bt_session *session, uint32_t slot, uint8_t *room, size_t count);

/* The value of an entry of a runner's blackboard; BT_NO_VALUE where it was not written yet. And its text, where it is one. */
bt_value bt_entry(const bt_session *session, uint32_t runner, uint32_t slot);
size_t bt_entry_text(const bt_session *session, uint32_t runner, uint32_t slot, uint8_t *room, size_t count);

/* Nodes. Of a uid that no node has there is nothing: 0, no text, BT_NO_STATUS. */

enum {
    BT_NO_NODE = 0,
    BT_NODE_SEQUENCE = 1,
    BT_NODE_SEQUENCE_WITH_MEMORY = 2,
    BT_NODE_REACTIVE_SEQUENCE = 3,
    BT_NODE_FALLBACK = 4,
    BT_NODE_REACTIVE_FALLBACK = 5,
    BT_NODE_PARALLEL = 6,
    BT_NODE_SWITCH = 7,
    BT_NODE_IF_THEN_ELSE = 8,
    BT_NODE_WHILE_DO_ELSE = 9,
    BT_NODE_RECOVERY_NODE = 10,
    BT_NODE_PIPELINE_SEQUENCE = 11,
    BT_NODE_ROUND_ROBIN = 12,
    BT_NODE_INVERTER = 13,
    BT_NODE_FORCE_SUCCESS = 14,
    BT_NODE_FORCE_FAILURE = 15,
    BT_NODE_KEEP_RUNNING_UNTIL_FAILURE = 16,
    BT_NODE_RETRY = 17,
    BT_NODE_REPEAT = 18,
    BT_NODE_TIMEOUT = 19,
    BT_NODE_DELAY = 20,
    BT_NODE_RUN_ONCE = 21,
    BT_NODE_RATE_CONTROLLER = 22,
    BT_NODE_SUBTREE = 23,
    BT_NODE_ALWAYS_SUCCESS = 24,
    BT_NODE_ALWAYS_FAILURE = 25,
    BT_NODE_SCRIPT = 26,
    BT_NODE_SCRIPT_CONDITION = 27,
    BT_NODE_LEAF = 28 /* a leaf for which a row stands */
};

uint32_t bt_node_kind(const bt_session *session, uint32_t uid);

/* The scope in which a node stands: the uid of the SubTree node round it, or 0. */
uint32_t bt_node_scope(const bt_session *session, uint32_t uid);

/* The ID of a node; its name, which is its attribute or else the ID; and its path: the names of the SubTree nodes down to it, each
 * followed by `/`, and then its own name. */
size_t bt_node_id(const bt_session *session, uint32_t uid, uint8_t *room, size_t count);
size_t bt_node_name(const bt_session *session, uint32_t uid, uint8_t *room, size_t count);
size_t bt_node_path(const bt_session *session, uint32_t uid, uint8_t *room, size_t count);

/* The status of a node of a runner's tree, and that of its root. */
uint32_t bt_status(const bt_session *session, uint32_t runner, uint32_t uid);
uint32_t bt_root_status(const bt_session *session, uint32_t runner);

/* How many ports a node gives, and of the one at a place: its name, what it is given (a literal or the key of an entry), and the
 * text or the key of that. */
size_t bt_port_count(const bt_session *session, uint32_t uid);
size_t bt_port_name(const bt_session *session, uint32_t uid, size_t place, uint8_t *room, size_t count);
bt_value bt_port_given(const bt_session *session, uint32_t uid, size_t place);
size_t bt_port_given_text(const bt_session *session, uint32_t uid, size_t place, uint8_t *room, size_t count);

/* The value that the port of a node at a place has now, in a runner: its literal, or that of the entry of its key. And its text,
 * where it is one. */
bt_value bt_port(const bt_session *session, uint32_t runner, uint32_t uid, size_t place);
size_t bt_port_text(const bt_session *session, uint32_t runner, uint32_t uid, size_t place, uint8_t *room, size_t count);

/* Leaves */

/* How a leaf answers, by its row. */
enum {
    BT_NO_LEAF = 0,            /* no leaf has this uid for which a row stands */
    BT_TOLD_CONDITION = 1,     /* by what bt_tell said last: BT_FAILURE before that */
    BT_TOLD_ACTION = 2,        /* it is held until bt_tell says how it ended */
    BT_MODELLED_CONDITION = 3, /* by the world */
    BT_MODELLED_ACTION = 4     /* by the world */
};

uint32_t bt_leaf_class(const bt_session *session, uint32_t uid);

/* How many inputs the row of a leaf has, and the name of the one at a place. */
size_t bt_input_count(const bt_session *session, uint32_t uid);
size_t bt_input_name(const bt_session *session, uint32_t uid, size_t place, uint8_t *room, size_t count);

/* What the input at a place held when the leaf was started last, in a runner: kept for told leaves until the next start, whatever
 * is written since. And its text, where it is one. */
bt_value bt_input(const bt_session *session, uint32_t runner, uint32_t uid, size_t place);
size_t bt_input_text(const bt_session *session, uint32_t runner, uint32_t uid, size_t place, uint8_t *room, size_t count);

/* How many outputs the row of a leaf has that may be told, and the name of the one at a place. */
size_t bt_output_count(const bt_session *session, uint32_t uid);
size_t bt_output_name(const bt_session *session, uint32_t uid, size_t place, uint8_t *room, size_t count);

#ifdef __cplusplus
}
#endif

#endif
