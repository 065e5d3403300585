/* A robot that opens a door, by the C library alone: a condition, an action that lasts and gives an output, and a tree around them.
 *
 * It has no clock of its own: each turn of the loop is a tenth of a second. */
#include <bt.h>
#include <stdio.h>
#include <string.h>

static const char *tree =
    "<root BTCPP_format=\"4\"><BehaviorTree ID=\"Main\"><Fallback><Condition ID=\"IsOpen\"/>"
    "<Sequence><OpenDoor force=\"20\" width=\"{width}\"/><Pass width=\"{width}\"/></Sequence></Fallback></BehaviorTree></root>";

/* How many turns each action lasts, and the leaf that runs: the robot does one thing at a time. */
enum { TURNS = 3 };
static uint32_t running;
static int turns_left;

/* Begins and stops as the last event says. */
static void obey(const bt_session *session) {
    for (size_t place = 0; place < bt_note_count(session); place++) {
        bt_note note = bt_note_at(session, place);
        if (note.kind == BT_STARTED && note.status == BT_RUNNING) {
            char id[32] = "";
            bt_node_id(session, note.uid, (uint8_t *)id, sizeof id - 1);
            bt_value input = bt_input(session, 1, note.uid, 0);
            printf("%s begins with %lld\n", id, (long long)input.number);
            running = note.uid;
            turns_left = TURNS;
        } else if ((note.kind == BT_HALTED || note.kind == BT_QUENCHED) && note.uid == running) {
            printf("%u stops\n", note.uid);
            running = 0;
        }
    }
}

/* Works for one turn, and tells the tree of an action that is done. */
static uint32_t work(bt_session *session, uint64_t now_ms) {
    if (running == 0 || --turns_left > 0)
        return BT_OK;
    uint32_t uid = running, code = BT_OK;
    running = 0;
    if (bt_output_count(session, uid) > 1)
        code = bt_output_int(session, (const uint8_t *)"width", strlen("width"), 90);
    return code == BT_OK ? bt_tell(session, 1, uid, BT_SUCCESS, now_ms) : code;
}

int main(void) {
    bt_session *session;
    uint32_t code = bt_open((const uint8_t *)tree, strlen(tree), NULL, 0, NULL, 0, &session);
    if (code != BT_OK) {
        char why[256] = "no memory\n";
        bt_explain((const uint8_t *)tree, strlen(tree), NULL, 0, NULL, 0, (uint8_t *)why, sizeof why - 1);
        fputs(why, stderr);
        return 1;
    }
    for (uint64_t now_ms = 0; code == BT_OK; now_ms += 100) {
        code = work(session, now_ms);
        if (code == BT_OK)
            code = bt_tick(session, 1, now_ms);
        obey(session);
        if (code == BT_OK && bt_note_at(session, bt_note_count(session) - 1).kind == BT_CHANGED)
            break; /* (the root is idle again) */
    }
    if (code == BT_OK)
        printf("done at %llu ms\n", (unsigned long long)bt_last_ms(session));
    bt_finish(session, 1);
    obey(session);
    bt_close(session);
    return code == BT_OK ? 0 : 1;
}
