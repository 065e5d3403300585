/// Has the heap refuse each asking in turn, and closes a session after each call. Where memory was wanting, no session is opened;
/// or nothing has changed; or no leaf is held any more and no event is taken. A session closes whatever has come before, and then
/// nothing is held of the heap.
#include <set>

#include "heap.hpp"
#include "robot.hpp"

/// What a host does, call by call: until a call answers that memory is wanting, or so many were made.
class Host {
public:
  explicit Host(std::size_t most) : left(most) {}

  /// The calls of a run. Whether memory was wanting in one of them.
  bool run(const Robot &robot) {
    const std::uint32_t opened = open(robot.tree, robot.world, robot.main, &session);
    HOLDS(opened == BT_OK || opened == BT_NO_MEMORY);
    HOLDS((opened == BT_OK) == (session != nullptr));
    const bool is_wanting = opened == BT_NO_MEMORY || events();
    if (session)
      bt_close(session);
    HOLDS(heap.held == 0);
    return is_wanting;
  }

private:
  bool events() {
    static const std::string port = "n", text(100, 'x');
    while (left > 0 && bt_next(session, UINT64_MAX) == BT_OK)
      hear();
    for (std::uint64_t at = 100; at < 700; at += 100) {
      for (std::uint32_t uid = 1; uid <= bt_node_count(session); ++uid)
        if (bt_leaf_class(session, uid) == BT_TOLD_ACTION || bt_leaf_class(session, uid) == BT_TOLD_CONDITION) {
          const bool has_output = bt_output_count(session, uid) > 0 && bt_leaf_class(session, uid) == BT_TOLD_ACTION;
          if (has_output && made([&] { return bt_output_text(session, bytes(port), port.size(), bytes(text), text.size()); }))
            return true;
          if (made([&] { return bt_tell(session, 1, uid, (at + uid) % 3 == 0 ? BT_FAILURE : BT_SUCCESS, at); }))
            return true;
        }
      if (made([&] { return bt_tick(session, 1, at); }) || made([&] { return bt_tick(session, 1, at + 50); }))
        return true;
    }
    return made([&] { return bt_halt(session, 1, 900); }) || made([&] { return bt_finish(session, 1); });
  }

  /// Makes a call, unless all were made. Whether memory was wanting.
  template <class Call> bool made(Call call) {
    if (left == 0)
      return false;
    --left;
    const Seen before(session);
    const bool was_usable = bt_is_usable(session);
    const std::uint32_t code = call();
    if (code != BT_NO_MEMORY) {
      HOLDS(code == BT_OK || code == BT_FAULT || code == BT_MISUSE);
      hear();
      return false;
    }
    HOLDS(was_usable);
    if (bt_is_usable(session)) {
      HOLDS(Seen(session) == before);
      return true;
    }
    hear();
    HOLDS(held.empty());
    HOLDS(bt_root_status(session, 1) == BT_IDLE);
    HOLDS(bt_tick(session, 1, 1000) == BT_MISUSE);
    return true;
  }

  /// Follows which leaves are held.
  void hear() {
    for (std::size_t place = 0; place < bt_note_count(session); ++place) {
      const bt_note note = bt_note_at(session, place);
      if (note.kind == BT_STARTED && note.status == BT_RUNNING)
        held.insert(note.uid);
      else if (note.kind == BT_STARTED || (note.kind == BT_RAN && note.status != BT_RUNNING) || note.kind == BT_HALTED || note.kind == BT_QUENCHED)
        held.erase(note.uid);
    }
  }

  bt_session *session = nullptr;
  std::size_t left;
  std::set<std::uint32_t> held;
};

int main() {
  std::uint64_t refusals = 0, closings = 0;
  for (const Robot &robot : robots) {
    for (std::uint64_t refused = 1;; ++refused) {
      heap.asked = 0;
      heap.refused = refused;
      const bool is_wanting = Host(1000).run(robot);
      HOLDS(is_wanting || heap.asked >= refused || refused > 1);
      if (heap.asked < refused)
        break;
      refusals += is_wanting;
    }
    heap.refused = 0;
    for (std::size_t most = 0; most < 60; ++most, ++closings)
      HOLDS(!Host(most).run(robot));
  }
  HOLDS(refusals > 100);
  std::printf("%llu refused, %llu closed\n", (unsigned long long)refusals, (unsigned long long)closings);
}
