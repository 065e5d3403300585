/// Drives sessions in threads, each in its own: they share nothing, so each does what it does alone.
#include <thread>

#include "robot.hpp"

/// A sum of what a session does in so many turns.
static std::uint64_t drive(const Robot &robot, std::uint64_t turns) {
  bt_session *session = nullptr;
  HOLDS(open(robot.tree, robot.world, robot.main, &session) == BT_OK);
  std::uint64_t sum = 0;
  for (std::uint64_t turn = 1; turn <= turns; ++turn) {
    for (std::uint32_t uid = 1; uid <= bt_node_count(session); ++uid)
      if (const std::uint32_t leaf = bt_leaf_class(session, uid); leaf == BT_TOLD_ACTION || leaf == BT_TOLD_CONDITION)
        bt_tell(session, 1, uid, (turn + uid) % 5 == 0 ? BT_FAILURE : BT_SUCCESS, 100 + turn * 10);
    sum = sum * 31 + bt_tick(session, 1, 100 + turn * 10) + bt_root_status(session, 1);
    for (std::size_t place = 0; place < bt_note_count(session); ++place)
      sum = sum * 31 + bt_note_at(session, place).uid + bt_note_at(session, place).kind;
  }
  bt_close(session);
  return sum;
}

int main(int, char **words) {
  const std::uint64_t turns = std::strtoull(words[1], nullptr, 10);
  std::uint64_t alone[2] = {drive(robots[0], turns), drive(robots[1], turns)}, together[2] = {0, 0};
  std::thread first([&] { together[0] = drive(robots[0], turns); }), second([&] { together[1] = drive(robots[1], turns); });
  first.join();
  second.join();
  HOLDS(together[0] == alone[0] && together[1] == alone[1]);
  std::printf("2 sessions of %llu turns\n", (unsigned long long)turns);
}
