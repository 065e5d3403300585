/// Calls the library by chance, with misuse among the calls. What is not taken changes nothing that can be read, an event after a
/// fault is not taken, and what a session has taken of the heap is given back when it is closed.
///
/// usage: chance SEED CALLS
#include <cstring>
#include <random>

#include "heap.hpp"
#include "robot.hpp"

static std::mt19937_64 chance;

/// One of some numbers.
template <class T> static T one_of(std::initializer_list<T> all) { return all.begin()[chance() % all.size()]; }

/// A number up to a bit past those that are there, or one far away.
static std::uint32_t near(std::size_t count) {
  return chance() % 16 == 0 ? one_of<std::uint32_t>({255, 256, 65536, 0x80000000U, 0xffffffffU}) : static_cast<std::uint32_t>(chance() % (count + 2));
}

/// A moment: mostly the last one or one soon after it.
static std::uint64_t moment(bt_session *session) {
  const std::uint64_t last = bt_last_ms(session);
  if (chance() % 8 != 0)
    return last + chance() % 30;
  return one_of<std::uint64_t>({0, last - 1, 1'000'000'000'001, UINT64_MAX});
}

/// A name of an output, and a text to be one's value.
static std::string name() { return one_of<std::string>({"n", "n", "s", "t", "", "1n", "no name", std::string(65, 'n'), "\xff", "SUCCESS"}); }
static std::string text() { return one_of<std::string>({"", "x", std::string(23, 'x'), std::string(24, 'x'), std::string(4096, 'x'), std::string(4097, 'x'), "it's \n \xe2\x82\xac", "\xff"}); }

/// An event by chance, or the gift of an output for one.
static std::uint32_t event(bt_session *session) {
  const std::uint32_t runner = near(bt_runner_count(session));
  switch (chance() % 16) {
  case 0:
    return bt_halt(session, runner, moment(session));
  case 1:
    return bt_set(session, near(bt_fact_count(session)), static_cast<std::int64_t>(chance()), moment(session));
  case 2:
    return bt_next(session, moment(session));
  case 3:
    return bt_finish(session, runner);
  case 4: {
    const std::string port = name();
    return bt_output_int(session, bytes(port), port.size(), static_cast<std::int64_t>(chance() % 5));
  }
  case 5: {
    const std::string port = name(), value = text();
    return bt_output_text(session, bytes(port), port.size(), bytes(value), value.size());
  }
  case 6:
    bt_output_clear(session);
    return BT_OK;
  case 7:
  case 8:
  case 9:
  case 10:
    return bt_tell(session, runner, near(bt_node_count(session)), near(BT_SKIPPED), moment(session));
  default:
    return bt_tick(session, runner, moment(session));
  }
}

/// A call that reads, with a room of some size; what stands behind the room stays.
static void read(const bt_session *session) {
  std::uint8_t room[80];
  std::memset(room, 0xa5, sizeof room);
  const std::size_t size = chance() % (sizeof room - 1), place = near(5);
  const std::uint32_t uid = near(bt_node_count(session)), runner = near(bt_runner_count(session)), slot = near(bt_entry_count(session));
  std::size_t said = 0;
  switch (chance() % 16) {
  case 0:
    said = bt_node_id(session, uid, room, size);
    break;
  case 1:
    said = bt_node_name(session, uid, room, size);
    break;
  case 2:
    said = bt_node_path(session, uid, room, size);
    break;
  case 3:
    said = bt_port_name(session, uid, place, room, size);
    break;
  case 4:
    said = bt_port_given_text(session, uid, place, room, size);
    break;
  case 5:
    said = bt_port_text(session, runner, uid, place, room, size);
    break;
  case 6:
    said = bt_input_name(session, uid, place, room, size);
    break;
  case 7:
    said = bt_input_text(session, runner, uid, place, room, size);
    break;
  case 8:
    said = bt_output_name(session, uid, place, room, size);
    break;
  case 9:
    said = bt_entry_key(session, slot, room, size);
    break;
  case 10:
    said = bt_entry_text(session, runner, slot, room, size);
    break;
  case 11:
    said = bt_fact_name(session, near(bt_fact_count(session)), room, size);
    break;
  case 12:
    said = bt_print(session, room, size);
    break;
  case 13: {
    bt_note notes[3];
    std::memset(notes, 0xa5, sizeof notes);
    HOLDS(bt_notes(session, notes, 2) == bt_note_count(session));
    HOLDS(reinterpret_cast<const std::uint8_t *>(&notes[2])[0] == 0xa5);
    break;
  }
  case 14:
    HOLDS((bt_node_kind(session, uid) == BT_NO_NODE) == (uid < 1 || uid > bt_node_count(session)));
    HOLDS((bt_status(session, runner, uid) == BT_NO_STATUS) == (uid < 1 || uid > bt_node_count(session) || runner < 1 || runner > bt_runner_count(session)));
    HOLDS(bt_root_status(session, runner) == bt_status(session, runner, 1));
    break;
  default:
    HOLDS((bt_note_at(session, place).kind == BT_NO_NOTE) == (place >= bt_note_count(session)));
    HOLDS((bt_changed_fact_at(session, place).known == 1) == (place < bt_changed_fact_count(session)));
    HOLDS((bt_changed_entry_at(session, place).known == 1) == (place < bt_changed_entry_count(session)));
    HOLDS((bt_port_given(session, uid, place).kind == BT_NO_VALUE) == (place >= bt_port_count(session, uid)));
    HOLDS((bt_leaf_class(session, uid) == BT_NO_LEAF) == (bt_node_kind(session, uid) != BT_NODE_LEAF));
    HOLDS(bt_node_scope(session, uid) <= bt_node_count(session));
    break;
  }
  for (std::size_t at = std::min(said, size); at < sizeof room; ++at)
    HOLDS(room[at] == 0xa5);
}

/// Opens a session of one of the robots. What is refused opens none, and is explained.
static bt_session *opened() {
  const Robot &robot = one_of({robots[0], robots[1], robots[2]});
  bt_session *session = nullptr;
  std::string tree = robot.tree, main = chance() % 8 == 0 ? "\xff" : robot.main;
  if (chance() % 4 == 0)
    tree[chance() % tree.size()] = '<';
  const std::uint32_t code = open(tree, robot.world, main, &session);
  HOLDS(code == BT_OK || code == BT_REFUSED || code == BT_MISUSE);
  HOLDS((code == BT_OK) == (session != nullptr));
  HOLDS((code == BT_MISUSE) == (main == "\xff"));
  const std::string why = said([&](std::uint8_t *room, std::size_t size) {
    return bt_explain(bytes(tree), tree.size(), reinterpret_cast<const std::uint8_t *>(robot.world), std::strlen(robot.world), bytes(main), main.size(), room, size);
  });
  HOLDS((why.rfind("refused ", 0) == 0) == (code == BT_REFUSED));
  HOLDS(session || heap.held == 0);
  return session;
}

/// Makes an event. One that is misused leaves all that can be read as it was.
static void make(bt_session *session, std::uint64_t *count) {
  const Seen before(session);
  const bool is_usable = bt_is_usable(session);
  const std::uint32_t code = event(session);
  HOLDS(code <= BT_NO_EVENT && code != BT_NO_MEMORY && code != BT_REFUSED);
  HOLDS(is_usable || code == BT_MISUSE || code == BT_NO_EVENT || code == BT_OK);
  HOLDS((code == BT_FAULT) == (is_usable && !bt_is_usable(session)));
  if (code == BT_MISUSE || code == BT_NO_EVENT || !is_usable)
    HOLDS(Seen(session) == before);
  ++count[code];
}

int main(int, char **words) {
  chance.seed(std::strtoull(words[1], nullptr, 10));
  std::uint64_t counts[8] = {0};
  bt_session *session = nullptr;
  for (std::uint64_t left = std::strtoull(words[2], nullptr, 10); left > 0; --left) {
    if (!session) {
      session = opened();
    } else if (chance() % (bt_is_usable(session) ? 1000 : 20) == 0) {
      bt_close(session);
      session = nullptr;
      HOLDS(heap.held == 0);
    } else if (chance() % 2 == 0) {
      read(session);
    } else {
      make(session, counts);
    }
  }
  if (session)
    bt_close(session);
  HOLDS(heap.held == 0);
  HOLDS(counts[BT_OK] > 0 && counts[BT_FAULT] > 0 && counts[BT_MISUSE] > 0);
  std::printf("%llu taken, %llu faults, %llu misused\n", (unsigned long long)counts[BT_OK], (unsigned long long)counts[BT_FAULT], (unsigned long long)counts[BT_MISUSE]);
}
