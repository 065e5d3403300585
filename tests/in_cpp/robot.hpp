/// Robots for the tests of the library: trees and worlds, and what can be read of a session.
#pragma once

#include <cstdio>
#include <cstdlib>
#include <string>
#include <vector>

#include "bt.h"

/// Ends the test where something does not hold.
#define HOLDS(what) ((what) ? (void)0 : fail(#what, __FILE__, __LINE__))

[[noreturn]] inline void fail(const char *what, const char *file, int line) {
  std::fprintf(stderr, "%s:%d: it does not hold that %s\n", file, line, what);
  std::exit(1);
}

struct Robot {
  const char *tree, *world, *main;
};

/// Each kind of row, two runners and the world's own events; every leaf told; a script that faults; and control nodes that halt.
inline const Robot robots[] = {
    {R"(<root BTCPP_format="4"><BehaviorTree ID="M"><Parallel success_count="2">
        <ReactiveSequence><C at="{k}"/><A n="7" s="{s}" t="a text of more than 23 bytes, which takes memory"/></ReactiveSequence>
        <SubTree ID="S" k="{k}" own="it's own"/></Parallel></BehaviorTree>
        <BehaviorTree ID="S"><Sequence><Script code="k := 1; own := 'x'"/><Timed/><RetryUntilSuccessful num_attempts="3"><A n="{k}" s="{own}" t=""/>
        </RetryUntilSuccessful></Sequence></BehaviorTree></root>)",
     "bt-world 1\nfact door 0\nfact lamp -3\nrunners 2\ncondition C(at) told\naction A(n,s,t) told\nout n\nout s\naction Timed timed 30\nsets door = 1\n"
     "tick 1\nat 40\ntick 2\n",
     "M"},
    {R"(<root BTCPP_format="4"><BehaviorTree ID="M"><Fallback><C/><Sequence><B x="1"/><A n="{n}"/><Delay delay_msec="20"><D/></Delay></Sequence></Fallback>
        </BehaviorTree></root>)",
     "", ""},
    {R"(<root BTCPP_format="4"><BehaviorTree ID="M"><Sequence><A n="{n}"/><Parallel><B/><ScriptCondition code="n &gt; 2"/></Parallel></Sequence></BehaviorTree></root>)",
     "", "M"},
};

inline const std::uint8_t *bytes(const std::string &text) { return reinterpret_cast<const std::uint8_t *>(text.data()); }

/// Opens a session.
inline std::uint32_t open(const std::string &tree, const std::string &world, const std::string &main, bt_session **out) {
  return bt_open(bytes(tree), tree.size(), bytes(world), world.size(), bytes(main), main.size(), out);
}

/// The text that a call writes.
template <class Write> std::string said(Write write) {
  std::string text;
  for (std::size_t size; (size = write(reinterpret_cast<std::uint8_t *>(text.data()), text.size())) != text.size();)
    text.resize(size);
  return text;
}

/// All that the calls answer of a session that an event can change.
class Seen {
public:
  explicit Seen(bt_session *session) {
    add(bt_is_usable(session), bt_last_ms(session));
    const bt_event event = bt_last_event(session);
    add(event.kind, event.runner, event.status, event.number, event.at_ms);
    for (std::size_t place = 0; place < bt_note_count(session); ++place)
      add(bt_note_at(session, place));
    for (std::size_t place = 0; place < bt_changed_fact_count(session); ++place)
      add(bt_changed_fact_at(session, place).fact, bt_changed_fact_at(session, place).value);
    for (std::size_t place = 0; place < bt_changed_entry_count(session); ++place)
      add(bt_changed_entry_at(session, place).runner, bt_changed_entry_at(session, place).slot);
    for (std::uint32_t fact = 0; fact < bt_fact_count(session); ++fact)
      add(bt_fact(session, fact).number);
    for (std::uint32_t runner = 1; runner <= bt_runner_count(session); ++runner)
      add_runner(session, runner);
  }

  bool operator==(const Seen &other) const { return all == other.all; }

private:
  template <class... Numbers> void add(Numbers... numbers) { (all.push_back(static_cast<std::uint64_t>(numbers)), ...); }
  void add(const bt_note &note) { add(note.uid, note.kind, note.runner, note.before, note.status, note.cause, note.detail); }

  template <class Write> void add_value(const bt_value &value, Write write) {
    add(value.kind, value.length, value.number);
    if (value.kind == BT_TEXT)
      for (const char sign : said(write))
        add(sign);
  }

  void add_runner(bt_session *session, std::uint32_t runner) {
    for (std::uint32_t slot = 0; slot < bt_entry_count(session); ++slot)
      add_value(bt_entry(session, runner, slot), [=](std::uint8_t *room, std::size_t size) { return bt_entry_text(session, runner, slot, room, size); });
    for (std::uint32_t uid = 1; uid <= bt_node_count(session); ++uid) {
      add(bt_status(session, runner, uid));
      for (std::size_t place = 0; place < bt_input_count(session, uid); ++place)
        add_value(bt_input(session, runner, uid, place),
                  [=](std::uint8_t *room, std::size_t size) { return bt_input_text(session, runner, uid, place, room, size); });
    }
  }

  std::vector<std::uint64_t> all;
};
