/// Measures a tick of a ReactiveSequence of conditions that hold and an action that runs: by the library, and by three trees of nodes
/// with virtual calls, as a program without an engine has them. All nodes are visited in each tick, and all but those that run are
/// reset at its end, so that the status of each condition changes twice.
///
/// usage: ticks NODES TICKS
///
/// A line for each: who, nanoseconds of the processor a tick, and how often a tick has asked the heap.
#include <chrono>
#include <condition_variable>
#include <cstdio>
#include <ctime>
#include <functional>
#include <memory>
#include <mutex>
#include <string>
#include <utility>
#include <vector>

#include "../../tests/in_cpp/heap.hpp"
#include "bt.h"

/// The nanoseconds of the processor that this thread has had, which do not depend on what else the machine does.
static double processor() {
  timespec time{};
  clock_gettime(CLOCK_THREAD_CPUTIME_ID, &time);
  return static_cast<double>(time.tv_sec) * 1e9 + static_cast<double>(time.tv_nsec);
}

// What the whole program takes of the heap is counted: a tree of virtual calls takes by these.
static std::uint64_t taken = 0;
void *operator new(std::size_t size) {
  ++taken;
  return std::malloc(size);
}
void operator delete(void *at) noexcept { std::free(at); }
void operator delete(void *at, std::size_t) noexcept { std::free(at); }

enum class Status { IDLE, RUNNING, SUCCESS, FAILURE };

/// A node whose status is a field.
class Bare {
public:
  explicit Bare(std::string name) : name(std::move(name)) {}
  virtual ~Bare() = default;
  Status execute() { return kept = tick(); }
  void reset() {
    if (kept == Status::RUNNING)
      halt();
    kept = Status::IDLE;
  }
  Status status() const { return kept; }

private:
  virtual Status tick() = 0;
  virtual void halt() {}
  Status kept = Status::IDLE;
  std::string name;
};

/// A node whose status stands behind a lock, and who tells listeners of each change, as those of libraries are that other threads
/// may look at.
class Locked {
public:
  explicit Locked(std::string name) : name(std::move(name)) {}
  virtual ~Locked() = default;
  Status execute() {
    const Status answer = tick();
    set(answer);
    return answer;
  }
  void reset() {
    if (status() == Status::RUNNING)
      halt();
    set(Status::IDLE);
  }
  Status status() const {
    const std::lock_guard<std::mutex> guard(lock);
    return kept;
  }
  std::vector<std::function<void(const Locked &, Status, Status)>> listeners;

private:
  void set(Status status) {
    Status before;
    {
      const std::lock_guard<std::mutex> guard(lock);
      before = std::exchange(kept, status);
    }
    if (before == status)
      return;
    changed.notify_all();
    for (const auto &listener : listeners)
      listener(*this, before, status);
  }
  virtual Status tick() = 0;
  virtual void halt() {}
  mutable std::mutex lock;
  std::condition_variable changed;
  Status kept = Status::IDLE;
  std::string name;
};

/// A node that goes through the steps of `TreeNode::executeTick` of BehaviorTree.CPP 4, where nothing was injected into it and it has
/// no scripts: it copies the callbacks that may be injected, under a lock; makes the environment of its preconditions, which are
/// none; asks the clock round its tick, for a monitor; looks for postconditions; and keeps its status behind a lock, with the moment
/// of each change for those who listen.
class Executed {
public:
  explicit Executed(std::string name) : name(std::move(name)) {}
  virtual ~Executed() = default;
  Status execute() {
    std::function<Status(Executed &)> before;
    std::function<Status(Executed &, Status)> after;
    std::function<void(Executed &, Status, std::chrono::microseconds)> monitor;
    {
      const std::lock_guard<std::mutex> guard(injecting);
      before = pre_tick;
      after = post_tick;
      monitor = tick_monitor;
    }
    Status answer = status();
    const bool is_replaced = fails_precondition(answer) || (before && (answer = before(*this)) != Status::IDLE);
    if (!is_replaced) {
      const auto begin = std::chrono::steady_clock::now();
      answer = tick();
      const auto end = std::chrono::steady_clock::now();
      if (monitor)
        monitor(*this, answer, std::chrono::duration_cast<std::chrono::microseconds>(end - begin));
    }
    if (answer != Status::RUNNING)
      run_postconditions(answer);
    if (after)
      answer = after(*this, answer);
    set(answer);
    return answer;
  }
  void reset() {
    if (status() == Status::RUNNING)
      halt();
    set(Status::IDLE);
  }
  Status status() const {
    const std::lock_guard<std::mutex> guard(lock);
    return kept;
  }
  using Moment = std::chrono::high_resolution_clock::time_point;
  std::vector<std::function<void(Moment, const Executed &, Status, Status)>> listeners;
  std::function<Status(Executed &)> pre_tick;
  std::function<Status(Executed &, Status)> post_tick;
  std::function<void(Executed &, Status, std::chrono::microseconds)> tick_monitor;

private:
  using Entries = std::vector<std::pair<std::string, int>>;
  using Script = std::function<Status(const std::pair<std::shared_ptr<Entries>, std::shared_ptr<Entries>> &)>;
  bool fails_precondition(Status &answer) {
    const auto environment = std::make_pair(blackboard, enums);
    for (const Script &script : preconditions)
      if (script && (answer = script(environment)) != Status::IDLE)
        return true;
    return false;
  }
  void run_postconditions(Status answer) {
    for (const Script *script : {&postconditions[answer == Status::SUCCESS ? 0 : 1], &postconditions[2]})
      if (*script)
        (*script)(std::make_pair(blackboard, enums));
  }
  void set(Status status) {
    Status before;
    {
      const std::lock_guard<std::mutex> guard(lock);
      before = std::exchange(kept, status);
    }
    if (before == status)
      return;
    changed.notify_all();
    const Moment now = std::chrono::high_resolution_clock::now();
    for (const auto &listener : listeners)
      listener(now, *this, before, status);
  }
  virtual Status tick() = 0;
  virtual void halt() {}
  mutable std::mutex lock, injecting;
  std::condition_variable changed;
  Status kept = Status::IDLE;
  std::string name;
  std::shared_ptr<Entries> blackboard = std::make_shared<Entries>(), enums = std::make_shared<Entries>();
  Script preconditions[4], postconditions[3];
};

/// A condition, which asks a value that the robot has told.
template <class Node> class Condition : public Node {
public:
  Condition(std::string name, const Status *told) : Node(std::move(name)), told(told) {}

private:
  Status tick() override { return *told; }
  const Status *told;
};

/// An action, which runs until it is told how it has ended.
template <class Node> class Action : public Condition<Node> {
public:
  using Condition<Node>::Condition;
};

/// Ticks its children in order, each time from the first, and resets all others where one runs, as BehaviorTree.CPP does.
template <class Node> class ReactiveSequence : public Node {
public:
  using Node::Node;
  std::vector<std::unique_ptr<Node>> children;

private:
  Status tick() override {
    for (std::size_t at = 0; at < children.size(); ++at) {
      const Status answer = children[at]->execute();
      if (answer == Status::SUCCESS)
        continue;
      for (std::size_t other = 0; other < children.size(); ++other)
        if (other != at)
          children[other]->reset();
      return answer;
    }
    return Status::SUCCESS;
  }
};

/// Prints what a tick costs.
template <class Tick> static void measure(const char *who, std::uint64_t ticks, Tick tick) {
  for (std::uint64_t left = ticks / 10 + 1; left > 0; --left)
    tick();
  const std::uint64_t before = taken + heap.asked;
  const double begin = processor();
  for (std::uint64_t left = ticks; left > 0; --left)
    tick();
  const double time = processor() - begin;
  std::printf("%s %.1f %.3f\n", who, time / static_cast<double>(ticks), static_cast<double>(taken + heap.asked - before) / static_cast<double>(ticks));
}

template <class Node> static void measure_calls(const char *who, std::size_t nodes, std::uint64_t ticks) {
  const Status holds = Status::SUCCESS, runs = Status::RUNNING;
  ReactiveSequence<Node> root("root");
  for (std::size_t count = 0; count + 2 < nodes; ++count)
    root.children.push_back(std::make_unique<Condition<Node>>("condition", &holds));
  root.children.push_back(std::make_unique<Action<Node>>("action", &runs));
  measure(who, ticks, [&] {
    if (root.execute() != Status::RUNNING)
      std::abort();
  });
}

static void measure_library(std::size_t nodes, std::uint64_t ticks) {
  std::string tree = "<root BTCPP_format=\"4\"><BehaviorTree ID=\"M\"><ReactiveSequence>";
  for (std::size_t count = 0; count + 2 < nodes; ++count)
    tree += "<Condition ID=\"Holds\"/>";
  tree += "<Runs/></ReactiveSequence></BehaviorTree></root>";
  bt_session *session = nullptr;
  if (bt_open(reinterpret_cast<const std::uint8_t *>(tree.data()), tree.size(), nullptr, 0, nullptr, 0, &session) != BT_OK)
    std::abort();
  for (std::uint32_t uid = 1; uid <= bt_node_count(session); ++uid)
    if (bt_leaf_class(session, uid) == BT_TOLD_CONDITION && bt_tell(session, 1, uid, BT_SUCCESS, 0) != BT_OK)
      std::abort();
  std::uint64_t now = 0;
  measure("library", ticks, [&] {
    if (bt_tick(session, 1, ++now) != BT_OK || bt_root_status(session, 1) != BT_RUNNING)
      std::abort();
  });
  bt_close(session);
}

int main(int, char **words) {
  const std::size_t nodes = std::strtoull(words[1], nullptr, 10);
  const std::uint64_t ticks = std::strtoull(words[2], nullptr, 10);
  measure_library(nodes, ticks);
  measure_calls<Bare>("virtual", nodes, ticks);
  measure_calls<Locked>("locked", nodes, ticks);
  measure_calls<Executed>("executed", nodes, ticks);
}
