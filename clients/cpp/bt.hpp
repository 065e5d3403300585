/// Drives a robot by a behavior tree: the library `libbt.a` runs the tree in this process, and the leaves are functions and classes
/// of the robot's program, in the forms of BehaviorTree.CPP 4. README.md beside this header says how it is used, and docs/cpp.md
/// how a program of that library moves here.
///
/// C++17, `bt.h` and the standard library, and nothing else. A tree stays on one thread, but for what a ThreadedAction does; two
/// trees may be on two threads.
///
/// bt_robot.hpp has the same names over `bt serve`, a process beside this one. It defines BT_OVER_PIPES, which leaves out what
/// speaks of the library, so that a program over pipes needs neither `bt.h` nor `libbt.a`.
#pragma once

#include <algorithm>
#include <atomic>
#include <charconv>
#include <chrono>
#include <cstdint>
#include <cstdlib>
#include <exception>
#include <filesystem>
#include <fstream>
#include <functional>
#include <future>
#include <map>
#include <memory>
#include <new>
#include <optional>
#include <set>
#include <sstream>
#include <stdexcept>
#include <string>
#include <string_view>
#include <thread>
#include <type_traits>
#include <utility>
#include <variant>
#include <vector>

#ifndef BT_OVER_PIPES
#define BT_IN_PROCESS
#include "bt.h"
#endif

namespace BT {

// What is thrown

using StringView = std::string_view;

/// Everything that is thrown here, but for what a leaf throws by itself. What it says is made of parts.
class BehaviorTreeException : public std::runtime_error {
public:
  template <class... Parts> explicit BehaviorTreeException(StringView first, const Parts &...parts) : std::runtime_error(joined({first, parts...})) {}

private:
  static std::string joined(std::initializer_list<StringView> parts) {
    std::string all;
    for (const StringView part : parts)
      all += part;
    return all;
  }
};

/// The program uses this header as it may not.
class LogicError : public BehaviorTreeException {
public:
  using BehaviorTreeException::BehaviorTreeException;
};

/// Something is not there, or has not the form that is asked for.
class RuntimeError : public BehaviorTreeException {
public:
  using BehaviorTreeException::BehaviorTreeException;
};

/// The engine refuses a file or a line, by this line.
class Refused : public RuntimeError {
public:
  using RuntimeError::RuntimeError;
};

/// The run has ended in a fault of a node.
class Fault : public RuntimeError {
public:
  using RuntimeError::RuntimeError;
};

/// The engine has ended, or does not answer. The leaves are stopped all the same.
class EngineLost : public RuntimeError {
public:
  using RuntimeError::RuntimeError;
};

/// A leaf has thrown, which is nested in this. Everything is stopped.
class LeafError : public RuntimeError {
public:
  LeafError(const std::string &path, const std::string &what) : RuntimeError(path + ": " + what), path(path) {}
  /// The names of the SubTree nodes down to the leaf, and its own.
  const std::string path;
};

/// A value, or why there is none.
template <class T> class Expected {
public:
  Expected(T value) : held(std::in_place_index<0>, std::move(value)) {}
  static Expected none(std::string why) { return Expected(std::in_place_index<1>, std::move(why)); }
  bool has_value() const { return held.index() == 0; }
  explicit operator bool() const { return has_value(); }
  const std::string &error() const { return std::get<1>(held); }
  /// The value. Throws where there is none.
  const T &value() const {
    if (!has_value())
      throw RuntimeError(error());
    return std::get<0>(held);
  }
  T value_or(T other) const { return has_value() ? std::get<0>(held) : std::move(other); }
  const T &operator*() const { return value(); }
  const T *operator->() const { return &value(); }

private:
  Expected(std::in_place_index_t<1> at, std::string why) : held(at, std::move(why)) {}
  std::variant<T, std::string> held;
};

/// Whether something could be done, or why not.
using Result = Expected<std::monostate>;

// Values

enum class NodeStatus { IDLE, RUNNING, SUCCESS, FAILURE, SKIPPED };

/// A text of a value, for outputs: a program has it for its own types by a specialization.
template <class T> std::string toStr(const T &value) {
  std::ostringstream text;
  if constexpr (std::is_floating_point_v<T>)
    text.precision(17);
  text << value;
  return text.str();
}

template <> inline std::string toStr(const NodeStatus &status) {
  static const char *const names[] = {"IDLE", "RUNNING", "SUCCESS", "FAILURE", "SKIPPED"};
  return names[static_cast<int>(status)];
}

/// The value of a text, for inputs: a program has it for its own types by a specialization. Throws where the text is none.
template <class T> T convertFromString(StringView text) {
  if constexpr (std::is_same_v<T, std::string>) {
    return std::string(text);
  } else if constexpr (std::is_same_v<T, bool>) {
    if (text == "true" || text == "1")
      return true;
    if (text == "false" || text == "0")
      return false;
  } else if constexpr (std::is_integral_v<T>) {
    T number{};
    auto [end, fault] = std::from_chars(text.data(), text.data() + text.size(), number);
    if (fault == std::errc() && end == text.data() + text.size())
      return number;
  } else if constexpr (std::is_floating_point_v<T>) {
    const std::string copy(text);
    char *end = nullptr;
    const T number = static_cast<T>(std::strtod(copy.c_str(), &end));
    if (!copy.empty() && *end == '\0')
      return number;
  } else {
    throw LogicError("there is no convertFromString for this type");
  }
  throw RuntimeError("'" + std::string(text) + "' is no value of this type");
}

/// The parts of a text between semicolons, as lists are written at ports.
inline std::vector<StringView> splitString(StringView text, char delimiter) {
  std::vector<StringView> parts;
  for (std::size_t begin = 0; begin <= text.size();) {
    const std::size_t end = std::min(text.find(delimiter, begin), text.size());
    parts.push_back(text.substr(begin, end - begin));
    begin = end + 1;
  }
  return parts;
}

namespace robot {

/// What a cell of the blackboard holds.
using Value = std::variant<std::int64_t, std::string>;

inline std::string text_of(const Value &value) {
  return value.index() == 0 ? std::to_string(std::get<0>(value)) : std::get<1>(value);
}

/// A value as it stands in an event.
inline std::string written(const Value &value) {
  if (value.index() == 0)
    return text_of(value);
  static const char *const digits = "0123456789abcdef";
  std::string text = "'";
  for (const unsigned char byte : std::get<1>(value)) {
    if (byte == '\'' || byte == '\\')
      text += '\\', text += static_cast<char>(byte);
    else if (byte >= 32 && byte < 127)
      text += static_cast<char>(byte);
    else
      text += "\\x", text += digits[byte / 16], text += digits[byte % 16];
  }
  return text + "'";
}

/// A name and a value, in the order of the file.
using Attributes = std::vector<std::pair<std::string, std::string>>;

inline const std::string *find(const Attributes &attributes, StringView name) {
  for (const auto &[key, value] : attributes)
    if (key == name)
      return &value;
  return nullptr;
}

inline bool is_key(const std::string &text) { return text.size() >= 2 && text.front() == '{' && text.back() == '}'; }

inline std::string key_of(const std::string &text) { return text.substr(1, text.size() - 2); }

/// A node: its number, the names of the SubTree nodes down to it and its own, and what its ports say: a text as it stands in the
/// file, or a key in braces.
struct Node {
  std::uint32_t uid = 0;
  std::string id, name, path;
  bool is_leaf = false;
  Attributes ports;
};

} // namespace robot

// Ports

enum class PortDirection { INPUT, OUTPUT, INOUT };

/// What a class says of a port: its direction, and the text that an input has where the node does not give it.
struct PortInfo {
  PortDirection direction;
  std::optional<std::string> default_value;
};

using PortsList = std::map<std::string, PortInfo>;

template <class T = std::string> std::pair<std::string, PortInfo> InputPort(StringView name, StringView = {}) {
  return {std::string(name), {PortDirection::INPUT, std::nullopt}};
}

/// An input with a default.
template <class T, class Default> std::pair<std::string, PortInfo> InputPort(StringView name, const Default &value, StringView) {
  return {std::string(name), {PortDirection::INPUT, toStr(value)}};
}

template <class T = std::string> std::pair<std::string, PortInfo> OutputPort(StringView name, StringView = {}) {
  return {std::string(name), {PortDirection::OUTPUT, std::nullopt}};
}

template <class T = std::string> std::pair<std::string, PortInfo> BidirectionalPort(StringView name, StringView = {}) {
  return {std::string(name), {PortDirection::INOUT, std::nullopt}};
}

// Nodes

namespace robot {

class Session;

/// How the leaves of one ID are told: whether as a condition, with which inputs, and with which outputs.
struct Row {
  bool is_condition = false;
  std::vector<std::string> inputs, outputs;
};

/// What a leaf knows of itself: its node and row, the inputs of the call that has started it, and the outputs for the one that
/// ends it.
struct Leaf {
  Node node;
  Row row;
  PortsList ports;
  std::map<std::string, Value> inputs, outputs;
  NodeStatus status = NodeStatus::IDLE;

  /// The event that tells the engine how the leaf has ended, or whether it holds.
  std::string telling(NodeStatus ended) const {
    std::string line = "tell 1 " + std::to_string(node.uid) + " " + toStr(ended);
    if (ended == NodeStatus::SUCCESS)
      for (const auto &[port, value] : outputs)
        line += " " + port + "=" + written(value);
    return line;
  }
};

/// The value that an output has: a number, or a text of at most 4,096 bytes.
template <class T> std::optional<Value> output_of(const T &value) {
  if constexpr (std::is_integral_v<T>) {
    if constexpr (std::is_unsigned_v<T>)
      if (static_cast<std::uint64_t>(value) > static_cast<std::uint64_t>(INT64_MAX))
        return std::nullopt;
    return Value(static_cast<std::int64_t>(value));
  } else {
    std::string text;
    if constexpr (std::is_convertible_v<T, std::string>)
      text = value;
    else
      text = toStr(value);
    return text.size() > 4096 ? std::nullopt : std::optional<Value>(std::move(text));
  }
}

} // namespace robot

/// What a node is made with.
struct NodeConfig {
  std::shared_ptr<robot::Leaf> leaf;
};

using NodeConfiguration = NodeConfig;

/// A leaf of the tree.
class TreeNode {
public:
  TreeNode(std::string name, NodeConfig config) : config(std::move(config)), given_name(std::move(name)) {}
  TreeNode(const TreeNode &) = delete;
  virtual ~TreeNode() = default;

  const std::string &name() const { return given_name; }
  const std::string &registrationName() const { return leaf().node.id; }
  const std::string &fullPath() const { return leaf().node.path; }
  std::uint32_t UID() const { return leaf().node.uid; }
  NodeStatus status() const { return leaf().status; }

  /// The value of an input port, else its default, or why there is none.
  template <class T> Expected<T> getInput(const std::string &port) const {
    const auto value = leaf().inputs.find(port);
    const auto known = leaf().ports.find(port);
    try {
      if (value != leaf().inputs.end())
        return convertFromString<T>(robot::text_of(value->second));
      if (known != leaf().ports.end() && known->second.default_value)
        return convertFromString<T>(*known->second.default_value);
    } catch (const std::exception &fault) {
      return Expected<T>::none("the input " + port + ": " + fault.what());
    }
    return Expected<T>::none("the input " + port + (robot::find(leaf().node.ports, port) ? " has no value yet" : " is not given at the node"));
  }

  template <class T> Result getInput(const std::string &port, T &destination) const {
    const Expected<T> value = getInput<T>(port);
    if (!value)
      return Result::none(value.error());
    destination = *value;
    return std::monostate();
  }

  /// Gives an output, which is written where the action succeeds.
  template <class T> Result setOutput(const std::string &port, const T &value) {
    const std::string *const text = robot::find(leaf().node.ports, port);
    const auto &outputs = leaf().row.outputs;
    if (!text || !robot::is_key(*text))
      return Result::none("the output " + port + " is given no key at the node");
    if (std::find(outputs.begin(), outputs.end(), port) == outputs.end())
      return Result::none("the row of " + registrationName() + " has no output " + port);
    std::optional<robot::Value> plain = robot::output_of(value);
    if (!plain)
      return Result::none("the output " + port + " has no place in 64 bits, or in 4,096 bytes");
    config.leaf->outputs[port] = std::move(*plain);
    return std::monostate();
  }

private:
  friend class robot::Session;

  /// Begins it, and answers whether it goes on.
  virtual NodeStatus leafBegins() = 0;
  /// Goes on with one that is RUNNING, and answers whether it still does.
  virtual NodeStatus leafGoesOn() { return NodeStatus::RUNNING; }
  /// Stops one that is RUNNING.
  virtual void leafStops() {}

  const robot::Leaf &leaf() const {
    if (!config.leaf)
      throw LogicError("a node has no ports while it is made without its config");
    return *config.leaf;
  }

  NodeConfig config;
  std::string given_name;
};

/// A condition: `tick` answers SUCCESS or FAILURE, and is asked before each tick of the tree.
class ConditionNode : public TreeNode {
public:
  using TreeNode::TreeNode;
  virtual NodeStatus tick() = 0;

private:
  NodeStatus leafBegins() final { return tick(); }
};

/// An action that has ended when `tick` is back.
class SyncActionNode : public TreeNode {
public:
  using TreeNode::TreeNode;
  virtual NodeStatus tick() = 0;

private:
  NodeStatus leafBegins() final {
    const NodeStatus status = tick();
    if (status == NodeStatus::RUNNING)
      throw LogicError("an action that ends at once has answered RUNNING");
    return status;
  }
};

/// An action that lasts.
class StatefulActionNode : public TreeNode {
public:
  using TreeNode::TreeNode;
  virtual NodeStatus onStart() = 0;
  virtual NodeStatus onRunning() = 0;
  virtual void onHalted() = 0;

private:
  NodeStatus leafBegins() final { return onStart(); }
  NodeStatus leafGoesOn() final { return onRunning(); }
  void leafStops() final { onHalted(); }
};

/// An action whose `tick` runs in a thread of its own and looks whether it was halted. A halt waits for its end.
class ThreadedAction : public TreeNode {
public:
  using TreeNode::TreeNode;
  virtual NodeStatus tick() = 0;
  bool isHaltRequested() const { return is_halted; }

private:
  NodeStatus leafBegins() final {
    is_halted = false;
    answer = std::async(std::launch::async, [this] { return tick(); });
    return NodeStatus::RUNNING;
  }
  NodeStatus leafGoesOn() final {
    return answer.wait_for(std::chrono::seconds(0)) == std::future_status::ready ? answer.get() : NodeStatus::RUNNING;
  }
  void leafStops() final {
    is_halted = true;
    if (answer.valid())
      answer.wait();
  }

  std::atomic<bool> is_halted{false};
  std::future<NodeStatus> answer;
};

namespace robot {

using Functor = std::function<NodeStatus(TreeNode &)>;

/// A leaf that is one function.
template <class Base> class Simple : public Base {
public:
  Simple(const std::string &name, const NodeConfig &config, Functor functor) : Base(name, config), functor(std::move(functor)) {}
  NodeStatus tick() override { return functor(*this); }

private:
  Functor functor;
};

/// What makes a leaf of a name and a config.
using Maker = std::function<std::unique_ptr<TreeNode>(const std::string &, const NodeConfig &)>;

/// What is registered for the leaves of an ID.
struct Registered {
  bool is_condition;
  PortsList ports;
  Maker make;
};

/// The ports that a class declares.
template <class T, class = void> struct Declared {
  static PortsList ports() { return {}; }
};
template <class T> struct Declared<T, std::void_t<decltype(T::providedPorts())>> {
  static PortsList ports() { return T::providedPorts(); }
};

} // namespace robot

/// How a tree is run.
struct Options {
  /// The ID of the main tree, where the file does not say it.
  std::string main;
  /// A world script, with told rows for the leaves that the robot answers. Without it every leaf is the robot's.
  std::string world;
  /// Files for the session as a world script, and for its trace.
  std::string record, trace;
  /// The time since some moment, and how to wait.
  std::function<std::chrono::milliseconds()> clock = [] {
    return std::chrono::duration_cast<std::chrono::milliseconds>(std::chrono::steady_clock::now().time_since_epoch());
  };
  std::function<void(std::chrono::milliseconds)> sleep = [](std::chrono::milliseconds time) { std::this_thread::sleep_for(time); };
  /// Over pipes: the command of the engine, without which it is the program that the variable BT names, else `bt`; and for how
  /// long it may say nothing until it is lost. The library looks at neither.
  std::vector<std::string> engine;
  std::chrono::milliseconds patience{5000};
};

namespace robot {

/// What a file holds.
inline std::string contents(const std::string &name) {
  std::ifstream file(name, std::ios::binary);
  if (!file)
    throw RuntimeError("the file ", name, " can't be read");
  return {std::istreambuf_iterator<char>(file), {}};
}

/// A world script with its told rows, and the moment at which its own events end.
struct World {
  std::string text;
  std::map<std::string, Row> rows;
  std::int64_t moment = 0;

  explicit World(std::string script) : text(std::move(script)) {
    if (text.empty() || text.back() != '\n')
      text += '\n';
    Row *row = nullptr;
    std::istringstream lines(text);
    for (std::string line; std::getline(lines, line);) {
      std::istringstream split(line);
      std::vector<std::string> words;
      for (std::string word; split >> word;)
        words.push_back(word);
      if (words.empty() || words[0].front() == '#')
        continue;
      if (words.size() == 3 && words[2] == "told")
        row = &(rows[words[1].substr(0, words[1].find('('))] = {words[0] == "condition", inputs_of(words[1]), {}});
      else if (words.size() == 2 && words[0] == "out" && row)
        row->outputs.push_back(words[1]);
      else if (words.size() == 2 && words[0] == "at")
        moment = convertFromString<std::int64_t>(words[1]);
      else
        row = nullptr;
    }
  }

private:
  /// The input ports of a row, as `ID(p,q)`.
  static std::vector<std::string> inputs_of(const std::string &row) {
    std::vector<std::string> inputs;
    if (const std::size_t open = row.find('('); open != std::string::npos)
      for (const StringView port : splitString(StringView(row).substr(open + 1, row.size() - open - 2), ','))
        inputs.emplace_back(port);
    return inputs;
  }
};

// The engine

/// What an event has done that concerns the robot.
struct Happened {
  enum What { STARTED, HALTED, CHANGED, ROOT } what;
  /// The node, but for what the root has answered.
  std::uint32_t uid;
  /// What a start or the root has answered, or the status that the node has now.
  NodeStatus status;
};

/// What runs the tree of a text: the library in this process, or a process beside it.
class Engine {
public:
  explicit Engine(const Options &options) : options(options) {}
  Engine(const Engine &) = delete;
  virtual ~Engine() = default;

  /// The nodes of the tree, in the order of their numbers.
  virtual const std::vector<Node> &nodes() const = 0;
  /// Begins the run in a world, with the world's own events.
  virtual void start(const World &world) = 0;
  /// The moment of what is asked from now on, in milliseconds.
  virtual void at(std::int64_t moment) = 0;
  /// An event: `tick 1`, `halt 1`, `set FACT VALUE`, or that a leaf has ended so, or holds or not.
  virtual void tick() = 0;
  virtual void halt() = 0;
  virtual void set(const std::string &fact, std::int64_t value) = 0;
  virtual void tell(const Leaf &leaf, NodeStatus ended) = 0;
  /// What has happened since this was asked last, in order. Throws where the run has ended.
  virtual std::vector<Happened> happened() = 0;
  /// What the inputs of a leaf held when it was started last, and what a port holds now.
  virtual std::map<std::string, Value> inputs(const Leaf &leaf) const = 0;
  virtual std::optional<Value> value(const Node &node, const std::string &port) const = 0;
  /// An entry of the main tree's blackboard.
  virtual std::optional<Value> entry(const std::string &key) const = 0;
  /// Ends the run. The leaves that are to be stopped for that, in order.
  virtual std::vector<std::uint32_t> finish() = 0;

protected:
  /// Opens the files for the session, of which the world is the beginning.
  void open_files(const World &world) {
    if (!options.record.empty())
      (record = opened(options.record)) << world.text;
    if (!options.trace.empty())
      trace = opened(options.trace);
  }

  /// Writes a line of the session.
  void keep(const std::string &line) {
    if (record.is_open())
      record << line << '\n' << std::flush;
  }

  const Options options;
  std::ofstream record, trace;

private:
  static std::ofstream opened(const std::string &name) {
    std::ofstream file(name, std::ios::binary);
    if (!file)
      throw RuntimeError("the file ", name, " can't be written");
    return file;
  }
};

/// An engine that runs a tree, and the leaves that it drives.
class Session {
public:
  Session(std::unique_ptr<Engine> made, const std::map<std::string, Registered> &registered, Options chosen)
      : options(std::move(chosen)), engine(std::move(made)) {
    const World world = options.world.empty() ? made_world(registered) : World(contents(options.world));
    for (const Node &node : engine->nodes())
      if (const auto row = world.rows.find(node.id); node.is_leaf && row != world.rows.end())
        add(node, row->second, registered);
    first = moment = world.moment;
    started_at = options.clock();
    // What the world's own events have started begins here.
    or_stopped([&] {
      engine->start(world);
      obey();
      begin();
      obey();
      return status;
    });
  }
  Session(const Session &) = delete;
  ~Session() {
    try {
      close();
    } catch (const std::exception &) {
      // (who wants to know of it closes the tree before)
    }
  }

  /// One cycle: senses, asks the actions that run, ticks, stops what was halted and starts what was started. Where an action
  /// has ended at once, it is told and the tree is ticked again at the same moment; one that does so a second time at this
  /// moment is told, and the tick is that of the next cycle.
  NodeStatus tick() {
    return or_stopped([this] {
      now();
      sense();
      for (const auto &[uid, action] : actions)
        if (running.count(uid))
          tell(*action, &TreeNode::leafGoesOn);
      std::set<std::uint32_t> ended_at_once;
      for (bool again = true; again;) {
        engine->tick();
        obey();
        again = false;
        for (const std::uint32_t uid : begin())
          again |= ended_at_once.insert(uid).second;
        if (again)
          sense();
      }
      obey();
      return status;
    });
  }

  void halt() {
    or_stopped([this] {
      now();
      engine->halt();
      obey();
      return status = NodeStatus::IDLE;
    });
  }

  void set(const std::string &fact, std::int64_t value) {
    or_stopped([&] {
      now();
      engine->set(fact, value);
      obey();
      return status;
    });
  }

  /// Ends the run: stops all actions that run, those first that the engine names, in its order, and then the engine. Throws the
  /// first of what their stops throw.
  void close() {
    if (std::exchange(is_over, true))
      return;
    std::vector<std::uint32_t> order = engine->finish();
    for (const auto &action : actions)
      order.push_back(action.first);
    std::exception_ptr fault;
    for (const std::uint32_t uid : order)
      try {
        stop(uid);
      } catch (...) {
        if (!fault)
          fault = std::current_exception();
      }
    if (fault)
      std::rethrow_exception(fault);
  }

  std::optional<Value> entry(const std::string &key) const { return engine->entry(key); }

  const Options options;

private:
  /// The world script of what is registered, without facts and events.
  World made_world(const std::map<std::string, Registered> &registered) const {
    std::string text = "bt-world 1\n";
    std::set<std::string> done;
    for (const Node &node : engine->nodes()) {
      if (!node.is_leaf || !done.insert(node.id).second)
        continue;
      const auto found = registered.find(node.id);
      if (found == registered.end())
        throw RuntimeError("nothing is registered for ", node.path);
      const Row row = made_row(node.id, found->second);
      text += (row.is_condition ? "condition " : "action ") + node.id;
      for (std::size_t at = 0; at < row.inputs.size(); ++at)
        text += (at == 0 ? "(" : ",") + row.inputs[at];
      text += row.inputs.empty() ? " told\n" : ") told\n";
      for (const std::string &output : row.outputs)
        text += "out " + output + "\n";
    }
    return World(text);
  }

  /// The row of an ID: its inputs are the ports that its leaves give, and its outputs those that are keys, but for what its class
  /// says of their directions.
  Row made_row(const std::string &id, const Registered &known) const {
    std::set<std::string> inputs, outputs;
    for (const Node &node : engine->nodes())
      for (const auto &[port, text] : node.is_leaf && node.id == id ? node.ports : Attributes()) {
        const auto declared = known.ports.find(port);
        const PortDirection direction = declared == known.ports.end() ? PortDirection::INOUT : declared->second.direction;
        if (direction != PortDirection::OUTPUT)
          inputs.insert(port);
        if (direction != PortDirection::INPUT && is_key(text) && !known.is_condition)
          outputs.insert(port);
      }
    if (inputs.size() > 8 || outputs.size() > 8)
      throw RuntimeError(id, " has more than 8 inputs or 8 outputs");
    return {known.is_condition, {inputs.begin(), inputs.end()}, {outputs.begin(), outputs.end()}};
  }

  /// Makes the leaf of a node.
  void add(const Node &node, const Row &row, const std::map<std::string, Registered> &registered) {
    const auto found = registered.find(node.id);
    if (found == registered.end() || found->second.is_condition != row.is_condition)
      throw RuntimeError(node.path, " is ", row.is_condition ? "a condition" : "an action", " of the world, and is not registered as one");
    NodeConfig config{std::make_shared<Leaf>()};
    config.leaf->node = node;
    config.leaf->row = row;
    config.leaf->ports = found->second.ports;
    auto made = found->second.make(node.name, config);
    made->config = config;
    (row.is_condition ? conditions : actions)[node.uid] = std::move(made);
  }

  /// What a turn gives. Ends the run where anything is thrown, so that no action is left running.
  template <class Turn> NodeStatus or_stopped(Turn turn) {
    if (is_over)
      throw LogicError("the run has ended");
    try {
      return turn();
    } catch (...) {
      const std::exception_ptr fault = std::current_exception();
      try {
        close();
      } catch (const LeafError &) {
        // (what is thrown first is what is told)
      }
      std::rethrow_exception(fault);
    }
  }

  /// Tells the present moment, where it is later than the one before.
  void now() {
    const std::int64_t present = first + (options.clock() - started_at).count();
    if (present > moment)
      engine->at(moment = present);
  }

  /// Asks each condition by the present values of its inputs, and tells of those that answer otherwise than before.
  void sense() {
    for (const auto &[uid, condition] : conditions) {
      Leaf &leaf = *condition->config.leaf;
      leaf.inputs.clear();
      for (const std::string &port : leaf.row.inputs)
        if (auto value = engine->value(leaf.node, port))
          leaf.inputs[port] = std::move(*value);
      const NodeStatus answer = turn(*condition, &TreeNode::leafBegins);
      if (answer == NodeStatus::RUNNING)
        throw LeafError(leaf.node.path, "a condition has answered RUNNING");
      if (const bool holds = answer == NodeStatus::SUCCESS; holds != (holding.count(uid) != 0)) {
        holds ? (void)holding.insert(uid) : (void)holding.erase(uid);
        engine->tell(leaf, answer);
      }
    }
  }

  /// A turn of a leaf. What it throws is thrown on with its path.
  static NodeStatus turn(TreeNode &leaf, NodeStatus (TreeNode::*part)()) {
    NodeStatus answer;
    try {
      answer = (leaf.*part)();
    } catch (const std::exception &fault) {
      std::throw_with_nested(LeafError(leaf.fullPath(), fault.what()));
    } catch (...) {
      std::throw_with_nested(LeafError(leaf.fullPath(), "an exception of its own"));
    }
    if (answer == NodeStatus::IDLE || answer == NodeStatus::SKIPPED)
      throw LeafError(leaf.fullPath(), "a leaf has answered " + toStr(answer));
    return answer;
  }

  /// A turn of an action, of which the engine is told where it has ended. Whether it has.
  bool tell(TreeNode &action, NodeStatus (TreeNode::*part)()) {
    const NodeStatus answer = turn(action, part);
    if (answer == NodeStatus::RUNNING)
      return false;
    running.erase(action.UID());
    engine->tell(action.leaf(), answer);
    return true;
  }

  /// Begins what was started, and gives those actions that have ended at once.
  std::vector<std::uint32_t> begin() {
    std::vector<std::uint32_t> ended;
    for (const std::uint32_t uid : std::exchange(started, {})) {
      Leaf &leaf = *actions[uid]->config.leaf;
      leaf.inputs = engine->inputs(leaf);
      leaf.outputs.clear();
      running.insert(uid);
      if (tell(*actions[uid], &TreeNode::leafBegins))
        ended.push_back(uid);
    }
    return ended;
  }

  /// Stops an action where it runs.
  void stop(std::uint32_t uid) {
    if (running.erase(uid) == 0)
      return;
    TreeNode &action = *actions.at(uid);
    try {
      action.leafStops();
    } catch (const std::exception &fault) {
      std::throw_with_nested(LeafError(action.fullPath(), fault.what()));
    }
  }

  /// Does what has happened: keeps what is to be known, stops what was halted, and lists what was started. What was halted in the
  /// event that started it never begins.
  void obey() {
    for (const Happened &it : engine->happened()) {
      const auto action = actions.find(it.uid);
      if (it.what == Happened::ROOT)
        status = it.status;
      else if (action == actions.end())
        continue;
      else if (it.what == Happened::CHANGED)
        action->second->config.leaf->status = it.status;
      else if (it.what == Happened::STARTED && it.status == NodeStatus::RUNNING)
        started.push_back(it.uid);
      else if (it.what == Happened::HALTED)
        halted(it.uid);
    }
  }

  void halted(std::uint32_t uid) {
    if (const auto fresh = std::find(started.begin(), started.end(), uid); fresh != started.end())
      started.erase(fresh);
    else
      stop(uid);
  }

  std::unique_ptr<Engine> engine;
  std::map<std::uint32_t, std::unique_ptr<TreeNode>> conditions, actions;
  // The conditions that hold, as the engine was told last, the actions that run, and those that the last event has started.
  std::set<std::uint32_t> holding, running;
  std::vector<std::uint32_t> started;
  std::chrono::milliseconds started_at{};
  std::int64_t first = 0, moment = 0;
  NodeStatus status = NodeStatus::IDLE;
  bool is_over = false;
};

template <class Opened> class Factory;

} // namespace robot

/// A tree that runs.
class Tree {
public:
  /// One cycle, in which the tree is ticked once, and again at the same moment where an action has ended at once.
  NodeStatus tickOnce() { return session->tick(); }
  NodeStatus tickExactlyOnce() { return session->tick(); }

  /// A cycle each so many milliseconds until the root's answer is other than RUNNING, which is given. A cycle that is late moves
  /// those after it.
  NodeStatus tickWhileRunning(std::chrono::milliseconds period = std::chrono::milliseconds(10)) {
    const Options &options = session->options;
    auto due = options.clock();
    NodeStatus status;
    while ((status = session->tick()) == NodeStatus::RUNNING) {
      const auto now = options.clock();
      due = std::max(due + period, now);
      options.sleep(due - now);
    }
    return status;
  }

  /// Lets time pass, between the ticks of a loop of one's own.
  void sleep(std::chrono::milliseconds time) { session->options.sleep(time); }
  /// Halts the tree, and so all actions that run.
  void haltTree() { session->halt(); }
  /// Changes a fact of the world script.
  void setFact(const std::string &fact, std::int64_t value) { session->set(fact, value); }
  /// The entry of the main tree's blackboard under this key.
  template <class T> Expected<T> entry(const std::string &key) const {
    const auto value = session->entry(key);
    return value ? Expected<T>(convertFromString<T>(robot::text_of(*value))) : Expected<T>::none("there is no entry " + key);
  }
  /// Ends the run, as the destructor does, but throws what a stop of an action throws.
  void close() { session->close(); }

private:
  template <class Opened> friend class robot::Factory;
  explicit Tree(std::unique_ptr<robot::Session> session) : session(std::move(session)) {}
  std::unique_ptr<robot::Session> session;
};

namespace robot {

/// Makes trees of what is registered, each with an engine of this class.
template <class Opened> class Factory {
public:
  /// A class of leaves. What stands after the ID goes to its constructor, after the name and the config.
  template <class T, class... Args> void registerNodeType(const std::string &id, Args... args) {
    static_assert(std::is_base_of_v<TreeNode, T>, "a node type is a ConditionNode, SyncActionNode, StatefulActionNode or ThreadedAction");
    add(id, {std::is_base_of_v<ConditionNode, T>, Declared<T>::ports(),
             [args...](const std::string &name, const NodeConfig &config) -> std::unique_ptr<TreeNode> {
               if constexpr (std::is_constructible_v<T, const std::string &, const NodeConfig &, Args...>)
                 return std::make_unique<T>(name, config, args...);
               else
                 return std::make_unique<T>(name, args...);
             }});
  }

  /// An action that lasts.
  template <class T, class... Args> void registerStatefulAction(const std::string &id, Args... args) {
    static_assert(std::is_base_of_v<StatefulActionNode, T>, "a stateful action is a StatefulActionNode");
    registerNodeType<T>(id, std::move(args)...);
  }

  /// A condition that is one function.
  void registerSimpleCondition(const std::string &id, const Functor &tick, PortsList ports = {}) {
    add(id, {true, std::move(ports), simple<ConditionNode>(tick)});
  }

  /// An action that is one function, and ends at once.
  void registerSimpleAction(const std::string &id, const Functor &tick, PortsList ports = {}) {
    add(id, {false, std::move(ports), simple<SyncActionNode>(tick)});
  }

  /// Opens the tree of a file, or of a text, and begins its run. Throws where it is refused, or a leaf is not registered.
  Tree createTreeFromFile(const std::filesystem::path &file, const Options &options = {}) const {
    return createTreeFromText(contents(file.string()), options);
  }
  Tree createTreeFromText(const std::string &text, const Options &options = {}) const {
    return Tree(std::make_unique<Session>(std::make_unique<Opened>(text, options), registered, options));
  }

  /// Keeps a file or a text with trees, one of which `createTree` opens by its ID. There is one file.
  void registerBehaviorTreeFromFile(const std::filesystem::path &file) { registerBehaviorTreeFromText(contents(file.string())); }
  void registerBehaviorTreeFromText(const std::string &text) {
    if (!trees.empty())
      throw LogicError("the trees of a program stand in one file");
    trees = text;
  }
  Tree createTree(const std::string &id, Options options = {}) const {
    options.main = id;
    return createTreeFromText(trees, options);
  }

private:
  template <class Base> static Maker simple(const Functor &tick) {
    return [tick](const std::string &name, const NodeConfig &config) -> std::unique_ptr<TreeNode> {
      return std::make_unique<Simple<Base>>(name, config, tick);
    };
  }

  void add(const std::string &id, Registered known) {
    if (!registered.emplace(id, std::move(known)).second)
      throw BehaviorTreeException(id, " is registered already");
  }

  std::map<std::string, Registered> registered;
  std::string trees;
};

} // namespace robot

#ifdef BT_IN_PROCESS
namespace robot {

/// The library, which runs the tree in this process.
class Library : public Engine {
public:
  Library(const std::string &text, const Options &options) : Engine(options), tree(text) {
    open(options.world.empty() ? "" : contents(options.world));
    for (std::uint32_t uid = 1; uid <= bt_node_count(session.get()); ++uid)
      all.push_back(node(uid));
  }

  const std::vector<Node> &nodes() const override { return all; }

  void start(const World &world) override {
    open_files(world);
    open(world.text);
    present = static_cast<std::uint64_t>(world.moment);
    for (std::uint32_t fact = 0; fact < bt_fact_count(session.get()); ++fact)
      facts[said([&](std::uint8_t *room, std::size_t size) { return bt_fact_name(session.get(), fact, room, size); })] = fact;
    for (std::uint32_t entry = 0; entry < bt_entry_count(session.get()); ++entry)
      if (bt_entry_scope(session.get(), entry) == 0)
        entries[said([&](std::uint8_t *room, std::size_t size) { return bt_entry_key(session.get(), entry, room, size); })] = entry;
    for (std::uint32_t code; (code = bt_next(session.get(), UINT64_MAX)) != BT_NO_EVENT;)
      made(code);
  }

  void at(std::int64_t moment) override {
    present = static_cast<std::uint64_t>(moment);
    keep("at " + std::to_string(moment));
  }
  void tick() override {
    keep("tick 1");
    made(bt_tick(session.get(), 1, present));
  }
  void halt() override {
    keep("halt 1");
    made(bt_halt(session.get(), 1, present));
  }
  void set(const std::string &fact, std::int64_t value) override {
    const auto found = facts.find(fact);
    if (found == facts.end())
      throw Refused("the world has no fact ", fact);
    keep("set " + fact + " " + std::to_string(value));
    made(bt_set(session.get(), found->second, value, present));
  }
  void tell(const Leaf &leaf, NodeStatus ended) override {
    if (record.is_open())
      keep(leaf.telling(ended));
    if (ended == NodeStatus::SUCCESS)
      for (const auto &[port, value] : leaf.outputs)
        given(value.index() == 0 ? bt_output_int(session.get(), bytes(port), port.size(), std::get<0>(value))
                                 : bt_output_text(session.get(), bytes(port), port.size(), bytes(std::get<1>(value)), std::get<1>(value).size()));
    made(bt_tell(session.get(), 1, leaf.node.uid, ended == NodeStatus::SUCCESS ? BT_SUCCESS : BT_FAILURE, present));
  }

  std::vector<Happened> happened() override { return std::exchange(unheard, {}); }

  std::map<std::string, Value> inputs(const Leaf &leaf) const override {
    std::map<std::string, Value> held;
    for (std::size_t place = 0; place < leaf.row.inputs.size(); ++place)
      if (auto value = told(bt_input(session.get(), 1, leaf.node.uid, place), [&](std::uint8_t *room, std::size_t size) {
            return bt_input_text(session.get(), 1, leaf.node.uid, place, room, size);
          }))
        held[leaf.row.inputs[place]] = std::move(*value);
    return held;
  }

  std::optional<Value> value(const Node &node, const std::string &port) const override {
    for (std::size_t place = 0; place < node.ports.size(); ++place)
      if (node.ports[place].first == port)
        return told(bt_port(session.get(), 1, node.uid, place),
                    [&](std::uint8_t *room, std::size_t size) { return bt_port_text(session.get(), 1, node.uid, place, room, size); });
    return std::nullopt;
  }

  std::optional<Value> entry(const std::string &key) const override {
    const auto found = entries.find(key);
    if (found == entries.end())
      return std::nullopt;
    return told(bt_entry(session.get(), 1, found->second),
                [&](std::uint8_t *room, std::size_t size) { return bt_entry_text(session.get(), 1, found->second, room, size); });
  }

  std::vector<std::uint32_t> finish() override {
    for (std::uint32_t runner = 1; bt_is_usable(session.get()) && runner <= bt_runner_count(session.get()); ++runner)
      if (bt_finish(session.get(), runner) == BT_OK)
        hear();
    std::vector<std::uint32_t> order;
    for (const Happened &it : std::exchange(unheard, {}))
      if (it.what == Happened::HALTED)
        order.push_back(it.uid);
    return order;
  }

private:
  static const std::uint8_t *bytes(const std::string &text) { return reinterpret_cast<const std::uint8_t *>(text.data()); }

  /// The text that a call writes into a room, whose length it answers where there is too little.
  template <class Write> static std::string said(Write write) {
    std::string text;
    for (std::size_t size; (size = write(reinterpret_cast<std::uint8_t *>(text.data()), text.size())) != text.size();)
      text.resize(size);
    return text;
  }

  /// A value, whose text a call writes.
  template <class Write> static std::optional<Value> told(const bt_value &value, Write write) {
    if (value.kind == BT_INT)
      return Value(value.number);
    return value.kind == BT_TEXT ? std::optional<Value>(said(write)) : std::nullopt;
  }

  /// Opens a session in a world in place of the one before.
  void open(const std::string &world) {
    bt_session *opened = nullptr;
    const std::uint32_t code = bt_open(bytes(tree), tree.size(), bytes(world), world.size(), bytes(options.main), options.main.size(), &opened);
    if (code == BT_NO_MEMORY)
      throw std::bad_alloc();
    if (code != BT_OK)
      throw Refused(refusal(world));
    session.reset(opened);
  }

  /// The line that says why there is no session.
  std::string refusal(const std::string &world) const {
    std::string line = said([&](std::uint8_t *room, std::size_t size) {
      return bt_explain(bytes(tree), tree.size(), bytes(world), world.size(), bytes(options.main), options.main.size(), room, size);
    });
    return line.substr(0, line.find('\n'));
  }

  Node node(std::uint32_t uid) const {
    Node it;
    it.uid = uid;
    it.id = said([&](std::uint8_t *room, std::size_t size) { return bt_node_id(session.get(), uid, room, size); });
    it.name = said([&](std::uint8_t *room, std::size_t size) { return bt_node_name(session.get(), uid, room, size); });
    it.path = said([&](std::uint8_t *room, std::size_t size) { return bt_node_path(session.get(), uid, room, size); });
    it.is_leaf = bt_node_kind(session.get(), uid) == BT_NODE_LEAF;
    for (std::size_t place = 0; place < bt_port_count(session.get(), uid); ++place)
      it.ports.emplace_back(said([&](std::uint8_t *room, std::size_t size) { return bt_port_name(session.get(), uid, place, room, size); }),
                            port(uid, place));
    return it;
  }

  /// What the port of a node says at a place, as it stands in the file.
  std::string port(std::uint32_t uid, std::size_t place) const {
    const bt_value given = bt_port_given(session.get(), uid, place);
    if (given.kind == BT_INT)
      return std::to_string(given.number);
    const std::string text = said([&](std::uint8_t *room, std::size_t size) { return bt_port_given_text(session.get(), uid, place, room, size); });
    return given.kind == BT_KEY ? "{" + text + "}" : text;
  }

  /// What a call that is no event has answered.
  static void given(std::uint32_t code) {
    if (code == BT_NO_MEMORY)
      throw std::bad_alloc();
    if (code != BT_OK)
      throw Refused("the engine takes no such call");
  }

  /// What an event has answered: it is heard, and thrown where the run has ended.
  void made(std::uint32_t code) {
    if (code != BT_FAULT)
      given(code);
    hear();
    if (code == BT_FAULT)
      throw Fault(fault_line());
  }

  /// The lines of the last event.
  std::string block() const {
    return said([this](std::uint8_t *room, std::size_t size) { return bt_print(session.get(), room, size); });
  }

  std::string fault_line() const {
    std::istringstream lines(block());
    std::string line;
    while (std::getline(lines, line) && line.rfind("fault ", 0) != 0) {
    }
    return line;
  }

  /// Keeps what the last event has done. Nothing is allocated where there is room.
  void hear() {
    if (trace.is_open())
      trace << block();
    const std::size_t count = bt_notes(session.get(), notes.data(), notes.size());
    if (count > notes.size()) {
      notes.resize(count);
      bt_notes(session.get(), notes.data(), notes.size());
    }
    for (std::size_t place = 0; place < count; ++place)
      keep(notes[place]);
  }

  void keep(const bt_note &note) {
    static const NodeStatus statuses[] = {NodeStatus::IDLE, NodeStatus::RUNNING, NodeStatus::SUCCESS, NodeStatus::FAILURE, NodeStatus::SKIPPED};
    if (note.kind == BT_CHANGED)
      unheard.push_back({Happened::CHANGED, note.uid, statuses[note.status]});
    else if (note.kind == BT_STARTED)
      unheard.push_back({Happened::STARTED, note.uid, statuses[note.status]});
    else if (note.kind == BT_ROOT)
      unheard.push_back({Happened::ROOT, 0, statuses[note.status]});
    else if (note.kind == BT_HALTED || note.kind == BT_QUENCHED)
      unheard.push_back({Happened::HALTED, note.uid, NodeStatus::IDLE});
  }
  using Engine::keep;

  struct Close {
    void operator()(bt_session *session) const { bt_close(session); }
  };

  const std::string tree;
  std::unique_ptr<bt_session, Close> session;
  std::vector<Node> all;
  // The numbers of facts, and of the entries of the main tree.
  std::map<std::string, std::uint32_t> facts, entries;
  std::uint64_t present = 0;
  std::vector<bt_note> notes;
  std::vector<Happened> unheard;
};

} // namespace robot

using BehaviorTreeFactory = robot::Factory<robot::Library>;
#endif

} // namespace BT
