/// Drives a robot by a behavior tree: the engine `bt serve` runs the tree as a process of its own, and the leaves are functions
/// and classes of the robot's program, in the forms of BehaviorTree.CPP 4. README.md beside this header says how it is used.
///
/// The leaves and their cycle stand in bt.hpp beside this header; here is what speaks with the process. C++17, Linux, and nothing
/// but the standard library. A tree stays on one thread, but for what a ThreadedAction does. Where bt.hpp is included before this
/// header, the factory is that of the library.
#pragma once

#ifndef BT_IN_PROCESS
#define BT_OVER_PIPES
#endif
#include "bt.hpp"

#include <cstring>
#include <deque>

#include <poll.h>
#include <signal.h>
#include <spawn.h>
#include <sys/socket.h>
#include <sys/wait.h>
#include <unistd.h>

extern char **environ;

namespace BT {

namespace robot {

// Values and lines

/// What a literal of a tree says: a number where it is written as one, else the text.
inline Value literal(const std::string &text) {
  std::int64_t number = 0;
  auto [end, fault] = std::from_chars(text.data(), text.data() + text.size(), number);
  if (fault == std::errc() && std::to_string(number) == text)
    return number;
  return text;
}

/// The value that the engine has written, none where it has written that there is none.
inline std::optional<Value> read_value(StringView text) {
  if (text == "-")
    return std::nullopt;
  if (text.front() != '\'')
    return Value(convertFromString<std::int64_t>(text));
  std::string said;
  for (std::size_t at = 1; at + 1 < text.size(); ++at) {
    if (text[at] != '\\')
      said += text[at];
    else if (text[++at] == 'n')
      said += '\n';
    else if (text[at] == 'x')
      said += static_cast<char>(std::stoi(std::string(text.substr(at + 1, 2)), nullptr, 16)), at += 2;
    else
      said += text[at];
  }
  return Value(std::move(said));
}

/// The words of a line, the last of which is the rest of it.
inline std::vector<std::string> words_of(const std::string &line, std::size_t most) {
  std::vector<std::string> words;
  std::size_t begin = 0;
  while (words.size() + 1 < most && line.find(' ', begin) != std::string::npos) {
    const std::size_t end = line.find(' ', begin);
    words.push_back(line.substr(begin, end - begin));
    begin = end + 1;
  }
  words.push_back(line.substr(begin));
  return words;
}

// The tree as the engine prints it

/// An element of the printed tree.
struct Element {
  std::string name;
  Attributes attributes;
  std::vector<std::unique_ptr<Element>> children;
};

/// What the value of an attribute says.
inline std::string said(StringView value) {
  std::string text;
  for (std::size_t at = 0; at < value.size(); ++at) {
    if (value[at] != '&') {
      text += value[at];
      continue;
    }
    const std::size_t end = value.find(';', at);
    const StringView name = value.substr(at + 1, end - at - 1);
    text += name == "amp" ? '&' : name == "lt" ? '<' : name == "quot" ? '"' : static_cast<char>(convertFromString<int>(name.substr(1)));
    at = end;
  }
  return text;
}

/// The document element of a printed tree, each of whose marks has a line of its own.
inline std::unique_ptr<Element> elements(const std::string &printed) {
  auto top = std::make_unique<Element>();
  std::vector<Element *> open{top.get()};
  std::istringstream lines(printed);
  for (std::string line; std::getline(lines, line);) {
    std::size_t at = line.find('<');
    if (at == std::string::npos || line[at + 1] == '!')
      continue;
    if (line[at + 1] == '/') {
      open.pop_back();
      continue;
    }
    auto element = std::make_unique<Element>();
    std::size_t end = line.find_first_of(" />", ++at);
    element->name = line.substr(at, end - at);
    while (line[end] == ' ') {
      const std::size_t equals = line.find('=', end), close = line.find('"', equals + 2);
      element->attributes.emplace_back(line.substr(end + 1, equals - end - 1), said(StringView(line).substr(equals + 2, close - equals - 2)));
      end = close + 1;
    }
    Element *const added = element.get();
    open.back()->children.push_back(std::move(element));
    if (line[end] == '>')
      open.push_back(added);
  }
  if (top->children.empty())
    throw RuntimeError("the engine has printed no tree");
  return std::move(top->children.front());
}


/// A cell of the blackboard: the scope that owns it, and its key there.
using Cell = std::pair<std::uint32_t, std::string>;

/// Where a node stands: the SubTree node in whose tree it does (0 for the main tree), and what it is to the trees below it.
struct Place {
  std::uint32_t scope = 0;
  bool is_tree = false, maps_all = false;
};

/// The nodes of a tree, in the order of their numbers.
class Nodes {
public:
  explicit Nodes(const std::string &printed) : root(elements(printed)) {
    for (const auto &tree : root->children)
      trees[*find(tree->attributes, "ID")] = tree->children.front().get();
    add(*trees.at(*find(root->attributes, "main_tree_to_execute")), 0, "");
  }

  const std::vector<Node> &all() const { return nodes; }

  /// The cell of a key that a node names: the mappings are followed upwards to the scope that owns it.
  Cell cell(const Node &node, std::string key) const {
    std::uint32_t scope = places[node.uid - 1].scope;
    while (scope != 0) {
      const std::string *const text = find(nodes[scope - 1].ports, key);
      if (text ? !is_key(*text) : !places[scope - 1].maps_all || key.front() == '_')
        break;
      if (text)
        key = key_of(*text);
      scope = places[scope - 1].scope;
    }
    return {scope, key};
  }

  /// What the blackboard holds before the first event: the literals of the SubTree nodes.
  std::map<Cell, Value> first_entries() const {
    std::map<Cell, Value> entries;
    for (const Node &node : nodes)
      for (const auto &[port, text] : places[node.uid - 1].is_tree ? node.ports : Attributes())
        if (!is_key(text))
          entries[{node.uid, port}] = literal(text);
    return entries;
  }

private:
  /// Adds a node and all below it.
  void add(const Element &element, std::uint32_t scope, const std::string &above) {
    static const std::set<StringView> built_in{"AlwaysSuccess", "AlwaysFailure", "Script", "ScriptCondition"};
    const bool is_tree = element.name == "SubTree";
    Node node;
    node.uid = static_cast<std::uint32_t>(nodes.size() + 1);
    node.id = is_tree || element.name == "Action" ? *find(element.attributes, "ID") : element.name;
    const std::string *const name = find(element.attributes, "name"), *const maps_all = find(element.attributes, "_autoremap");
    node.name = name ? *name : node.id;
    node.path = above + node.name;
    node.is_leaf = element.children.empty() && !is_tree && built_in.count(node.id) == 0;
    for (const auto &attribute : element.attributes)
      if (attribute.first != "name" && attribute.first != "ID" && attribute.first.front() != '_')
        node.ports.push_back(attribute);
    nodes.push_back(node);
    places.push_back({scope, is_tree, maps_all && *maps_all == "true"});
    if (is_tree)
      add(*trees.at(node.id), node.uid, node.path + "/");
    for (const auto &child : element.children)
      add(*child, scope, above);
  }

  std::unique_ptr<Element> root;
  std::map<std::string, const Element *> trees;
  std::vector<Node> nodes;
  std::vector<Place> places;
};

// The engine

/// A program at the other end of a socket, which is its standard input and output. It has a session of its own, so that an
/// interrupt at the terminal reaches this program alone, and no other child of this program keeps its socket open.
class Process {
public:
  explicit Process(const std::vector<std::string> &words) {
    int ends[2];
    if (socketpair(AF_UNIX, SOCK_STREAM | SOCK_CLOEXEC, 0, ends) != 0)
      throw EngineLost("there is no socket for the engine");
    std::vector<char *> argv;
    for (const std::string &word : words)
      argv.push_back(const_cast<char *>(word.c_str()));
    argv.push_back(nullptr);
    posix_spawn_file_actions_t actions;
    posix_spawn_file_actions_init(&actions);
    posix_spawn_file_actions_adddup2(&actions, ends[1], 0);
    posix_spawn_file_actions_adddup2(&actions, ends[1], 1);
    posix_spawnattr_t how;
    posix_spawnattr_init(&how);
    posix_spawnattr_setflags(&how, POSIX_SPAWN_SETSID);
    const int fault = posix_spawnp(&pid, argv[0], &actions, &how, argv.data(), environ);
    posix_spawnattr_destroy(&how);
    posix_spawn_file_actions_destroy(&actions);
    ::close(ends[1]);
    end = ends[0];
    if (fault != 0) {
      ::close(end);
      throw EngineLost("the engine " + words[0] + " can't be started: " + std::strerror(fault));
    }
  }
  Process(const Process &) = delete;
  ~Process() { wait(); }

  /// Writes a text. What it has said before it closed its input tells why that fails.
  void write(StringView text) {
    while (!text.empty()) {
      const ssize_t sent = ::send(end, text.data(), text.size(), MSG_NOSIGNAL);
      if (sent < 0 && errno != EINTR)
        return;
      text.remove_prefix(sent < 0 ? 0 : static_cast<std::size_t>(sent));
    }
  }

  /// The next line, none at the end of its output. Throws where it says nothing for so long.
  std::optional<std::string> line(std::chrono::milliseconds patience) {
    while (unread.empty()) {
      pollfd waiting{end, POLLIN, 0};
      const int ready = ::poll(&waiting, 1, static_cast<int>(patience.count()));
      if (ready == 0) {
        ::kill(-pid, SIGKILL);
        throw EngineLost("the engine has not answered in " + std::to_string(patience.count()) + " ms");
      }
      char room[1 << 16];
      const ssize_t size = ready < 0 ? -1 : ::read(end, room, sizeof room);
      if (size < 0 && errno == EINTR)
        continue;
      if (size <= 0)
        return std::nullopt;
      take(StringView(room, static_cast<std::size_t>(size)));
    }
    std::string next = std::move(unread.front());
    unread.pop_front();
    return next;
  }

  /// Closes its input.
  void close_input() { ::shutdown(end, SHUT_WR); }

  /// Waits for its end, and gives its status, or minus the signal that has ended it.
  int wait() {
    if (end >= 0) {
      ::close(end);
      end = -1;
      int how = 0;
      while (::waitpid(pid, &how, 0) < 0 && errno == EINTR) {
      }
      status = WIFEXITED(how) ? WEXITSTATUS(how) : -WTERMSIG(how);
    }
    return status;
  }

private:
  /// Adds what was read to the lines.
  void take(StringView text) {
    for (std::size_t end_of_line; (end_of_line = text.find('\n')) != StringView::npos; text.remove_prefix(end_of_line + 1)) {
      unread.push_back(cut_off + std::string(text.substr(0, end_of_line)));
      cut_off.clear();
    }
    cut_off += text;
  }

  pid_t pid = 0;
  int end = -1, status = 0;
  std::deque<std::string> unread;
  std::string cut_off;
};

/// A file of a text, which goes with this.
class Temporary {
public:
  explicit Temporary(const std::string &text) : name((std::filesystem::temp_directory_path() / "bt-XXXXXX").string()) {
    const int made = ::mkstemp(name.data());
    if (made < 0)
      throw RuntimeError("there is no place for the file ", name);
    ::close(made);
    std::ofstream(name, std::ios::binary) << text;
  }
  Temporary(const Temporary &) = delete;
  ~Temporary() { ::unlink(name.c_str()); }

  std::string name;
};

/// A run of `bt serve`.
class Pipes : public Engine {
public:
  Pipes(const std::string &text, const Options &options)
      : Engine(options), command(command_of(options)), tree(text), printed(printed_tree()), entries(printed.first_entries()) {}

  const std::vector<Node> &nodes() const override { return printed.all(); }

  void start(const World &world) override {
    open_files(world);
    const Temporary script(world.text);
    process = std::make_unique<Process>(words({"serve", tree.name, script.name}));
    for (std::optional<std::string> line; !line || line->rfind("ready ", 0) != 0;)
      if (!(line = take(std::max(options.patience, std::chrono::milliseconds(60'000)))))
        throw_end();
  }

  void at(std::int64_t moment) override { lines.push_back("at " + std::to_string(moment)); }
  void tick() override { lines.push_back("tick 1"); }
  void halt() override { lines.push_back("halt 1"); }
  void set(const std::string &fact, std::int64_t value) override { lines.push_back("set " + fact + " " + std::to_string(value)); }
  void tell(const Leaf &leaf, NodeStatus ended) override { lines.push_back(leaf.telling(ended)); }

  /// Has the engine take the lines, and gives what it answers. They are written in pieces whose answers have a place in the pipe, so
  /// that neither side waits for the other.
  std::vector<Happened> happened() override {
    const std::vector<std::string> all = std::exchange(lines, {});
    for (std::size_t at = 0; at < all.size();) {
      std::string text;
      std::size_t waited = 0;
      for (; at < all.size() && (text.empty() || text.size() + all[at].size() <= 8192); ++at, ++waited) {
        if (all[at].size() > 65536)
          throw RuntimeError("a line of ", std::to_string(all[at].size()), " bytes is too long for the engine");
        text += all[at] + "\n";
      }
      keep(text.substr(0, text.size() - 1));
      process->write(text);
      while (waited > 0) {
        const auto line = take(options.patience);
        if (!line)
          throw_end();
        waited -= *line == "ok";
      }
    }
    return heard();
  }

  std::map<std::string, Value> inputs(const Leaf &leaf) const override {
    const auto found = started.find(leaf.node.uid);
    return found == started.end() ? std::map<std::string, Value>() : found->second;
  }

  std::optional<Value> value(const Node &node, const std::string &port) const override {
    const std::string *const text = find(node.ports, port);
    if (!text || !is_key(*text))
      return text ? std::optional<Value>(literal(*text)) : std::nullopt;
    return in(printed.cell(node, key_of(*text)));
  }

  std::optional<Value> entry(const std::string &key) const override { return in({0, key}); }

  /// Closes the engine's input, which finishes the run, and waits for its end.
  std::vector<std::uint32_t> finish() override {
    if (!process)
      return {};
    process->close_input();
    try {
      while (take(options.patience)) {
      }
    } catch (const EngineLost &) {
    }
    process.reset();
    std::vector<std::uint32_t> order;
    for (const std::string &line : std::exchange(block, {})) {
      const auto words = words_of(line, 4);
      const bool is_halt = words[0] == "call" && words.back() == "halted";
      if (is_halt || words[0] == "quench")
        order.push_back(convertFromString<std::uint32_t>(words[is_halt ? 1 : 2]));
    }
    return order;
  }

private:
  static std::vector<std::string> command_of(const Options &options) {
    const char *const named = std::getenv("BT");
    return !options.engine.empty() ? options.engine : std::vector<std::string>{named && *named ? named : "bt"};
  }

  /// The words of a call.
  std::vector<std::string> words(std::initializer_list<std::string> more) const {
    std::vector<std::string> all(command);
    all.insert(all.end(), more);
    if (!options.main.empty())
      all.insert(all.end(), {"--main", options.main});
    return all;
  }

  /// The tree as the engine reads it.
  std::string printed_tree() const {
    Process check(words({"check", tree.name}));
    check.close_input();
    std::string text;
    while (const auto line = check.line(std::chrono::hours(1)))
      text += *line + "\n";
    if (const int ended = check.wait(); ended != 0)
      throw Refused(text.empty() ? "the engine has ended with " + std::to_string(ended) : text.substr(0, text.size() - 1));
    return text;
  }

  /// The next line, none at the end of the output. One of a block is kept until it is heard, and one of the trace is written.
  std::optional<std::string> take(std::chrono::milliseconds patience) {
    auto line = process->line(patience);
    if (line && *line != "ok" && line->rfind("ready ", 0) != 0) {
      block.push_back(*line);
      if (trace.is_open() && line->rfind("in ", 0) != 0 && line->rfind("refused ", 0) != 0)
        trace << *line << "\n";
    }
    return line;
  }

  /// Throws what the end of the output means: a fault, a refusal, or that the engine was lost.
  [[noreturn]] void throw_end() {
    const int status = process->wait();
    for (const std::string &line : block) {
      if (line.rfind("fault ", 0) == 0)
        throw Fault(line);
      if (line.rfind("refused ", 0) == 0)
        throw Refused(line);
    }
    throw EngineLost("the engine has ended with ", std::to_string(status));
  }

  /// What the lines of blocks say. The values that they tell are kept.
  std::vector<Happened> heard() {
    std::vector<Happened> all;
    for (const std::string &line : std::exchange(block, {})) {
      const StringView kind = StringView(line).substr(0, line.find(' '));
      const auto words = words_of(line, kind == "board" ? 5 : kind == "root" ? 3 : 4);
      if (kind == "call" && words.back() == "halted")
        all.push_back({Happened::HALTED, number(words[1]), NodeStatus::IDLE});
      else if (kind == "call" && words[2] == "start")
        all.push_back({Happened::STARTED, number(words[1]), status_named(words[3])});
      else if (kind == "node")
        all.push_back({Happened::CHANGED, number(words[1]), status_named(words[3])});
      else if (kind == "root")
        all.push_back({Happened::ROOT, 0, status_named(words[2])});
      else if (kind == "in")
        keep_input(started[number(words[1])], words[2], read_value(words[3]));
      else if (const auto value = kind == "board" && words[1] == "1" ? read_value(words[4]) : std::nullopt)
        entries[{number(words[2]), words[3]}] = *value;
    }
    return all;
  }

  static std::uint32_t number(StringView word) { return convertFromString<std::uint32_t>(word); }

  static void keep_input(std::map<std::string, Value> &inputs, const std::string &port, const std::optional<Value> &value) {
    if (value)
      inputs[port] = *value;
    else
      inputs.erase(port);
  }

  static NodeStatus status_named(StringView name) {
    for (const auto status : {NodeStatus::RUNNING, NodeStatus::SUCCESS, NodeStatus::FAILURE, NodeStatus::SKIPPED})
      if (toStr(status) == name)
        return status;
    return NodeStatus::IDLE;
  }

  /// What a cell of the blackboard holds.
  std::optional<Value> in(const Cell &cell) const {
    const auto found = entries.find(cell);
    return found == entries.end() ? std::nullopt : std::optional<Value>(found->second);
  }

  const std::vector<std::string> command;
  const Temporary tree;
  const Nodes printed;
  std::map<Cell, Value> entries;
  /// The inputs of the leaves that were started.
  std::map<std::uint32_t, std::map<std::string, Value>> started;
  std::unique_ptr<Process> process;
  // What is to be asked, and what was answered and not heard yet.
  std::vector<std::string> lines, block;
};

} // namespace robot

#ifdef BT_OVER_PIPES
using BehaviorTreeFactory = robot::Factory<robot::Pipes>;
#endif

} // namespace BT
