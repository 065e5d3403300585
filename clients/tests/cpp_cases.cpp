/// The cases of cpp_client.py: one tree is run, whose leaves print what they do, and then how it ended. The engine is a process, or
/// with -DIN_PROCESS the library.
///
/// usage: cpp_cases NAME ENGINE TREE RECORD TRACE
#include <iostream>

#ifdef IN_PROCESS
#include "bt.hpp"
#include <csignal>
#include <unistd.h>
#else
#include "bt_robot.hpp"
#endif

using namespace BT;
using Time = std::chrono::milliseconds;

/// Lasts two cycles.
struct Two : StatefulActionNode {
  using StatefulActionNode::StatefulActionNode;
  static PortsList providedPorts() { return {InputPort<int>("n", "how many")}; }
  NodeStatus onStart() override {
    std::cout << "Two starts with " << getInput<int>("n").value() << "\n";
    return NodeStatus::RUNNING;
  }
  NodeStatus onRunning() override {
    if (++turns < 2)
      return NodeStatus::RUNNING;
    std::cout << "Two ends\n";
    return NodeStatus::SUCCESS;
  }
  void onHalted() override {}
  int turns = 0;
};

/// Ends at once, and is made without its config.
struct Three : SyncActionNode {
  explicit Three(const std::string &name) : SyncActionNode(name, {}) {}
  NodeStatus tick() override {
    std::cout << name() << "\n";
    return NodeStatus::SUCCESS;
  }
};

/// Runs until it is halted.
struct Long : StatefulActionNode {
  using StatefulActionNode::StatefulActionNode;
  NodeStatus onStart() override {
    std::cout << "Long starts\n";
    return NodeStatus::RUNNING;
  }
  NodeStatus onRunning() override { return NodeStatus::RUNNING; }
  void onHalted() override { std::cout << "Long stops\n"; }
};

/// Prints its inputs.
struct In : SyncActionNode {
  using SyncActionNode::SyncActionNode;
  NodeStatus tick() override {
    std::string text;
    if (!getInput("s", text))
      return NodeStatus::FAILURE;
    std::cout << *getInput<int>("i") << ' ' << *getInput<double>("d") << ' ' << *getInput<bool>("b") << ' ' << text << ' '
              << getInput<std::string>("k").value_or("none") << "\n";
    return getInput<int>("none") ? NodeStatus::FAILURE : NodeStatus::SUCCESS;
  }
};

/// Gives outputs, of which one is none.
struct Out : SyncActionNode {
  using SyncActionNode::SyncActionNode;
  static PortsList providedPorts() { return {OutputPort<int>("i"), OutputPort<double>("d"), OutputPort<std::string>("s")}; }
  NodeStatus tick() override {
    setOutput("i", 5);
    setOutput("d", 2.25);
    setOutput("s", "it's\n€");
    return setOutput("other", 1) || setOutput("s", std::string(4097, 'x')) ? NodeStatus::FAILURE : NodeStatus::SUCCESS;
  }
};

/// Runs in a thread for some time.
struct Thread : ThreadedAction {
  using ThreadedAction::ThreadedAction;
  NodeStatus tick() override {
    std::this_thread::sleep_for(Time(20));
    std::cout << "thread is over\n";
    return NodeStatus::SUCCESS;
  }
};

/// Kills the engine in its first cycle, where the case wants that.
void kill_engine() {
  std::ifstream children("/proc/self/task/" + std::to_string(getpid()) + "/children");
  for (pid_t child; children >> child;)
    kill(child, SIGKILL);
}

int main(int, char **words) {
  const std::string name = words[1];
  int asked = 0;
  BehaviorTreeFactory factory;
  factory.registerSimpleAction("One", [](TreeNode &self) {
    std::cout << self.registrationName() << "\n";
    return NodeStatus::SUCCESS;
  });
  factory.registerSimpleCondition("Once", [&](TreeNode &) { return asked++ == 0 ? NodeStatus::SUCCESS : NodeStatus::FAILURE; });
  factory.registerSimpleAction("Grip", [](TreeNode &) -> NodeStatus { throw std::runtime_error("it slips"); });
  factory.registerStatefulAction<Two>("Two");
  factory.registerNodeType<Three>("Three");
  factory.registerNodeType<Long>("Long");
  factory.registerNodeType<In>("In");
  factory.registerNodeType<Out>("Out");
  factory.registerNodeType<Thread>("Thread");

  Options options;
  Time time{0};
  options.engine = {words[2]};
  options.record = words[4];
  options.trace = words[5];
  options.clock = [&] { return time; };
  options.sleep = [&](Time passed) {
    time += passed;
    std::this_thread::sleep_for(Time(1));
    if (name == "lost")
      kill_engine();
  };
  try {
    Tree tree = factory.createTreeFromFile(words[3], options);
    std::cout << toStr(tree.tickWhileRunning(Time(100))) << "\n";
  } catch (const LeafError &fault) {
    std::cout << fault.what() << "\n";
    try {
      std::rethrow_if_nested(fault);
    } catch (const std::exception &inner) {
      std::cout << "nested " << inner.what() << "\n";
    }
  } catch (const RuntimeError &fault) {
    std::cout << fault.what() << "\n";
  }
}
