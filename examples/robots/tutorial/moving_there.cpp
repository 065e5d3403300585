/// A robot moves to a goal and says so, in the shape of the tutorials of BehaviorTree.CPP 4: ports, one of them with a type of its
/// own, an action that lasts, a subtree with its ports, and scripts. moving_there.cpp is for that library, and moving.cpp for this.
#include <iostream>

#include "behaviortree_cpp/bt_factory.h"

using namespace BT;

static const char *xml_text = R"(
<root BTCPP_format="4">
  <BehaviorTree ID="MainTree">
    <Sequence>
      <Script code="word := 'I am lost'; attempts := 3"/>
      <CalculateGoal goal="{goal}"/>
      <SaySomething message="I set off"/>
      <Fallback>
        <RetryUntilSuccessful num_attempts="{attempts}">
          <SubTree ID="MoveRobot" target="{goal}" said="{word}"/>
        </RetryUntilSuccessful>
        <AlwaysSuccess/>
      </Fallback>
      <SaySomething message="{word}"/>
    </Sequence>
  </BehaviorTree>

  <BehaviorTree ID="MoveRobot">
    <ReactiveSequence>
      <BatteryOk/>
      <Sequence>
        <MoveBase goal="{target}"/>
        <Script code="said := 'I am there'"/>
      </Sequence>
    </ReactiveSequence>
  </BehaviorTree>
</root>)";

/// A place in metres.
struct Position2D {
  double x, y;
};

namespace BT {

template <> inline Position2D convertFromString(StringView text) {
  const auto parts = splitString(text, ';');
  if (parts.size() != 2)
    throw RuntimeError("no place: ", std::string(text));
  return {convertFromString<double>(parts[0]), convertFromString<double>(parts[1])};
}

} // namespace BT

/// Gives the goal out.
class CalculateGoal : public SyncActionNode {
public:
  CalculateGoal(const std::string &name, const NodeConfig &config) : SyncActionNode(name, config) {}
  static PortsList providedPorts() { return {OutputPort<Position2D>("goal")}; }

  NodeStatus tick() override {
    setOutput("goal", Position2D{1.5, 2.25});
    return NodeStatus::SUCCESS;
  }
};

/// Says what its input holds.
class SaySomething : public SyncActionNode {
public:
  SaySomething(const std::string &name, const NodeConfig &config) : SyncActionNode(name, config) {}
  static PortsList providedPorts() { return {InputPort<std::string>("message")}; }

  NodeStatus tick() override {
    const auto message = getInput<std::string>("message");
    if (!message)
      throw RuntimeError("nothing to say: ", message.error());
    std::cout << "The robot says: " << message.value() << std::endl;
    return NodeStatus::SUCCESS;
  }
};

/// Moves to a goal in three steps. It slips before its first one.
class MoveBase : public StatefulActionNode {
public:
  MoveBase(const std::string &name, const NodeConfig &config) : StatefulActionNode(name, config) {}
  static PortsList providedPorts() { return {InputPort<Position2D>("goal")}; }

  NodeStatus onStart() override {
    Position2D goal{};
    if (!getInput("goal", goal))
      throw RuntimeError("no goal");
    std::cout << "It moves to " << goal.x << ", " << goal.y << std::endl;
    steps = 3;
    return NodeStatus::RUNNING;
  }

  NodeStatus onRunning() override {
    if (!has_slipped) {
      has_slipped = true;
      std::cout << "It slips" << std::endl;
      return NodeStatus::FAILURE;
    }
    return --steps > 0 ? NodeStatus::RUNNING : NodeStatus::SUCCESS;
  }

  void onHalted() override { std::cout << "It stops" << std::endl; }

private:
  int steps = 0;
  bool has_slipped = false;
};

int main() {
  BehaviorTreeFactory factory;
  factory.registerSimpleCondition("BatteryOk", [](TreeNode &) { return NodeStatus::SUCCESS; });
  factory.registerNodeType<CalculateGoal>("CalculateGoal");
  factory.registerNodeType<SaySomething>("SaySomething");
  factory.registerNodeType<MoveBase>("MoveBase");

  factory.registerBehaviorTreeFromText(xml_text);
  auto tree = factory.createTree("MainTree");
  const NodeStatus status = tree.tickWhileRunning();
  std::cout << "The tree ends with " << toStr(status) << std::endl;
}
