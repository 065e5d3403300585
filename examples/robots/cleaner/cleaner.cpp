/// Cleans a floor, as cleaner.py does: the tree of cleaner.xml drives the robot of simulator.py, 20 times a second. The simulator
/// is a process of its own, to which the robot's program writes what the wheels do, and which tells what the robot senses. The
/// engine is a process too; compiled with -DIN_PROCESS it is the library.
///
/// usage: cleaner TREE SIMULATOR [RECORD [TRACE]]
#include <cmath>
#include <cstdio>

#ifdef IN_PROCESS
#include "bt.hpp"
#endif
#include "bt_robot.hpp"

using namespace BT;
using Time = std::chrono::milliseconds;

/// Millimetres a second of the wheels, while driving and while turning on the spot.
constexpr double FAST = 300, SLOW = 150;
/// Millimetres to a place at which the robot is there.
constexpr double THERE = 40;
/// When the battery is to be charged, and when it is full.
constexpr double LOW = 30, FULL = 99.9;

/// The robot on its floor, as it senses it.
class Floor {
public:
  explicit Floor(const std::string &simulator) : simulator({"python3", simulator}) {}

  void drive(double to_left, double to_right) { left = to_left, right = to_right; }

  /// Lets time pass.
  void step(Time passed) {
    std::ostringstream line;
    line.precision(17);
    line << left << ' ' << right << ' ' << suction << ' ' << static_cast<double>(passed.count()) / 1000 << '\n';
    simulator.write(line.str());
    std::istringstream sensed(simulator.line(Time(5000)).value());
    sensed >> x >> y >> heading >> battery >> bumped;
    dirt.clear();
    for (double spot_x, spot_y; sensed >> spot_x >> spot_y;)
      dirt.emplace_back(spot_x, spot_y);
    time += passed;
    bumps += bumped;
  }

  double distance(double to_x, double to_y) const { return std::hypot(to_x - x, to_y - y); }

  /// By what angle to turn to the left for a place, from minus half a turn to half a turn.
  double bearing(double to_x, double to_y) const {
    const double angle = std::atan2(to_y - y, to_x - x) - heading;
    return std::atan2(std::sin(angle), std::cos(angle));
  }

  Time time{0};
  double x = 0, y = 0, heading = 0, battery = 100;
  std::vector<std::pair<double, double>> dirt;
  int bumps = 0;
  bool bumped = false, suction = false;

private:
  robot::Process simulator;
  double left = 0, right = 0;
};

/// A move: it drives until it is over, and the bumper ends it as a failure. However it ends, the wheels stand.
class Move : public StatefulActionNode {
public:
  Move(const std::string &name, const NodeConfig &config, Floor *floor) : StatefulActionNode(name, config), floor(*floor) {}

  NodeStatus onStart() override {
    begin_move();
    return go_on();
  }
  NodeStatus onRunning() override {
    if (!floor.bumped)
      return go_on();
    onHalted();
    return NodeStatus::FAILURE;
  }
  void onHalted() override { floor.drive(0, 0); }

protected:
  virtual void begin_move() = 0;
  virtual bool is_over() const = 0;
  virtual std::pair<double, double> wheels() const = 0;
  Floor &floor;

private:
  NodeStatus go_on() {
    if (is_over()) {
      onHalted();
      return NodeStatus::SUCCESS;
    }
    const auto [left, right] = wheels();
    floor.drive(left, right);
    return NodeStatus::RUNNING;
  }
};

/// Drives to a place.
class DriveTo : public Move {
public:
  using Move::Move;
  static PortsList providedPorts() { return {InputPort<double>("x"), InputPort<double>("y")}; }

private:
  void begin_move() override {
    x = getInput<double>("x").value();
    y = getInput<double>("y").value();
  }
  bool is_over() const override { return floor.distance(x, y) <= THERE; }
  std::pair<double, double> wheels() const override {
    const double bearing = floor.bearing(x, y);
    if (std::abs(bearing) > 0.4)
      return bearing > 0 ? std::pair(-SLOW, SLOW) : std::pair(SLOW, -SLOW);
    return {FAST - 200 * bearing, FAST + 200 * bearing};
  }
  double x = 0, y = 0;
};

/// Drives a distance straight ahead, or back.
class Straight : public Move {
public:
  Straight(const std::string &name, const NodeConfig &config, Floor *floor, double speed) : Move(name, config, floor), speed(speed) {}
  static PortsList providedPorts() { return {InputPort<double>("distance")}; }

private:
  void begin_move() override {
    distance = getInput<double>("distance").value();
    x = floor.x;
    y = floor.y;
  }
  bool is_over() const override { return floor.distance(x, y) >= distance; }
  std::pair<double, double> wheels() const override { return {speed, speed}; }
  double speed, distance = 0, x = 0, y = 0;
};

/// Turns to the left on the spot.
class Turn : public Move {
public:
  using Move::Move;
  static PortsList providedPorts() { return {InputPort<double>("degrees")}; }

private:
  void begin_move() override { heading = floor.heading + getInput<double>("degrees").value() * std::acos(-1.0) / 180; }
  bool is_over() const override { return floor.heading >= heading; }
  std::pair<double, double> wheels() const override { return {-SLOW, SLOW}; }
  double heading = 0;
};

/// Sucks until there is a spot less.
class Vacuum : public StatefulActionNode {
public:
  Vacuum(const std::string &name, const NodeConfig &config, Floor *floor) : StatefulActionNode(name, config), floor(*floor) {}

  NodeStatus onStart() override {
    floor.suction = true;
    left = floor.dirt.size();
    return NodeStatus::RUNNING;
  }
  NodeStatus onRunning() override {
    if (floor.dirt.size() == left)
      return NodeStatus::RUNNING;
    onHalted();
    return NodeStatus::SUCCESS;
  }
  void onHalted() override { floor.suction = false; }

private:
  Floor &floor;
  std::size_t left = 0;
};

/// Charges until the battery is full, after which it is no longer low.
class Charge : public StatefulActionNode {
public:
  Charge(const std::string &name, const NodeConfig &config, Floor *floor, bool *is_low) : StatefulActionNode(name, config), floor(*floor), is_low(*is_low) {}

  NodeStatus onStart() override { return onRunning(); }
  NodeStatus onRunning() override {
    if (floor.battery < FULL)
      return NodeStatus::RUNNING;
    is_low = false;
    return NodeStatus::SUCCESS;
  }
  void onHalted() override {}

private:
  Floor &floor;
  bool &is_low;
};

NodeStatus when(bool holds) { return holds ? NodeStatus::SUCCESS : NodeStatus::FAILURE; }

/// Gives the nearest spot out.
NodeStatus find_dirt(const Floor &floor, TreeNode &self) {
  if (floor.dirt.empty())
    return NodeStatus::FAILURE;
  const auto near = std::min_element(floor.dirt.begin(), floor.dirt.end(), [&](const auto &one, const auto &other) {
    return floor.distance(one.first, one.second) < floor.distance(other.first, other.second);
  });
  self.setOutput("x", static_cast<int>(near->first));
  self.setOutput("y", static_cast<int>(near->second));
  return NodeStatus::SUCCESS;
}

int main(int count, char **words) {
  if (count < 3) {
    std::puts("usage: cleaner TREE SIMULATOR [RECORD [TRACE]]");
    return 2;
  }
  Floor floor(words[2]);
  bool is_low = false;
  floor.step(Time(0));

  BehaviorTreeFactory factory;
  factory.registerSimpleCondition("BatteryOk", [&](TreeNode &) { return when(!(is_low = is_low || floor.battery < LOW)); });
  factory.registerSimpleCondition("FloorIsClean", [&](TreeNode &) { return when(floor.dirt.empty()); });
  factory.registerSimpleAction("FindDirt", [&](TreeNode &self) { return find_dirt(floor, self); }, {OutputPort<int>("x"), OutputPort<int>("y")});
  factory.registerNodeType<DriveTo>("DriveTo", &floor);
  factory.registerNodeType<Straight>("BackUp", &floor, -SLOW);
  factory.registerNodeType<Straight>("DriveOn", &floor, FAST);
  factory.registerNodeType<Turn>("Turn", &floor);
  factory.registerNodeType<Vacuum>("Vacuum", &floor);
  factory.registerNodeType<Charge>("Charge", &floor, &is_low);

  Options options;
  options.record = count > 3 ? words[3] : "";
  options.trace = count > 4 ? words[4] : "";
  options.clock = [&] { return floor.time; };
  options.sleep = [&](Time passed) { floor.step(passed); };
  Tree tree = factory.createTreeFromFile(words[1], options);
  const NodeStatus status = tree.tickWhileRunning(Time(50));
  std::printf("%s after %.1f s: %zu spots left, %d bumps, battery %.0f\n", toStr(status).c_str(), static_cast<double>(floor.time.count()) / 1000,
              floor.dirt.size(), floor.bumps, floor.battery);
  return status == NodeStatus::SUCCESS ? 0 : 1;
}
