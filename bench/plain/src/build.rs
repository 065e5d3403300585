//! From elements to a tree: its nodes in pre-order, each SubTree with its tree in place, and the slots of its names.
//!
//! What an element says is read once, however often its tree is opened. Names are numbered in each tree, and each scope
//! has a table from these numbers to slots.

use crate::elements::{Attribute, Elements, NONE};
use crate::manifest::Manifest;
use crate::output::{quoted, Refusal};
use crate::scan::{canonical, is_identifier, Canonical, Map, Set};
use crate::scripts::{Code, Codes, Form, ScriptFault, LONGEST};

const MOST_NODES: usize = 4_096;
const DEEPEST: usize = 256;
const MOST_SCOPES: usize = 256;
const MOST_SLOTS: usize = 4_096;
const MOST_WORK: u64 = 100_000;

/// What a node does.
#[derive(Clone, Copy, PartialEq, Debug)]
#[allow(missing_docs)]
pub enum Kind {
    Sequence,
    SequenceWithMemory,
    ReactiveSequence,
    Fallback,
    ReactiveFallback,
    Parallel,
    Switch(u8),
    IfThenElse,
    WhileDoElse,
    RecoveryNode,
    PipelineSequence,
    RoundRobin,
    Inverter,
    ForceSuccess,
    ForceFailure,
    KeepRunningUntilFailure,
    Retry,
    Repeat,
    Timeout,
    Delay,
    RunOnce,
    RateController,
    SubTree,
    AlwaysSuccess,
    AlwaysFailure,
    Script,
    ScriptCondition,
    Leaf,
}

/// What a port of a built-in node takes.
#[derive(Clone, Copy)]
enum Takes {
    /// A number from the least to the greatest, or -1 where it says so.
    Number(i64, i64, bool),
    Rate,
    Truth,
    Any,
}

struct PortRule {
    name: &'static str,
    takes: Takes,
    /// None where the port is required.
    default: Option<&'static str>,
}

const fn required(name: &'static str, takes: Takes) -> PortRule {
    PortRule { name, takes, default: None }
}

const fn optional(name: &'static str, takes: Takes, default: &'static str) -> PortRule {
    PortRule { name, takes, default: Some(default) }
}

const ANY_NUMBER: Takes = Takes::Number(i64::MIN, i64::MAX, false);
const TURNS: Takes = Takes::Number(1, 1_000, true);
const MILLISECONDS: Takes = Takes::Number(0, 4_294_967_295, false);
static PARALLEL: [PortRule; 2] = [optional("success_count", ANY_NUMBER, "-1"), optional("failure_count", ANY_NUMBER, "1")];
static SWITCH: [PortRule; 7] = [
    required("variable", Takes::Any),
    required("case_1", Takes::Any),
    required("case_2", Takes::Any),
    required("case_3", Takes::Any),
    required("case_4", Takes::Any),
    required("case_5", Takes::Any),
    required("case_6", Takes::Any),
];
static RECOVERY: [PortRule; 1] = [optional("number_of_retries", Takes::Number(0, 1_000, false), "1")];
static RETRY: [PortRule; 1] = [required("num_attempts", TURNS)];
static REPEAT: [PortRule; 1] = [required("num_cycles", TURNS)];
static TIMEOUT: [PortRule; 1] = [required("msec", MILLISECONDS)];
static DELAY: [PortRule; 1] = [required("delay_msec", MILLISECONDS)];
static RUN_ONCE: [PortRule; 1] = [optional("then_skip", Takes::Truth, "true")];
static RATE: [PortRule; 1] = [optional("hz", Takes::Rate, "10")];

/// What the file says of the nodes of a kind.
#[derive(Clone, Copy)]
struct NodeForm {
    kind: Kind,
    /// The explicit elements that may name it.
    elements: &'static [&'static str],
    /// How few and how many child elements it may have.
    children: (u32, u32),
    ports: &'static [PortRule],
}

const MANY: u32 = u32::MAX;
const SUB_TREE: NodeForm = NodeForm { kind: Kind::SubTree, elements: &[], children: (0, 0), ports: &[] };
const LEAF: NodeForm = NodeForm { kind: Kind::Leaf, elements: &[], children: (0, 0), ports: &[] };

const fn control(kind: Kind, least: u32, most: u32, ports: &'static [PortRule]) -> NodeForm {
    NodeForm { kind, elements: &["Control"], children: (least, most), ports }
}

const fn decorator(kind: Kind, ports: &'static [PortRule]) -> NodeForm {
    NodeForm { kind, elements: &["Decorator"], children: (1, 1), ports }
}

const fn lone(kind: Kind) -> NodeForm {
    NodeForm { kind, elements: &["Action", "Condition"], children: (0, 0), ports: &[] }
}

fn switch(cases: u8) -> NodeForm {
    let count = u32::from(cases) + 1;
    control(Kind::Switch(cases), count, count, &SWITCH[..count as usize])
}

impl NodeForm {
    /// That of the built-in node of this ID.
    fn named(id: &str) -> Option<NodeForm> {
        Some(match id {
            "Sequence" => control(Kind::Sequence, 1, MANY, &[]),
            "SequenceWithMemory" => control(Kind::SequenceWithMemory, 1, MANY, &[]),
            "ReactiveSequence" => control(Kind::ReactiveSequence, 1, MANY, &[]),
            "Fallback" => control(Kind::Fallback, 1, MANY, &[]),
            "ReactiveFallback" => control(Kind::ReactiveFallback, 1, MANY, &[]),
            "Parallel" => control(Kind::Parallel, 1, MANY, &PARALLEL),
            "Switch2" => switch(2),
            "Switch3" => switch(3),
            "Switch4" => switch(4),
            "Switch5" => switch(5),
            "Switch6" => switch(6),
            "IfThenElse" => control(Kind::IfThenElse, 2, 3, &[]),
            "WhileDoElse" => control(Kind::WhileDoElse, 2, 3, &[]),
            "RecoveryNode" => control(Kind::RecoveryNode, 2, 2, &RECOVERY),
            "PipelineSequence" => control(Kind::PipelineSequence, 1, MANY, &[]),
            "RoundRobin" => control(Kind::RoundRobin, 1, MANY, &[]),
            "Inverter" => decorator(Kind::Inverter, &[]),
            "ForceSuccess" => decorator(Kind::ForceSuccess, &[]),
            "ForceFailure" => decorator(Kind::ForceFailure, &[]),
            "KeepRunningUntilFailure" => decorator(Kind::KeepRunningUntilFailure, &[]),
            "RetryUntilSuccessful" => decorator(Kind::Retry, &RETRY),
            "Repeat" => decorator(Kind::Repeat, &REPEAT),
            "Timeout" => decorator(Kind::Timeout, &TIMEOUT),
            "Delay" => decorator(Kind::Delay, &DELAY),
            "RunOnce" => decorator(Kind::RunOnce, &RUN_ONCE),
            "RateController" => decorator(Kind::RateController, &RATE),
            "AlwaysSuccess" => lone(Kind::AlwaysSuccess),
            "AlwaysFailure" => lone(Kind::AlwaysFailure),
            "Script" => lone(Kind::Script),
            "ScriptCondition" => lone(Kind::ScriptCondition),
            _ => return None,
        })
    }

    /// Whether the node's element may have so many child elements.
    fn takes_children(&self, count: u32) -> bool {
        (self.children.0..=self.children.1).contains(&count)
    }

    fn has_code(&self) -> bool {
        matches!(self.kind, Kind::Script | Kind::ScriptCondition)
    }
}

/// The thousandths of a hertz that a literal says, where it is a rate: digits without a 0 before another one, and at most a
/// point and one to three digits after it.
pub fn rate(text: &str) -> Option<u64> {
    let (whole, part) = text.split_once('.').unwrap_or((text, "0"));
    let are_digits = [whole, part].iter().all(|it| it.bytes().all(|byte| byte.is_ascii_digit()));
    let is_whole = matches!(whole.len(), 1..=4) && (whole == "0" || !whole.starts_with('0'));
    if !are_digits || !is_whole || !matches!(part.len(), 1..=3) {
        return None;
    }
    let thousandths = whole.parse::<u64>().ok()? * 1_000 + format!("{part:0<3}").parse::<u64>().ok()?;
    (1..=1_000_000).contains(&thousandths).then_some(thousandths)
}

/// Whether an ID is that of a built-in node.
pub fn is_built_in(id: &str) -> bool {
    NodeForm::named(id).is_some()
}

/// Whether no row has this ID, and no leaf is printed by it alone.
pub fn is_reserved(id: &str) -> bool {
    is_built_in(id)
        || matches!(id, "Action" | "Condition" | "Control" | "Decorator")
        || matches!(id, "SubTree" | "BehaviorTree" | "TreeNodesModel" | "root")
}

/// What a port is given.
#[derive(Clone, Copy)]
pub enum Given<'e> {
    /// A literal that spells a number.
    Int(i64),
    /// Any other literal.
    Text(&'e str),
    /// A key, with its number among the names of the tree in which the node stands.
    Key(&'e str, u32),
}

/// A port of a node.
#[derive(Clone, Copy)]
pub struct Port<'e> {
    /// Its name.
    pub name: &'e str,
    /// What it is given.
    pub given: Given<'e>,
}

/// The names of the guards' attributes, in their order.
pub const GUARDS: [&str; 8] = ["_failureIf", "_successIf", "_skipIf", "_while", "_onSuccess", "_onFailure", "_post", "_onHalted"];

/// The guards of a node.
#[derive(Clone, Copy, Default)]
pub struct Guards<'e> {
    /// Each guard's script.
    pub codes: [Option<Code>; 8],
    /// Each as it is written.
    pub texts: [Option<&'e str>; 8],
}

/// What an element says of each of its nodes.
#[derive(Clone, Copy)]
pub struct Spec<'e> {
    /// Its kind.
    pub kind: Kind,
    /// Its ID.
    pub id: &'e str,
    /// Its name.
    pub name: &'e str,
    /// Whether all keys of a SubTree are mapped.
    pub autoremap: bool,
    /// The code of a Script or ScriptCondition, and its text.
    pub code: Option<(Code, &'e str)>,
    /// Where its guards are, if it has any.
    pub guards: Option<u32>,
    ports: (u32, u32),
    /// Of a built-in node: where the settings by the order of its rules begin. Of a SubTree: where its mappings do.
    settings: u32,
    /// The tree that a SubTree opens.
    tree: u32,
}

/// A node.
#[derive(Clone, Copy)]
pub struct Node {
    /// What it does.
    pub kind: Kind,
    /// Where its guards are, if it has any.
    pub guards: Option<u32>,
    /// Where the table of its scope begins.
    pub base: u32,
    /// Where its children begin in the list of all.
    pub children: u32,
    /// How many there are.
    pub count: u32,
    /// Where its settings are; of a leaf the number that the join gives it.
    pub detail: u32,
    /// Its code.
    pub code: Option<Code>,
    /// What its element says.
    pub spec: u32,
}

/// A scope: that of the main tree, or of a SubTree node.
struct Scope {
    /// The uid of the SubTree node, or 0.
    uid: u32,
    parent: u32,
    /// What the SubTree's element says; of the main scope nothing.
    spec: u32,
    tree: u32,
    /// Where its table begins.
    base: u32,
}

/// A cell of a blackboard.
pub struct Cell<'e> {
    /// The uid of the SubTree node that owns it, or 0.
    pub scope: u32,
    /// Its key.
    pub key: &'e str,
    /// The literal that it holds at the beginning.
    pub literal: Option<Given<'e>>,
}

/// A tree of the file.
struct Template {
    id_element: u32,
    /// The keys that it names, in the order in which they were met.
    names: Vec<u32>,
    numbers: Map<u32, u32>,
    is_open: bool,
    was_opened: bool,
}

/// A tree that was read.
pub struct Tree<'e> {
    /// The elements that it was read from.
    pub elements: &'e Elements<'e>,
    /// All nodes in pre-order; the uid of the first is 1.
    pub nodes: Vec<Node>,
    /// The children of all nodes.
    pub children: Vec<u32>,
    /// What elements say.
    pub specs: Vec<Spec<'e>>,
    /// What each element says, where it was read.
    pub spec_of: Vec<u32>,
    /// The ports of all elements.
    pub ports: Vec<Port<'e>>,
    /// The settings of built-in nodes.
    pub settings: Vec<Given<'e>>,
    /// The guards of all elements that have any.
    pub guards: Vec<Guards<'e>>,
    /// All scripts.
    pub codes: Codes,
    /// The tables of all scopes: from the number of a name to its slot.
    pub slots: Vec<u32>,
    /// The cells in the order of the slots.
    pub cells: Vec<Cell<'e>>,
    /// The elements of the trees that are opened, in the order of their first openings.
    pub opened: Vec<u32>,
    /// How many visits a tick makes at most.
    pub work: u64,
}

impl<'e> Tree<'e> {
    /// The ports of a node, in the order of the file and then those that took a default.
    pub fn ports(&self, spec: &Spec) -> &[Port<'e>] {
        &self.ports[spec.ports.0 as usize..spec.ports.1 as usize]
    }
}

/// Reads the tree.
pub fn read<'e>(elements: &'e Elements<'e>, manifest: &'e Manifest<'e>, main: Option<&'e str>) -> Result<Tree<'e>, Refusal> {
    let is_old = version_is_old(elements)?;
    let mut trees = Vec::new();
    let mut tree_of = Map::default();
    for element in elements.children(0).filter(|&it| elements.get(it).name == "BehaviorTree") {
        let id = elements.attribute(element, "ID").unwrap_or("");
        if tree_of.insert(id, trees.len() as u32).is_some() {
            return Err(Refusal::tree(format!("DoubleTree {}", quoted(id.as_bytes()))));
        }
        trees.push(Template { id_element: element, names: Vec::new(), numbers: Map::default(), is_open: false, was_opened: false });
    }
    let named = main.or_else(|| elements.attribute(0, "main_tree_to_execute"));
    let main = match named {
        Some(id) => *tree_of.get(id).ok_or_else(|| no_tree(id))?,
        None if trees.len() == 1 => 0,
        None => return Err(Refusal::tree("NoMain")),
    };
    let element = trees[main as usize].id_element;
    if elements.get(element).count != 1 {
        return Err(Refusal::tree("ChildCount 0"));
    }
    let tree = Tree {
        elements,
        nodes: Vec::new(),
        children: Vec::new(),
        specs: Vec::new(),
        spec_of: vec![NONE; elements.len()],
        ports: Vec::new(),
        settings: Vec::new(),
        guards: Vec::new(),
        codes: Codes::default(),
        slots: Vec::new(),
        cells: Vec::new(),
        opened: Vec::new(),
        work: 0,
    };
    let mut builder = Builder { manifest, is_old, tree_of, trees, keys: Keys::default(), scopes: Vec::new(), mappings: Vec::new(), tree };
    builder.open(main, NONE, NONE, 0);
    builder.tree.work = builder.node(elements.first_child(element), 1, 0)?;
    builder.close(main);
    builder.resolve()?;
    if builder.tree.work > MOST_WORK {
        return Err(Refusal::tree("TooMuchWork"));
    }
    Ok(builder.tree)
}

/// Whether the file is of version 3. Its document element and the children of that are tested first.
fn version_is_old(elements: &Elements) -> Result<bool, Refusal> {
    let is_stray = |it: &u32| !matches!(elements.get(*it).name, "BehaviorTree" | "TreeNodesModel");
    let stray = if elements.get(0).name == "root" { elements.children(0).find(is_stray) } else { Some(0) };
    if let Some(element) = stray {
        return Err(Refusal::tree(format!("NotRoot {}", elements.get(element).place)));
    }
    match elements.attribute(0, "BTCPP_format") {
        Some("4") => Ok(false),
        Some("3") | None => Ok(true),
        _ => Err(Refusal::tree("Format")),
    }
}

fn no_tree(id: &str) -> Refusal {
    Refusal::tree(format!("NoTree {}", quoted(id.as_bytes())))
}

/// The keys of all trees, numbered.
#[derive(Default)]
struct Keys<'e> {
    texts: Vec<&'e str>,
    numbers: Map<&'e str, u32>,
}

impl<'e> Keys<'e> {
    fn number(&mut self, text: &'e str) -> u32 {
        *self.numbers.entry(text).or_insert_with(|| {
            self.texts.push(text);
            self.texts.len() as u32 - 1
        })
    }
}

impl Template {
    fn number(&mut self, key: u32) -> u32 {
        *self.numbers.entry(key).or_insert_with(|| {
            self.names.push(key);
            self.names.len() as u32 - 1
        })
    }
}

/// What a key of a SubTree's scope is.
#[derive(Clone, Copy)]
enum Target {
    /// A cell of its own, with a literal.
    Own,
    /// The cell of this name of the tree in which the SubTree stands.
    Above(u32),
}

/// The keys of a SubTree's ports, sorted by their numbers, with what they are and their ports.
type Mapping = Vec<(u32, Target, u32)>;

struct Builder<'e> {
    manifest: &'e Manifest<'e>,
    is_old: bool,
    tree_of: Map<&'e str, u32>,
    trees: Vec<Template>,
    keys: Keys<'e>,
    scopes: Vec<Scope>,
    mappings: Vec<Mapping>,
    tree: Tree<'e>,
}

/// What the attributes of an element are.
struct Sorted<'e> {
    name: &'e str,
    is_unknown: bool,
    is_old: bool,
    is_bad: bool,
    autoremap: bool,
    code: Option<&'e str>,
    guards: [Option<&'e str>; 8],
}

impl<'e> Builder<'e> {
    /// Opens a tree in a new scope.
    fn open(&mut self, tree: u32, spec: u32, parent: u32, uid: u32) {
        let template = &mut self.trees[tree as usize];
        template.is_open = true;
        if !std::mem::replace(&mut template.was_opened, true) {
            self.tree.opened.push(template.id_element);
        }
        self.scopes.push(Scope { uid, parent, spec, tree, base: 0 });
    }

    fn close(&mut self, tree: u32) {
        self.trees[tree as usize].is_open = false;
    }

    /// Reads a node and all below it, and answers its work.
    fn node(&mut self, element: u32, depth: usize, scope: u32) -> Result<u64, Refusal> {
        let place = self.tree.nodes.len();
        if place == MOST_NODES {
            return Err(Refusal::tree("TooManyNodes"));
        }
        let uid = place as u32 + 1;
        if depth > DEEPEST {
            return Err(fault("TooDeep", uid));
        }
        let number = match self.tree.spec_of[element as usize] {
            NONE => self.spec(element, uid, scope)?,
            known => {
                let spec = &self.tree.specs[known as usize];
                if spec.kind == Kind::SubTree {
                    self.may_open(spec.tree, spec.id)?;
                }
                known
            }
        };
        let spec = self.tree.specs[number as usize];
        let children = self.tree.children.len() as u32;
        let count = if spec.kind == Kind::SubTree { 1 } else { self.tree.elements.get(element).count };
        self.tree.nodes.push(Node {
            kind: spec.kind,
            guards: spec.guards,
            base: scope,
            children,
            count,
            detail: spec.settings,
            code: spec.code.map(|it| it.0),
            spec: number,
        });
        self.tree.children.resize((children + count) as usize, 0);
        if spec.kind == Kind::SubTree {
            let root = self.tree.elements.first_child(self.trees[spec.tree as usize].id_element);
            self.open(spec.tree, number, scope, uid);
            let inner = self.scopes.len() as u32 - 1;
            self.tree.children[children as usize] = self.tree.nodes.len() as u32;
            let work = self.node(root, depth + 1, inner)?;
            self.close(spec.tree);
            return Ok(work.saturating_add(1));
        }
        let elements = self.tree.elements;
        let mut work = 0u64;
        for (child, at) in elements.children(element).zip(children as usize..) {
            self.tree.children[at] = self.tree.nodes.len() as u32;
            let turns = self.turns(&spec, at - children as usize);
            work = work.saturating_add(self.node(child, depth + 1, scope)?.saturating_mul(turns));
        }
        Ok(work.saturating_add(1))
    }

    /// How often a node visits this child at most in one visit.
    fn turns(&self, spec: &Spec, child: usize) -> u64 {
        if !matches!(spec.kind, Kind::Retry | Kind::Repeat | Kind::RecoveryNode) {
            return 1;
        }
        let turns = match self.tree.settings[spec.settings as usize] {
            Given::Int(turns) => u64::try_from(turns).unwrap_or(1),
            _ => 1_000,
        };
        if spec.kind == Kind::RecoveryNode && child == 0 {
            turns + 1
        } else {
            turns
        }
    }

    /// Whether a tree may be opened once more.
    fn may_open(&self, tree: u32, id: &str) -> Result<(), Refusal> {
        if self.trees[tree as usize].is_open {
            return Err(Refusal::tree(format!("Recursive {}", quoted(id.as_bytes()))));
        }
        if self.scopes.len() == MOST_SCOPES {
            return Err(Refusal::tree("TooManyScopes"));
        }
        Ok(())
    }

    /// The form and the ID of an element's node, or none where it is no node.
    fn head(&self, element: u32) -> Option<(NodeForm, &'e str)> {
        let elements = self.tree.elements;
        let name = elements.get(element).name;
        if name == "SubTree" || (self.is_old && name == "SubTreePlus") {
            return Some((SUB_TREE, elements.attribute(element, "ID").unwrap_or("")));
        }
        let is_explicit = matches!(name, "Action" | "Condition" | "Control" | "Decorator");
        let written = if is_explicit { elements.attribute(element, "ID")? } else { name };
        let id = if self.is_old && written == "SequenceStar" { "SequenceWithMemory" } else { written };
        if let Some(form) = NodeForm::named(id) {
            return (!is_explicit || form.elements.contains(&name)).then_some((form, id));
        }
        let is_leaf = match name {
            "Control" | "Decorator" | "BehaviorTree" | "TreeNodesModel" | "root" => false,
            _ => elements.get(element).count == 0,
        };
        is_leaf.then_some((LEAF, id))
    }

    /// Reads what an element says when its first node is reached.
    fn spec(&mut self, element: u32, uid: u32, scope: u32) -> Result<u32, Refusal> {
        let elements = self.tree.elements;
        let (form, id) = self.head(element).ok_or_else(|| fault("UnknownNode", uid))?;
        let kind = form.kind;
        let mut tree = NONE;
        let mut has_children = form.takes_children(elements.get(element).count);
        if kind == Kind::SubTree {
            tree = *self.tree_of.get(id).ok_or_else(|| no_tree(id))?;
            self.may_open(tree, id)?;
            has_children &= elements.get(self.trees[tree as usize].id_element).count == 1;
        }
        if !has_children {
            return Err(fault("ChildCount", uid));
        }
        let within = self.scopes[scope as usize].tree;
        let from = self.tree.ports.len() as u32;
        let mut sorted = self.sort(element, &form, id, within);
        if sorted.is_unknown {
            return Err(fault("UnknownPort", uid));
        }
        if sorted.is_old {
            return Err(fault("OldSubTree", uid));
        }
        let settings = self.fill_in(&mut sorted, &form, id, from, within);
        if sorted.is_bad {
            return Err(fault("BadLiteral", uid));
        }
        let code = match sorted.code {
            Some(text) => Some((self.script(text, uid, within)?, text)),
            None => None,
        };
        let guards = self.guards(&sorted, uid, within)?;
        let ports = (from, self.tree.ports.len() as u32);
        let autoremap = sorted.autoremap;
        let spec = Spec { kind, id, name: sorted.name, autoremap, code, guards, ports, settings, tree };
        let number = self.tree.specs.len() as u32;
        self.tree.specs.push(spec);
        self.tree.spec_of[element as usize] = number;
        Ok(number)
    }

    /// Sorts the attributes of an element, and appends its ports to those of all.
    fn sort(&mut self, element: u32, form: &NodeForm, id: &'e str, tree: u32) -> Sorted<'e> {
        let kind = form.kind;
        let elements = self.tree.elements;
        let element_name = elements.get(element).name;
        let is_old_subtree = self.is_old && element_name == "SubTree";
        let is_plus = self.is_old && element_name == "SubTreePlus";
        let model = if kind == Kind::Leaf { self.manifest.get(id) } else { None };
        let mut sorted =
            Sorted { name: id, is_unknown: false, is_old: false, is_bad: false, autoremap: false, code: None, guards: [None; 8] };
        for Attribute { name, value } in elements.attributes(element) {
            let (name, value): (&'e str, &'e str) = (name, value);
            match name {
                "name" => sorted.name = value,
                "ID" => {}
                "code" if form.has_code() => sorted.code = Some(value),
                _ if name.starts_with('_') => {
                    sorted.is_old |= is_old_subtree;
                    if let Some(guard) = GUARDS.iter().position(|&it| it == name) {
                        sorted.guards[guard] = Some(value);
                    } else if kind == Kind::SubTree && (name == "_autoremap" || (is_plus && name == "__autoremap")) {
                        match value {
                            "true" | "1" => sorted.autoremap = true,
                            "false" | "0" => {}
                            _ => sorted.is_bad = true,
                        }
                    }
                }
                _ => {
                    sorted.is_old |= is_old_subtree;
                    sorted.is_unknown |= match kind {
                        Kind::SubTree => false,
                        Kind::Leaf => model.is_some_and(|it| !it.names.contains(name)),
                        _ => !form.ports.iter().any(|it| it.name == name),
                    };
                    sorted.is_bad |= !self.port(name, value, form, tree);
                }
            }
        }
        sorted
    }

    /// Appends a port, and says whether its value may stand there.
    fn port(&mut self, name: &'e str, text: &'e str, form: &NodeForm, tree: u32) -> bool {
        let mut is_good = form.kind != Kind::SubTree || is_identifier(name.as_bytes());
        let key = text.strip_prefix('{').and_then(|it| it.strip_suffix('}'));
        let given = if let Some(key) = key {
            let key = if key == "=" { name } else { key };
            is_good &= is_identifier(key.as_bytes());
            let number = self.keys.number(key);
            Given::Key(key, self.trees[tree as usize].number(number))
        } else if let Some(Canonical::Fits(number)) = canonical(text.as_bytes()) {
            Given::Int(number)
        } else {
            is_good &= text.len() <= LONGEST;
            Given::Text(text)
        };
        if let Some(rule) = form.ports.iter().find(|it| it.name == name) {
            is_good &= match (given, rule.takes) {
                (Given::Key(..), _) | (_, Takes::Any) => true,
                (_, Takes::Truth) => matches!(text, "true" | "false" | "1" | "0"),
                (_, Takes::Rate) => rate(text).is_some(),
                (Given::Int(number), Takes::Number(least, greatest, or_endless)) => {
                    (least..=greatest).contains(&number) || (or_endless && number == -1)
                }
                _ => false,
            };
        }
        self.tree.ports.push(Port { name, given });
        is_good
    }

    /// Fills in defaults, and lists the settings of a built-in node or the mapping of a SubTree: where they are.
    fn fill_in(&mut self, sorted: &mut Sorted<'e>, form: &NodeForm, id: &str, from: u32, tree: u32) -> u32 {
        match form.kind {
            Kind::Leaf => {
                self.fill_in_model(sorted, id, from, tree);
                0
            }
            Kind::SubTree => {
                let mapping = self.mapping(from);
                self.mappings.push(mapping);
                self.mappings.len() as u32 - 1
            }
            _ => {
                sorted.is_bad |= form.has_code() && sorted.code.is_none();
                let settings = self.tree.settings.len() as u32;
                for rule in form.ports {
                    let written = self.tree.ports[from as usize..].iter().position(|it| it.name == rule.name);
                    let at = match (written, rule.default) {
                        (Some(at), _) => from as usize + at,
                        (None, Some(default)) => {
                            self.port(rule.name, default, form, tree);
                            self.tree.ports.len() - 1
                        }
                        (None, None) => {
                            sorted.is_bad = true;
                            return settings;
                        }
                    };
                    self.tree.settings.push(self.tree.ports[at].given);
                }
                settings
            }
        }
    }

    fn fill_in_model(&mut self, sorted: &mut Sorted<'e>, id: &str, from: u32, tree: u32) {
        let manifest = self.manifest;
        let Some(model) = manifest.get(id).filter(|it| !it.defaults.is_empty()) else {
            return;
        };
        let written: Set<&str> = self.tree.ports[from as usize..].iter().map(|it| it.name).collect();
        for &(name, default) in &model.defaults {
            if !written.contains(name) {
                sorted.is_bad |= !self.port(name, default, &LEAF, tree);
            }
        }
    }
}

impl<'e> Builder<'e> {
    fn script(&mut self, text: &'e str, uid: u32, tree: u32) -> Result<Code, Refusal> {
        let (keys, template) = (&mut self.keys, &mut self.trees[tree as usize]);
        let mut number_of = |name: &'e [u8]| {
            // A name of a script is ASCII.
            let number = keys.number(std::str::from_utf8(name).unwrap_or_default());
            template.number(number)
        };
        let refused = |it: ScriptFault| Refusal::tree(format!("BadScript {uid} {it}"));
        self.tree.codes.read(text.as_bytes(), Form::Script, &mut number_of).map_err(refused)
    }

    /// Reads the guards, and says where they are, if there is any.
    fn guards(&mut self, sorted: &Sorted<'e>, uid: u32, tree: u32) -> Result<Option<u32>, Refusal> {
        if sorted.guards.iter().all(Option::is_none) {
            return Ok(None);
        }
        let mut guards = Guards { codes: [None; 8], texts: sorted.guards };
        for (code, text) in guards.codes.iter_mut().zip(sorted.guards) {
            if let Some(text) = text {
                *code = Some(self.script(text, uid, tree)?);
            }
        }
        self.tree.guards.push(guards);
        Ok(Some(self.tree.guards.len() as u32 - 1))
    }

    /// What the keys of a SubTree's ports are. The ports are all from here on.
    fn mapping(&mut self, from: u32) -> Mapping {
        let mut mapping = Mapping::new();
        for (port, at) in self.tree.ports[from as usize..].iter().zip(from..) {
            let target = match port.given {
                Given::Key(_, number) => Target::Above(number),
                _ => Target::Own,
            };
            mapping.push((self.keys.number(port.name), target, at));
        }
        mapping.sort_unstable_by_key(|it| it.0);
        mapping
    }

    /// Finds the cell of each name in each scope, and numbers the cells by scope and key.
    fn resolve(&mut self) -> Result<(), Refusal> {
        let mut found = Found::default();
        for scope in 0..self.scopes.len() {
            self.scopes[scope].base = self.tree.slots.len() as u32;
            self.literals(scope as u32, &mut found)?;
            let names = std::mem::take(&mut self.trees[self.scopes[scope].tree as usize].names);
            for &key in &names {
                let cell = self.cell(scope as u32, key, &mut found)?;
                self.tree.slots.push(cell);
            }
            self.trees[self.scopes[scope].tree as usize].names = names;
        }
        let mut order: Vec<u32> = (0..found.cells.len() as u32).collect();
        let sign = |cell: u32| {
            let (scope, key, _) = found.cells[cell as usize];
            (scope, self.keys.texts[key as usize])
        };
        order.sort_unstable_by(|&left, &right| sign(left).cmp(&sign(right)));
        let mut slot_of = vec![0; order.len()];
        for (&cell, slot) in order.iter().zip(0..) {
            slot_of[cell as usize] = slot;
            let (scope, key, literal) = found.cells[cell as usize];
            let uid = self.scopes[scope as usize].uid;
            self.tree.cells.push(Cell { scope: uid, key: self.keys.texts[key as usize], literal });
        }
        self.tree.slots.iter_mut().for_each(|it| *it = slot_of[*it as usize]);
        let scopes = &self.scopes;
        self.tree.nodes.iter_mut().for_each(|it| it.base = scopes[it.base as usize].base);
        Ok(())
    }

    /// Makes the cells that hold literals in a scope.
    fn literals(&mut self, scope: u32, found: &mut Found<'e>) -> Result<(), Refusal> {
        let spec = self.scopes[scope as usize].spec;
        if spec == NONE {
            return Ok(());
        }
        let mapping = &self.mappings[self.tree.specs[spec as usize].settings as usize];
        for &(key, target, port) in mapping {
            if let Target::Own = target {
                found.own(scope, key, Some(self.tree.ports[port as usize].given))?;
            }
        }
        Ok(())
    }

    /// The cell of a key, by the mappings upwards.
    fn cell(&self, scope: u32, key: u32, found: &mut Found<'e>) -> Result<u32, Refusal> {
        let mut at = scope;
        let mut passed = Vec::new();
        let cell = loop {
            if let Some(&cell) = found.known.get(&(at, key)) {
                break cell;
            }
            let Scope { spec, parent, .. } = self.scopes[at as usize];
            if spec == NONE {
                break found.own(at, key, None)?;
            }
            let spec = &self.tree.specs[spec as usize];
            let mapping = &self.mappings[spec.settings as usize];
            let above = &self.scopes[parent as usize];
            if let Ok(place) = mapping.binary_search_by_key(&key, |it| it.0) {
                match mapping[place].1 {
                    Target::Above(number) => break self.tree.slots[(above.base + number) as usize],
                    Target::Own => break found.own(at, key, None)?,
                }
            }
            if !spec.autoremap || self.keys.texts[key as usize].starts_with('_') {
                break found.own(at, key, None)?;
            }
            passed.push(at);
            at = parent;
        };
        found.known.extend(passed.into_iter().map(|it| ((it, key), cell)));
        Ok(cell)
    }
}

/// The cells that were found so far.
#[derive(Default)]
struct Found<'e> {
    /// The cell of a scope and key.
    known: Map<(u32, u32), u32>,
    /// The scope, the key and the literal of each.
    cells: Vec<(u32, u32, Option<Given<'e>>)>,
}

impl<'e> Found<'e> {
    /// The cell that a scope itself has for a key.
    fn own(&mut self, scope: u32, key: u32, literal: Option<Given<'e>>) -> Result<u32, Refusal> {
        if let Some(&cell) = self.known.get(&(scope, key)) {
            return Ok(cell);
        }
        if self.cells.len() == MOST_SLOTS {
            return Err(Refusal::tree("TooManyKeys"));
        }
        let cell = self.cells.len() as u32;
        self.cells.push((scope, key, literal));
        self.known.insert((scope, key), cell);
        Ok(cell)
    }
}

fn fault(kind: &str, uid: u32) -> Refusal {
    Refusal::tree(format!("{kind} {uid}"))
}
