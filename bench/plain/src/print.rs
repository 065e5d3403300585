//! The printed tree, and the lines of a plan.

use crate::build::{is_reserved, Given, Kind, Tree, GUARDS};
use crate::elements::NONE;
use crate::output::{plain_cause, Output};
use crate::plan_tree::PlanTree;
use crate::planner::{End, Limits, Plan};
use crate::scan::is_identifier;
use crate::world::World;

/// Prints a tree and the line after it.
pub fn print(tree: &Tree, out: &mut Output) {
    let main = tree.opened.first().and_then(|&it| tree.elements.attribute(it, "ID")).unwrap_or("");
    out.text("<root BTCPP_format=\"4\"");
    attribute(out, "main_tree_to_execute", main);
    out.text(">\n");
    for &element in &tree.opened {
        out.text("  <BehaviorTree");
        attribute(out, "ID", tree.elements.attribute(element, "ID").unwrap_or(""));
        out.text(">\n");
        node(tree, tree.elements.first_child(element), 4, out);
        out.text("  </BehaviorTree>\n");
    }
    out.text("</root>\n");
    out.text(&format!("<!-- nodes {} work {} -->\n", tree.nodes.len(), tree.work));
}

fn node(tree: &Tree, element: u32, indent: usize, out: &mut Output) {
    let spec = &tree.specs[tree.spec_of[element as usize] as usize];
    let (name, tells_id) = match spec.kind {
        Kind::SubTree => ("SubTree", false),
        Kind::Leaf if is_reserved(spec.id) || !is_identifier(spec.id.as_bytes()) => ("Action", false),
        _ => (spec.id, true),
    };
    out.blanks(indent);
    out.text("<");
    out.text(name);
    if !tells_id {
        attribute(out, "ID", spec.id);
    }
    if spec.name != spec.id {
        attribute(out, "name", spec.name);
    }
    if spec.autoremap {
        attribute(out, "_autoremap", "true");
    }
    for port in tree.ports(spec) {
        match port.given {
            Given::Int(number) => {
                out.text(" ");
                out.text(port.name);
                out.text("=\"");
                out.number(number);
                out.text("\"");
            }
            Given::Text(text) => attribute(out, port.name, text),
            Given::Key(key, _) => attribute(out, port.name, &format!("{{{key}}}")),
        }
    }
    if let Some((_, text)) = spec.code {
        attribute(out, "code", text);
    }
    if let Some(guards) = spec.guards {
        for (name, text) in GUARDS.iter().zip(tree.guards[guards as usize].texts) {
            if let Some(text) = text {
                attribute(out, name, text);
            }
        }
    }
    if tree.elements.get(element).count == 0 {
        out.text("/>\n");
        return;
    }
    out.text(">\n");
    for child in tree.elements.children(element) {
        node(tree, child, indent + 2, out);
    }
    out.blanks(indent);
    out.text("</");
    out.text(name);
    out.text(">\n");
}

/// Prints the steps of a plan, its end, and the tree where it reaches the goals.
pub fn print_plan(plan: &Plan, world: &World, limits: Limits, out: &mut Output) {
    for step in &plan.steps {
        out.text("<!-- expand ");
        out.number(i64::from(step.number));
        ids(&[step.condition, step.action], world, out);
        out.text(" raises ");
        out.number(i64::from(step.raises));
        out.text(" -->\n");
    }
    if let End::Reached(tick) = plan.end {
        out.text(&format!("<!-- reached tick {tick} -->\n"));
        out.text("<root BTCPP_format=\"4\" main_tree_to_execute=\"Plan\">\n  <BehaviorTree ID=\"Plan\">\n");
        sequence(&plan.tree, world, 0, 4, out);
        return out.text("  </BehaviorTree>\n</root>\n");
    }
    out.text("<!-- no plan ");
    match &plan.end {
        End::Reached(_) => {}
        End::NoTemplate(failed) => {
            out.text("NoTemplate");
            ids(failed, world, out);
        }
        End::NoOrder((action, condition)) => {
            out.text("NoOrder");
            ids(&[*action, *condition], world, out);
        }
        End::Expansions => out.text(&format!("Expansions {}", limits.expand)),
        End::StillRunning => out.text(&format!("StillRunning {}", limits.ticks)),
        End::Faulted(number, cause) => out.text(&format!("Faulted {number} {}", plain_cause(*cause))),
    }
    out.text(" -->\n");
}

/// The IDs of rows, each behind a blank.
fn ids(rows: &[u32], world: &World, out: &mut Output) {
    for &row in rows {
        out.text(" ");
        out.bytes(world.rows[row as usize].id);
    }
}

fn sequence(tree: &PlanTree, world: &World, at: u32, indent: usize, out: &mut Output) {
    let id = |row: u32| world.rows[row as usize].id;
    let it = &tree.sequences[at as usize];
    line(out, indent, b"<", b"ReactiveSequence", b">\n");
    for child in tree.children(it) {
        let condition = &tree.conditions[child.condition as usize];
        if condition.first == NONE {
            line(out, indent + 2, b"<", id(condition.row), b"/>\n");
            continue;
        }
        line(out, indent + 2, b"<", b"ReactiveFallback", b">\n");
        line(out, indent + 4, b"<", id(condition.row), b"/>\n");
        for added in tree.added_for(child.condition) {
            sequence(tree, world, added, indent + 4, out);
        }
        line(out, indent + 2, b"</", b"ReactiveFallback", b">\n");
    }
    if it.action != NONE {
        line(out, indent + 2, b"<", id(it.action), b"/>\n");
    }
    line(out, indent, b"</", b"ReactiveSequence", b">\n");
}

fn line(out: &mut Output, indent: usize, before: &[u8], name: &[u8], after: &[u8]) {
    out.blanks(indent);
    out.bytes(before);
    out.bytes(name);
    out.bytes(after);
}

fn attribute(out: &mut Output, name: &str, value: &str) {
    out.text(" ");
    out.text(name);
    out.text("=\"");
    let mut from = 0;
    for (at, byte) in value.bytes().enumerate() {
        if byte > b'<' || !matches!(byte, b'&' | b'<' | b'"' | 1..=31) {
            continue;
        }
        out.bytes(&value.as_bytes()[from..at]);
        match byte {
            b'&' => out.text("&amp;"),
            b'<' => out.text("&lt;"),
            b'"' => out.text("&quot;"),
            _ => out.text(&format!("&#{byte};")),
        }
        from = at + 1;
    }
    out.bytes(&value.as_bytes()[from..]);
    out.text("\"");
}
