//! The node models of a tree file: which ports the leaves of an ID have.

use crate::build::is_built_in;
use crate::elements::Elements;
use crate::output::Refusal;
use crate::scan::{is_mark_name, Map, Set};

/// The ports that a node may write, and those that have a default.
#[derive(Default)]
pub struct Model<'e> {
    /// The names of all ports.
    pub names: Set<&'e str>,
    /// The ports with a default and what it is, in the order of the model.
    pub defaults: Vec<(&'e str, &'e str)>,
}

/// The models by their ID.
pub type Manifest<'e> = Map<&'e str, Model<'e>>;

/// Reads the models; the first faulty element in the order of the file is told.
pub fn read<'e>(elements: &'e Elements) -> Result<Manifest<'e>, Refusal> {
    let mut all = elements.children(0).filter(|&it| elements.get(it).name == "TreeNodesModel");
    let mut manifest = Manifest::default();
    let Some(models) = all.next() else {
        return Ok(manifest);
    };
    for element in elements.children(models) {
        if !matches!(elements.get(element).name, "Action" | "Condition") {
            continue;
        }
        let id = elements.attribute(element, "ID").ok_or_else(|| fault("BadModel", elements, element))?;
        if is_built_in(id) {
            continue;
        }
        if manifest.contains_key(id) {
            return Err(fault("DoubleModel", elements, element));
        }
        manifest.insert(id, model(elements, element)?);
    }
    all.next().map_or(Ok(manifest), |second| Err(fault("DoubleModel", elements, second)))
}

fn model<'e>(elements: &'e Elements, element: u32) -> Result<Model<'e>, Refusal> {
    let mut model = Model::default();
    let mut taken = Set::default();
    for port in elements.children(element) {
        if !matches!(elements.get(port).name, "input_port" | "output_port" | "inout_port") {
            continue;
        }
        let name = elements.attribute(port, "name").filter(|it| taken.insert(*it));
        let name = name.ok_or_else(|| fault("BadModel", elements, port))?;
        if matches!(name, "name" | "ID") || name.starts_with('_') || !is_mark_name(name.as_bytes()) {
            continue;
        }
        model.names.insert(name);
        model.defaults.extend(elements.attribute(port, "default").map(|it| (name, it)));
    }
    Ok(model)
}

fn fault(kind: &str, elements: &Elements, element: u32) -> Refusal {
    Refusal::tree(format!("{kind} {}", elements.get(element).place))
}
