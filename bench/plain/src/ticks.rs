//! Measures the engine as a library: runs the events of a world over a tree, writes no lines, and prints the nanoseconds of the
//! processor for an event.
//! usage: ticks TREE WORLD
#![allow(dead_code)]

mod build;
mod elements;
mod engine;
mod manifest;
mod output;
mod plan_tree;
mod planner;
mod scan;
mod scripts;
mod world;

/// The nanoseconds of the processor that this program has had, as Linux tells them.
fn processor() -> f64 {
    let said = std::fs::read_to_string("/proc/self/schedstat").expect("Linux");
    said.split(' ').next().and_then(|it| it.parse().ok()).expect("a number")
}

fn main() {
    let [tree, world] = [1, 2].map(|place| std::fs::read(std::env::args().nth(place).expect("two words")).expect("files"));
    let elements = elements::read(&tree).ok().expect("elements");
    let manifest = manifest::read(&elements).ok().expect("models");
    let mut tree = build::read(&elements, &manifest, None).ok().expect("a tree");
    let world = world::read(&world).ok().expect("a world");
    let leaves = engine::join(&mut tree, &world).ok().expect("rows");
    let mut counts = output::Counts::default();
    let begin = processor();
    engine::run(&tree, &world, &leaves, &mut counts);
    println!("{}", (processor() - begin) / world.events.len() as f64);
}
