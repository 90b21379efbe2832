//! Times the proved engine beside the Rust's link on the same calls.
mod calls;
mod kinds;
mod mixes;
mod scene;
mod sides;
mod tick_ends;

use scene::Scene;

/// The table of some scenes.
fn table(title: &str, scenes: Vec<Scene>) {
    println!("\n| {title} | here, ns | Rust, ns | times faster |\n|---|---|---|---|");
    for scene in scenes {
        let (here, rust) = sides::times(&scene);
        println!("| {} | {here:.0} | {rust:.0} | {:.3} |", scene.what, rust / here);
    }
}

fn main() {
    table("one call", kinds::scenes());
    table("a tick end with messages held", tick_ends::scenes());
    table("a slot of traffic", mixes::scenes());
}
