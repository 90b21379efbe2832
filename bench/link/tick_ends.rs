//! How a tick end grows with the messages held, each for an address of its own.
use crate::calls::{report, request, time};
use crate::scene::Scene;
use oracle::call::Call;

/// A data request to an address of its own.
fn data(at: u8) -> Call {
    Call::Data(request(1000 + u32::from(at), at, 16))
}

/// All of them.
pub fn scenes() -> Vec<Scene> {
    let mut scenes = Vec::new();
    for count in [0, 1, 8, 16, 32, 64] {
        let scene = Scene::new(format!("{count} under way, nothing to be done"), u16::MAX);
        let scene = scene.then((0..count).map(data)).then([Call::TickEnd]).then((0..count).map(report)).then([Call::TickEnd]);
        scenes.push(scene.timed(vec![Call::TickEnd; 16]));
    }
    for count in [1, 8, 16, 32, 64] {
        let scene = Scene::new(format!("{count} sent the first time"), 4);
        scenes.push(scene.then((0..count).map(data)).timed([Call::TickEnd]));
    }
    for count in [1, 8, 16, 32, 64] {
        let scene = Scene::new(format!("{count} sent again"), 4);
        let scene = scene.then((0..count).map(data)).then([Call::TickEnd]).then((0..count).map(report));
        scenes.push(scene.then([Call::TickEnd, time(4)]).timed([Call::TickEnd]));
    }
    scenes
}
