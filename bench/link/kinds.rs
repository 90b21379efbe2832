//! Each kind of call, on a link that holds little.
use crate::calls::{ack, frame, release, report, request, start, time};
use crate::scene::Scene;
use oracle::call::{Call, Request};

/// How many calls are timed together.
const MANY: u8 = 16;

/// One call for each receipt below `MANY`.
fn each(call: impl Fn(u8) -> Call) -> impl Iterator<Item = Call> {
    (0..MANY).map(call)
}

/// A data request of so many bits to an address of its own.
fn data(receipt: u8, count: usize) -> Call {
    Call::Data(request(1000 + u32::from(receipt), receipt, count))
}

/// The same with FCS, and stealing or not.
fn data_with_fcs(receipt: u8, steals: bool, count: usize) -> Call {
    let flags = 2 | u8::from(steals);
    Call::Data(Request { flags, ..request(1000 + u32::from(receipt), receipt, count) })
}

/// All of them.
pub fn scenes() -> Vec<Scene> {
    let scene = |what| Scene::new(what, 4);
    let sent = |what| scene(what).then(each(|at| data(at, 16))).then([Call::TickEnd]);
    let finished = |what| {
        let scene = sent(what).then(each(report)).then([Call::TickEnd]);
        scene.then(each(|at| ack(1000 + u32::from(at), 0)))
    };
    // One message, again and again: its N(S) alternates.
    let acknowledged = (0..MANY).fold(scene("frame: BL-ACK that finishes the only message"), |scene, at| {
        let scene = scene.then([data(0, 16), Call::TickEnd, report(0), Call::TickEnd]);
        scene.timed([ack(1000, at % 2)]).then([release(0)])
    });
    vec![
        scene("start").timed(each(|_| start(4))),
        scene("tick start").timed(each(|at| time(at.into()))),
        scene("tick end with nothing held").timed(each(|_| Call::TickEnd)),
        scene("data request of 16 bits").timed(each(|at| data(at, 16))),
        scene("data request of 2,595 bits").timed(each(|at| data(at, 2595))),
        scene("data request of 16 bits with FCS").timed(each(|at| data_with_fcs(at, false, 16))),
        scene("data request of 2,595 bits with FCS").timed(each(|at| data_with_fcs(at, false, 2595))),
        scene("data request that steals, of 16 bits with FCS, in a BL-ACK")
            .then(each(|at| frame(1000 + u32::from(at), 0b00010, 5, 16, false)))
            .timed(each(|at| data_with_fcs(at, true, 16))),
        scene("unitdata request of 16 bits").timed(each(|at| Call::Unitdata(request(1000, at, 16)))),
        scene("frame: BL-DATA with 16 bits").timed(each(|at| frame(1000 + u32::from(at), 0b00010, 5, 16, false))),
        scene("frame: BL-UDATA with 2,595 bits and their FCS").timed(each(|_| frame(1000, 0b0110, 4, 2595, true))),
        acknowledged,
        sent("report, 16 messages held").timed(each(report)),
        finished("release").timed(each(release)),
        scene("frame refused with 10").timed(each(|_| frame(1000, 0b1000, 4, 16, false))).refused(10),
    ]
}
