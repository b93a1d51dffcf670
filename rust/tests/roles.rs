//! Roles, and lite agents.

mod world;

use is::{CallError, IceConnectionState, Settings};
use std::time::Duration;
use world::{World, at, host, ms};

/// Two agents in these roles; the first has the greater tie-breaker.
fn claim(controlling: [bool; 2]) -> World {
    let mut world = World::new();
    for side in [0, 1] {
        world.sides[side].agent.set_control_tie_breaker(10 - side as u64);
        world.sides[side].agent.set_controlling(controlling[side]);
    }
    world.add(0, host("10.0.0.1:1000"));
    world.add(1, host("10.0.0.2:2000"));
    world
}

#[test]
fn roles_that_agree_stay() {
    for controlling in [[true, false], [false, true]] {
        let mut world = claim(controlling);
        world.connect();
        assert_eq!([world.left().controlling(), world.right().controlling()], controlling);
    }
}

#[test]
fn the_lesser_tie_breaker_yields() {
    for controlling in [true, false] {
        let mut world = claim([controlling; 2]);
        world.connect();
        world.pass(Duration::from_secs(5));
        assert_eq!((world.left().controlling(), world.right().controlling()), (controlling, !controlling));
        assert_eq!(world.sides[0].path(), Some((at("10.0.0.1:1000"), at("10.0.0.2:2000"))));
        assert_eq!(world.sides[1].path(), Some((at("10.0.0.2:2000"), at("10.0.0.1:1000"))));
    }
}

#[test]
fn the_controlling_one_chooses() {
    // the controlled one sends only responses before it receives USE-CANDIDATE; it selects then, and its state comes at the next timeout
    let mut world = claim([true, false]);
    world.connect();
    world.pass(Duration::from_millis(50));
    let told = |side: usize| world.sides[side].when(IceConnectionState::Completed).unwrap();
    assert!(told(0) < told(1), "{:?} and {:?}", told(0), told(1));
}

// ---- lite agents

/// A full agent, which is controlling, and a lite one.
fn beside_lite() -> World {
    let mut world = claim([true, false]);
    world.sides[1].agent.set_ice_lite(true);
    world
}

#[test]
fn a_lite_agent_sends_no_checks() {
    let mut world = beside_lite();
    world.connect();
    world.pass(Duration::from_secs(10));
    assert!(world.right().ice_lite() && !world.left().ice_lite());
    assert_eq!(world.right().stats().bind_request_sent, 0);
    assert_eq!(world.sides[1].sent as u64, world.right().stats().bind_request_recv);
    assert_eq!(world.sides[1].path(), Some((at("10.0.0.2:2000"), at("10.0.0.1:1000"))));
}

#[test]
fn a_lite_agent_that_stays_controlling_finds_no_path() {
    let mut world = claim([true, false]);
    world.sides[0].agent.set_ice_lite(true);
    world.pass(Duration::from_secs(60));
    assert!(world.left().controlling() && world.right().stats().bind_success_recv > 0);
    assert_eq!((world.sides[0].path(), world.sides[1].path()), (None, None));
}

/// A full agent and a lite one, both controlled; the full one has the greater tie-breaker. By its profile the lite one `keeps` its role.
fn controlled_beside_lite(keeps: bool) -> World {
    let mut world = claim([false, false]);
    let lite = &mut world.sides[1].agent;
    if !keeps {
        lite.set_settings(Settings::original());
    }
    lite.set_ice_lite(true);
    world
}

#[test]
fn a_lite_agent_keeps_its_role() {
    // RFC 8445, section 7.3.1.1: the full agent gets a 487, and switches
    let mut world = controlled_beside_lite(true);
    world.connect();
    world.pass(Duration::from_secs(5));
    assert!(world.left().controlling() && !world.right().controlling());
    assert_eq!(world.sides[0].path(), Some((at("10.0.0.1:1000"), at("10.0.0.2:2000"))));
    assert_eq!(world.sides[1].path(), Some((at("10.0.0.2:2000"), at("10.0.0.1:1000"))));
}

#[test]
fn by_the_original_the_tie_breaker_makes_it_controlling() {
    let mut world = controlled_beside_lite(false);
    world.pass(Duration::from_secs(60));
    assert!(!world.left().controlling() && world.right().controlling());
    assert_eq!((world.sides[0].path(), world.sides[1].path()), (None, None));
}

#[test]
fn a_lite_agent_is_not_made_controlling() {
    let mut world = controlled_beside_lite(true);
    assert_eq!(world.sides[1].agent.try_set_controlling(true), Err(CallError::LiteStaysControlled));
    assert_eq!(world.sides[1].agent.try_set_controlling(false), Ok(()));
    assert!(!world.right().controlling());
}

#[test]
fn a_lite_agent_takes_hosts_alone() {
    let mut world = beside_lite();
    let reflexive = is::Candidate::server_reflexive(at("192.0.2.1:1"), at("10.0.0.2:2000"), "udp").unwrap();
    assert!(world.sides[1].agent.add_local_candidate(reflexive).is_none());
}

#[test]
fn a_lite_agent_disconnects_15_seconds_after_the_last_check() {
    let mut world = beside_lite();
    world.connect();
    world.pass(Duration::from_secs(5));
    world.lost = Box::new(|_, _| true);
    let cut = world.now;
    world.pass_until("disconnected", |world| world.right().state().is_disconnected());
    let took = world.now - cut;
    assert!(took > Duration::from_secs(11) && took < Duration::from_secs(19), "{took:?}");
    // and connects again when its peer is back
    world.lost = Box::new(|_, _| false);
    world.pass_until("back", |world| world.right().state().is_connected());
    assert!(world.now - cut < took + ms(4000));
}
