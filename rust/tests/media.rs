//! Where media goes and from where it is taken, also across an ICE restart; silence; and sends that fail.

mod world;

use is::{FailedSend, MediaPath, Protocol, SessionLog, SilenceEvent};
use std::time::Duration;
use world::{LEFT, RIGHT, TRIP, World, at, consent, creds, ms};

fn path() -> MediaPath {
    MediaPath { proto: Protocol::Udp, source: at(LEFT), destination: at(RIGHT) }
}

fn connected() -> World {
    let mut world = World::hosts();
    world.connect();
    world
}

/// Both signal their credentials and candidates again.
fn introduce(world: &mut World) {
    world.meet();
    for side in [0, 1] {
        let candidate = world.sides[side].agent.local_candidates().next().expect("a candidate");
        world.sides[1 - side].agent.add_remote_candidate(candidate);
    }
}

#[test]
fn the_path_is_that_of_a_valid_pair_and_then_the_selected_one() {
    let mut world = World::hosts();
    let now = world.now();
    assert_eq!((world.right().media_path(now), world.right().takes_media_from(now, at(LEFT))), (None, false));
    world.pass(2 * TRIP + ms(1)); // a check and its response
    let back = MediaPath { source: at(RIGHT), destination: at(LEFT), ..path() };
    assert_eq!((world.right().media_path(world.now()), world.right().selected_path()), (Some(back), None));
    assert!(world.right().takes_media_from(world.now(), at(LEFT)));
    world.connect();
    let now = world.now();
    assert_eq!((world.left().media_path(now), world.left().selected_path()), (Some(path()), Some(path())));
    assert!(world.left().takes_media_from(now, at(RIGHT)) && !world.left().takes_media_from(now, at("10.0.0.3:2000")));
}

/// RFC 8445, section 9: media goes on on the old path until the new session has one.
#[test]
fn a_restart_keeps_the_path_until_another_one_is_selected() {
    let mut world = connected();
    world.sides[0].agent.ice_restart(creds("next"), true);
    let now = world.now();
    assert_eq!((world.left().selected_path(), world.left().media_path(now)), (None, Some(path())));
    assert!(world.left().takes_media_from(now, at(RIGHT)) && world.right().takes_media_from(now, at(LEFT)));
    world.sides[0].agent.ice_restart(creds("last"), true); // before the peer knows of the first one
    assert_eq!(world.left().media_path(now), Some(path()));
    world.sides[1].agent.ice_restart(creds("rnxt"), true);
    assert!(world.right().media_path(now).is_some());
    introduce(&mut world);
    for _ in 0..100 {
        world.pass(ms(5));
        let now = world.now();
        assert_eq!(world.left().media_path(now), Some(path()));
        assert!(world.left().takes_media_from(now, at(RIGHT)) && world.right().takes_media_from(now, at(LEFT)));
    }
    assert_eq!(world.left().selected_path(), Some(path()));
}

#[test]
fn after_a_restart_the_path_ends_with_consent() {
    let mut world = connected();
    let begun = world.now();
    world.sides[0].agent.ice_restart(creds("next"), true);
    let left = world.left();
    let ends = (0..60_000).map(ms).find(|&after| left.media_path(begun + after).is_none()).expect("an end");
    let consent = consent(left);
    assert!(consent - ms(600) < ends && ends <= consent, "{ends:?}");
    assert!(!left.takes_media_from(begun + ends, at(RIGHT)));
}

#[test]
fn a_silent_path_is_reported_and_that_it_is_heard_again() {
    let mut world = connected();
    world.pass(ms(1000));
    let began = world.now();
    assert_eq!(world.sides[0].agent.poll_silence(), None);
    world.lost = Box::new(|_, _| true);
    world.pass(ms(8500)); // until the last check before, and 5 s
    let (now, log) = (world.now(), SessionLog::new());
    let since = world.left().silent_since().expect("a time");
    assert!(began - world.left().settings().max_rto < since && since + ms(5000) < now, "{:?}", now - since);
    let silent = world.sides[0].agent.poll_silence().expect("an event");
    assert_eq!(silent, SilenceEvent::Silent(path()));
    assert_eq!(log.silence(world.left(), &silent), format!("left: silent {LEFT} -> {RIGHT}"));
    assert_eq!(world.sides[0].agent.poll_silence(), None);
    world.lost = Box::new(|_, _| false);
    world.pass(ms(3000));
    let heard = world.sides[0].agent.poll_silence().expect("an event");
    assert_eq!(heard, SilenceEvent::Heard(path()));
    assert_eq!(log.silence(world.left(), &heard), format!("left: heard again {LEFT} -> {RIGHT}"));
}

#[test]
fn after_what_time_a_path_is_silent() {
    for (time, is_silent) in [(Some(Duration::from_secs(1)), true), (Some(Duration::from_secs(60)), false), (None, false)] {
        let mut world = connected();
        world.sides[0].agent.set_silence(time);
        world.lost = Box::new(|_, _| true);
        world.pass(ms(6000));
        assert_eq!(world.sides[0].agent.poll_silence().is_some(), is_silent, "{time:?}");
    }
}

#[test]
fn sends_that_fail_are_listed() {
    let mut world = World::hosts();
    let (agent, log) = (&mut world.sides[0].agent, SessionLog::new());
    assert_eq!(agent.failed_sends().count(), 0);
    let mut lines = Vec::new();
    for reason in [101, 101, 1] {
        agent.send_failed(Protocol::Udp, at(LEFT), at(RIGHT), reason);
        lines.extend(log.failed_send(agent, Protocol::Udp, at(LEFT), at(RIGHT), reason));
    }
    let failed = |reason, times| FailedSend { path: path(), reason, times };
    assert_eq!(agent.failed_sends().collect::<Vec<_>>(), [failed(101, 2), failed(1, 1)]);
    let why = ["Network is unreachable (os error 101)", "Operation not permitted (os error 1)"];
    assert_eq!(lines, why.map(|why| format!("left: not sent {LEFT} -> {RIGHT}: {why}, 1 times")));
    agent.ice_restart(creds("next"), true);
    assert_eq!(agent.failed_sends().count(), 0);
}
