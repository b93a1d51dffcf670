//! Whole sessions of two agents.

mod world;

use is::{Candidate, IceAgentEvent, IceConnectionState, IceCreds, MediaPath, Protocol};
use std::time::Duration;
use world::{LEFT, Nat, RIGHT, TRIP, World, at, consent, creds, host, ms, set_delays};

#[test]
fn two_hosts_connect() {
    let mut world = World::hosts();
    world.connect();
    assert_eq!(world.sides[0].path(), Some((at(LEFT), at(RIGHT))));
    assert_eq!(world.sides[1].path(), Some((at(RIGHT), at(LEFT))));
    assert_eq!(world.left().state(), IceConnectionState::Completed);
    assert_eq!(world.right().state(), IceConnectionState::Completed);
    // a check and its response, and a check with USE-CANDIDATE
    assert!(world.now < ms(200), "{:?}", world.now);
    assert_eq!(world.sides[0].sources(), [at(RIGHT)]);
    assert_eq!(world.left().nominated_pair_rtt(), Some(ms(20)));
    assert_eq!(world.left().selected_path().map(|path| (path.source, path.destination)), world.sides[0].path());
}

#[test]
fn the_first_event_is_that_of_the_session() {
    let mut world = World::hosts();
    world.connect();
    for (side, ufrag) in world.sides.iter().zip(["left", "rght"]) {
        let events: Vec<_> = side.events.iter().map(|(_, event)| event).collect();
        assert_eq!(events[0], &IceAgentEvent::IceRestart(creds(ufrag)));
        assert_eq!(events[1], &IceAgentEvent::IceConnectionStateChange(IceConnectionState::Checking));
    }
}

#[test]
fn figures_count_what_happened() {
    let mut world = World::hosts();
    world.connect();
    world.pass(Duration::from_secs(20));
    let (left, right) = (world.left().stats(), world.right().stats());
    assert_eq!((left.discovered_recv_count, right.discovered_recv_count), (1, 1));
    assert_eq!((left.nomination_send_count, right.nomination_send_count), (1, 1));
    assert_eq!(left.bind_request_sent, left.bind_success_recv);
    assert_eq!(left.bind_request_sent, right.bind_request_recv);
    assert_eq!(world.left().nominated_pair_responses_received(), Some(left.bind_success_recv));
    assert_eq!(world.left().nominated_pair_total_rtt(), Some(ms(20) * left.bind_success_recv as u32));
    // each sent its checks and its responses
    assert_eq!(world.sides[0].sent as u64, left.bind_request_sent + left.bind_request_recv);
}

#[test]
fn candidates_come_late() {
    let mut world = World::new();
    world.pass(ms(500));
    assert_eq!(world.left().state(), IceConnectionState::Checking);
    world.add(0, host(LEFT));
    world.pass(ms(500));
    assert_eq!(world.left().state(), IceConnectionState::Checking);
    world.add(1, host(RIGHT));
    world.connect();
    assert!(world.now >= ms(1000) && world.now < ms(1500), "{:?}", world.now);
}

#[test]
fn credentials_come_late() {
    let mut world = World::hosts();
    world.sides[1].agent.ice_restart(creds("rgh2"), true);
    world.sides[1].agent.add_remote_candidate(Candidate::from_sdp_string("candidate:1 1 udp 7 10.0.0.1 1000 typ host").unwrap());
    world.sides[0].agent.set_remote_credentials(creds("rgh2"));
    // the right one stores the left one's early requests, since it has no remote credentials yet
    world.pass(ms(300));
    assert_eq!(world.right().stats().bind_request_recv, 0);
    assert_eq!(world.sides[1].sources(), [at(LEFT)]);
    world.sides[1].agent.set_remote_credentials(creds("left"));
    world.connect();
    assert!(world.right().stats().bind_request_recv > 0);
}

#[test]
fn the_better_of_two_paths_is_selected() {
    let mut world = World::hosts();
    world.add(0, host("[2001:db8::1]:1000"));
    world.add(1, host("[2001:db8::2]:2000"));
    world.connect();
    world.pass(Duration::from_secs(5));
    let better = (at("[2001:db8::1]:1000"), at("[2001:db8::2]:2000"));
    assert_eq!(world.sides[0].path(), Some(better));
    assert_eq!(world.sides[1].path(), Some((better.1, better.0)));
    // the other one may yet be needed
    assert_eq!(world.left().state(), IceConnectionState::Connected);
}

#[test]
fn a_better_path_that_comes_later_is_selected() {
    let mut world = World::hosts();
    world.connect();
    assert_eq!(world.left().stats().nomination_send_count, 1);
    world.add(0, host("[2001:db8::1]:1000"));
    world.add(1, host("[2001:db8::2]:2000"));
    world.pass(Duration::from_secs(5));
    assert_eq!(world.sides[0].path(), Some((at("[2001:db8::1]:1000"), at("[2001:db8::2]:2000"))));
    assert_eq!(world.sides[1].path(), Some((at("[2001:db8::2]:2000"), at("[2001:db8::1]:1000"))));
}

#[test]
fn a_path_that_dies_gives_way_to_the_other_one() {
    let mut world = World::hosts();
    world.add(0, host("[2001:db8::1]:1000"));
    world.add(1, host("[2001:db8::2]:2000"));
    world.connect();
    world.pass(Duration::from_secs(10));
    world.lost = Box::new(|source, _| source.is_ipv6());
    world.pass(ms(4_500));
    assert_eq!(world.sides[0].path(), Some((at(LEFT), at(RIGHT))));
    assert_eq!(world.sides[1].path(), Some((at(RIGHT), at(LEFT))));
    assert!(world.left().state().is_connected() && world.right().state().is_connected());
}

#[test]
fn an_interface_that_goes_takes_its_path() {
    let mut world = World::hosts();
    world.add(0, host("10.0.1.1:1000"));
    world.connect();
    world.pass(Duration::from_secs(2));
    let (gone, _) = world.sides[0].path().unwrap();
    let candidate = world.left().local_candidates().find(|candidate| candidate.addr() == gone).unwrap();
    assert!(world.sides[0].agent.invalidate_candidate(&candidate));
    assert!(!world.sides[0].agent.invalidate_candidate(&candidate));
    world.pass(Duration::from_secs(2));
    let (source, _) = world.sides[0].path().unwrap();
    assert!(source != gone && [at(LEFT), at("10.0.1.1:1000")].contains(&source));
    assert_eq!(world.sides[0].local_addresses(), [source]);
}

#[test]
fn a_cut_wire_ends_the_session_just_before_consent_expires() {
    let mut world = World::hosts();
    world.connect();
    world.pass(Duration::from_secs(30));
    let answered = world.left().stats().bind_success_recv;
    world.pass_until("a response", |world| world.left().stats().bind_success_recv > answered);
    let cut = world.now;
    world.lost = Box::new(|_, _| true);
    world.pass(Duration::from_secs(35));
    let ended = world.sides[0].when(IceConnectionState::Disconnected).unwrap() - cut;
    let consent = consent(world.left());
    assert!(consent - ms(200) < ended && ended < consent + ms(400), "{ended:?}");
    assert!(consent < Duration::from_secs(30)); // RFC 7675, section 5.1
}

#[test]
fn nobody_answers() {
    let mut world = World::hosts();
    for side in &mut world.sides {
        set_delays(&mut side.agent);
    }
    world.lost = Box::new(|_, _| true);
    let timeout = world.left().ice_timeout();
    world.pass(timeout * 2);
    for side in &world.sides {
        assert!(side.agent.state().is_disconnected());
        let given_up = side.when(IceConnectionState::Disconnected).unwrap();
        // 3 checks at 0, 100 and 200 ms, 6 at 400, 750 .. 2,150 ms, 8 at 5,050, 7,950 .. 25,350 ms, and the RTO after the last one
        assert!(timeout < given_up && given_up < timeout + ms(3_500), "{given_up:?}");
        assert_eq!(side.agent.stats().bind_request_sent, 17);
        assert_eq!(side.agent.nominated_pair_rtt(), None);
    }
}

#[test]
fn a_connection_that_is_lost_comes_back_with_a_restart() {
    let mut world = World::hosts();
    world.connect();
    world.lost = Box::new(|_, _| true);
    world.pass_until("lost", |world| world.sides.iter().all(|side| side.agent.state().is_disconnected()));
    world.lost = Box::new(|_, _| false);
    for (side, ufrag) in [(0, "lef2"), (1, "rgh2")] {
        world.sides[side].events.clear();
        world.sides[side].agent.ice_restart(creds(ufrag), true);
        assert_eq!(world.sides[side].agent.remote_credentials(), None);
    }
    world.meet();
    let lines = [0, 1].map(|side| world.sides[side].agent.local_candidates().next().unwrap());
    let [left, right] = lines;
    assert_eq!((left.ufrag(), right.ufrag()), (Some("lef2"), Some("rgh2")));
    world.sides[0].agent.add_remote_candidate(Candidate::from_sdp_string(&right.to_sdp_string()).unwrap());
    world.sides[1].agent.add_remote_candidate(Candidate::from_sdp_string(&left.to_sdp_string()).unwrap());
    world.connect();
    assert_eq!(world.sides[0].path(), Some((at(LEFT), at(RIGHT))));
}

#[test]
fn a_restart_clears_what_was() {
    let mut world = World::hosts();
    world.connect();
    let agent = &mut world.sides[0].agent;
    agent.ice_restart(IceCreds::new(), false);
    assert_eq!(agent.local_candidates().count() + agent.remote_candidates().count(), 0);
    assert_eq!(agent.stats(), Default::default());
    assert_eq!(agent.nominated_pair_responses_received(), None);
    assert_eq!(agent.state(), IceConnectionState::Checking);
    assert!(agent.controlling());
}

// ---- NATs

#[test]
fn an_address_that_a_router_gives_is_discovered() {
    let mut world = World::new();
    // the left one is behind a NAT, and its server-reflexive address is not signaled
    world.nats.push(Nat { side: 0, inner: at(LEFT), outer: at("192.0.2.9:9000") });
    world.add_secretly(0, host(LEFT));
    world.add(1, host(RIGHT));
    world.connect();
    assert_eq!(world.sides[0].path(), Some((at(LEFT), at(RIGHT))));
    assert_eq!(world.sides[1].path(), Some((at(RIGHT), at("192.0.2.9:9000"))));
    assert_eq!(world.sides[0].local_addresses(), [at(LEFT), at("192.0.2.9:9000")]);
    let discovered = world.left().local_candidates().last().unwrap();
    assert_eq!(discovered.kind(), is::CandidateKind::PeerReflexive);
    assert_eq!((discovered.local(), discovered.ufrag()), (at(LEFT), Some("left")));
    let heard_of = world.right().remote_candidates().next().unwrap();
    assert_eq!((heard_of.kind(), heard_of.addr()), (is::CandidateKind::PeerReflexive, at("192.0.2.9:9000")));
    assert_eq!(world.left().selected_path(), Some(MediaPath { proto: Protocol::Udp, source: at(LEFT), destination: at(RIGHT) }));
    let back = MediaPath { proto: Protocol::Udp, source: at(RIGHT), destination: at("192.0.2.9:9000") };
    assert_eq!(world.right().selected_path(), Some(back));
}

/// Media may go on the path of a valid pair before it is nominated (RFC 8445, section 12.1).
#[test]
fn a_path_is_valid_before_it_is_selected() {
    let mut world = World::hosts();
    assert_eq!(world.right().valid_path(), None);
    world.pass(2 * TRIP + ms(1)); // a check and its response
    let path = MediaPath { proto: Protocol::Udp, source: at(RIGHT), destination: at(LEFT) };
    assert_eq!((world.right().valid_path(), world.right().selected_path()), (Some(path), None));
    world.connect();
    assert_eq!(world.right().selected_path(), Some(path));
}

/// A remote peer-reflexive candidate is removed as it is listed. A local one has no path of its own: it stays, and no other candidate is
/// taken for it.
#[test]
fn peer_reflexive_candidates_are_removed() {
    let mut world = World::new();
    world.nats.push(Nat { side: 0, inner: at(LEFT), outer: at("192.0.2.9:9000") });
    world.add_secretly(0, host(LEFT));
    world.add(1, host(RIGHT));
    world.connect();
    let heard_of = world.right().remote_candidates().next().unwrap();
    assert!(world.sides[1].agent.invalidate_candidate(&heard_of));
    assert_eq!((world.right().remote_candidates().count(), world.right().selected_path()), (0, None));
    let discovered = world.left().local_candidates().last().unwrap();
    // as it would be listed if the peer had this address too
    let alike = "candidate:1 1 udp 7 192.0.2.9 9000 typ prflx";
    world.sides[0].agent.add_remote_candidate(Candidate::from_sdp_string(alike).unwrap());
    assert!(!world.sides[0].agent.invalidate_candidate(&discovered));
    assert_eq!(world.sides[0].agent.add_local_candidate(discovered.clone()), None);
    assert_eq!((world.left().local_candidates().count(), world.left().remote_candidates().count()), (2, 2));
    assert_eq!(is::default_local_preference(&discovered, 0), 49150);
    let own = world.left().local_candidates().next().unwrap();
    assert!(world.sides[0].agent.invalidate_candidate(&own));
    assert_eq!((world.left().local_candidates().collect::<Vec<_>>(), world.left().selected_path()), (vec![discovered], None));
}

#[test]
fn a_server_told_of_the_address() {
    let mut world = World::new();
    let outer = at("192.0.2.9:9000");
    world.nats.push(Nat { side: 0, inner: at(LEFT), outer });
    // the inner address cannot be reached from outside
    world.lost = Box::new(move |_, destination| destination == at("10.9.9.9:1"));
    world.add_secretly(0, host(LEFT));
    world.add(0, Candidate::server_reflexive(outer, at(LEFT), "udp").unwrap());
    world.add(1, host(RIGHT));
    world.connect();
    assert_eq!(world.sides[0].path(), Some((at(LEFT), at(RIGHT))));
    assert_eq!(world.sides[1].path(), Some((at(RIGHT), outer)));
    // it is known, so nothing is discovered
    assert_eq!(world.sides[0].local_addresses(), [at(LEFT), outer]);
}

#[test]
fn routers_on_both_sides() {
    let mut world = World::new();
    let outers = [at("192.0.2.9:9000"), at("198.51.100.7:7000")];
    for (side, inner) in [(0, LEFT), (1, RIGHT)] {
        world.nats.push(Nat { side, inner: at(inner), outer: outers[side] });
        world.add_secretly(side, host(inner));
        world.add(side, Candidate::server_reflexive(outers[side], at(inner), "udp").unwrap());
    }
    world.connect();
    assert_eq!(world.sides[0].path(), Some((at(LEFT), outers[1])));
    assert_eq!(world.sides[1].path(), Some((at(RIGHT), outers[0])));
}

#[test]
fn a_relay_is_taken_where_nothing_else_works() {
    let mut world = World::new();
    let relay = at("203.0.113.5:5000");
    world.add(0, host(LEFT));
    world.add(0, Candidate::relayed(relay, at(LEFT), "udp").unwrap());
    world.add(1, host(RIGHT));
    world.lost = Box::new(|source, destination| source == at(LEFT) || destination == at(LEFT));
    world.connect();
    assert_eq!(world.sides[0].path(), Some((relay, at(RIGHT))));
    assert_eq!(world.sides[1].path(), Some((at(RIGHT), relay)));
    // and replaced by the better one when that works
    world.lost = Box::new(|_, _| false);
    world.pass(Duration::from_secs(5));
    assert_eq!(world.sides[0].path(), Some((at(LEFT), at(RIGHT))));
}
