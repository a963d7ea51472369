//! The ends against document 01: P9 to P11, the worked cases, modes, marks and careless programs.

use second::ends::*;
use second::wire::Meaning;

const MESSAGE: [u8; 5] = [7, 0, 5, 0x31, 1];
const OTHER: [u8; 6] = [8, 1, 2, 3, 4, 5];

fn i(ns: u8, nr: u8) -> Meaning {
    Meaning::I { ns, nr }
}

fn rr(nr: u8) -> Meaning {
    Meaning::Rr { nr }
}

fn rnr(nr: u8) -> Meaning {
    Meaning::Rnr { nr }
}

/// A slave in NRM with its counts.
fn nrm(ns: u8, nr: u8) -> Slave {
    let mut slave = Slave::make(5).unwrap();
    slave.mode = SlaveMode::Nrm;
    slave.side.ns = ns;
    slave.side.nr = nr;
    slave
}

/// A linked master with its counts, whose order of tick 100 waits.
fn linked(ns: u8, nr: u8) -> Master {
    let mut master = Master::make(5, 10).unwrap();
    master.mode = MasterMode::Linked;
    master.waiting = true;
    master.tick = 100;
    master.side.ns = ns;
    master.side.nr = nr;
    master
}

fn step(slave: Slave, meaning: Meaning, information: &[u8]) -> (Slave, Stepped) {
    let (slave, stepped) = slave.step(5, meaning, information, &mut [0; 253]);
    (slave, stepped.unwrap())
}

fn hear(master: Master, meaning: Meaning, information: &[u8]) -> (Master, Responded) {
    let (master, responded) = master.response(100, 5, meaning, information);
    (master, responded.unwrap())
}

#[test]
fn fresh_ends() {
    let slave = Slave::make(250).unwrap();
    assert_eq!((slave.mode, slave.address), (SlaveMode::Ndm, 250));
    let master = Master::make(1, 65_535).unwrap();
    assert_eq!(master.mode, MasterMode::Disconnecting);
    assert_eq!((master.address, master.limit), (1, 65_535));
    assert!(!master.busy && !master.waiting);
    for side in [slave.side, master.side] {
        assert_eq!((side.ns, side.nr), (0, 0));
        assert_eq!((side.held_size, side.incoming_size), (0, 0));
        assert!(!side.sent && !side.doubt);
    }
    for address in [0, 251, 255] {
        assert_eq!(Slave::make(address).err(), Some(8));
        assert_eq!(Master::make(address, 0).err(), Some(8));
    }
    for limit in [0, 65_536, u32::MAX] {
        assert_eq!(Master::make(250, limit).err(), Some(15));
    }
}

#[test]
fn p9_new_duplicate_irrecoverable() {
    for ns in 0..8 {
        let (slave, stepped) = step(nrm(0, 0), i(ns, 0), &MESSAGE);
        let handed_over = ns == 0;
        let lost = (1..=6).contains(&ns);
        assert_eq!(stepped.effect.handed_over, handed_over);
        assert_eq!(stepped.effect.link == Link::Lost, lost);
        assert_eq!(slave.side.nr, handed_over as u8);
        assert_eq!(slave.mode == SlaveMode::Ndm, lost);
        let (master, responded) = hear(linked(0, 0), i(ns, 0), &MESSAGE);
        assert_eq!(responded.effect, stepped.effect);
        assert_eq!(master.side, slave.side);
    }
}

#[test]
fn p10_confirming() {
    for nr in 0..8 {
        let (slave, put) = nrm(7, 0).put(&MESSAGE);
        put.unwrap();
        let (slave, stepped) = step(slave, rnr(nr), &[]);
        let confirmed = nr == 0;
        let lost = (1..=6).contains(&nr);
        assert_eq!(stepped.effect.confirmed, confirmed);
        assert_eq!(stepped.effect.link == Link::Lost, lost);
        assert_eq!(slave.side.ns, if confirmed { 0 } else { 7 });
        assert_eq!(slave.side.held_size, if confirmed { 0 } else { 5 });
        let (master, _) = linked(7, 0).put(&MESSAGE);
        let (master, responded) = hear(master, rr(nr), &[]);
        assert_eq!(responded.effect, stepped.effect);
        assert_eq!(master.side, slave.side);
    }
}

#[test]
fn p11_age_across_the_wrap() {
    for (limit, silence) in [(9, true), (10, false)] {
        let mut master = linked(0, 0);
        master.limit = limit;
        master.tick = 4_294_967_290;
        let (after, responded) = master.response(3, 5, rnr(0), &[]);
        assert_eq!(responded.unwrap().silence, silence);
        assert!(!after.waiting);
        assert_eq!(after.busy, !silence);
    }
}

/// "Order arrives, response lost, slave's owner takes the message, whole exchange."
#[test]
fn worked_case_response_lost() {
    let (master, put) = linked(0, 0).put(&MESSAGE);
    put.unwrap();
    let (master, _) = master.silence();
    let mut lent = [0; 253];
    let (master, ordered) = master.order(200, &mut lent);
    assert_eq!(ordered.unwrap().meaning, i(0, 0));
    let (slave, stepped) = step(nrm(0, 0), i(0, 0), &lent[..5]);
    assert!(stepped.effect.handed_over);
    let (master, _) = master.silence();
    let (slave, taken) = slave.take(&mut lent);
    assert_eq!(taken, Ok(5));
    assert_eq!(lent[..5], MESSAGE);
    let (master, ordered) = master.order(300, &mut lent);
    assert_eq!(ordered.unwrap().meaning, i(0, 0));
    let (slave, stepped) = step(slave, i(0, 0), &lent[..5]);
    assert_eq!(stepped.meaning, rr(1));
    assert!(!stepped.effect.handed_over && !slave.side.full());
    let (master, responded) = master.response(305, 5, stepped.meaning, &[]);
    assert!(responded.unwrap().effect.confirmed);
    assert!(!master.side.holds() && master.side.ns == 1);
}

/// "New message into an empty slot, none held: answer RNR with Nr one higher, which confirms."
#[test]
fn worked_case_new_message() {
    let (slave, stepped) = step(nrm(0, 7), i(7, 0), &MESSAGE);
    assert_eq!((stepped.meaning, stepped.size), (rnr(0), 0));
    assert!(slave.side.full());
    let (master, _) = linked(7, 0).put(&MESSAGE);
    let (master, responded) = hear(master, rnr(0), &[]);
    assert!(responded.effect.confirmed && master.busy);
}

/// Careless programs: a duplicate without acknowledgement; Nr advanced though the slot was full.
#[test]
fn careless_duplicate_and_full_slot() {
    let (slave, _) = step(nrm(0, 0), i(0, 0), &MESSAGE);
    let (slave, stepped) = step(slave, i(0, 0), &MESSAGE);
    assert_eq!((stepped.meaning, slave.side.nr), (rnr(1), 1));
    let (slave, stepped) = step(slave, i(1, 0), &OTHER);
    assert!(!stepped.effect.handed_over);
    assert_eq!((stepped.meaning, slave.side.nr), (rnr(1), 1));
    assert_eq!(slave.side.incoming[..5], MESSAGE);
    let (slave, _) = slave.take(&mut [0; 5]);
    let (slave, stepped) = step(slave, i(1, 0), &OTHER);
    assert!(stepped.effect.handed_over);
    assert_eq!(stepped.meaning, rnr(2));
    assert_eq!(slave.side.incoming[..6], OTHER);
}

/// Nr may be fine and Ns irrecoverable: then nothing is confirmed.
#[test]
fn irrecoverable_changes_the_mode_alone() {
    let (slave, _) = nrm(3, 3).put(&OTHER);
    for meaning in [i(4, 4), i(5, 3), i(3, 5), rr(2), rnr(5)] {
        let information: &[u8] = match meaning {
            Meaning::I { .. } => &MESSAGE,
            _ => &[],
        };
        let (after, stepped) = step(slave, meaning, information);
        assert_eq!((stepped.meaning, stepped.size), (Meaning::Frmr, 0));
        assert_eq!(after.side, slave.side);
        assert_eq!(after.mode, SlaveMode::Ndm);
        let mut master = linked(3, 3).put(&OTHER).0;
        master.busy = true;
        let (after, responded) = hear(master, meaning, information);
        assert_eq!(responded.effect.link, Link::Lost);
        master.mode = MasterMode::Disconnecting;
        master.waiting = false;
        assert_eq!(after, master);
    }
}

#[test]
fn slave_in_ndm() {
    let (slave, _) = Slave::make(5).unwrap().put(&MESSAGE);
    let frames: [(Meaning, &[u8]); 5] = [
        (Meaning::Ua, &[]),
        (Meaning::Frmr, &[]),
        (rr(1), &[]),
        (rnr(1), &[]),
        (i(0, 1), &MESSAGE),
    ];
    for (meaning, information) in frames {
        let (after, stepped) = step(slave, meaning, information);
        assert_eq!((after, stepped.meaning), (slave, Meaning::Frmr));
        assert_eq!(stepped.effect.link, Link::Kept);
    }
    let (after, stepped) = step(slave, Meaning::Disc, &[]);
    assert_eq!((after, stepped.meaning), (slave, Meaning::Ua));
    let (after, stepped) = step(slave, Meaning::Snrm, &[]);
    assert_eq!(stepped.meaning, Meaning::Ua);
    assert_eq!(stepped.effect.link, Link::Gained);
    assert_eq!((after.mode, after.side), (SlaveMode::Nrm, slave.side));
}

#[test]
fn slave_in_nrm_answers_frmr_to_unnumbered_frames() {
    for meaning in [Meaning::Snrm, Meaning::Disc, Meaning::Ua, Meaning::Frmr] {
        let slave = nrm(2, 6).put(&MESSAGE).0;
        let (after, stepped) = step(slave, meaning, &[]);
        assert_eq!(stepped.meaning, Meaning::Frmr);
        assert_eq!(stepped.effect.link, Link::Lost);
        assert_eq!((after.mode, after.side), (SlaveMode::Ndm, slave.side));
    }
}

#[test]
fn slave_answers_in_nrm() {
    let mut lent = [9; 253];
    let held = nrm(2, 6).put(&OTHER).0;
    let (after, stepped) = held.step(5, rr(2), &[], &mut lent);
    let stepped = stepped.unwrap();
    assert_eq!((stepped.meaning, stepped.size), (i(2, 6), 6));
    assert!(after.side.sent && lent[..6] == OTHER && lent[6..] == [9; 247]);
    // An RNR order: the message stays unsent.
    let (after, stepped) = step(held, rnr(2), &[]);
    assert_eq!(stepped.meaning, rr(6));
    assert!(!after.side.sent && after.side.holds());
    // The confirmed message is gone before the answer is chosen.
    let (after, stepped) = step(held, rr(3), &[]);
    assert_eq!((stepped.meaning, after.side.ns), (rr(6), 3));
    assert!(stepped.effect.confirmed);
    // Held and full: I; the counts are those after the order.
    let (after, stepped) = step(held, i(6, 2), &MESSAGE);
    assert_eq!((stepped.meaning, stepped.size), (i(2, 7), 6));
    assert!(after.side.full());
    // Nr one ahead with nothing held: Ns goes up, no message is confirmed.
    let (after, stepped) = step(nrm(2, 6), rr(3), &[]);
    assert!(!stepped.effect.confirmed && after.side.ns == 3);
}

#[test]
fn synchronising_drops_only_what_was_sent() {
    for sent in [false, true] {
        let mut slave = Slave::make(5).unwrap().put(&MESSAGE).0;
        slave.side.sent = sent;
        slave.side.ns = 4;
        slave.side.nr = 5;
        let (after, _) = step(slave, Meaning::Snrm, &[]);
        let mut master = linked(4, 5).put(&MESSAGE).0;
        master.mode = MasterMode::Connecting;
        master.side.sent = sent;
        master.busy = true;
        let (heard, responded) = hear(master, Meaning::Ua, &[]);
        assert_eq!(responded.effect.link, Link::Gained);
        assert_eq!((heard.mode, heard.busy), (MasterMode::Linked, false));
        for side in [after.side, heard.side] {
            assert_eq!((side.ns, side.nr), (0, 0));
            assert_eq!((side.holds(), side.doubt), (!sent, sent));
            assert!(!side.sent);
        }
        assert_eq!(after.side.held, slave.side.held);
        assert!(!after.clear().0.side.doubt && !heard.clear().0.side.doubt);
    }
}

#[test]
fn master_modes() {
    let mut lent = [9; 253];
    let (master, ordered) = Master::make(5, 10).unwrap().order(100, &mut lent);
    assert_eq!(ordered.unwrap().meaning, Meaning::Disc);
    let (same, responded) = hear(master, Meaning::Frmr, &[]);
    assert_eq!(same.mode, MasterMode::Disconnecting);
    assert_eq!(responded.effect.link, Link::Kept);
    let (master, _) = hear(master, Meaning::Ua, &[]);
    assert_eq!(master.mode, MasterMode::Connecting);
    let (master, ordered) = master.order(100, &mut lent);
    let ordered = ordered.unwrap();
    assert_eq!((ordered.address, ordered.meaning), (5, Meaning::Snrm));
    assert_eq!(ordered.size, 0);
    assert_eq!(hear(master, rr(0), &[]).0.mode, MasterMode::Disconnecting);
    assert_eq!(hear(master, rr(0), &[]).1.effect.link, Link::Kept);
    let silent = master.silence().0;
    assert_eq!(silent.mode, MasterMode::Connecting);
    assert!(!silent.waiting);
    assert_eq!(hear(master, Meaning::Ua, &[]).0.mode, MasterMode::Linked);
    for meaning in [Meaning::Ua, Meaning::Frmr, Meaning::Snrm, Meaning::Disc] {
        let mut busy = linked(1, 2);
        busy.busy = true;
        let (after, responded) = hear(busy, meaning, &[]);
        assert_eq!(after.mode, MasterMode::Disconnecting);
        assert_eq!(responded.effect.link, Link::Lost);
        assert!(after.busy && after.side == busy.side);
    }
    assert_eq!(lent, [9; 253]);
}

#[test]
fn master_orders_when_linked() {
    let order = |mut master: Master| {
        master.waiting = false;
        let (master, ordered) = master.order(7, &mut [0; 253]);
        (master, ordered.unwrap().meaning)
    };
    let empty = linked(1, 2);
    let held = empty.put(&MESSAGE).0;
    assert_eq!(order(empty).1, rr(2));
    let (after, meaning) = order(held);
    assert_eq!(meaning, i(1, 2));
    assert!(after.side.sent && after.waiting && after.tick == 7);
    let busy = hear(held, rnr(1), &[]).0;
    assert!(busy.busy && order(busy).1 == rr(2));
    let mut again = busy;
    again.waiting = true;
    assert!(!hear(again, rr(1), &[]).0.busy);
    let (full, responded) = hear(again, i(2, 1), &OTHER);
    assert!(!full.busy && responded.effect.handed_over);
    let (after, meaning) = order(full);
    assert_eq!(meaning, rnr(3));
    assert!(!after.side.sent);
}

#[test]
fn late_and_foreign_responses_count_as_silence() {
    let master = linked(0, 0);
    for (now, address, silence) in [
        (109, 5, false),
        (110, 5, true),
        (99, 5, true),
        (100, 6, true),
        (100, 0, true),
        (100, 251, true),
    ] {
        let (after, responded) = master.response(now, address, Meaning::Frmr, &[]);
        assert_eq!(responded.unwrap().silence, silence);
        let mut expected = master;
        expected.waiting = false;
        if !silence {
            expected.mode = MasterMode::Disconnecting;
        }
        assert_eq!(after, expected);
        assert_eq!(after.response(100, 5, rr(0), &[]).1, Err(16));
    }
}

#[test]
fn restart_keeps_slots_and_marks() {
    let mut master = linked(3, 4).put(&MESSAGE).0;
    master.side.sent = true;
    master.side.doubt = true;
    master.busy = true;
    let slave = Slave {
        mode: SlaveMode::Nrm,
        address: 9,
        side: master.side,
    };
    let (after, done) = master.restart();
    assert_eq!(done, Ok(()));
    assert_eq!(after.mode, MasterMode::Disconnecting);
    assert!(!after.busy && !after.waiting);
    assert_eq!((after.address, after.limit), (5, 10));
    let mut side = master.side;
    side.ns = 0;
    side.nr = 0;
    assert_eq!(after.side, side);
    let (after, _) = slave.restart();
    assert_eq!((after.mode, after.address), (SlaveMode::Ndm, 9));
    assert_eq!(after.side, side);
}
