//! The rules' worked cases, on both sides of the line, through the wrapper.

use bitbus::*;

/// A message of `size` bytes that ends in `data`, all other bytes but the length zero.
fn message(size: usize, data: &[u8]) -> Vec<u8> {
    let mut message = vec![0; size];
    message[0] = (size + 2) as u8;
    message[size - data.len()..].copy_from_slice(data);
    message
}

/// The line bits from a place on, as text.
fn bits(line: &[u8], from: usize, count: usize) -> String {
    (from..from + count).map(|at| if line[at / 8] >> (at % 8) & 1 == 1 { '1' } else { '0' }).collect()
}

/// Data bytes as they stand on the line, the first `count` bits: the flag and 7 bytes without five ones go before.
fn on_the_line(data: &[u8], count: usize) -> String {
    let mut line = [0; FRAME_MOST];
    write(1, Meaning::I { ns: 0, nr: 0 }, &message(5 + data.len(), data), &mut line).unwrap();
    bits(&line, 64, count)
}

/// A slave in NRM, fresh but for that.
fn linked_slave() -> Slave {
    let mut slave = Slave::make(5).unwrap();
    slave.step(5, Meaning::Snrm, &[]).unwrap();
    slave
}

/// Lets an order of the master reach the slave, and gives the slave's answer.
fn arrives(slave: &mut Slave, order: &Frame) -> Answer {
    slave.step(order.address, order.meaning, &order.information).unwrap()
}

/// A whole exchange at tick 0.
fn exchange(master: &mut Master, slave: &mut Slave) -> (Answer, Heard) {
    let order = master.order(0).unwrap();
    let answer = arrives(slave, &order);
    let Frame { address, meaning, information } = &answer.response;
    let heard = master.response(0, *address, *meaning, information).unwrap();
    (answer, heard)
}

/// Both ends after a completed synchronisation.
fn linked() -> (Master, Slave) {
    let (mut master, mut slave) = (Master::make(5, 100).unwrap(), Slave::make(5).unwrap());
    exchange(&mut master, &mut slave);
    exchange(&mut master, &mut slave);
    assert_eq!((master.mode(), slave.mode()), (MasterMode::Linked, SlaveMode::Nrm));
    (master, slave)
}

#[test]
fn p1_to_p4_zeros_are_inserted() {
    assert_eq!(on_the_line(&[0xFF], 9), "111110111");
    assert_eq!(on_the_line(&[0xFF, 0xFF, 0x00], 20), "11111011111011111010");
    assert_eq!(on_the_line(&[0xF8], 9), "000111110");
    assert_eq!(on_the_line(&[0x7E], 9), "011111010");
}

#[test]
fn p5_to_p8_control_bytes() {
    assert_eq!(Meaning::I { ns: 3, nr: 5 }.control(), Ok(0xB6));
    assert_eq!(Meaning::Rr { nr: 7 }.control(), Ok(0xF1));
    assert_eq!(Meaning::Rnr { nr: 2 }.control(), Ok(0x55));
    for byte in [0x83, 0x19, 0x33] {
        assert_eq!(Meaning::of(byte), Err(Refusal::CONTROL));
    }
}

/// The capture record of each control byte shows whether the library knows it, and the listing what it takes it for.
#[test]
fn the_wrapper_knows_the_librarys_84_control_bytes() {
    let known: Vec<u8> = (0..=255).filter(|&byte| Meaning::of(byte).is_ok()).collect();
    assert_eq!(known.len(), 84);
    for byte in 0..=255 {
        let meaning = Meaning::of(byte);
        let information = if matches!(meaning, Ok(Meaning::I { .. })) { message(5, &[]) } else { vec![] };
        let mut capture = vec![6 + information.len() as u8, 0, 1, 0, 5, byte];
        capture.extend(&information);
        let second = list(&capture).lines().nth(1).unwrap().to_string();
        let size = information.len();
        let expected = match meaning {
            Ok(Meaning::I { ns, nr }) => format!("1 > 5 I {ns} {nr} {size}"),
            Ok(Meaning::Rr { nr }) => format!("1 > 5 RR - {nr} 0"),
            Ok(Meaning::Rnr { nr }) => format!("1 > 5 RNR - {nr} 0"),
            Ok(other) => format!("1 > 5 {} - - 0", format!("{other:?}").to_uppercase()),
            Err(refusal) => format!("1 refused {}", refusal.number()),
        };
        assert_eq!(second, expected);
        assert_eq!(meaning.and_then(Meaning::control), meaning.map(|_| byte));
    }
}

#[test]
fn p9_send_counts_at_own_nr_0() {
    for ns in 0..8 {
        let mut slave = linked_slave();
        let answer = slave.step(5, Meaning::I { ns, nr: 0 }, &message(5, &[])).unwrap();
        let (handed_over, meaning, link) = match ns {
            0 => (Some(5), Meaning::Rnr { nr: 1 }, Link::Same),
            7 => (None, Meaning::Rr { nr: 0 }, Link::Same),
            _ => (None, Meaning::Frmr, Link::Lost),
        };
        assert_eq!((answer.handed_over, answer.response.meaning, answer.link), (handed_over, meaning, link));
    }
}

#[test]
fn p10_receive_counts_at_own_ns_7() {
    let mut bytes = *linked_slave().as_bytes();
    bytes[2] = 7; // Ns
    let mut holding = Slave::from_bytes(bytes).unwrap();
    holding.put(&message(9, &[])).unwrap();
    for nr in 0..8 {
        let mut slave = holding.clone();
        let answer = slave.step(5, Meaning::Rr { nr }, &[]).unwrap();
        let (confirmed, meaning, link) = match nr {
            7 => (None, Meaning::I { ns: 7, nr: 0 }, Link::Same),
            0 => (Some(9), Meaning::Rr { nr: 0 }, Link::Same),
            _ => (None, Meaning::Frmr, Link::Lost),
        };
        assert_eq!((answer.confirmed, answer.response.meaning, answer.link), (confirmed, meaning, link));
        assert_eq!(slave.held().is_some(), nr != 0);
    }
}

#[test]
fn p11_an_age_across_the_ticks_wrap() {
    for (limit, late) in [(9, true), (10, false)] {
        let mut master = Master::make(5, limit).unwrap();
        master.order(4_294_967_290).unwrap();
        let heard = master.response(3, 5, Meaning::Ua, &[]).unwrap();
        assert_eq!(heard == Heard::Silence, late);
        assert!(!master.order_waits());
        assert_eq!(master.mode(), if late { MasterMode::Disconnecting } else { MasterMode::Connecting });
    }
}

#[test]
fn p12_a_flag_in_nrzi_and_back() {
    let mut levels = [0xFF, 0xAA];
    assert_eq!(nrzi_encode(true, &[0x7E], 8, &mut levels), Ok(true));
    assert_eq!(levels, [0b1000_0000, 0xAA]);
    let mut back = [0];
    assert_eq!(nrzi_decode(true, &levels, 8, &mut back), Ok(true));
    assert_eq!(back, [0x7E]);
}

#[test]
fn addresses_and_sizes_at_their_edges() {
    for (address, taken) in [(0, false), (1, true), (250, true), (251, false)] {
        assert_eq!(Slave::make(address).is_ok(), taken);
        assert_eq!(Master::make(address, 1).is_ok(), taken);
        assert_eq!(write(address, Meaning::Ua, &[], &mut [0; FRAME_MOST]).is_ok(), taken);
    }
    for (size, taken) in [(4, false), (5, true), (253, true), (254, false)] {
        let bytes = message(size, &[]);
        assert_eq!(message_check(&bytes).is_ok(), taken);
        let mut line = [0; FRAME_MOST];
        let written = write(7, Meaning::I { ns: 1, nr: 2 }, &bytes, &mut line);
        assert_eq!(written.is_ok(), taken);
        if let Ok(Written { bits, .. }) = written {
            assert_eq!(read(&line, bits).unwrap().information[..], bytes[..]);
        }
    }
}

#[test]
fn the_longest_frame_takes_311_bytes_at_most() {
    let mut ones = vec![0xFF; 253];
    ones[0] = 255;
    let mut line = [0; FRAME_MOST];
    let Written { bits, zeros } = write(250, Meaning::I { ns: 7, nr: 7 }, &ones, &mut line).unwrap();
    assert_eq!(bits, 16 + 8 * 257 + zeros);
    assert!(zeros <= 411 && bits <= 8 * FRAME_MOST);
}

#[test]
fn a_lost_response_doubles_nothing() {
    let (mut master, mut slave) = linked();
    master.put(&message(5, &[])).unwrap();
    let order = master.order(0).unwrap();
    assert_eq!(arrives(&mut slave, &order).handed_over, Some(5));
    master.silence().unwrap(); // the response was lost
    slave.take().unwrap();
    let (answer, heard) = exchange(&mut master, &mut slave);
    assert_eq!((answer.handed_over, answer.response.meaning), (None, Meaning::Rr { nr: 1 }));
    assert_eq!(heard, Heard::Response { confirmed: Some(5), handed_over: None, link: Link::Same });
    assert_eq!(slave.take(), Err(Refusal::SLOT_EMPTY));
}

#[test]
fn a_new_message_is_confirmed_by_rnr() {
    let (mut master, mut slave) = linked();
    master.put(&message(6, &[])).unwrap();
    let (answer, heard) = exchange(&mut master, &mut slave);
    assert_eq!((answer.handed_over, answer.response.meaning), (Some(6), Meaning::Rnr { nr: 1 }));
    assert_eq!(heard, Heard::Response { confirmed: Some(6), handed_over: None, link: Link::Same });
    assert!(master.busy() && master.held().is_none());
    assert_eq!(slave.waiting(), Some(&message(6, &[])[..]));
    assert_eq!(slave.take().unwrap()[..], message(6, &[])[..]);
    assert_eq!(slave.waiting(), None);
}

#[test]
fn a_message_in_doubt_is_marked_until_cleared() {
    let (mut master, mut slave) = linked();
    slave.put(&message(5, &[])).unwrap();
    let order = master.order(0).unwrap();
    assert_eq!(arrives(&mut slave, &order).response.meaning, Meaning::I { ns: 0, nr: 0 });
    master.restart();
    assert!(slave.sent() && !master.order_waits());
    exchange(&mut master, &mut slave); // DISC in NRM: FRMR
    exchange(&mut master, &mut slave);
    exchange(&mut master, &mut slave);
    assert!(slave.doubt() && slave.held().is_none() && !master.doubt());
    slave.clear();
    assert!(!slave.doubt());
}

#[test]
fn the_capture_of_the_rules() {
    let mut capture = vec![6, 0, 1, 0, 5, 0x93, 6, 0, 2, 0, 5, 0x73];
    let third = [0x0B, 0, 1, 0, 5, 0x10, 7, 0, 5, 0x31, 1];
    capture.extend(third);
    capture.extend([4, 0, 3, 0]);
    capture.extend(third);
    capture.extend([6, 0, 2, 0, 5, 0x31]);
    let listing = "no way node kind ns nr info\n1 > 5 SNRM - - 0\n2 < 5 UA - - 0\n3 > 5 I 0 0 5\n4 . - - - - -\n\
                   5 > 5 I 0 0 5\n6 < 5 RR - 1 0\n";
    assert_eq!(list(&capture), listing);
    assert_eq!(list(&[0; 65_537]), "too long\n");
    let whats: Vec<What> =
        std::iter::successors(record(&capture, 0).unwrap(), |one| record(&capture, one.next).unwrap())
            .map(|one| one.what)
            .collect();
    assert_eq!(whats.len(), 6);
    let (address, information) = (5, &third[6..]);
    assert_eq!(whats[2], What::Order { address, meaning: Meaning::I { ns: 0, nr: 0 }, information });
    assert_eq!(whats[3], What::Silence);
    assert_eq!(whats[5], What::Response { address, meaning: Meaning::Rr { nr: 1 }, information: &[] });
}

/// Silences give most text for their bytes; a frame and two bytes left make the last lines as long as can be.
#[test]
fn the_longest_listing() {
    let mut capture = [4, 0, 3, 0].repeat(16_382);
    capture.extend([6, 0, 1, 0, 250, 0x93, 0, 0]);
    assert_eq!(capture.len(), 65_536);
    let listing = list(&capture);
    assert_eq!(listing.len(), 283_838);
    assert!(listing.ends_with("\n16382 . - - - - -\n16383 > 250 SNRM - - 0\n16384 refused 18\n"));
}
