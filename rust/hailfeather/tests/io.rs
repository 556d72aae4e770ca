//! Sessions as io::Write and io::Read.

use std::io::{self, ErrorKind, Read, Write};

use hailfeather::{cshake256, limits, Refusal, Session};

/// Reads from another reader in portions of 1, 2, 3 and so on to 300 bytes, and again from 1.
struct OddPortions<R> {
    inner: R,
    last: usize,
}

impl<R: Read> Read for OddPortions<R> {
    fn read(&mut self, out: &mut [u8]) -> io::Result<usize> {
        self.last = self.last % 300 + 1;
        let length = self.last.min(out.len());
        self.inner.read(&mut out[..length])
    }
}

fn refusal_inside(error: &io::Error) -> Refusal {
    *error.get_ref().expect("an error inside").downcast_ref().expect("a Refusal")
}

fn session() -> Session {
    Session::cshake256(b"", b"depot 7").unwrap()
}

fn in_one_call(message: &[u8], length: usize) -> Vec<u8> {
    let mut out = vec![0; length];
    cshake256(b"", b"depot 7", message, &mut out).unwrap();
    out
}

#[test]
fn copies_in_odd_pieces_equal_the_one_call() {
    let message: Vec<u8> = (0..100_000_u32).map(|i| ((i % 251) ^ (i >> 8)) as u8).collect();
    let mut session = session();
    assert_eq!(
        io::copy(
            &mut OddPortions {
                inner: &message[..],
                last: 0
            },
            &mut session
        )
        .unwrap(),
        100_000
    );
    let mut out = Vec::new();
    let portions = OddPortions {
        inner: &mut session,
        last: 0,
    };
    assert_eq!(io::copy(&mut portions.take(70_000), &mut out).unwrap(), 70_000);
    Read::take(&mut session, 5).read_to_end(&mut out).unwrap();
    assert_eq!(out, in_one_call(&message, 70_005));
}

#[test]
fn a_write_after_a_read_is_refused_with_1() {
    let mut session = session();
    session.write_all(b"a plan").unwrap();
    session.flush().unwrap();
    let mut out = [0; 64];
    session.read_exact(&mut out[..40]).unwrap();
    for piece in [&b"more"[..], b""] {
        let error = session.write(piece).unwrap_err();
        assert_eq!(error.kind(), ErrorKind::InvalidInput);
        assert_eq!(refusal_inside(&error).number(), 1);
        assert_eq!(
            error.to_string(),
            "refused 1: the session has begun to give output and takes no more of the message"
        );
    }
    session.read_exact(&mut out[40..]).unwrap();
    assert_eq!(out[..], in_one_call(b"a plan", 64));
}

#[test]
fn a_read_of_no_bytes_ends_the_message() {
    let mut session = session();
    assert_eq!(session.read(&mut []).unwrap(), 0);
    assert_eq!(refusal_inside(&session.write(b"a plan").unwrap_err()).number(), 1);
}

#[test]
fn reading_to_the_end_gives_16_mib() {
    let mut session = session();
    let mut out = Vec::new();
    assert_eq!(session.read_to_end(&mut out).unwrap(), limits::OUTPUT);
    assert_eq!(out, in_one_call(b"", limits::OUTPUT));
    assert_eq!(session.read(&mut [0; 9]).unwrap(), 0);
    assert_eq!(session.read_exact(&mut [0]).unwrap_err().kind(), ErrorKind::UnexpectedEof);
    assert_eq!(session.give(&mut [0]).unwrap_err().number(), 6);
}

#[test]
fn a_read_is_cut_at_16_mib() {
    let mut session = session();
    let mut out = vec![7; limits::OUTPUT + 2];
    assert_eq!(session.read(&mut out).unwrap(), limits::OUTPUT);
    assert_eq!(out[..limits::OUTPUT], in_one_call(b"", limits::OUTPUT));
    assert_eq!(out[limits::OUTPUT..], [7, 7]);
}

#[test]
fn a_write_past_16_mib_is_refused_with_5_and_changes_nothing() {
    let message = vec![0x5A; limits::MESSAGE];
    let mut session = session();
    session.write_all(&message[..limits::MESSAGE - 1]).unwrap();
    let error = session.write(&message[..2]).unwrap_err();
    assert_eq!((refusal_inside(&error).number(), error.kind()), (5, ErrorKind::InvalidInput));
    session.write_all(&message[..1]).unwrap();
    assert_eq!(refusal_inside(&session.write_all(&message[..1]).unwrap_err()).number(), 5);
    assert_eq!(session.write(b"").unwrap(), 0);
    let mut out = [0; 32];
    session.read_exact(&mut out).unwrap();
    assert_eq!(out[..], in_one_call(&message, 32));
}

#[test]
fn a_clone_goes_on_from_the_same_point() {
    let mut session = session();
    session.write_all(b"a ").unwrap();
    let mut clone = session.clone();
    session.write_all(b"plan").unwrap();
    clone.write_all(b"label").unwrap();
    drop(session.clone());
    for (mut session, message) in [(session, b"a plan".as_slice()), (clone, b"a label")] {
        let mut out = [0; 32];
        session.read_exact(&mut out).unwrap();
        assert_eq!(out[..], in_one_call(message, 32));
    }
}
