//! Calls at the end of a thread, from the destructors of its own thread-locals, and on a small stack.

use nontrefalcu::{parse_rdef, Refusal};
use oracle::generate::chains::{chain, End};
use std::cell::RefCell;
use std::sync::mpsc::{channel, Sender};
use std::thread;

const CHUNK: &[u8] = include_bytes!("../../samples/nested.5.rdef");

/// The canonical form and the payload, of the sample and of an edit of it.
type Written = [Result<Vec<u8>, Refusal>; 4];

fn written() -> Written {
    let plain = parse_rdef(CHUNK).expect("a sample");
    let mut edited = plain.clone();
    edited.set_creator("another").expect("room");
    [
        plain.canonical(),
        edited.canonical(),
        plain.payload().map(|payload| payload.into_owned()),
        edited.payload().map(|payload| payload.into_owned()),
    ]
}

/// Writes when it is dropped.
struct Last(Sender<Written>);

impl Drop for Last {
    fn drop(&mut self) {
        let _ = self.0.send(written());
    }
}

thread_local! {
    static FIRST: RefCell<Option<Last>> = const { RefCell::new(None) };
    static SECOND: RefCell<Option<Last>> = const { RefCell::new(None) };
}

#[test]
fn destructors_of_thread_locals_write_as_others_do() {
    let (send, written_last) = channel();
    let other = send.clone();
    // One is made before the crate's own and one after it: one of the two is dropped when the crate's is gone.
    let before = thread::spawn(move || {
        FIRST.set(Some(Last(send)));
        let before = written();
        SECOND.set(Some(Last(other)));
        before
    });
    let before = before.join().expect("the thread ends");
    assert_eq!(before, written());
    assert!(before.iter().all(Result::is_ok));
    assert_eq!(written_last.iter().collect::<Vec<_>>(), [before.clone(), before]);
}

#[test]
fn a_small_stack_is_enough_for_types_of_the_greatest_depth() {
    let small = thread::Builder::new().stack_size(64 * 1_024).spawn(|| {
        assert_eq!(parse_rdef(&chain(5, 66, End::Leaf)).err(), Some(Refusal { number: 13 }));
        let chunk = chain(5, 65, End::Leaf);
        let mut def = parse_rdef(&chunk).expect("65 levels are read");
        assert_eq!(def.canonical().and_then(|form| parse_rdef(&form)?.canonical()), def.canonical());
        assert_eq!(def.payload().as_deref(), Ok(&*chunk));
        def.set_member_name(64, "edited").expect("the last node is a member's type");
        assert_eq!(def.payload().map(|payload| payload.into_owned()), def.canonical());
        assert!(format!("{def:?}").contains("ResourceDef"));
    });
    small.expect("a thread").join().expect("the thread ends");
}
