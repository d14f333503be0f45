//! The samples of the repository, by the public calls.

use pst_verify::{answer, check, decode, Refusal, Store};
use std::thread;

fn sample(name: &str) -> Vec<u8> {
    let path = format!("{}/../../samples/{name}", env!("CARGO_MANIFEST_DIR"));
    std::fs::read(path).expect("the sample is there")
}

#[test]
fn counts() {
    let report = check(&sample("mail.pst")).expect("it is a store");
    assert_eq!((report.folders, report.messages), (5, 4));
    assert!(report.lost.is_empty());
}

#[test]
fn faults() {
    let mut bytes = sample("m0.pst");
    bytes[19550] = b'X';
    match check(&bytes) {
        Err(Refusal::Fault(fault)) => {
            assert_eq!((fault.number, fault.at, fault.bid), (14, 0x4c40, 8));
            assert_eq!(fault.kind, "BlockTrailer");
            assert!(fault.damage());
            assert_eq!(
                fault.to_string(),
                "no: 14 BlockTrailer at 0x4c40 bid 0x8 nid 0x0"
            );
        }
        other => panic!("{other:?}"),
    }
}

#[test]
fn a_node_that_is_a_table() {
    let bytes = sample("m1.pst");
    let store = Store::new(&bytes);
    let line = "no: 21 Heap at 0x4c80 bid 0xc nid 0x12d";
    for refusal in [
        store.props("0x12D").unwrap_err(),
        store.all_props(&["0x21", "0x12d"]).unwrap_err(),
        store.answer(&["value", "-", "0x12D", "3001"]).unwrap_err(),
    ] {
        assert!(matches!(refusal, Refusal::Node(_)), "{refusal:?}");
        assert_eq!((refusal.status(), &*refusal.to_string()), (1, line));
    }
    assert!(check(&bytes).is_ok());
}

#[test]
fn the_same_kind_of_the_file() {
    // The heap of the root folder says that it is a table, and the check value of its block is right.
    let mut bytes = sample("m1.pst");
    bytes[0x4c43] = 0x7c;
    bytes[0x4c74..0x4c78].copy_from_slice(&[0xba, 0x2f, 0xf1, 0x4d]);
    let no = check(&bytes).unwrap_err();
    assert_eq!(no.to_string(), "no: 21 Heap at 0x4c40 bid 0x8 nid 0x122");
    let store = Store::new(&bytes);
    for path in ["0x122", "0x12D"] {
        assert_eq!(store.props(path).unwrap_err(), no);
    }
}

#[test]
fn decoded() {
    let mut bytes = sample("mail_permute.pst");
    match check(&bytes) {
        Err(Refusal::Fault(fault)) => {
            assert_eq!((fault.number, fault.value), (4, Some(1)));
            assert!(!fault.damage());
        }
        other => panic!("{other:?}"),
    }
    decode(&mut bytes).expect("there is memory");
    let plain = sample("mail.pst");
    let store = Store::new(&bytes);
    assert_eq!(
        store.messages().expect("it is a store"),
        Store::new(&plain).messages().expect("it is a store")
    );
}

#[test]
fn values() {
    let bytes = sample("mail.pst");
    let store = Store::new(&bytes);
    let folders = store.folders().expect("it is a store");
    assert_eq!(folders[1].name.as_deref(), Some("Top of Personal Folders"));
    let nodes = store
        .all_props(&["0x400004", "0x400024"])
        .expect("both are there");
    assert_eq!(nodes[0].attachments[0].name(), Some("file0.bin"));
    let data = nodes[0].attachments[0].data().expect("it has bytes");
    let slice = data.as_slice().expect("it lies in one piece");
    assert_eq!(slice.len(), 100);
    // A slice of the caller's own bytes.
    assert!(bytes.as_ptr_range().contains(&slice.as_ptr()));
    let value = answer(&["value", "-", "0x400004/0x8025", "3701"], &bytes);
    assert_eq!(&*value.text, slice);
    let embedded = nodes[1].attachments[0].embedded.as_deref();
    assert_eq!(embedded, Some("0x400024/0x8045/0x200024"));
}

#[test]
fn what_is_whole() {
    let mut bytes = sample("mail.pst");
    // A byte of the block of the first message's properties.
    bytes[22473] ^= 1;
    let store = Store::new(&bytes);
    assert!(matches!(store.messages(), Err(Refusal::Fault(_))));
    let whole = store.whole();
    let messages = whole.messages().expect("some are whole");
    let nids: Vec<&str> = messages.iter().map(|it| it.nid.as_str()).collect();
    assert_eq!(nids, ["0x400024", "0x400044", "0x400064"]);
    let folders = whole.folders().expect("they are whole");
    assert_eq!(folders[4].messages, Some(4));
    let no = whole.props("0x400004").expect_err("it is broken");
    let line = "no: 15 BlockMissing at 0x0 bid 0xc nid 0x400004";
    assert!(matches!(no, Refusal::Node(_)));
    assert_eq!(no.to_string(), line);
    let value = whole.value("0x400044/0x8025", "3701").expect("it is whole");
    let node = whole.props("0x400044").expect("it is whole");
    let data = node.attachments[0].data().expect("it has bytes");
    assert_eq!(data.as_slice(), Some(&*value));
    let encoded = sample("mail_permute.pst");
    let refused = Store::new(&encoded).whole().messages();
    assert!(matches!(refused, Err(Refusal::Fault(fault)) if fault.number == 4));
    // With both words it is answered.
    let answer = answer(&["messages", "--whole", "--decode", "-"], &encoded);
    assert_eq!(answer.status, 0);
}

#[test]
fn what_there_is_not() {
    let bytes = sample("mail.pst");
    let store = Store::new(&bytes);
    let missing = Err(Refusal::Missing("no node 0x999".to_string()));
    assert_eq!(store.props("0x999"), missing);
    let words = Err(Refusal::Words("bad node id".to_string()));
    assert_eq!(store.props("none"), words);
    assert!(store.all_props::<&str>(&[]).expect("none").is_empty());
}

#[test]
fn threads_share_a_store() {
    let bytes = sample("mail.pst");
    let whole = check(&bytes);
    thread::scope(|scope| {
        for _ in 0..4 {
            scope.spawn(|| (0..50).for_each(|_| assert_eq!(check(&bytes), whole)));
        }
    });
}
