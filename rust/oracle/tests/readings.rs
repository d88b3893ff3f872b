//! How each front reads each kind of reply, as read from the kernel's source.

use oracle::{Front, Reading, read_reply};
use script::Reply;

const EIO: u64 = 5;
const EINVAL: u64 = 22;

fn regular(result: Result<u64, u64>, extra0: u8, notice: bool) -> Reply {
    Reply::Regular {
        result,
        extra0,
        notice,
    }
}

#[test]
fn words_and_errors() {
    for front in [Front::Regular, Front::Call, Front::Fdwrite] {
        for notice in [false, true] {
            let word = regular(Ok(u64::MAX), 255, notice);
            assert_eq!(read_reply(front, &word), (Reading::Word(u64::MAX), None));
            let error = regular(Err(132), 255, notice);
            assert_eq!(read_reply(front, &error), (Reading::Error(132), None));
        }
    }
}

/// With an error too.
#[test]
fn the_notice() {
    for notice in [false, true] {
        let word = regular(Ok(7), 0, notice);
        assert_eq!(
            read_reply(Front::StdFsCall, &word),
            (Reading::Word(7), Some(notice))
        );
        let error = regular(Err(4), 0, notice);
        assert_eq!(
            read_reply(Front::StdFsCall, &error),
            (Reading::Error(4), Some(notice))
        );
    }
    // descriptors bring none
    let read = read_reply(Front::StdFsCall, &Reply::Fd(3));
    assert_eq!(read, (Reading::Error(EIO), None));
    let read = read_reply(Front::StdFsCall, &Reply::Many(vec![3]));
    assert_eq!(read, (Reading::Error(EIO), None));
}

#[test]
fn descriptors_where_a_word_belongs() {
    for front in [Front::Regular, Front::Call, Front::Fdwrite] {
        let read = |reply| read_reply(front, &reply).0;
        assert_eq!(read(Reply::Fd(3)), Reading::Error(EIO));
        assert_eq!(read(Reply::Many(vec![3, 4])), Reading::Error(EIO));
        assert_eq!(read(Reply::Many(vec![])), Reading::Error(EIO));
    }
}

/// The payload has a word for each.
#[test]
fn descriptors_that_are_received() {
    let read = |reply| read_reply(Front::Fdread, &reply);
    for notice in [false, true] {
        let word = regular(Ok(9), 0, notice);
        assert_eq!(read(word), (Reading::Error(EIO), None));
        let error = regular(Err(132), 255, notice);
        assert_eq!(read(error), (Reading::Error(132), None));
    }
    assert_eq!(read(Reply::Fd(3)), (Reading::Error(EIO), None));
    for count in 0..=16 {
        let many = Reply::Many((0..count).map(|d| d % 3).collect());
        assert_eq!(read(many), (Reading::Word(count), None));
    }
}

/// The error first, then the bits of extra0 that have no name.
#[test]
fn files() {
    for front in [Front::Open, Front::Dup] {
        let read = |reply| read_reply(front, &reply).0;
        for notice in [false, true] {
            assert_eq!(read(regular(Ok(9), 0, notice)), Reading::Local(9, 0));
            assert_eq!(read(regular(Ok(9), 1, notice)), Reading::Local(9, 1));
            for extra0 in [2, 3, 128, 255] {
                assert_eq!(read(regular(Ok(9), extra0, notice)), Reading::Error(EINVAL));
                assert_eq!(read(regular(Err(4), extra0, notice)), Reading::Error(4));
            }
        }
        assert_eq!(read(Reply::Fd(63)), Reading::External(63));
        assert_eq!(read(Reply::Many(vec![1])), Reading::Error(EIO));
    }
}
