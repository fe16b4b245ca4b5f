//! Sizes, local refusals and LOGIN_RESP.

use crate::common::Desk;
use reference::server::{Answer, Server, Sizes};

#[test]
fn sizes_of_the_table_and_beside_it() {
    let fits = |blocks, files, sessions, maxsel| {
        let sizes = Sizes {
            blocks,
            files,
            sessions,
            maxsel,
        };
        match Server::new(sizes) {
            Ok(server) => {
                assert_eq!(server.store.free_blocks(), blocks);
                0
            }
            Err(refusal) => refusal,
        }
    };
    assert_eq!(fits(1, 1, 1, 1), 0);
    assert_eq!(fits(4096, 256, 4, 50), 0);
    for blocks in [63, 64, 65] {
        assert_eq!(fits(blocks, 1, 1, 1), 0);
    }
    for (blocks, files, sessions, maxsel) in [
        (0, 1, 1, 1),
        (4097, 1, 1, 1),
        (1, 0, 1, 1),
        (1, 257, 1, 1),
        (1, 1, 0, 1),
        (1, 1, 5, 1),
        (1, 1, 1, 0),
        (1, 1, 1, 51),
    ] {
        assert_eq!(fits(blocks, files, sessions, maxsel), 33);
    }
}

#[test]
fn session_numbers_out_of_range_not_open_or_already_open() {
    let mut desk = Desk::new();
    for session in [0, 5, 99, u32::MAX] {
        assert_eq!(desk.open(session), Answer::Refused(34));
        assert_eq!(desk.receive(session, b"\0"), Answer::Refused(34));
        assert_eq!(desk.request(session), Answer::Refused(34));
        assert_eq!(desk.lose(session), Answer::Refused(34));
    }
    for session in 1..=4 {
        assert_eq!(desk.receive(session, b""), Answer::Refused(34));
        assert_eq!(desk.request(session), Answer::Refused(34));
        assert_eq!(desk.lose(session), Answer::Refused(34));
        assert!(matches!(desk.open(session), Answer::Sent(0, _)));
        assert_eq!(desk.open(session), Answer::Refused(34));
        assert_eq!(desk.request(session), Answer::Quiet(0));
        assert_eq!(desk.lose(session), Answer::Quiet(0));
        assert_eq!(desk.lose(session), Answer::Refused(34));
    }
    assert_eq!(desk.server, Desk::new().server);
}

#[test]
fn an_output_shorter_than_258() {
    let mut server = Server::new(Sizes::PROGRAM).unwrap();
    let empty = server.clone();
    let mut output = [0xe7; 258];
    // A wrong session comes first.
    assert_eq!(server.open(9, 0, &mut output[..0]), Answer::Refused(34));
    assert_eq!(server.request(1, &mut output[..0]), Answer::Refused(34));
    for room in [0, 7, 257] {
        assert_eq!(server.open(1, 0, &mut output[..room]), Answer::Refused(32));
    }
    assert_eq!(server, empty);
    assert!(matches!(server.open(1, 0, &mut output), Answer::Sent(0, _)));
    let opened = server.clone();
    output.fill(0xe7);
    let short = &mut output[..257];
    assert_eq!(server.receive(1, 0, b"", short), Answer::Refused(32));
    // Even where the bytes would close the link.
    let refused = server.receive(1, 0, b"\x01\x20", short);
    assert_eq!(refused, Answer::Refused(32));
    assert_eq!(server.request(1, short), Answer::Refused(32));
    assert_eq!(server.open(1, 0, short), Answer::Refused(34));
    assert_eq!(server, opened);
    assert_eq!(output, [0xe7; 258]);
    assert_eq!(server.lose(1), Answer::Quiet(0));
}

#[test]
fn login_tells_the_clock() {
    let mut desk = Desk::new();
    desk.clock = 0x0403_0201;
    let told = crate::common::tell(&desk.open(2));
    assert_eq!(told, "LOGIN_RESP 0102030404");
    desk.clock = 0;
    assert_eq!(crate::common::tell(&desk.open(1)), "LOGIN_RESP 0000000004");
    desk.clock = u32::MAX;
    assert_eq!(crate::common::tell(&desk.open(3)), "LOGIN_RESP ffffffff04");
}
