//! A modem in small, as modem.c: one link over a pipe. Its bytes come from standard input and reach the server in pieces of five; each packet of
//! the server is printed as a line of hex. The end of the input is the loss of the link.
//!
//!     modem CLOCK < BYTES          CLOCK: seconds, as the server puts it into LOGIN_RESP and into upload times
//!
//! Exit status: 0 the link was played to its end; 1 the input can't be read or the output can't be written; 2 wrong use.
//! It is an example of the package `bindings`; scripts/build-embed builds it.
use bindings::server::{Answer, Server, Sizes};
use std::io::{self, Read, Write};

/// Says why in one line and ends.
fn fail(status: i32, why: &str) -> ! {
    eprintln!("{why}");
    std::process::exit(status)
}

fn print(line: &str) {
    if writeln!(io::stdout(), "{line}").is_err() {
        fail(1, "modem: standard output can't be written");
    }
}

/// Does what an answer asks of a modem. True while the link is there.
fn obey(answer: &Answer) -> bool {
    match answer {
        Answer::Quiet(_) => true,
        // send the packet: here it is printed
        Answer::Sent(_, packet) => {
            let hex: String = packet.iter().map(|byte| format!("{byte:02x}")).collect();
            print(&format!("send {hex}"));
            true
        }
        // disconnect; the session is closed already, so it is not reported as lost
        Answer::Closed(_) => {
            print("disconnect");
            false
        }
        // the caller asked for something that it may not; nothing has changed
        Answer::Refused(number) => {
            print(&format!("refused {number}"));
            false
        }
    }
}

/// Sends all that is due on the downlink. A real modem asks for the next packet when the link has room for it.
fn pump(server: &mut Server, session: usize) {
    loop {
        match server.request(session) {
            answer @ Answer::Sent(..) => obey(&answer),
            _ => return,
        };
    }
}

/// Hands a piece to the server, again and again until it is taken. True while the link is there.
fn hear(server: &mut Server, session: usize, clock: u32, mut piece: &[u8]) -> bool {
    while !piece.is_empty() {
        let answer = server.receive(session, clock, piece);
        if !obey(&answer) {
            return false;
        }
        piece = &piece[answer.taken()..];
        pump(server, session);
    }
    true
}

/// The link from its connection to its end.
fn pass(server: &mut Server, session: usize, clock: u32, bytes: &[u8]) {
    if !obey(&server.open(session, clock)) {
        return;
    }
    for piece in bytes.chunks(5) {
        if !hear(server, session, clock, piece) {
            return;
        }
    }
    print("lost");
    obey(&server.lose(session));
}

/// A clock has 32 bits and is written in digits alone.
fn read_clock(word: &str) -> Option<u32> {
    let digits = word.bytes().all(|byte| byte.is_ascii_digit());
    word.parse().ok().filter(|_| digits)
}

fn main() {
    let words: Vec<_> = std::env::args_os().skip(1).collect();
    let word = match &words[..] {
        [word] => word.to_string_lossy(),
        _ => fail(2, "use: modem CLOCK < BYTES"),
    };
    let clock = read_clock(&word).unwrap_or_else(|| {
        let range = "a number of seconds, 0 to 4294967295";
        fail(2, &format!("modem: CLOCK is {range}, and not '{word}'"))
    });
    let sizes = Sizes {
        blocks: 8,
        files: 4,
        sessions: 1,
        most: 5,
    };
    let mut server =
        Server::new(sizes).unwrap_or_else(|_| fail(1, "modem: the sizes are outside the table"));
    let mut bytes = Vec::new();
    if io::stdin().read_to_end(&mut bytes).is_err() {
        fail(1, "modem: standard input can't be read");
    }
    pass(&mut server, 1, clock, &bytes);
    if let Ok((free, all)) = server.free() {
        print(&format!("blocks {free} free of {all}"));
    }
}
