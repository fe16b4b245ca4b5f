//! The cost of the proved server's calls beside the second program's, without and with the test of the facts of refusal 35 at each call, and
//! beside copying the bytes. All times are medians; nothing is asserted on them.
mod measure;
mod servers;

use clock::opaque;
use measure::{Act, Row, Servers};
use reference::draft::Draft;
use reference::server::Sizes;
use server::packets::{ack, data, data_end, directory, download, select, upload, whole_upload};
use servers::Calls;

/// Blocks and files: the program's, more blocks, and more files too.
const SIZES: [(usize, usize); 3] = [(128, 32), (4096, 32), (4096, 256)];
/// The most relations with their ANDs that 256 bytes have room for.
const RELATIONS: usize = 51;

/// Hands over one packet, or less.
fn feed(server: &mut dyn Calls, session: usize, bytes: &[u8]) {
    assert_eq!(server.receive(session, opaque(bytes)), bytes.len());
}

/// A file with so many bytes.
fn file(length: usize) -> Vec<u8> {
    let header = Draft::new().bytes().len();
    Draft::new().with_body(&vec![3; length - header]).bytes()
}

/// Complete files at so many places, which share so many blocks.
fn fill(server: &mut dyn Calls, blocks: usize, files: usize) {
    server.open(1);
    server.open(2);
    for i in 0..files {
        let n = blocks * (i + 1) / files - blocks * i / files;
        for packet in whole_upload(&file(256 * n)) {
            feed(server, 1, &packet);
        }
    }
}

// ---- receive

/// The last place and block are those of a file that session 1 uploads.
fn receiving(sizes: Sizes) -> Vec<Row> {
    let Sizes { blocks, files, .. } = sizes;
    let mut servers = Servers::new(sizes);
    servers.each(|server| {
        fill(server, blocks - 1, files - 1);
        feed(server, 1, &upload(0, 256));
    });
    let packet = data(&[9; 256]);
    let check = servers.check();
    let whole = Act {
        name: "receive a DATA of 256 bytes",
        calls: 1,
        bytes: Some(packet.len()),
        before: None,
        act: &|server| {
            server.rewind(files - 1);
            feed(server, 1, &packet);
        },
    };
    let bytes = Act {
        name: "receive the same byte by byte",
        calls: packet.len(),
        bytes: None,
        act: &|server| {
            server.rewind(files - 1);
            packet.chunks(1).for_each(|byte| feed(server, 1, byte));
        },
        ..whole
    };
    let rows = [whole, bytes].map(|act| servers.row(&act, Some(&check)));
    [check].into_iter().chain(rows).collect()
}

// ---- SELECT

/// So many relations on the mandatory items, joined by an operator. Each compares with the empty text.
fn long_equation(relation: u8, operator: u8) -> Vec<u8> {
    let ids = [1, 2, 3, 4, 5, 6, 7, 8, 9, 10, 11, 0x12];
    let mut equation = Vec::new();
    for (i, id) in ids.into_iter().cycle().take(RELATIONS).enumerate() {
        equation.extend([relation, id, 0, 0]);
        if 0 < i {
            equation.push(operator);
        }
    }
    equation
}

/// Every place has a complete file.
fn selecting(sizes: Sizes) -> Vec<Row> {
    let mut servers = Servers::new(sizes);
    servers.each(|server| fill(server, sizes.blocks, sizes.files));
    let all = sizes.files.min(sizes.maxsel);
    // upload_time greater than 0, or than the largest; not the empty text, and all; the empty text, or any
    let equations = [
        (
            "SELECT, 1 relation, all match",
            all,
            vec![0x90, 0x12, 0, 4, 0, 0, 0, 0],
        ),
        (
            "SELECT, 1 relation, none matches",
            0,
            vec![0x90, 0x12, 0, 4, 255, 255, 255, 255],
        ),
        (
            "SELECT, 51 relations, all match",
            all,
            long_equation(0xb3, 1),
        ),
        (
            "SELECT, 51 relations, none matches",
            0,
            long_equation(0x83, 2),
        ),
    ];
    let check = servers.check();
    let row = |(name, count, equation): (&'static str, usize, Vec<u8>)| {
        let packet = select(&equation);
        servers.each(|server| {
            feed(server, 2, &packet);
            assert_eq!(server.output()[..4], [2, 0x11, count as u8, 0], "{name}");
        });
        let act = Act {
            name,
            calls: 1,
            bytes: None,
            before: None,
            act: &|server| feed(server, 2, &packet),
        };
        servers.row(&act, Some(&check))
    };
    equations.into_iter().map(row).collect()
}

// ---- bulk transfer

/// A file that takes all blocks: 1 MiB on the largest store.
fn transferring(sizes: Sizes) -> Vec<Row> {
    let mut servers = Servers::new(sizes);
    let file = file(256 * sizes.blocks);
    let packets: Vec<Vec<u8>> = file.chunks(256).map(data).collect();
    let upload_all = |server: &mut dyn Calls| {
        feed(server, 1, &upload(0, file.len() as u32));
        packets.iter().for_each(|packet| feed(server, 1, packet));
        feed(server, 1, &data_end());
    };
    let begin = |server: &mut dyn Calls| {
        server.empty();
        server.open(1);
    };
    servers.each(|server| {
        begin(server);
        upload_all(server);
    });
    let check = servers.check();
    let download = Act {
        name: "download a file of all blocks",
        // the command, DATA, DATA_END, a request that nothing is due for, and the client's word
        calls: packets.len() + 4,
        bytes: Some(file.len()),
        before: None,
        act: &|server| {
            feed(server, 1, &download(1, 0, 0));
            while server.request(1) {
                opaque(server.output());
            }
            feed(server, 1, &ack(0));
        },
    };
    let upload = Act {
        name: "upload a file of all blocks",
        calls: packets.len() + 2,
        before: Some(&begin),
        act: &upload_all,
        ..download
    };
    [upload, download]
        .map(|act| servers.row(&act, Some(&check)))
        .into()
}

// ---- directories

/// Every place has a complete file with a header of 80 bytes; session 2 has selected the oldest MAXSEL.
fn listing_ten(sizes: Sizes) -> Row {
    let mut servers = Servers::new(sizes);
    servers.each(|server| {
        fill(server, sizes.blocks, sizes.files);
        feed(server, 2, &select(&[0x90, 0x12, 0, 4, 0, 0, 0, 0]));
    });
    let check = servers.check();
    let act = Act {
        name: "short directory of ten files",
        // the command, 256, 256, 256 and 32 bytes of DATA, DATA_END, and a request that nothing is due for
        calls: 7,
        bytes: Some(800),
        before: None,
        act: &|server| {
            server.reselect();
            feed(server, 2, &directory(false, 0));
            while server.request(2) {
                opaque(server.output());
            }
        },
    };
    servers.row(&act, Some(&check))
}

/// A file that is one header of titles, as long as the store and body_offset have room for.
fn header(blocks: usize) -> Vec<u8> {
    let most = (256 * blocks).min(65_535);
    let mut draft = Draft::new();
    for _ in 0..(most - 80) / 258 {
        draft = draft.with_item(0x22, &[b'x'; 255]);
    }
    draft.bytes()
}

/// A long directory of one file; each of its requests walks over the header once.
fn listing_one(sizes: Sizes) -> Row {
    let mut servers = Servers::new(sizes);
    let file = header(sizes.blocks);
    servers.each(|server| {
        server.open(1);
        for packet in whole_upload(&file) {
            feed(server, 1, &packet);
        }
    });
    let check = servers.check();
    let act = Act {
        name: "long directory, the longest header",
        calls: (file.len() + 255) / 256 + 3,
        bytes: Some(file.len()),
        before: None,
        act: &|server| {
            feed(server, 1, &directory(true, 1));
            while server.request(1) {
                opaque(server.output());
            }
        },
    };
    servers.row(&act, Some(&check))
}

fn listing(sizes: Sizes) -> Vec<Row> {
    vec![listing_ten(sizes), listing_one(sizes)]
}

// ---- what is printed

fn measure((blocks, files): (usize, usize)) -> Vec<Row> {
    let sizes = Sizes {
        blocks,
        files,
        sessions: 4,
        maxsel: 50,
    };
    [
        receiving(sizes),
        selecting(sizes),
        transferring(sizes),
        listing(sizes),
    ]
    .into_iter()
    .flatten()
    .collect()
}

fn microseconds(time: f64) -> String {
    let digits = if time < 1000.0 { 3 } else { 2 };
    format!("{:.digits$}", time / 1000.0)
}

fn ratio(one: f64, other: f64) -> String {
    format!("{:.2}", one / other)
}

fn print(blocks: usize, files: usize, rows: &[Row]) {
    println!("{:<36}{:>44}{:>34}", "", "times in us", "proved against");
    println!(
        "{:<36}{:>11}{:>11}{:>11}{:>11}{:>12}{:>11}{:>11}{:>10}",
        format!("{blocks} blocks, {files} files"),
        "proved",
        "second",
        "+ checks",
        "copying",
        "second",
        "+ checks",
        "copying",
        "check"
    );
    for row in rows {
        let none = || "-".to_string();
        println!(
            "{:<36}{:>11}{:>11}{:>11}{:>11}{:>12}{:>11}{:>11}{:>8.0} %",
            row.name,
            microseconds(row.proved),
            microseconds(row.second),
            microseconds(row.checked),
            row.copy.map_or_else(none, microseconds),
            ratio(row.proved, row.second),
            ratio(row.proved, row.checked),
            row.copy.map_or_else(none, |copy| ratio(row.proved, copy)),
            100.0 * row.share,
        );
    }
    println!();
}

/// How each row grows from one size to another.
fn growth(what: &str, first: &[Row], last: &[Row]) {
    println!(
        "{what:<36}{:>10}{:>10}{:>10}",
        "proved", "second", "+ checks"
    );
    for (one, other) in first.iter().zip(last) {
        println!(
            "{:<36}{:>8} x{:>8} x{:>8} x",
            one.name,
            ratio(other.proved, one.proved),
            ratio(other.second, one.second),
            ratio(other.checked, one.checked),
        );
    }
    println!();
}

fn main() {
    let all = SIZES.map(measure);
    for ((blocks, files), rows) in SIZES.iter().zip(&all) {
        print(*blocks, *files, rows);
    }
    growth("32 times the blocks, 32 files", &all[0], &all[1]);
    growth("8 times the files, 4096 blocks", &all[1], &all[2]);
}
