//! Times of the store's calls at three sizes: medians over many runs, and the ratios between the sizes. Nothing is asserted on times.
use bindings::store::Store;
use clock::measured;
use reference::draft::Draft;
use store::drafts::after;

const SIZES: [(usize, usize); 3] = [(128, 32), (1024, 128), (4096, 256)];

/// Complete files at all places but the last one and on all blocks but the last one; a place and a block are left.
fn nearly_full(blocks: usize, files: usize) -> Store {
    let mut s = Store::empty(blocks, files);
    let (many, left) = (files - 1, blocks - 1);
    for i in 0..many {
        let n = left * (i + 1) / many - left * i / many;
        let body = vec![i as u8; 256 * n - 80];
        let file = Draft::new().with_body(&body).bytes();
        let place = s.begin(i as u32, file.len() as u32).expect("room");
        for part in file.chunks(256) {
            assert_eq!(s.append(place, part), 0);
        }
        assert_eq!(s.check(place), 0);
        assert_eq!(s.complete(place, i as u32 + 1), 0);
    }
    assert_eq!(s.free(), 1);
    assert_eq!(s.sound(many as u32, many as u32), 1);
    s
}

/// The two parts of `sound`: over the blocks, with one file that has them all, and over the files, with one block.
fn parts_of_sound(blocks: usize, files: usize) -> (f64, f64) {
    let mut one_file = Store::empty(blocks, 1);
    assert_eq!(one_file.begin(0, 256 * blocks as u32), Ok(0));
    let over_blocks = measured(|| {
        assert_eq!(one_file.sound(1, 0), 1);
    });
    let mut one_block = Store::empty(1, files);
    one_block.table = (1..=files as u32).flat_map(|n| [n, 0, 0, n]).collect();
    let over_files = measured(|| {
        assert_eq!(one_block.sound(files as u32, files as u32), 1);
    });
    (over_blocks, over_files)
}

type Measured = (&'static str, f64);

fn measure(blocks: usize, files: usize) -> Vec<Measured> {
    let mut s = nearly_full(blocks, files);
    let many = files as u32 - 1;
    let sound = measured(|| {
        assert_eq!(s.sound(many, many), 1);
    });
    let (over_blocks, over_files) = parts_of_sound(blocks, files);
    let reserve = measured(|| {
        let place = s.begin(many, 256).expect("room");
        assert_eq!(s.discard(place), 0);
    });
    // a file of one block, the last one
    let file = Draft::new().with_body(&[3; 176]).bytes();
    let place = s.begin(many, 256).expect("room");
    let append = measured(|| {
        s.table[4 * place + 2] = 0;
        assert_eq!(s.append(place, &file), 0);
    });
    let check = measured(|| {
        assert_eq!(s.check(place), 0);
    });
    let mut selected = [0; 50];
    let none = measured(|| {
        assert_eq!(s.select(&after(u32::MAX), &mut selected, 50), Ok(0));
    });
    let first = measured(|| {
        assert_eq!(
            s.select(&after(0), &mut selected, 50),
            Ok(50.min(files - 1))
        );
    });
    vec![
        ("sound", sound),
        ("  its part over the blocks", over_blocks),
        ("  its part over the files", over_files),
        ("begin and discard one block", reserve),
        ("append 256 bytes", append),
        ("check 256 bytes", check),
        ("select, all headers, no file", none),
        ("select, the first 50 files", first),
    ]
}

fn main() {
    let all: Vec<Vec<Measured>> = SIZES
        .iter()
        .map(|&(blocks, files)| measure(blocks, files))
        .collect();
    print!("{:<30}", "blocks/files");
    for (blocks, files) in SIZES {
        print!("{:>16}", format!("{blocks}/{files}"));
    }
    println!("{:>10}{:>10}", "2nd/1st", "3rd/1st");
    for row in 0..all[0].len() {
        print!("{:<30}", all[0][row].0);
        for size in &all {
            print!("{:>13.2} us", size[row].1 / 1000.0);
        }
        let ratio = |size: &[Measured]| size[row].1 / all[0][row].1;
        println!("{:>10.1}{:>10.1}", ratio(&all[1]), ratio(&all[2]));
    }
}
