//! The cost of positions and notes: packing and unpacking with them, and the volume, of which our aim is that it costs at most 10
//! nanoseconds a triangle more than unpacking the same pack; and the furnace's own reader, on the box.

use crate::{grown, medians, packings, print_ratio, unpackings};
use compare::expected::{self, LEVEL};
use compare::{bench, pack_whole, Buffers};
use cutborder::fast::Unpacker;
use cutborder::gen::{self, Model};
use cutborder::rng::Rng;
use cutborder::{volume, Place};
use std::hint::black_box;

/// A pack's first two fields, and the contents of a third.
pub fn parts(pack: &[u8]) -> (&[u8], Option<&[u8]>) {
    let f = expected::fields(pack).expect("a pack");
    (&pack[..14 + f.ops.len()], f.positions)
}

/// Positions by old vertex, tested and written as the second program does it.
pub fn put_field(out: &mut [u8], positions: &[i32], numbering: &[u16]) {
    assert!(positions.len() == 3 * numbering.len() && positions.iter().all(|&z| volume::in_range(z)));
    let contents = volume::write(positions, numbering);
    out[0] = 3;
    out[1..3].copy_from_slice(&(contents.len() as u16).to_be_bytes());
    out[3..3 + contents.len()].copy_from_slice(&contents);
}

/// The models of the first table as they are made and shuffled, and closed ones of growing size.
fn models() -> Vec<(String, Model)> {
    let mut rng = Rng::new(42);
    let mut out = Vec::new();
    for (name, m) in grown() {
        let shuffled = gen::relist(&mut rng, &m);
        out.push((name.into(), m));
        out.push((format!("{name} shuffled"), shuffled));
    }
    let torus = |n: usize| (format!("torus {}", 2 * n * n), Model::of(&gen::grid(n, n, true, true, || true)));
    out.extend([8, 16, 32].map(torus));
    out
}

/// The volume call, and the second program's fast engine followed by its sum of determinants; and the same pack unpacked by the service.
fn volumes(pack: &[u8], m: &Model, repeats: usize) -> Option<((f64, f64), (f64, f64))> {
    let (mut triangles, mut expected) = (vec![0; m.list.len()], vec![0; m.list.len()]);
    let (mut places, mut expected_places) = (vec![Place::default(); 1_024], vec![Place::default(); 1_024]);
    compare::volume(pack, &mut triangles, &mut places).ok()?;
    let (two, field) = parts(pack);
    let field = field.expect("positions");
    let mut unpacker = Unpacker::new();
    let mut ours = || _ = black_box(compare::volume(black_box(pack), &mut triangles, &mut places)).expect("a volume");
    let theirs = || {
        black_box(unpacker.unpack_at(LEVEL, black_box(two), &mut expected, &mut expected_places)).expect("an accepted pack");
        assert!(volume::sound(black_box(field), m.v as u32));
        black_box(volume::six(black_box(expected.as_chunks().0), field));
    };
    let ratio = medians(repeats, &mut ours, theirs);
    let (mut unpacked, mut cleared) = (vec![0; m.list.len()], vec![Place::default(); 1_024]);
    let unpacking = || _ = black_box(compare::unpack(black_box(pack), &mut unpacked, &mut cleared)).expect("an accepted pack");
    Some((ratio, medians(repeats, &mut ours, unpacking)))
}

/// Prints a line for each model; one with a rim has no volume. Then what a note costs.
pub fn table(repeats: usize) {
    println!("with positions: nanoseconds a triangle, median of {repeats} calls, ours and the second program's, and their ratio");
    println!("its fast engine has no positions: what it has for them elsewhere, written plainly, is called after the engine");
    println!("more: what the volume costs more than unpacking the same pack, ours; our aim is at most 10");
    println!(
        "{:<16} {:>6} {:>6}  {:>8} {:>8} {:>6}  {:>8} {:>8} {:>6}  {:>8} {:>8} {:>6}  {:>6}",
        "model", "V", "T", "unpack", "second", "ratio", "pack", "second", "ratio", "volume", "second", "ratio", "more"
    );
    let mut rng = Rng::new(13);
    for (name, m) in models() {
        let t = (m.list.len() / 3) as f64;
        let positions: Vec<i32> = (0..3 * m.v).map(|_| rng.below(4_096) as i32 - 2_048).collect();
        print!("{name:<16} {:>6} {:>6}", m.v, t);
        print_ratio(unpackings(&m, Some(&positions), repeats), t);
        print_ratio(packings(&m, Some(&positions), repeats), t);
        let pack = expected::packed(&m, Some(&positions)).expect("a pack");
        if let Some((ratio, (volume, unpack))) = volumes(&pack, &m, repeats) {
            print_ratio(ratio, t);
            print!("  {:>6.1}", (volume - unpack) / t);
        }
        println!();
    }
    println!();
    notes(repeats);
    println!();
    reader(repeats);
}

/// The furnace's own reader, beside the second program's small reader, on closed models within its peaks.
fn reader(repeats: usize) {
    println!("the furnace's own reader: nanoseconds a triangle, median of {repeats} calls, ours and the second program's, and their ratio");
    println!("{:<16} {:>6} {:>6}  {:>8} {:>8} {:>6}", "model", "V", "T", "read", "second", "ratio");
    let mut rng = Rng::new(16);
    for n in [4, 16, 32] {
        let m = Model::of(&gen::grid(n, 1_024 / n, true, true, || true));
        let positions: Vec<i32> = (0..3 * m.v).map(|_| rng.below(4_096) as i32 - 2_048).collect();
        let pack = expected::packed(&m, Some(&positions)).expect("a pack");
        if expected::melt(&pack).is_err() {
            continue;
        }
        let t = (m.list.len() / 3) as f64;
        let mut memory = [0; 1_024];
        print!("{:<16} {:>6} {:>6}", format!("ring of {n}"), m.v, t);
        let ours = || _ = black_box(compare::melt(black_box(&pack), &mut memory)).expect("a volume");
        let theirs = || _ = black_box(expected::melt(black_box(&pack))).expect("a volume");
        print_ratio(medians(repeats, ours, theirs), t);
        println!();
    }
}

/// What a note of 64 bytes costs beside positions: packing with it and without; the bench reader, and unpacking the same pack.
fn notes(repeats: usize) {
    println!("with positions and a note: nanoseconds a triangle, median of {repeats} calls, ours with and without it, and their ratio");
    println!(
        "{:<16} {:>6} {:>6}  {:>8} {:>8} {:>6}  {:>8} {:>8} {:>6}",
        "model", "V", "T", "pack", "without", "ratio", "bench", "unpack", "ratio"
    );
    for (name, m) in grown().into_iter().take(2) {
        let (v, t, note) = (m.v as usize, m.list.len() / 3, [9; 64]);
        let positions = vec![0; 3 * v];
        let (mut noted, mut plain) = (Buffers::ample(v, t), Buffers::ample(v, t));
        let pack = |note: Option<&[u8]>, lent: &mut Buffers| {
            black_box(pack_whole(v, black_box(&m.list), Some(&positions), note, lent.lend())).expect("an accepted list")
        };
        print!("{name:<16} {v:>6} {t:>6}");
        print_ratio(medians(repeats, || _ = pack(Some(&note), &mut noted), || _ = pack(None, &mut plain)), t as f64);
        let size = pack(Some(&note), &mut noted);
        let whole = noted.pack[..size].to_vec();
        let (mut triangles, mut unpacked) = (vec![0; 3 * t], vec![0; 3 * t]);
        let read = || _ = black_box(bench(black_box(&whole), &mut triangles, &mut noted.places)).0.expect("an accepted pack");
        let unpack = || _ = black_box(compare::unpack(black_box(&whole), &mut unpacked, &mut plain.places)).expect("an accepted pack");
        print_ratio(medians(repeats, read, unpack), t as f64);
        println!();
    }
}
