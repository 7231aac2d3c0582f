//! `inspector`: the program's lines against those of the second inspector.

use std::{fs, path::Path, process::Command, time::Instant};

use harness::{cases::images, geometry::Geometry, inspector, op::Layer, oracle::SIZES, random::Random};

use crate::options::{tell_sides, Options};

/// The program's buffer holds no larger image.
const LARGEST: usize = 65_536;

pub fn run(o: &Options) -> Result<(), String> {
    let [program, words @ ..] = &o.rest[..] else {
        return Err("inspector wants the command that runs the program".to_string());
    };
    tell_sides(&[Layer::Objects, Layer::Blocks]);
    let program = fs::canonicalize(program).map_err(|e| format!("{program}: {e}"))?;
    let folder = std::env::temp_dir().join(format!("stumpchoir-inspector-{}", std::process::id()));
    fs::create_dir_all(&folder).map_err(|e| format!("{}: {e}", folder.display()))?;
    let told = compare(o, &program, words, &folder);
    let _ = fs::remove_dir_all(&folder);
    told
}

fn compare(o: &Options, program: &Path, words: &[String], folder: &Path) -> Result<(), String> {
    let wanted = o.cases.unwrap_or(1_000);
    let start = Instant::now();
    let mut r = Random::new(o.seed);
    let mut count = 0;
    for made in 0..wanted {
        let g = geometry(&mut r, o.strict);
        let image = images::image(&mut r, g).image;
        let lines = inspector::lines(g, &image);
        let seen = inspect(program, words, folder, g, &image)?;
        if seen != lines {
            return Err(format!("DIFFERS: image {made} (seed {}), {g:?}\nthe text:\n{lines}the program:\n{seen}", o.seed));
        }
        count += lines.lines().count();
    }
    let seconds = start.elapsed().as_secs_f64();
    println!("inspector: {wanted} images, {count} lines (seed {}), the same on both sides, {seconds:.0} s", o.seed);
    Ok(())
}

fn inspect(program: &Path, words: &[String], folder: &Path, g: Geometry, image: &[u8]) -> Result<String, String> {
    let put = |name: &str, bytes: &[u8]| fs::write(folder.join(name), bytes).map_err(|e| format!("{name}: {e}"));
    put("geometry.bin", &inspector::record(g))?;
    put("image.bin", image)?;
    let ran = Command::new(program).args(words).current_dir(folder).output();
    let ran = ran.map_err(|e| format!("{}: {e}", program.display()))?;
    Ok(String::from_utf8_lossy(&ran.stdout).into_owned() + &String::from_utf8_lossy(&ran.stderr))
}

fn geometry(r: &mut Random, strict: bool) -> Geometry {
    let granularities: &[u8] = if strict { &[1, 4] } else { &[0, 1, 4] };
    loop {
        let (size, count) = r.pick(&SIZES);
        let least = if size <= 256 { 1 } else if size <= 65_535 { 2 } else { 3 };
        let (s, c) = (r.between(least.min(3), 3) as u8, r.between(1, 3) as u8);
        let g = Geometry { granularity: r.pick(granularities), s, c, strict: strict as u32, size, count };
        if g.good() && g.room() <= LARGEST && (size < 65_536 || r.one_in(8)) {
            return g;
        }
    }
}
