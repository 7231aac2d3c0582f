//! A case: everything that one call is handed, and its form as one line of text.
//!
//! `g=0/1/1/64x1 f=3 writer_write n=- a=142,1,255,0,8,0,0,0,0,0,0,0 b=414243 i=ba0144aa.00*4.ff*56`:
//! granularity/s/c/block size x count, fuse, function, single numbers, array, table, batch or words, lent bytes, image.
//! The mark stands behind the count: `g=4/1/1/64x1/strict`, and `/strict=N` for a number that is none.

use crate::{
    geometry::Geometry,
    hexrun,
    op::{Op, Place},
};

#[derive(Clone, PartialEq, Eq, Debug)]
pub struct Case {
    pub geometry: Geometry,
    pub fuse: Option<u32>,
    pub op: Op,
    /// single numbers, in the C function's order
    pub args: Vec<u32>,
    /// header, writer, reader, metadata, iterator, record, table, batch or words
    pub array: Vec<u32>,
    /// source, or the buffer's bytes before the call
    pub bytes: Vec<u8>,
    pub image: Vec<u8>,
}

impl Case {
    /// A call with nothing handed in yet.
    pub fn of(op: Op, geometry: Geometry) -> Case {
        Case { geometry, fuse: None, op, args: Vec::new(), array: Vec::new(), bytes: Vec::new(), image: Vec::new() }
    }

    pub fn has_image(&self) -> bool {
        self.op.signature().place != Place::Nothing
    }

    /// Where `file_read` begins: a u64, handed in as its low and its high half.
    pub fn position(&self) -> u64 {
        self.args[2] as u64 | (self.args[3] as u64) << 32
    }

    pub fn line(&self) -> String {
        let g = self.geometry;
        format!(
            "g={}/{}/{}/{}x{}{} f={} {} n={} a={} b={} i={}",
            g.granularity,
            g.s,
            g.c,
            g.size,
            g.count,
            show_mark(g.strict),
            show_fuse(self.fuse),
            self.op.name(),
            show_numbers(&self.args),
            show_numbers(&self.array),
            hexrun::show(&self.bytes),
            hexrun::show(&self.image)
        )
    }

    pub fn parse(line: &str) -> Result<Case, String> {
        let words: Vec<&str> = line.split_whitespace().collect();
        let &[g, f, name, n, a, b, i] = words.as_slice() else {
            return Err(format!("a case has 7 words, this line has {}", words.len()));
        };
        let op = Op::named(name).ok_or(format!("no function {name}"))?;
        let case = Case {
            geometry: parse_geometry(after(g, "g=")?)?,
            fuse: parse_fuse(after(f, "f=")?)?,
            op,
            args: parse_numbers(after(n, "n=")?)?,
            array: parse_numbers(after(a, "a=")?)?,
            bytes: hexrun::parse(after(b, "b=")?)?,
            image: hexrun::parse(after(i, "i=")?)?,
        };
        case.fits()?;
        Ok(case)
    }

    /// Whether the numbers of arguments are the function's.
    fn fits(&self) -> Result<(), String> {
        let signature = self.op.signature();
        if self.args.len() != signature.args.len() {
            return Err(format!("{} takes {} numbers {:?}", signature.name, signature.args.len(), signature.args));
        }
        if signature.array.len().is_some_and(|len| len != self.array.len()) {
            return Err(format!("{} takes an array of {:?} numbers", signature.name, signature.array.len()));
        }
        for (name, &value) in signature.args.iter().zip(&self.args) {
            let most = match *name {
                "type" | "state" => 255,
                "allow" => 1,
                _ => u32::MAX,
            };
            if value > most {
                return Err(format!("{name} is at most {most} in {}", signature.name));
            }
        }
        Ok(())
    }
}

pub fn after<'a>(word: &'a str, start: &str) -> Result<&'a str, String> {
    word.strip_prefix(start).ok_or(format!("{word:?} should begin with {start}"))
}

pub fn show_fuse(fuse: Option<u32>) -> String {
    fuse.map_or("-".to_string(), |units| units.to_string())
}

pub fn parse_fuse(text: &str) -> Result<Option<u32>, String> {
    if text == "-" {
        return Ok(None);
    }
    number(text).map(Some)
}

pub fn show_numbers<T: ToString>(numbers: &[T]) -> String {
    if numbers.is_empty() {
        return "-".to_string();
    }
    numbers.iter().map(T::to_string).collect::<Vec<_>>().join(",")
}

pub fn parse_numbers<T: std::str::FromStr>(text: &str) -> Result<Vec<T>, String> {
    if text == "-" {
        return Ok(Vec::new());
    }
    text.split(',').map(number).collect()
}

fn number<T: std::str::FromStr>(text: &str) -> Result<T, String> {
    text.parse().map_err(|_| format!("{text:?} is not a number of the right range"))
}

fn show_mark(strict: u32) -> String {
    match strict {
        0 => String::new(),
        1 => "/strict".to_string(),
        _ => format!("/strict={strict}"),
    }
}

fn parse_geometry(text: &str) -> Result<Geometry, String> {
    let (text, strict) = match text.split_once("/strict") {
        None => (text, 0),
        Some((text, "")) => (text, 1),
        Some((text, mark)) => (text, number(after(mark, "=")?)?),
    };
    let parts: Vec<&str> = text.split(['/', 'x']).collect();
    let &[granularity, s, c, size, count] = parts.as_slice() else {
        return Err(format!("{text:?} is not granularity/s/c/size x count"));
    };
    Ok(Geometry {
        granularity: number(granularity)?,
        s: number(s)?,
        c: number(c)?,
        strict,
        size: number(size)?,
        count: number(count)?,
    })
}
