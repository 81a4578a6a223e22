//! The driver. Not part of the original; it calls the original code only.
//! The canonical lines are described in the README of the folder this comes from.
use super::components::{Component, LikeComponent, component, components, read_component};
use super::parameters::{Parameter, oracle_parameter, parameters};
use super::parsed_string::ParseString;
use super::properties::{Property, property};
use super::utils::{property_key, unfold, valid_key_sequence};
use crate::properties::{fold_line, oracle_quote_special_chars};
use crate::text::{escape_text, unescape_text};
use nom_language::error::VerboseError;
use std::borrow::Cow;
use std::fmt::Write as _;
use std::io::{Read, Write as _};
use std::time::Instant;

type VE<'a> = VerboseError<&'a str>;

const PARTS: [&str; 18] = [
    "unfold", "key", "keyseq", "param", "params", "fold", "quote", "read", "write", "readwrite",
    "escape", "unescape", "strict", "foldstrict", // compared
    "property", "readrest", "components", // to look at only
    "replay", // any of those with a letter, named by each case itself
];

/// The part that a letter names, and the bytes behind the letter: a case of `replay`.
fn lettered(case: &[u8]) -> Option<(&'static str, &[u8])> {
    let (letter, rest) = case.split_first()?;
    let part = match letter {
        b'u' => "unfold",
        b'k' => "key",
        b's' => "keyseq",
        b'p' => "param",
        b'P' => "params",
        b'f' => "fold",
        b'q' => "quote",
        b'r' => "read",
        b'w' => "write",
        b'W' => "readwrite",
        b'e' => "escape",
        b't' => "unescape",
        b'T' => "strict",
        b'F' => "foldstrict",
        _ => return None,
    };
    Some((part, rest))
}

fn hex(b: &[u8]) -> String {
    const D: &[u8; 16] = b"0123456789abcdef";
    let mut s = String::with_capacity(b.len() * 2);
    for x in b {
        s.push(D[(x >> 4) as usize] as char);
        s.push(D[(x & 15) as usize] as char);
    }
    s
}
fn ok_hex(s: &str) -> String {
    format!("ok {}", hex(s.as_bytes()))
}

/// Offset of `part` in `whole`; parts that are not inside (the static "") give 0.
fn off(whole: &str, part: &str) -> usize {
    let w = whole.as_ptr() as usize;
    let p = part.as_ptr() as usize;
    if p >= w && p + part.len() <= w + whole.len() { p - w } else { 0 }
}
/// Key start (`e` for an empty key: nom's empty slices may point elsewhere), length, presence, value.
fn param_text(whole: &str, p: &Parameter<'_>) -> String {
    let k = p.key.as_str();
    let at = if k.is_empty() { "e".to_owned() } else { off(whole, k).to_string() };
    match &p.val {
        None => format!("{at} {} 0 0 0", k.len()),
        Some(v) => {
            let v = v.as_str();
            format!("{at} {} 1 {} {}", k.len(), off(whole, v), v.len())
        }
    }
}

/// `C name`, its properties `P key value`, each with its parameters `p key` (absent value) or
/// `v key value`, the children, `E`. Byte strings in hex behind `=`, so that empty ones show.
fn dump(c: &Component<'_>, out: &mut String) {
    let h = |s: &ParseString<'_>| hex(s.as_str().as_bytes());
    let _ = write!(out, " C ={}", h(&c.name));
    for p in &c.properties {
        let _ = write!(out, " P ={} ={}", h(&p.name), h(&p.val));
        for q in &p.params {
            let _ = match &q.val {
                None => write!(out, " p ={}", h(&q.key)),
                Some(v) => write!(out, " v ={} ={}", h(&q.key), h(v)),
            };
        }
    }
    for k in &c.components {
        dump(k, out);
    }
    out.push_str(" E");
}

/// A case of `write`: the numbers of words of the three tables, the words of each, and the text.
struct Tables<'a> {
    text: &'a str,
    components: Vec<u32>,
    properties: Vec<u32>,
    parameters: Vec<u32>,
}
fn words<'a>(case: &mut &'a [u8], count: usize) -> Vec<u32> {
    let (front, rest) = case.split_at(4 * count);
    *case = rest;
    front.chunks_exact(4).map(|word| u32::from_le_bytes(word.try_into().unwrap())).collect()
}
impl<'a> Tables<'a> {
    /// Nothing where the text is not UTF-8.
    fn of(mut case: &'a [u8]) -> Option<Self> {
        let counts = words(&mut case, 3);
        let [components, properties, parameters] =
            [0, 1, 2].map(|table| words(&mut case, counts[table] as usize));
        let text = std::str::from_utf8(case).ok()?;
        Some(Tables { text, components, properties, parameters })
    }
    fn part(&self, start: u32, length: u32) -> ParseString<'a> {
        self.text[start as usize..][..length as usize].into()
    }
    /// The trees whose parent is this row, in order; for the word that stands for none, the top ones.
    fn below(&self, parent: u32) -> Vec<Component<'a>> {
        let rows = self.components.chunks_exact(4).zip(0..);
        rows.filter(|(word, _)| word[0] == parent)
            .map(|(word, row)| Component {
                name: self.part(word[2], word[3]),
                properties: self.owned_by(row),
                components: self.below(row),
            })
            .collect()
    }
    fn owned_by(&self, owner: u32) -> Vec<Property<'a>> {
        let rows = self.properties.chunks_exact(5).zip(0..);
        rows.filter(|(word, _)| word[0] == owner)
            .map(|(word, row)| Property {
                name: self.part(word[1], word[2]),
                val: self.part(word[3], word[4]),
                params: self.held_by(row),
            })
            .collect()
    }
    fn held_by(&self, property: u32) -> Vec<Parameter<'a>> {
        let rows = self.parameters.chunks_exact(6).filter(|word| word[0] == property);
        rows.map(|word| Parameter {
            key: self.part(word[1], word[2]),
            val: (word[3] == 1).then(|| self.part(word[4], word[5])),
        })
        .collect()
    }
}

// For callers of another crate, as bench/ is: what the originals keep to themselves.
pub fn written<'a>(c: &'a Component<'a>) -> String {
    let mut out = String::new();
    c.fmt_write(&mut out).unwrap();
    out
}
pub fn folded(line: &str) -> String {
    fold_line(line)
}
pub fn quoted(value: &str) -> String {
    oracle_quote_special_chars(value)
}
pub fn escaped(text: &str) -> String {
    escape_text(text)
}
pub fn unescaped(value: &str) -> Cow<'_, str> {
    unescape_text(value)
}

fn one(part: &str, raw: &[u8]) -> String {
    if part == "replay" {
        return lettered(raw).map_or_else(|| "unknown".into(), |(part, case)| one(part, case));
    }
    let not_utf8 = || "notutf8".to_owned();
    // each tree of the tables, through LikeComponent::fmt_write
    if part == "write" {
        let trees = Tables::of(raw).map(|tables| tables.below(u32::MAX));
        return trees.map_or_else(not_utf8, |trees| ok_hex(&trees.iter().map(written).collect::<String>()));
    }
    let Ok(s) = std::str::from_utf8(raw) else {
        return not_utf8();
    };
    let err = || "err".to_owned();
    match part {
        "unfold" => ok_hex(&unfold(s)),
        "key" => property_key::<VE>(s).map_or_else(|_| err(), |(_, k)| format!("ok {}", k.len())),
        "keyseq" => {
            valid_key_sequence::<VE>(s).map_or_else(|_| err(), |(_, k)| format!("ok {}", k.len()))
        }
        "param" => match oracle_parameter(s) {
            Ok((rest, p)) => format!("ok {} {}", s.len() - rest.len(), param_text(s, &p)),
            Err(_) => err(),
        },
        "params" => match parameters::<VE>(s) {
            Ok((rest, ps)) => {
                let mut o = format!("ok {} {}", s.len() - rest.len(), ps.len());
                for p in &ps {
                    o.push_str(" ; ");
                    o.push_str(&param_text(s, p));
                }
                o
            }
            Err(_) => err(),
        },
        "fold" | "foldstrict" => ok_hex(&fold_line(s)),
        "quote" => ok_hex(&oracle_quote_special_chars(s)),
        // unfold, then read_component
        "read" => match read_component(&unfold(s)) {
            Ok(c) => {
                let mut o = String::from("ok");
                dump(&c, &mut o);
                o
            }
            Err(_) => err(),
        },
        // unfold, read_component, LikeComponent::fmt_write
        "readwrite" => match read_component(&unfold(s)) {
            Ok(c) => ok_hex(&written(&c)),
            Err(_) => err(),
        },
        "escape" => ok_hex(&escape_text(s)),
        // the same for both: `\:` is outside the domain of `strict`
        "unescape" | "strict" => ok_hex(&unescape_text(s)),

        // the bytes that `property` used, and the property in a component X
        "property" => match property::<VE>(s) {
            Ok((rest, p)) => {
                let c = Component { name: "X".into(), properties: vec![p], components: vec![] };
                let mut o = format!("ok {}", s.len() - rest.len());
                dump(&c, &mut o);
                o
            }
            Err(_) => err(),
        },
        // as `read`, with the bytes of the unfolded text left over, or the failing contexts
        "readrest" => match component::<VE>(&unfold(s)) {
            Ok((rest, c)) => {
                let mut o = format!("ok rest={}", rest.len());
                dump(&c, &mut o);
                o
            }
            Err(e) => {
                let (kind, e) = match e {
                    nom::Err::Error(e) => ("Error", e),
                    nom::Err::Failure(e) => ("Failure", e),
                    nom::Err::Incomplete(_) => unreachable!(),
                };
                format!("err {kind} {:?}", e.errors.iter().map(|x| &x.1).collect::<Vec<_>>())
            }
        },
        // unfold, then `components`
        "components" => match components::<VE>(&unfold(s)) {
            Ok((rest, cs)) => {
                let mut o = format!("ok {} rest={}", cs.len(), rest.len());
                cs.iter().for_each(|c| dump(c, &mut o));
                o
            }
            Err(_) => err(),
        },
        _ => unreachable!(),
    }
}

fn time<T>(what: &str, bytes: usize, runs: usize, mut f: impl FnMut() -> T) {
    let mut v = vec![];
    for _ in 0..runs {
        let t = Instant::now();
        let r = std::hint::black_box(f());
        v.push(t.elapsed().as_secs_f64() * 1e3);
        drop(r); // freeing what was returned is not counted
    }
    v.sort_by(|a, b| a.partial_cmp(b).unwrap());
    let (m, lo, hi) = (v[v.len() / 2], v[0], v[v.len() - 1]);
    println!(
        "{what:34} median {m:9.3} ms  min {lo:9.3}  max {hi:9.3}  {:8.1} MiB/s at the median  ({bytes} bytes, {runs} runs)",
        bytes as f64 / 1048576.0 / (m / 1e3)
    );
}
fn bench(path: &str, runs: usize) {
    let raw = std::fs::read_to_string(path).unwrap();
    let text = unfold(&raw);
    let tree = read_component(&text).unwrap();
    let out = written(&tree);
    let lines: Vec<&str> = text.lines().collect();
    println!("{path}: raw {} bytes, unfolded {}", raw.len(), text.len());
    time("unfold", raw.len(), runs, || unfold(&raw));
    time("read_component (text unfolded)", text.len(), runs, || read_component(&text).unwrap());
    time("unfold + read_component", raw.len(), runs, || {
        let t = unfold(&raw);
        let c = read_component(&t).unwrap();
        c.components.len() + c.properties.len()
    });
    time("LikeComponent::fmt_write", out.len(), runs, || written(&tree));
    time("fold_line over every line", text.len(), runs, || {
        lines.iter().map(|l| fold_line(l).len()).sum::<usize>()
    });
}
fn bench_fold(n: usize, runs: usize) {
    let line = "abcdefghij klmnopqrstuvwxyz".repeat(n / 27 + 1)[..n].to_owned();
    time(&format!("fold_line, one line of {n}"), n, runs, || fold_line(&line));
}

pub fn run() {
    let args: Vec<String> = std::env::args().collect();
    let part = args.get(1).map_or("", |s| s);
    let runs = || args.get(3).map_or(20, |s| s.parse().unwrap());
    match part {
        "bench" if args.len() > 2 => return bench(&args[2], runs()),
        "benchfold" if args.len() > 2 => return bench_fold(args[2].parse().unwrap(), runs()),
        _ if PARTS.contains(&part) => {}
        _ => {
            eprintln!("usage: oracle PART < framed cases, PART one of {}", PARTS.join(" "));
            eprintln!("       oracle bench FILE [RUNS], oracle benchfold BYTES [RUNS]");
            std::process::exit(2);
        }
    }
    std::panic::set_hook(Box::new(|_| {}));
    let mut inp = std::io::BufReader::with_capacity(1 << 20, std::io::stdin());
    let mut out = std::io::BufWriter::with_capacity(1 << 20, std::io::stdout());
    let mut buf = Vec::new();
    loop {
        let mut n = [0u8; 4];
        if inp.read_exact(&mut n).is_err() {
            break;
        }
        buf.resize(u32::from_le_bytes(n) as usize, 0);
        if inp.read_exact(&mut buf).is_err() {
            let _ = out.flush();
            eprintln!("oracle: the last case is cut short");
            std::process::exit(2);
        }
        let line = std::panic::catch_unwind(|| one(part, &buf)).unwrap_or_else(|_| "panic".into());
        if writeln!(out, "{line}").is_err() {
            return; // nobody reads on
        }
    }
    let _ = out.flush();
}
