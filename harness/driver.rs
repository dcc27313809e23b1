//! Runs the crate's archive on lists from standard input: `oracle list`, `oracle query`,
//! `oracle tables`. README.md has the forms.
mod aggregate;
mod allocator;
mod node;
mod prefix;
mod rkyv;
mod table;

pub use prefix::Prefix;
/// Named by the crate's links only.
pub struct PrefixMap;
/// Named by the crate's links only.
pub struct PrefixSet;

use crate::rkyv::{map::ArchivedPrefixMap, open};
use num_traits::{CheckedShr, NumCast, PrimInt, Unsigned};
use std::any::Any;
use std::fmt::{Debug, Write as _};
use std::io::{BufWriter, Read, Write};
use std::panic::{catch_unwind, AssertUnwindSafe};

const NODES: usize = 1_048_576;
const VALUES: usize = 33_554_432;

fn number(name: &str) -> u32 {
    let all = [
        "NodeListTooShort",
        "NodeListTooLong",
        "NodeListInconsistent",
        "NodeIndexOverflow",
        "DataListTooShort",
        "DataListTooLong",
        "DataListInconsistent",
        "DataIndexOverflow",
        "ContainsEmptyNode",
        "MissingRootNode",
        "DepthExceedsPrefixRepr",
    ];
    1 + all.iter().position(|x| *x == name).unwrap() as u32
}

type Map<R> = ArchivedPrefixMap<(R, u8), u32>;

/// The stored values are the places themselves, so a reference tells its place.
trait Image {
    /// One query: its words, the first being its name.
    fn ask(&self, q: &[&str]) -> String;
    /// All entries as address, length, place.
    fn entries(&self) -> Vec<(u64, u8, u32)>;
    fn count(&self) -> Option<u64>;
    fn as_any(&self) -> &dyn Any;
    /// The crate's `==`; images of other widths are unequal.
    fn equals(&self, other: &dyn Any) -> bool;
}

fn shown<R: PrimInt>(p: (R, u8), place: u32) -> (u64, u8, u32) {
    (p.0.to_u64().unwrap(), p.1, place)
}

fn hit<R: PrimInt>(x: Option<((R, u8), &u32)>) -> String {
    match x {
        Some((p, v)) => {
            let (a, n, place) = shown(p, *v);
            format!("{a} {n} {place}")
        }
        None => "none".into(),
    }
}

fn walk<'a, R: PrimInt>(mut it: impl Iterator<Item = ((R, u8), &'a u32)>) -> String {
    let mut s = String::new();
    while let Some((p, v)) = it.next() {
        let (a, n, place) = shown(p, *v);
        write!(s, "{a}/{n}@{place} ").unwrap();
    }
    for _ in 0..3 {
        if it.next().is_some() {
            return "resumed after its end".into();
        }
    }
    s + "end"
}

impl<R: Unsigned + PrimInt + CheckedShr + Debug + 'static> Image for Map<R> {
    fn ask(&self, q: &[&str]) -> String {
        let arg = |i: usize| q[i].parse::<u64>().unwrap();
        let prefix = || (<R as NumCast>::from(arg(1)).unwrap(), arg(2) as u8);
        match q[0] {
            "exact" => {
                let p = prefix();
                let x = self.get(&p);
                let y = self.get_key_value(&p).map(|(_, v)| *v);
                if x.is_some() != self.contains_key(&p) || x.copied() != y {
                    return "get, get_key_value and contains_key disagree".into();
                }
                x.map_or("none".into(), |v| v.to_string())
            }
            "longest" => hit(self.get_lpm(&prefix())),
            "shortest" => hit(self.get_spm(&prefix())),
            "covered" => (self.is_covered_in_aggregate(&prefix()) as u8).to_string(),
            "count" => self.count().map_or("whole".into(), |n| n.to_string()),
            "len" => self.len().to_string(),
            "full" => walk(self.iter()),
            "children" => walk(self.children(&prefix())),
            "from" => walk(self.iter_from(&prefix(), arg(3) == 1)),
            "cover" => walk(self.cover(&prefix())),
            _ => "unknown query".into(),
        }
    }
    fn entries(&self) -> Vec<(u64, u8, u32)> {
        self.iter().map(|(p, v)| shown(p, *v)).collect()
    }
    fn count(&self) -> Option<u64> {
        self.address_count().map(|n| n.to_u64().unwrap())
    }
    fn as_any(&self) -> &dyn Any {
        self
    }
    fn equals(&self, other: &dyn Any) -> bool {
        other.downcast_ref::<Self>().is_some_and(|m| self == m)
    }
}

fn accept(w: u64, nodes: &[[u32; 4]], values: usize) -> Result<Box<dyn Image>, u32> {
    if nodes.len() > NODES {
        return Err(4);
    }
    if values > VALUES {
        return Err(8);
    }
    bare(w, nodes, values)
}

/// The crate's verdict, without the two limits.
fn bare(w: u64, nodes: &[[u32; 4]], values: usize) -> Result<Box<dyn Image>, u32> {
    let data: Vec<u32> = (0..values as u32).collect();
    fn as_image<R>(nodes: &[[u32; 4]], data: Vec<u32>) -> Result<Box<dyn Image>, u32>
    where
        R: Unsigned + PrimInt + CheckedShr + Debug + 'static,
    {
        let map: Map<R> = open::open(nodes, data).map_err(|e| number(&e))?;
        Ok(Box::new(map))
    }
    match w {
        8 => as_image::<u8>(nodes, data),
        16 => as_image::<u16>(nodes, data),
        32 => as_image::<u32>(nodes, data),
        64 => as_image::<u64>(nodes, data),
        _ => panic!("width"),
    }
}

/// What the crate's rebuilding of a live map says of the lists: "ok" or the error's name.
fn rebuild(nodes: &[[u32; 4]], values: usize) -> String {
    let cells = (0..values as u32).map(Ok::<u32, open::Name>);
    match table::Table::from_bfs(nodes.iter().map(|n| (n[0], n[1])), cells) {
        Ok(_) => "ok".into(),
        Err(open::Name(name)) => name,
    }
}

fn guarded(f: impl FnOnce() -> String) -> String {
    catch_unwind(AssertUnwindSafe(f)).unwrap_or_else(|e| {
        let text = e.downcast_ref::<&str>().map(|s| s.to_string());
        let text = text.or_else(|| e.downcast_ref::<String>().cloned());
        format!("panic: {}", text.unwrap_or_default())
    })
}

/// A node line, or with a fifth number N a run of N nodes with these bitmaps, whose indexes move on
/// by the bits that are set.
fn push_nodes(nodes: &mut Vec<[u32; 4]>, line: &str) {
    let n: Vec<u32> = line.split_ascii_whitespace().map(|s| s.parse().unwrap()).collect();
    let (mut data, mut child) = (n[2], n[3]);
    for _ in 0..n.get(4).copied().unwrap_or(1) {
        nodes.push([n[0], n[1], data, child]);
        data = data.wrapping_add(n[0].count_ones());
        child = child.wrapping_add(n[1].count_ones());
    }
}

fn query(text: &str, out: &mut impl Write) {
    let mut lines = text.lines();
    let (mut w, mut nodes, mut values) = (0, Vec::new(), 0);
    let (mut before, mut image): (Option<Box<dyn Image>>, Option<Box<dyn Image>>) = (None, None);
    while let Some(line) = lines.next() {
        let q: Vec<&str> = line.split_ascii_whitespace().collect();
        let num = |s: &str| s.parse::<u64>().unwrap();
        let answer = match q[0] {
            "image" | "bare" => {
                let verdict = if q[0] == "bare" { bare } else { accept };
                w = num(q[1]);
                values = num(q[3]) as usize;
                nodes = Vec::new();
                for _ in 0..num(q[2]) {
                    push_nodes(&mut nodes, lines.next().unwrap());
                }
                before = image.take();
                guarded(|| match verdict(w, &nodes, values) {
                    Ok(x) => {
                        image = Some(x);
                        "ok".into()
                    }
                    Err(n) => format!("fault {n}"),
                })
            }
            "member" => {
                let (a, b) = aggregate::member_coverage(num(q[1]) as u32);
                format!("{a} {b}")
            }
            "fold" => aggregate::fold_coverage(num(q[1]) as u32, num(q[2]) as u32).to_string(),
            "masks" | "databit" | "childbit" | "extend" | "make" | "clean" | "contains" => {
                let a: Vec<u64> = q[2..].iter().map(|s| num(s)).collect();
                guarded(|| match q[1] {
                    "8" => leaf::<u8>(q[0], &a),
                    "16" => leaf::<u16>(q[0], &a),
                    "32" => leaf::<u32>(q[0], &a),
                    _ => leaf::<u64>(q[0], &a),
                })
            }
            "equal" => match (&before, &image) {
                (Some(a), Some(b)) => (a.equals(b.as_any()) as u8).to_string(),
                _ => "no image".into(),
            },
            "rebuild" => guarded(|| rebuild(&nodes, values)),
            "raw" => image
                .as_ref()
                .map_or("no image".into(), |m| guarded(|| m.ask(&q[1..]))),
            _ => match &image {
                None => "no image".into(),
                Some(_) if q.len() > 2 && num(q[2]) > w => "fault 12".into(),
                Some(m) => guarded(|| m.ask(&q)),
            },
        };
        writeln!(out, "{answer}").unwrap();
    }
}

/// The crate's leaves at key type `R`: a name, and numbers.
fn leaf<R: Unsigned + PrimInt + CheckedShr + Debug>(name: &str, a: &[u64]) -> String {
    let key = |i: usize| <R as NumCast>::from(a[i]).unwrap();
    let n = |i: usize| a[i] as u32;
    match name {
        "masks" => format!(
            "{} {} {}",
            node::data_lpm_mask(n(0), key(1), n(2)),
            node::data_cover_mask(n(0), key(1), n(2)),
            node::child_cover_mask(n(0), key(1), n(2))
        ),
        "databit" => node::data_bit(key(0), n(1)).to_string(),
        "childbit" => node::child_bit(n(0), key(1)).to_string(),
        "extend" => node::extend_repr(key(1), n(0), n(2)).to_u64().unwrap().to_string(),
        "make" => {
            let p: (R, u8) = table::reconstruct_prefix(key(1), n(0), a[2] as usize);
            format!("{} {}", p.0.to_u64().unwrap(), p.1)
        }
        "clean" => (key(0), a[1] as u8).mask().to_u64().unwrap().to_string(),
        "contains" => {
            let (p, q) = ((key(0), a[1] as u8), (key(2), a[3] as u8));
            (Prefix::contains(&p, &q) as u8).to_string()
        }
        _ => "unknown query".into(),
    }
}

fn tables(out: &mut impl Write) {
    for i in 0..80u32 {
        let (key, n) = (((i % 16) << 4) as u8, i / 16);
        let a = node::data_lpm_mask(0, key, n);
        let b = node::data_cover_mask(0, key, n);
        let c = node::child_cover_mask(0, key, n);
        writeln!(out, "mask {i} {a} {b} {c}").unwrap();
    }
    for (i, x) in node::LEX_ORDER.iter().enumerate() {
        match x.decode() {
            Ok(b) => writeln!(out, "lex {i} data {b}").unwrap(),
            Err(c) => writeln!(out, "lex {i} child {c}").unwrap(),
        }
    }
    for b in 0..31 {
        let (d, c) = node::lex_after_data(b);
        let (p, level) = node::DATA_BIT_TO_PREFIX[b as usize];
        let (dc, cc) = (node::data_cover_mask_for_bit(b), node::child_cover_mask_for_bit(b));
        writeln!(out, "data {b} after {d} {c} prefix {p} {level} cover {dc} {cc}").unwrap();
    }
    for b in 0..32 {
        let (d, c) = node::lex_after_child(b);
        writeln!(out, "child {b} after {d} {c}").unwrap();
    }
}

/// One line of `n` columns of 11 characters, and what follows it.
fn columns(text: &[u8], n: usize) -> Option<(Vec<u32>, &[u8])> {
    if text.len() < 11 * n + 1 || text[11 * n] != 10 {
        return None;
    }
    let mut row = Vec::new();
    for c in text[..11 * n].chunks(11) {
        let blank = c.iter().take_while(|b| **b == b' ').count();
        let digits = &c[blank..];
        let zero = digits.len() > 1 && digits[0] == b'0';
        if digits.is_empty() || zero || !digits.iter().all(u8::is_ascii_digit) {
            return None;
        }
        row.push(std::str::from_utf8(digits).unwrap().parse().ok()?);
    }
    Some((row, &text[11 * n + 1..]))
}

fn sheet(text: &[u8]) -> Option<(u32, Vec<[u32; 4]>, Vec<u32>)> {
    let (head, mut rest) = columns(text, 3)?;
    if ![8, 16, 32].contains(&head[0]) || head[1] > 512 || head[2] > 1024 {
        return None;
    }
    let (mut nodes, mut values) = (Vec::new(), Vec::new());
    for _ in 0..head[1] {
        let (r, more) = columns(rest, 4)?;
        nodes.push([r[0], r[1], r[2], r[3]]);
        rest = more;
    }
    for _ in 0..head[2] {
        let (r, more) = columns(rest, 1)?;
        values.push(r[0]);
        rest = more;
    }
    rest.is_empty().then_some((head[0], nodes, values))
}

fn listing(text: &[u8]) -> Result<String, u32> {
    let (w, nodes, values) = sheet(text).ok_or(15u32)?;
    let image = accept(w as u64, &nodes, values.len())?;
    let mut s = String::new();
    writeln!(s, "{w:>11}{:>11}{:>11}", nodes.len(), values.len()).unwrap();
    for (a, n, place) in image.entries() {
        writeln!(s, "{a:>11}{n:>11}{place:>11}{:>11}", values[place as usize]).unwrap();
    }
    let (count, whole) = image.count().map_or((0, 1), |n| (n, 0));
    writeln!(s, "{:>11}{count:>11}{whole:>11}", values.len()).unwrap();
    Ok(s)
}

fn main() {
    std::panic::set_hook(Box::new(|_| {}));
    let mode = std::env::args().nth(1).unwrap_or_default();
    let mut out = BufWriter::new(std::io::stdout().lock());
    let mut text = Vec::new();
    if mode != "tables" {
        std::io::stdin().read_to_end(&mut text).unwrap();
    }
    match mode.as_str() {
        "list" => {
            let s = listing(&text).unwrap_or_else(|n| format!("{n:>11}\n"));
            out.write_all(s.as_bytes()).unwrap();
        }
        "query" => query(std::str::from_utf8(&text).unwrap(), &mut out),
        "tables" => tables(&mut out),
        _ => writeln!(out, "usage: oracle list|query|tables").unwrap(),
    }
}
