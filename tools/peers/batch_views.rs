//! What a batch of items takes that is read by unverified peers of the views of wire_view, as a Rust engineer would write them for messages
//! that were judged before: by getters over tables of fields, and with each place known to the compiler. Each reads what the line `viewed as
//! a batch` of `benchmarks wire` does, and finds the same.
//!
//!     rustc --edition 2021 -C opt-level=3 -C target-cpu=x86-64-v2 tools/peers/batch_views.rs -o PEER
//!     PEER MESSAGE plain|nullable
//!
//! MESSAGE is a batch of `tools/timed_files.py`, whose ids may be null where the second word says so. Prints nanoseconds of processor time an
//! item, the least of seven rounds, and what was found, which is the same by each way. `tools/time_program views` has it take turns with the
//! program, whose clock, rounds and count of readings it has.
use std::hint::black_box;

/// A time by a clock of Linux, and the number of the clock of a thread's processor time.
#[repr(C)]
struct Time { seconds: i64, nanoseconds: i64 }
const THREAD_CLOCK: i32 = 3;
extern "C" { fn clock_gettime(clock: i32, time: *mut Time) -> i32; }

/// The processor time so far, in nanoseconds.
fn now() -> f64 {
    let mut time = Time { seconds: 0, nanoseconds: 0 };
    assert_eq!(unsafe { clock_gettime(THREAD_CLOCK, &mut time) }, 0);
    time.seconds as f64 * 1e9 + time.nanoseconds as f64
}

/// Integers have their bits, and whether they are signed.
#[allow(dead_code)]
enum Kind { Bool, Int(u32, bool), Enum, Handle, Text, Array(Box<Kind>), Struct(usize) }
/// A field lies at a byte and a bit behind the struct's two numbers, and may have a flag there; older versions read its default.
struct Field { kind: Kind, flag: Option<(usize, u32)>, offset: usize, bit: u32, min_version: u32, default: Option<i128> }
struct Schema { structs: Vec<Vec<Field>> }

/// So many bytes at a place; where they are trusted, that they are there isn't tested.
#[inline(always)]
fn read<const TRUSTED: bool, const N: usize>(bytes: &[u8], at: usize) -> [u8; N] {
    if TRUSTED { unsafe { bytes.as_ptr().add(at).cast::<[u8; N]>().read_unaligned() } } else { bytes[at..at + N].try_into().unwrap() }
}

#[inline(always)]
fn number32<const TRUSTED: bool>(bytes: &[u8], at: usize) -> u32 { u32::from_le_bytes(read::<TRUSTED, 4>(bytes, at)) }

#[inline(always)]
fn bit_at<const TRUSTED: bool>(bytes: &[u8], at: usize, bit: u32) -> bool { read::<TRUSTED, 1>(bytes, at)[0] >> bit & 1 == 1 }

/// Where the pointer at a place leads; nowhere, if it is null.
#[inline(always)]
fn target<const TRUSTED: bool>(bytes: &[u8], at: usize) -> Option<usize> {
    match u64::from_le_bytes(read::<TRUSTED, 8>(bytes, at)) { 0 => None, distance => Some(at + distance as usize) }
}

#[inline(always)]
fn text_at<const TRUSTED: bool>(bytes: &[u8], at: usize) -> &str {
    let (start, count) = (at + 8, number32::<TRUSTED>(bytes, at + 4) as usize);
    let text = if TRUSTED { unsafe { bytes.get_unchecked(start..start + count) } } else { &bytes[start..start + count] };
    unsafe { std::str::from_utf8_unchecked(text) }
}

#[inline(always)]
fn number_at<const TRUSTED: bool>(bytes: &[u8], at: usize, bit: u32, kind: &Kind) -> Option<i128> {
    match kind {
        Kind::Int(8, false) => Some(read::<TRUSTED, 1>(bytes, at)[0].into()),
        Kind::Int(8, true) => Some((read::<TRUSTED, 1>(bytes, at)[0] as i8).into()),
        Kind::Int(16, false) => Some(u16::from_le_bytes(read::<TRUSTED, 2>(bytes, at)).into()),
        Kind::Int(16, true) => Some(i16::from_le_bytes(read::<TRUSTED, 2>(bytes, at)).into()),
        Kind::Int(32, false) => Some(number32::<TRUSTED>(bytes, at).into()),
        Kind::Int(32, true) | Kind::Enum => Some((number32::<TRUSTED>(bytes, at) as i32).into()),
        Kind::Int(_, false) => Some(u64::from_le_bytes(read::<TRUSTED, 8>(bytes, at)).into()),
        Kind::Int(_, true) => Some(i64::from_le_bytes(read::<TRUSTED, 8>(bytes, at)).into()),
        Kind::Bool => Some(bit_at::<TRUSTED>(bytes, at, bit).into()),
        Kind::Handle => Some(number32::<TRUSTED>(bytes, at)).filter(|&index| index != u32::MAX).map(i128::from),
        Kind::Text | Kind::Array(_) | Kind::Struct(_) => None,
    }
}

#[derive(Clone, Copy)]
struct StructView<'a, const TRUSTED: bool> { schema: &'a Schema, bytes: &'a [u8], fields: &'a [Field], at: usize, version: u32 }

impl<'a, const TRUSTED: bool> StructView<'a, TRUSTED> {
    #[inline(always)]
    fn new(schema: &'a Schema, bytes: &'a [u8], number: usize, at: usize) -> Self {
        StructView { schema, bytes, fields: &schema.structs[number], at, version: number32::<TRUSTED>(bytes, at + 4) }
    }

    #[inline(always)]
    fn number(&self, i: usize) -> Option<i128> {
        let field = self.fields.get(i)?;
        if field.min_version > self.version { return field.default; }
        if let Some((offset, bit)) = field.flag { if !bit_at::<TRUSTED>(self.bytes, self.at + 8 + offset, bit) { return None; } }
        number_at::<TRUSTED>(self.bytes, self.at + 8 + field.offset, field.bit, &field.kind)
    }

    /// Where what a field points to lies; nowhere, if the version lacks it or it is null.
    #[inline(always)]
    fn behind(&self, field: &Field) -> Option<usize> {
        if field.min_version > self.version { None } else { target::<TRUSTED>(self.bytes, self.at + 8 + field.offset) }
    }

    #[inline(always)]
    fn string(&self, i: usize) -> Option<&'a str> {
        let field = self.fields.get(i)?;
        match field.kind { Kind::Text => Some(text_at::<TRUSTED>(self.bytes, self.behind(field)?)), _ => None }
    }

    #[inline(always)]
    fn array(&self, i: usize) -> Option<ArrayView<'a, TRUSTED>> {
        let field = self.fields.get(i)?;
        let Kind::Array(of) = &field.kind else { return None };
        let at = self.behind(field)?;
        Some(ArrayView { schema: self.schema, bytes: self.bytes, of: of.as_ref(), at, count: number32::<TRUSTED>(self.bytes, at + 4) })
    }
}

#[derive(Clone, Copy)]
struct ArrayView<'a, const TRUSTED: bool> { schema: &'a Schema, bytes: &'a [u8], of: &'a Kind, at: usize, count: u32 }

impl<'a, const TRUSTED: bool> ArrayView<'a, TRUSTED> {
    #[inline(always)]
    fn number(&self, j: u32) -> Option<i128> {
        if j >= self.count { return None; }
        let bits = match self.of { Kind::Bool => 1, Kind::Int(bits, _) => *bits as usize, Kind::Enum | Kind::Handle => 32, _ => 64 };
        let place = j as usize * bits;
        number_at::<TRUSTED>(self.bytes, self.at + 8 + place / 8, (place % 8) as u32, self.of)
    }

    #[inline(always)]
    fn item(&self, j: u32) -> Option<StructView<'a, TRUSTED>> {
        let Kind::Struct(number) = self.of else { return None };
        if j >= self.count { return None; }
        Some(StructView::new(self.schema, self.bytes, *number, target::<TRUSTED>(self.bytes, self.at + 8 + j as usize * 8)?))
    }
}

#[inline(always)]
fn above_zero(number: Option<i128>) -> u64 { number.map_or(0, |number| (number > 0).into()) }

/// How many numbers and tags are above 0, and how long all names are.
fn by_tables<const TRUSTED: bool>(schema: &Schema, bytes: &[u8], start: usize) -> u64 {
    let Some(items) = StructView::<TRUSTED>::new(schema, bytes, 1, start).array(0) else { return 0 };
    let mut sum = 0u64;
    for item in (0..items.count).filter_map(|j| items.item(j)) {
        let tags: u64 = item.array(4).map_or(0, |tags| (0..tags.count).map(|j| above_zero(tags.number(j))).sum());
        let name = item.string(3).map_or(0, |name| name.len() as u64);
        sum += above_zero(item.number(0)) + above_zero(item.number(1)) + above_zero(item.number(2)) + name + tags;
    }
    sum
}

/// The same where the compiler knows each place.
fn by_places<const NULLABLE: bool>(bytes: &[u8], start: usize) -> u64 {
    let place = |at: usize| at + u64::from_le_bytes(read::<true, 8>(bytes, at)) as usize;
    let mut sum = 0u64;
    let items = place(start + 8);
    for j in 0..number32::<true>(bytes, items + 4) as usize {
        let item = place(items + 8 + j * 8) + 8;
        let (id, kind, flag, bit) = if NULLABLE { (item + 8, item + 4, item, 1) } else { (item, item + 8, item + 12, 0) };
        let has_id = !NULLABLE || bit_at::<true>(bytes, item, 0);
        sum += u64::from(has_id && u64::from_le_bytes(read::<true, 8>(bytes, id)) > 0) + u64::from(number32::<true>(bytes, kind) > 0);
        sum += u64::from(bit_at::<true>(bytes, flag, bit)) + text_at::<true>(bytes, place(item + 16)).len() as u64;
        let tags = place(item + 24);
        sum += (0..number32::<true>(bytes, tags + 4) as usize).map(|k| u64::from(number32::<true>(bytes, tags + 8 + k * 4) > 0)).sum::<u64>();
    }
    sum
}

/// The tables of a batch: struct 0 is an item, and struct 1 has the items.
fn tables(nullable: bool) -> Schema {
    let field = |kind, offset, bit| Field { kind, flag: None, offset, bit, min_version: 0, default: None };
    let (id, kind, flag, bit) = if nullable { (8, 4, 0, 1) } else { (0, 8, 12, 0) };
    let id = Field { flag: nullable.then_some((0, 0)), ..field(Kind::Int(64, false), id, 0) };
    let tags = Kind::Array(Box::new(Kind::Int(32, false)));
    let item = vec![id, field(Kind::Int(32, false), kind, 0), field(Kind::Bool, flag, bit), field(Kind::Text, 16, 0), field(tags, 24, 0)];
    Schema { structs: vec![item, vec![field(Kind::Array(Box::new(Kind::Struct(0))), 0, 0)]] }
}

/// Prints what a way of reading takes, and gives what it finds.
fn time(what: &str, bytes: &[u8], items: u32, read: impl Fn(&[u8]) -> u64) -> u64 {
    let (times, found) = (20_000_000 / bytes.len() + 1, read(bytes));
    let mut best = f64::MAX;
    for _ in 0..7 {
        let begun = now();
        for _ in 0..times { assert_eq!(read(black_box(bytes)), found); }
        best = best.min((now() - begun) / times as f64);
    }
    println!("{what}: {:.1} ns an item", best / f64::from(items));
    found
}

fn main() {
    let words: Vec<String> = std::env::args().skip(1).collect();
    let nullable = words[1] == "nullable";
    let (bytes, schema) = (std::fs::read(&words[0]).unwrap(), black_box(tables(nullable)));
    // The parameters stand behind the header, whose first number is its size.
    let start = number32::<false>(&bytes, 0) as usize;
    let items = number32::<false>(&bytes, target::<false>(&bytes, start + 8).unwrap() + 4);
    let found = time("tables", &bytes, items, |bytes| by_tables::<true>(&schema, bytes, start));
    assert_eq!(found, time("tables, each place tested", &bytes, items, |bytes| by_tables::<false>(&schema, bytes, start)));
    let places = if nullable { by_places::<true> } else { by_places::<false> };
    assert_eq!(found, time("places", &bytes, items, |bytes| places(bytes, start)));
    println!("found {found}");
}
