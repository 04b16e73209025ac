// Prices a fund file, or a fund whose rows come as sheets: prints the premium with its bound and the gross premium in centimes, or
// the refusal and the line at fault. With a level, in units of 10^-12, the place of the quantile too: the smallest total x with
// F(x) at least the level, or none up to the horizon; and F there with its bound.
//
//     price FILE [LEVEL]
//     price --sheets HEADER RATES MEMBERS [LEVEL]

use std::ffi::{OsStr, OsString};
use std::io::Write;
use std::process::exit;

const CELLS: usize = 4096;

#[repr(C)]
#[derive(Default)]
struct Fund {
    number: u64,
    place: u64,
    line_start: u64,
    line_size: u64,
    horizon: u64,
    truncation: u64,
    mean: u64,
    premium: i64,
    within: u64,
    gross: u64,
    reached: u64,
    quantile: u64,
}

impl Fund {
    fn quantile(&self) -> Option<u64> {
        (self.reached == 1).then_some(self.quantile)
    }
}

extern "C" {
    fn miguepo_price(
        file: *const u8, file_length: usize,
        level: u64,
        d: *mut i64, d_length: usize,
        h: *mut u64, h_length: usize,
        f: *mut i64, f_length: usize,
        r: *mut u64, r_length: usize,
        sums: *mut i64, sums_length: usize,
        result: *mut Fund,
    );

    fn miguepo_price_sheets(
        header: *const u8, header_length: usize,
        rates: *const u8, rates_length: usize,
        members: *const u8, members_length: usize,
        level: u64,
        d: *mut i64, d_length: usize,
        h: *mut u64, h_length: usize,
        f: *mut i64, f_length: usize,
        r: *mut u64, r_length: usize,
        sums: *mut i64, sums_length: usize,
        result: *mut Fund,
    );
}

// The result slices may have any lengths: one that is too short is refusal 9.
struct Slices {
    d: Vec<i64>,
    h: Vec<u64>,
    f: Vec<i64>,
    r: Vec<u64>,
    sums: Vec<i64>,
}

impl Slices {
    fn new() -> Slices {
        Slices { d: vec![0; CELLS], h: vec![0; CELLS], f: vec![0; CELLS], r: vec![0; CELLS], sums: vec![0; CELLS] }
    }
}

fn price(file: &[u8], level: u64, s: &mut Slices) -> Fund {
    let mut fund = Fund::default();
    unsafe {
        miguepo_price(
            file.as_ptr(), file.len(),
            level,
            s.d.as_mut_ptr(), s.d.len(),
            s.h.as_mut_ptr(), s.h.len(),
            s.f.as_mut_ptr(), s.f.len(),
            s.r.as_mut_ptr(), s.r.len(),
            s.sums.as_mut_ptr(), s.sums.len(),
            &mut fund,
        )
    };
    fund
}

fn price_sheets(header: &[u8], rates: &[u8], members: &[u8], level: u64, s: &mut Slices) -> Fund {
    let mut fund = Fund::default();
    unsafe {
        miguepo_price_sheets(
            header.as_ptr(), header.len(),
            rates.as_ptr(), rates.len(),
            members.as_ptr(), members.len(),
            level,
            s.d.as_mut_ptr(), s.d.len(),
            s.h.as_mut_ptr(), s.h.len(),
            s.f.as_mut_ptr(), s.f.len(),
            s.r.as_mut_ptr(), s.r.len(),
            s.sums.as_mut_ptr(), s.sums.len(),
            &mut fund,
        )
    };
    fund
}

// How far F(x) can be from the exact probability of a total of at most x: R(0) + .. + R(x) + 2 E.
fn sum_bound(fund: &Fund, s: &Slices, x: usize) -> u64 {
    s.r[..=x].iter().sum::<u64>() + 2 * fund.truncation
}

// The place of the quantile with F there and its bound, or none.
fn quantile_text(fund: &Fund, s: &Slices) -> String {
    let Some(place) = fund.quantile() else { return "none".to_string() };
    let x = place as usize;
    format!("{place}: F {}, within {}", decimal(s.sums[x] < 0, s.sums[x].unsigned_abs()), decimal(false, sum_bound(fund, s, x)))
}

// A number of units of 10^-12, as a decimal number.
fn decimal(negative: bool, units: u64) -> String {
    let one = 1_000_000_000_000;
    format!("{}{}.{:012}", if negative { "-" } else { "" }, units / one, units % one)
}

// Decimal digits and nothing else, of a number that fits.
fn read_level(word: &OsStr) -> Option<u64> {
    word.to_str().filter(|text| text.bytes().all(|byte| byte.is_ascii_digit()))?.parse().ok()
}

fn usage() -> ! {
    eprintln!("usage: price FILE [LEVEL], or price --sheets HEADER RATES MEMBERS [LEVEL], the level a whole number of units of 10^-12");
    exit(2)
}

fn read(path: &OsString) -> Vec<u8> {
    std::fs::read(path).unwrap_or_else(|error| {
        eprintln!("{}: {error}", path.to_string_lossy());
        exit(2)
    })
}

fn main() {
    let words: Vec<_> = std::env::args_os().skip(1).collect();
    let (paths, level) = match &words[..] {
        [option, paths @ ..] if option == "--sheets" && (3..=4).contains(&paths.len()) => paths.split_at(3),
        [option, ..] if option == "--sheets" => usage(),
        paths if (1..=2).contains(&paths.len()) => paths.split_at(1),
        _ => usage(),
    };
    let level = level.first().map(|word| read_level(word).unwrap_or_else(|| usage()));
    let texts: Vec<_> = paths.iter().map(read).collect();
    let mut slices = Slices::new();
    let fund = match &texts[..] {
        [header, rates, members] => price_sheets(header, rates, members, level.unwrap_or(0), &mut slices),
        texts => price(&texts[0], level.unwrap_or(0), &mut slices),
    };
    if fund.number == 0 {
        println!("premium {}, within {}", decimal(fund.premium < 0, fund.premium.unsigned_abs()), decimal(false, fund.within));
        println!("gross {} centimes", fund.gross);
        if level.is_some() {
            println!("quantile {}", quantile_text(&fund, &slices));
        }
        return;
    }
    println!("refused={},{}", fund.number, fund.place);
    let line = &texts[0][fund.line_start as usize..][..fund.line_size as usize];
    if !line.is_empty() {
        let mut out = std::io::stdout();
        out.write_all(b"line: ").and_then(|_| out.write_all(line)).and_then(|_| out.write_all(b"\n")).unwrap_or(());
    }
    exit(1)
}
