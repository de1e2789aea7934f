//! `race OURS.so ANCHOR.so [--dir workloads]`: two libraries with the symbols of rowbin.h on the same files, taking turns in
//! one process. Each line: what, ns (median, and least of 41 rounds) of ours and of the anchor, and ours by the anchor (of
//! the medians, and of the leasts). Under 1 we are faster. Tables and checksums must be equal, or it stops.

use std::ffi::{CString, c_char, c_int, c_void};
use std::hint::black_box;
use std::path::{Path, PathBuf};
use std::time::Instant;

const COLUMNS: [u32; 4] = [0, 8, 31, 63];
const LOOK_UPS: [&str; 4] = ["fixed64", "nullable64", "mixed64", "variable64"];
const SECTIONS: [&str; 3] = ["short", "wide", "mix"];
const ROUNDS: usize = 41;

struct Workload {
    sheet: Vec<u8>,
    rows: Vec<u8>,
    starts: Vec<(usize, usize)>,
}

impl Workload {
    fn load(dir: &Path, name: &str) -> Self {
        let read = |file: &str| std::fs::read(dir.join(name).join(file)).expect("run `workloads` first");
        let number = |b: &[u8]| u32::from_le_bytes(b.try_into().unwrap()) as usize;
        let starts = read("starts.bin").chunks(8).map(|b| (number(&b[..4]), number(&b[4..]))).collect();
        Self { sheet: read("sheet.bin"), rows: read("rows.bin"), starts }
    }
    fn each(&self) -> Vec<&[u8]> {
        self.starts.iter().map(|&(start, end)| &self.rows[start..end]).collect()
    }
}

type Call<'a> = Box<dyn FnMut() -> u64 + 'a>;

#[derive(Clone, Copy)]
struct Time {
    median: f64,
    least: f64,
}

/// The time of each call. The calls take turns, so that what disturbs the machine disturbs all; a
/// turn takes about 2 ms.
fn time(calls: &mut [Call]) -> Vec<Time> {
    let mut rounds: Vec<Vec<f64>> = vec![Vec::new(); calls.len()];
    let times: Vec<usize> = calls
        .iter_mut()
        .map(|call| {
            black_box(call());
            let start = Instant::now();
            black_box(call());
            ((0.002 / start.elapsed().as_secs_f64().max(1e-9)) as usize).clamp(1, 1_000_000)
        })
        .collect();
    for _ in 0..ROUNDS {
        for ((call, &times), rounds) in calls.iter_mut().zip(&times).zip(&mut rounds) {
            let start = Instant::now();
            for _ in 0..times {
                black_box(call());
            }
            rounds.push(start.elapsed().as_secs_f64() * 1e9 / times as f64);
        }
    }
    rounds
        .into_iter()
        .map(|mut r| {
            r.sort_by(f64::total_cmp);
            Time { median: r[ROUNDS / 2], least: r[0] }
        })
        .collect()
}

unsafe extern "C" {
    fn dlopen(name: *const c_char, flags: c_int) -> *mut c_void;
    fn dlsym(library: *mut c_void, name: *const c_char) -> *mut c_void;
}

type PlanSize = unsafe extern "C" fn() -> usize;
type PlanMake = unsafe extern "C" fn(*const u8, usize, u32, *mut u64) -> u32;
type PlanCheck = unsafe extern "C" fn(*const u64, *const u8, usize, u32) -> u32;
type CLookUp = unsafe extern "C" fn(*const u64, *const u8, usize, u32, *mut u32) -> u32;
type CWalk = unsafe extern "C" fn(*const u8, usize, u32, *const u8, usize, u32, *mut u32) -> u32;
type CCheck = unsafe extern "C" fn(*const u8, usize, *const u8, usize, *mut u32) -> u32;
type CSection = unsafe extern "C" fn(*const u8, usize, *const u8, usize, *mut u32, usize, *mut u32) -> u32;

struct Library {
    size: PlanSize,
    make: PlanMake,
    compare: Option<PlanCheck>,
    look_up: CLookUp,
    walk: CWalk,
    section: CSection,
    journal: Option<CSection>,
    check: Option<CCheck>,
}

impl Library {
    fn open(path: &str) -> Self {
        let name = CString::new(path).unwrap();
        // SAFETY: the caller names a library with these symbols.
        unsafe {
            let library = dlopen(name.as_ptr(), 2);
            assert!(!library.is_null(), "can't load {path} (a path needs a slash)");
            let symbol = |name: &str| {
                let at = dlsym(library, CString::new(name).unwrap().as_ptr());
                (!at.is_null()).then_some(at)
            };
            let must = |name: &str| symbol(name).unwrap_or_else(|| panic!("{path} has no {name}"));
            Self {
                size: std::mem::transmute::<*mut c_void, PlanSize>(must("rb_plan_size")),
                make: std::mem::transmute::<*mut c_void, PlanMake>(must("rb_plan_make")),
                compare: symbol("rb_plan_check").map(|s| std::mem::transmute::<*mut c_void, PlanCheck>(s)),
                look_up: std::mem::transmute::<*mut c_void, CLookUp>(must("rb_look_up")),
                walk: std::mem::transmute::<*mut c_void, CWalk>(must("rb_walk")),
                section: std::mem::transmute::<*mut c_void, CSection>(must("rb_read_section")),
                journal: symbol("rb_read_section_journal").map(|s| std::mem::transmute::<*mut c_void, CSection>(s)),
                check: symbol("rb_check_section").map(|s| std::mem::transmute::<*mut c_void, CCheck>(s)),
            }
        }
    }
    fn plan(&self, sheet: &[u8]) -> Vec<u64> {
        // SAFETY: as rowbin.h says.
        unsafe {
            let mut plan = vec![0u64; (self.size)().div_ceil(8)];
            assert_eq!((self.make)(sheet.as_ptr(), sheet.len(), 0, plan.as_mut_ptr()), 0);
            plan
        }
    }
}

fn sum_c(answer: u32, out: &[u32; 3]) -> u64 {
    // One load a number: a wider load has to wait for the library's separate stores.
    // SAFETY: references.
    let at = |i: usize| u64::from(unsafe { std::ptr::read_volatile(&out[i]) });
    match answer {
        0 => at(0) + 3 * at(1) + 7 * at(2),
        100 => 1,
        101 => 2,
        _ => 1000 * u64::from(answer) + at(0),
    }
}

/// Ours and the anchor's in turn; of several of the anchor's calls the fastest counts.
fn race(what: &str, by: usize, mut calls: Vec<Call>) -> f64 {
    let answers: Vec<u64> = calls.iter_mut().map(|c| c()).collect();
    assert!(answers.iter().all(|a| *a == answers[0]), "{what}: answers differ: {answers:?}");
    let t = time(&mut calls);
    let n = by as f64;
    let best = |f: fn(&Time) -> f64| t[1..].iter().map(f).fold(f64::MAX, f64::min);
    let (median, least) = (best(|t| t.median), best(|t| t.least));
    println!(
        "{what:<34}{:>9.1} ({:>8.1}){:>9.1} ({:>8.1})   {:>5.2} ({:>5.2})",
        t[0].median / n, t[0].least / n, median / n, least / n, t[0].median / median, t[0].least / least
    );
    t[0].median / median
}

fn main() {
    let mut args: Vec<String> = std::env::args().skip(1).collect();
    let mut dir = PathBuf::from("workloads");
    if let Some(i) = args.iter().position(|a| a == "--dir") {
        args.remove(i);
        dir = args.remove(i).into();
    }
    assert_eq!(args.len(), 2, "race OURS.so ANCHOR.so [--dir workloads]");
    let libs: Vec<Library> = args.iter().map(|a| Library::open(a)).collect();
    println!("{:<34}{:>20}{:>20}   ours by anchor", "ns: median (least)", "ours", "anchor");
    let mut worst: Vec<(f64, String)> = Vec::new();
    let mut note = |r: f64, what: String| worst.push((r, what));
    for name in LOOK_UPS {
        let w = Workload::load(Path::new(&dir), name);
        let rows = w.each();
        let plans: Vec<Vec<u64>> = libs.iter().map(|l| l.plan(&w.sheet)).collect();
        for c in COLUMNS {
            let what = format!("planned look-up, {name}, {c}");
            let calls = libs.iter().zip(&plans).map(|(l, plan)| {
                let rows = &rows;
                Box::new(move || {
                    let mut out = [0; 3];
                    rows.iter().fold(0u64, |s, row| {
                        // SAFETY: as rowbin.h says.
                        let a = unsafe { (l.look_up)(plan.as_ptr(), row.as_ptr(), row.len(), black_box(c), out.as_mut_ptr()) };
                        s.wrapping_add(sum_c(a, &out))
                    })
                }) as Call
            });
            note(race(&what, rows.len(), calls.collect()), what);
        }
    }
    for name in LOOK_UPS {
        let w = Workload::load(Path::new(&dir), name);
        let rows = w.each();
        for c in [0, 63] {
            let what = format!("walk with the file, {name}, {c}");
            let calls = libs.iter().map(|l| {
                let (rows, sheet) = (&rows, &w.sheet);
                Box::new(move || {
                    let mut out = [0; 3];
                    rows.iter().fold(0u64, |s, row| {
                        // SAFETY: as rowbin.h says.
                        let a = unsafe {
                            (l.walk)(sheet.as_ptr(), sheet.len(), 0, row.as_ptr(), row.len(), black_box(c), out.as_mut_ptr())
                        };
                        s.wrapping_add(sum_c(a, &out))
                    })
                }) as Call
            });
            note(race(&what, rows.len(), calls.collect()), what);
        }
    }
    for name in LOOK_UPS.iter().chain(&SECTIONS) {
        let w = Workload::load(Path::new(&dir), name);
        let what = format!("schema and plan, {name}");
        let calls = libs.iter().map(|l| {
            let sheet = &w.sheet;
            // SAFETY: as rowbin.h says.
            let mut plan = unsafe { vec![0u64; (l.size)().div_ceil(8)] };
            Box::new(move || {
                let sheet = black_box(sheet);
                // SAFETY: as rowbin.h says.
                unsafe { (l.make)(sheet.as_ptr(), sheet.len(), 0, plan.as_mut_ptr()) }.into()
            }) as Call
        });
        note(race(&what, 1, calls.collect()), what);
    }
    // Of ours alone: a kept plan compared with the file, beside the making of one.
    if let Some(compare) = libs[0].compare {
        for name in LOOK_UPS.iter().chain(&SECTIONS) {
            let w = Workload::load(Path::new(&dir), name);
            let sheet = &w.sheet;
            let kept = libs[0].plan(sheet);
            let mut plan = kept.clone();
            let make = libs[0].make;
            let calls: Vec<Call> = vec![
                Box::new(move || {
                    let sheet = black_box(sheet);
                    // SAFETY: as rowbin.h says.
                    unsafe { compare(kept.as_ptr(), sheet.as_ptr(), sheet.len(), 0) }.into()
                }),
                Box::new(move || {
                    let sheet = black_box(sheet);
                    // SAFETY: as rowbin.h says.
                    unsafe { make(sheet.as_ptr(), sheet.len(), 0, plan.as_mut_ptr()) }.into()
                }),
            ];
            race(&format!("plan compared, by made, {name}"), 1, calls);
        }
    }
    for name in SECTIONS {
        let whole = Workload::load(Path::new(&dir), name);
        for size in ["page", "1 MB", "8 MB"] {
            // The first rows of the section, at a row's start, and the done token.
            let most = match size { "page" => 10_000, "1 MB" => 1_000_000, _ => usize::MAX };
            let mut section = whole.rows.clone();
            if most < section.len() {
                // A parent starts with its token: cut before the last one within the size.
                let cut = whole.starts.iter().rev().map(|s| s.0 - 1).find(|&at| at <= most && whole.rows[at] == 7).unwrap();
                section.truncate(cut);
                section.push(0x0F);
            }
            let mut tables: Vec<Vec<u32>> = Vec::new();
            let mut rows = 0u32;
            let mut reads: Vec<CSection> = libs.iter().map(|l| l.section).collect();
            reads.extend(libs[1].journal);
            let room = 4 * whole.starts.len();
            for read in &reads {
                let mut table = vec![0u32; room];
                // SAFETY: as rowbin.h says.
                let a = unsafe {
                    read(whole.sheet.as_ptr(), whole.sheet.len(), section.as_ptr(), section.len(), table.as_mut_ptr(), room, &mut rows)
                };
                assert_eq!(a, 0);
                tables.push(table);
            }
            assert!(tables.iter().all(|t| *t == tables[0]), "tables differ");
            let what = format!("section into a table, {name}, {size}");
            let sheet = &whole.sheet;
            let section = &section;
            let calls = reads.iter().zip(&mut tables).map(|(read, table)| {
                Box::new(move || {
                    let mut out = 0;
                    // SAFETY: as rowbin.h says.
                    let a = unsafe {
                        read(sheet.as_ptr(), sheet.len(), section.as_ptr(), section.len(), table.as_mut_ptr(), room, &mut out)
                    };
                    u64::from(a) << 32 | u64::from(out)
                }) as Call
            });
            note(race(&what, rows as usize, calls.collect()), what);
            if libs.iter().all(|l| l.check.is_some()) {
                let what = format!("section checked, {name}, {size}");
                let calls = libs.iter().map(|l| {
                    let check = l.check.unwrap();
                    Box::new(move || {
                        let mut out = 0;
                        // SAFETY: as rowbin.h says.
                        let a = unsafe { check(sheet.as_ptr(), sheet.len(), section.as_ptr(), section.len(), &mut out) };
                        u64::from(a) << 32 | u64::from(out)
                    }) as Call
                });
                note(race(&what, rows as usize, calls.collect()), what);
            }
        }
    }
    worst.sort_by(|a, b| b.0.total_cmp(&a.0));
    println!("slowest: {}", worst.iter().take(5).map(|(r, w)| format!("{r:.2} {w}")).collect::<Vec<_>>().join("; "));
    println!("over 1.00: {} of {}", worst.iter().filter(|w| w.0 > 1.0).count(), worst.len());
}
