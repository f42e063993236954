//! Each call beside Rust's own, and with each of its requests for memory refused.
// On Windows a thread-local takes memory itself, so an allocator can't count by one.
#![cfg(not(windows))]

use stand_in::alloc::{AllocError, Global};
use stand_in::collections::VecDeque;
use stand_in::prelude::{Box, StrExt, String, Vec};
use stand_in::simd::Lanes;
use stand_in::{ascii_at, ascii_before, ascii_columns};
use std::alloc::{GlobalAlloc, Layout, System};
use std::array::from_fn;
use std::cell::{Cell, RefCell};
use std::fmt::Debug;
use std::{mem::take, ptr::null_mut, rc::Rc};

type Call<V> = fn(&mut V) -> Result<(), AllocError>;
type RustVec<T> = std::vec::Vec<T>;
type RustString = std::string::String;

/// Refuses requests once so many were granted, and counts, for each thread.
struct Refusing;

#[global_allocator]
static REFUSING: Refusing = Refusing;

thread_local! {
    static LEFT: Cell<usize> = const { Cell::new(usize::MAX) };
    static ASKED: Cell<usize> = const { Cell::new(0) };
    static HELD: Cell<isize> = const { Cell::new(0) };
}

// What grows gets a new block, so that each growth is a request.
unsafe impl GlobalAlloc for Refusing {
    unsafe fn alloc(&self, layout: Layout) -> *mut u8 {
        ASKED.with(|asked| asked.set(asked.get() + 1));
        let left = LEFT.with(Cell::get);
        if left == 0 {
            return null_mut();
        }
        LEFT.with(|l| l.set(left - 1));
        HELD.with(|held| held.set(held.get() + 1));
        System.alloc(layout)
    }

    unsafe fn dealloc(&self, block: *mut u8, layout: Layout) {
        HELD.with(|held| held.set(held.get() - 1));
        System.dealloc(block, layout)
    }
}

// Makes a call of which so many requests are granted. Returns how many it made, too.
fn granting<T>(granted: usize, call: impl FnOnce() -> T) -> (T, usize) {
    let before = ASKED.with(Cell::get);
    LEFT.with(|left| left.set(granted));
    let result = call();
    LEFT.with(|left| left.set(usize::MAX));
    (result, ASKED.with(Cell::get) - before)
}

// Calls on a fresh value with no request granted, with one, and so on until all are. The call fails exactly where one was
// refused, and all memory is freed. `check` sees what is left, and if the call succeeded how many requests it made.
fn each_refused<V>(
    make: impl Fn() -> V,
    call: impl Fn(&mut V) -> Result<(), AllocError>,
    check: impl Fn(&V, Option<usize>),
) {
    for granted in 0.. {
        let held = HELD.with(Cell::get);
        let mut value = make();
        let (result, asked) = granting(granted, || call(&mut value));
        assert_eq!(result.is_err(), asked > granted);
        check(&value, result.is_ok().then_some(asked));
        drop(value);
        assert_eq!(HELD.with(Cell::get), held);
        if result.is_ok() {
            return;
        }
    }
}

// The capacity that a call needs, the call, and Rust's own.
type Row<V, R> = (usize, Call<V>, fn(&mut R));

// Asks the rows of a value that is made with some room. It changes as Rust's does or stays, and asks for memory only if its
// capacity is too small. `look` shows what it holds, and its capacity.
fn ask_all<V, R: Debug + PartialEq>(
    rows: &[Row<V, R>],
    make: impl Fn(usize) -> V,
    look: impl Fn(&V) -> (R, usize),
) {
    for ((needed, call, rusts), room) in rows.iter().flat_map(|row| (0..9).map(move |n| (row, n))) {
        let (before, capacity) = look(&make(room));
        let mut after = look(&make(room)).0;
        rusts(&mut after);
        let check = |value: &V, asked: Option<usize>| {
            let (held, now) = look(value);
            assert_eq!(&held, if asked.is_some() { &after } else { &before });
            if asked.unwrap_or(0) == 0 {
                assert_eq!(now, capacity);
            } else {
                assert!(asked == Some(1) && capacity < *needed && *needed <= now);
            }
        };
        each_refused(|| make(room), call, check);
    }
}

#[rustfmt::skip]
const TEXTS: &[Row<String, RustString>] = &[
    (6, |s| s.reserve(0), |_| {}),
    (11, |s| s.reserve(5), |_| {}),
    (7, |s| s.push('x'), |s| s.push('x')),
    (9, |s| s.push('∂'), |s| s.push('∂')),
    (6, |s| s.push_str(""), |_| {}),
    (7, |s| s.push_str("x"), |s| s.push('x')),
    (10, |s| s.push_str("xyß"), |s| s.push_str("xyß")),
    (7, |s| s.insert(0, 'x'), |s| s.insert(0, 'x')),
    (7, |s| s.insert(3, 'x'), |s| s.insert(3, 'x')),
    (7, |s| s.insert(6, 'x'), |s| s.insert(6, 'x')),
    (9, |s| s.insert(1, '∂'), |s| s.insert(1, '∂')),
    (8, |s| s.insert(6, 'ß'), |s| s.insert(6, 'ß')),
    (6, |s| s.insert_str(3, ""), |_| {}),
    (10, |s| s.insert_str(3, "xyß"), |s| s.insert_str(3, "xyß")),
    (6, |s| s.replace_range(..3, ""), |s| s.replace_range(..3, "")),
    (6, |s| s.replace_range(1..3, "x"), |s| s.replace_range(1..3, "x")),
    (6, |s| s.replace_range(1..3, "é"), |s| s.replace_range(1..3, "é")),
    (8, |s| s.replace_range(1..3, "xyß"), |s| s.replace_range(1..3, "xyß")),
    (9, |s| s.replace_range(3.., "∂∂"), |s| s.replace_range(3.., "∂∂")),
    (7, |s| s.replace_range(3..3, "x"), |s| s.replace_range(3..3, "x")),
    (6, |s| s.replace_range(3..3, ""), |_| {}),
    (6, |s| s.replace_range(.., "x"), |s| s.replace_range(.., "x")),
    (6, |s| { s.truncate(3); Ok(()) }, |s| s.truncate(3)),
    (6, |s| { s.truncate(9); Ok(()) }, |_| {}),
    (6, |s| { s.clear(); Ok(()) }, |s| s.clear()),
];

#[rustfmt::skip]
const LISTS: &[Row<Vec<u16>, RustVec<u16>>] = &[
    (3, |v| v.reserve(0), |_| {}),
    (8, |v| v.reserve(5), |_| {}),
    (4, |v| Ok(v.push(9)?), |v| v.push(9)),
    (4, |v| Ok(v.insert(1, 9)?), |v| v.insert(1, 9)),
    (4, |v| Ok(v.insert(3, 9)?), |v| v.insert(3, 9)),
    (3, |v| v.extend_from_slice(&[]), |_| {}),
    (5, |v| v.extend_from_slice(&[8, 9]), |v| v.extend_from_slice(&[8, 9])),
    (3, |v| v.resize(1, 9), |v| v.resize(1, 9)),
    (7, |v| v.resize(7, 9), |v| v.resize(7, 9)),
    (3, |v| { assert_eq!(v.pop(), Some(3)); Ok(()) }, |v| v.truncate(2)),
    (3, |v| { assert_eq!(v.remove(1), 2); Ok(()) }, |v| { v.remove(1); }),
    (3, |v| { v.truncate(1); Ok(()) }, |v| v.truncate(1)),
    (3, |v| { v.truncate(9); Ok(()) }, |_| {}),
    (3, |v| { assert!(v.drain(..2).eq([1, 2])); Ok(()) }, |v| { v.drain(..2); }),
    (3, |v| { v.as_mut_slice().reverse(); Ok(()) }, |v| v.reverse()),
    (3, |v| { v.clear(); Ok(()) }, |v| v.clear()),
];

#[test]
fn a_value_changes_as_rusts_or_stays() {
    let text = |room| {
        let mut text = String::with_capacity(Global, 6 + room).unwrap();
        text.push_str("aß∂").unwrap();
        text
    };
    ask_all(TEXTS, text, |text| (text.to_string(), text.capacity()));
    let list = |room| {
        let mut list = Vec::with_capacity(Global, 3 + room).unwrap();
        list.extend_from_slice(&[1, 2, 3]).unwrap();
        list
    };
    ask_all(LISTS, list, |list| (list.to_vec(), list.capacity()));
}

#[test]
#[should_panic(expected = "is_char_boundary")]
fn no_character_comes_into_another() {
    let mut text = String::with_capacity(Global, 9).unwrap();
    text.push_str("aß∂").unwrap();
    let _ = text.insert(2, 'x');
}

#[test]
fn an_array_is_cut_in_two_or_stays() {
    type Two = (Vec<u16>, Option<Vec<u16>>);
    let make = || -> Two {
        let mut list = Vec::new(Global);
        list.extend_from_slice(&[1, 2, 3]).unwrap();
        (list, None)
    };
    for at in 0..=3 {
        let call = |two: &mut Two| {
            two.1 = Some(two.0.split_off(at)?);
            Ok(())
        };
        let check = |two: &Two, asked: Option<usize>| {
            let kept = asked.map_or(3, |_| at);
            assert_eq!(two.0[..], [1, 2, 3][..kept]);
            assert_eq!(two.1.as_deref(), asked.map(|_| &[1, 2, 3][at..]));
        };
        each_refused(make, call, check);
    }
}

type Make = fn() -> Result<String, AllocError>;

// How many requests a call makes, the call, and what it makes.
#[rustfmt::skip]
const MADE: &[(usize, Make, &str)] = &[
    (0, || Ok(String::new(Global)), ""),
    (0, || String::with_capacity(Global, 0), ""),
    (1, || String::with_capacity(Global, 1), ""),
    (0, || String::from_str(Global, ""), ""),
    (1, || String::from_str(Global, "aß∂"), "aß∂"),
    (2, || String::from_format(Global, format_args!("{:>9}{:?}", "ß", 7)), "        ß7"),
    (0, || "ß".try_repeat(Global, 0), ""),
    (0, || "".try_repeat(Global, 9), ""),
    (1, || " ".try_repeat(Global, 5), "     "),
    (1, || "aß".try_repeat(Global, 7), "aßaßaßaßaßaßaß"),
    (1, || "aΣ".try_to_lowercase(Global), "aς"),
    (3, || "ΐΐ".try_to_uppercase(Global), "Ι\u{308}\u{301}Ι\u{308}\u{301}"),
];

#[test]
fn a_text_is_made_or_refused() {
    for (needed, make, wanted) in MADE {
        let call = |made: &mut Option<String>| {
            *made = Some(make()?);
            Ok(())
        };
        let check = |made: &Option<String>, asked: Option<usize>| {
            assert_eq!(made.as_deref(), asked.and(Some(*wanted)));
            assert_eq!(asked.unwrap_or(*needed), *needed);
        };
        each_refused(|| None, call, check);
    }
    let text = String::from_str(Global, "aß").unwrap();
    assert_eq!(format!("{text:>4} {text:?}"), "  aß \"aß\"");
}

#[test]
fn too_much_is_refused() {
    let most = usize::MAX;
    for size in [most, most - 5, most / 2, most / 2 + 1] {
        assert!(String::with_capacity(Global, size).is_err());
        assert!(Vec::<u64>::with_capacity(Global, size).is_err());
        assert!(VecDeque::<u64>::with_capacity(Global, size).is_err());
        assert!("ab".try_repeat(Global, size).is_err());
        let mut text = String::from_str(Global, "abcdef").unwrap();
        assert_eq!(text.reserve(size), Err(AllocError));
        assert_eq!((text.as_str(), text.capacity()), ("abcdef", 6));
    }
}

#[test]
fn a_value_that_is_refused_comes_back() {
    let value = Rc::new(7);
    let is_back = |refused: Option<Rc<i32>>| assert!(Rc::ptr_eq(&refused.unwrap(), &value));
    let mut list = Vec::new(Global);
    is_back(granting(0, || list.push(value.clone()).err().map(|e| e.value)).0);
    is_back(granting(0, || list.insert(0, value.clone()).err().map(|e| e.value)).0);
    is_back(granting(0, || Box::new(Global, value.clone()).err().map(|e| e.value)).0);
    let boxed = |made: &mut Option<Box<Rc<i32>>>| {
        *made = Some(Box::new(Global, value.clone())?);
        Ok(())
    };
    let check = |made: &Option<Box<_>>, asked: Option<usize>| {
        assert_eq!(made.as_deref(), asked.and(Some(&value)));
        assert_eq!(asked.unwrap_or(1), 1);
    };
    each_refused(|| None, boxed, check);
    assert_eq!((list.len(), Rc::strong_count(&value)), (0, 1));
}

#[test]
fn what_has_no_size_needs_no_memory() {
    let all = || {
        let mut list = Vec::new(Global);
        let mut queue = VecDeque::with_capacity(Global, 9).unwrap();
        for _ in 0..9 {
            list.push(()).unwrap();
            queue.push_back_reserved(());
        }
        *Box::new(Global, ()).unwrap();
        (list.len(), queue.len())
    };
    assert_eq!(granting(0, all), ((9, 9), 0));
}

struct Told<'a>(u8, &'a RefCell<RustVec<u8>>);

impl Drop for Told<'_> {
    fn drop(&mut self) {
        self.1.borrow_mut().push(self.0);
    }
}

#[test]
fn elements_are_dropped_in_order() {
    let told = RefCell::new(vec![]);
    let mut list = Vec::new(Global);
    (0..8).for_each(|n| assert!(list.push(Told(n, &told)).is_ok()));
    list.truncate(6);
    drop(list.drain(1..4).next());
    list.clear();
    assert_eq!(told.take(), [6, 7, 1, 2, 3, 0, 4, 5]);
}

fn held(queue: &VecDeque<usize>) -> RustVec<usize> {
    let (first, rest) = queue.as_slices();
    [first, rest].concat()
}

#[test]
fn a_queue_is_as_rusts() {
    let mut queue = granting(0, || VecDeque::new(Global)).0;
    assert!(granting(0, || queue.reserve(0).is_ok()).0);
    let mut rusts = std::collections::VecDeque::new();
    for n in 0..999 {
        match n * n % 11 {
            0 => assert_eq!(queue.pop_back(), rusts.pop_back()),
            1 => assert_eq!(queue.pop_front(), rusts.pop_front()),
            3 => assert_eq!(queue.back_mut().map(take), rusts.back_mut().map(take)),
            _ => {
                let (refused, asked) = granting(0, || queue.reserve(n % 3 + 1).is_err());
                assert_eq!(refused, asked > 0);
                assert_eq!(rusts, held(&queue));
                queue.reserve(n % 3 + 1).unwrap();
                let push = || (n..=n + n % 3).for_each(|n| queue.push_back_reserved(n));
                assert_eq!(granting(0, push).1, 0);
                rusts.extend(n..=n + n % 3);
            }
        }
        assert_eq!(rusts, held(&queue));
        assert_eq!((queue.front(), queue.len()), (rusts.front(), rusts.len()));
    }
    queue.clear();
    assert!(queue.is_empty() && rusts.len() > 99);
}

#[test]
fn queues_are_joined_or_both_stay() {
    let make = |len| {
        let mut queue = VecDeque::with_capacity(Global, len).unwrap();
        (0..len).for_each(|n| queue.push_back_reserved(n));
        queue
    };
    type Two = (VecDeque<usize>, VecDeque<usize>);
    for (a, b) in [(0, 0), (0, 9), (9, 0), (3, 3), (9, 40)] {
        let check = |(to, from): &Two, asked: Option<usize>| {
            let moved = if asked.is_some() { b } else { 0 };
            assert!(held(to).into_iter().eq((0..a).chain(0..moved)));
            assert!(held(from).into_iter().eq(0..b - moved));
        };
        let call = |(to, from): &mut Two| to.append(from);
        each_refused(|| (make(a), make(b)), call, check);
    }
}

fn ask_lanes<const N: usize>() {
    let bits = |holds: &dyn Fn(&usize) -> bool| (0..N).filter(holds).map(|i| 1 << i).sum();
    for seed in 0..99 {
        let byte = |i: usize| (i * i * seed / 7 % 9 * 31) as u8;
        let (a, b): ([u8; N], [u8; N]) = (from_fn(byte), from_fn(|i| byte(i + 5)));
        let (x, y) = (Lanes::<N>::from_slice(&a), Lanes::<N>::from_slice(&b));
        let (equal, at_least) = (x.simd_eq(y), x.simd_ge(y));
        assert_eq!(equal.to_bitmask(), bits(&|i| a[*i] == b[*i]));
        assert_eq!(at_least.to_bitmask(), bits(&|i| a[*i] >= b[*i]));
        assert_eq!((equal | at_least).to_bitmask(), at_least.to_bitmask());
        assert_eq!((equal & at_least).to_bitmask(), equal.to_bitmask());
        let greater: [u8; N] = from_fn(|i| a[i].max(b[i]));
        let chosen = at_least.select(x, y).simd_eq(Lanes::from_slice(&greater));
        assert_eq!(chosen.to_bitmask(), bits(&|_| true));
    }
}

#[test]
fn lanes_are_as_bytes() {
    ask_lanes::<16>();
    ask_lanes::<32>();
    ask_lanes::<64>();
    let both: Lanes<64> = Lanes::<32>::splat(1).then(Lanes::splat(2));
    assert_eq!(both.simd_eq(Lanes::splat(2)).to_bitmask(), !0 << 32);
}

#[test]
fn an_ascii_character_is_found_at_both_its_ends() {
    let text = "a\u{7f}é漢\0🚀b";
    let ascii = |c: &char| c.is_ascii();
    for (at, end) in (0..text.len()).zip(1..) {
        let starts = text.get(at..).and_then(|it| it.chars().next());
        let ends = text.get(..end).and_then(|it| it.chars().next_back());
        assert_eq!(ascii_at(text, at), starts.filter(ascii).map(|c| (c, end)));
        assert_eq!(ascii_before(text, end), ends.filter(ascii).map(|c| (c, at)));
    }
}

#[test]
fn a_printable_ascii_character_alone_takes_a_column() {
    for c in '\0'..='\u{ff}' {
        let is_printable = c == ' ' || c.is_ascii_graphic();
        let (alone, after) = (c.to_string(), format!("a{c}"));
        assert_eq!(ascii_columns(&alone), is_printable.then_some(1), "{c:?}");
        assert_eq!(ascii_columns(&after), None, "{c:?}");
    }
    assert_eq!(ascii_columns(""), None);
}

#[test]
fn a_place_is_rounded_down() {
    let places = (0..9).map(|at| "aß∂".floor_boundary(at));
    assert!(places.eq([0, 1, 1, 3, 3, 3, 6, 6, 6]));
}

// Whether the case is another than Rust's, whose version of Unicode then knows none for this character.
fn is_newer(c: char, made: &str, rusts: impl Iterator<Item = char> + Clone) -> bool {
    let is_newer = !made.chars().eq(rusts.clone());
    assert!(!is_newer || rusts.eq([c]), "{c:?} {made:?}");
    is_newer
}

// In upper and in lower case.
fn cases(text: &str) -> [String; 2] {
    let upper = text.try_to_uppercase(Global).unwrap();
    [upper, text.try_to_lowercase(Global).unwrap()]
}

#[test]
fn cases_are_rusts_but_for_newer_ones() {
    let mut newer = [0, 0];
    for c in '\0'..=char::MAX {
        let [upper, lower] = cases(&c.to_string());
        newer[0] += usize::from(is_newer(c, &upper, c.to_uppercase()));
        newer[1] += usize::from(is_newer(c, &lower, c.to_lowercase()));
    }
    // The kit's tables are of 18.0.
    match char::UNICODE_VERSION.0 {
        14 => assert_eq!(newer, [76, 75]),
        17 => assert_eq!(newer, [21, 20]),
        18 => assert_eq!(newer, [0, 0]),
        _ => {}
    }
    let texts = "ΑΣ|Σ|ΑΣ Σ|ΣΑΣΑ|AΣ.B|A\u{301}Σ.|ΟΔΥΣΣΕΥΣ ßΣ1Σ|1Σ|İΣ|Σ\u{301}Σ";
    for text in texts.split('|') {
        let [upper, lower] = cases(text);
        let rusts = [text.to_uppercase(), text.to_lowercase()];
        assert_eq!([&*upper, &*lower], rusts);
    }
}
