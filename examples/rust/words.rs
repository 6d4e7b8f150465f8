//! Counts the words of a text, for a program in C.

use std::alloc::{GlobalAlloc, Layout};
use std::collections::BTreeMap;
use std::sync::atomic::{AtomicUsize, Ordering::Relaxed};

// A set has one heap: that of the C library.
extern "C" {
    fn aligned_alloc(alignment: usize, size: usize) -> *mut u8;
    fn free(at: *mut u8);
}

struct Heap;

unsafe impl GlobalAlloc for Heap {
    unsafe fn alloc(&self, layout: Layout) -> *mut u8 {
        let unit = layout.align().max(16);
        aligned_alloc(unit, (layout.size() + unit - 1) / unit * unit)
    }
    unsafe fn dealloc(&self, at: *mut u8, _: Layout) {
        free(at)
    }
}

#[global_allocator]
static HEAP: Heap = Heap;

/// How words are put in order: a trait of which there are several kinds.
trait Order {
    fn key(&self, word: &str, count: u32) -> (i64, String);
}

struct ByName;
struct ByCount;

impl Order for ByName {
    fn key(&self, word: &str, _: u32) -> (i64, String) {
        (0, word.to_string())
    }
}

impl Order for ByCount {
    fn key(&self, word: &str, count: u32) -> (i64, String) {
        (-i64::from(count), word.to_string())
    }
}

static ORDERS: [(&str, &(dyn Order + Sync)); 2] = [("name", &ByName), ("count", &ByCount)];
static CALLS: AtomicUsize = AtomicUsize::new(0);

fn words_of(text: &[u8]) -> BTreeMap<String, u32> {
    let mut counts = BTreeMap::new();
    for word in String::from_utf8_lossy(text).split(|c: char| !c.is_alphanumeric()).filter(|word| !word.is_empty()) {
        *counts.entry(word.to_lowercase()).or_insert(0) += 1;
    }
    counts
}

/// Gives each word of a text to a function, by the order of this number, as a line. Returns how many there are.
///
/// # Safety
///
/// `text` is the address of so many bytes.
#[no_mangle]
pub unsafe extern "C" fn count_words(text: *const u8, length: usize, order: usize, put: extern "C" fn(*const u8, usize)) -> usize {
    let call = CALLS.fetch_add(1, Relaxed) + 1;
    // An order that isn't there is a panic, and that is a trap.
    let (name, order) = ORDERS[order];
    let counts = words_of(std::slice::from_raw_parts(text, length));
    let mut words: Vec<_> = counts.iter().collect();
    words.sort_by_key(|(word, count)| order.key(word, **count));
    let title = format!("-- {}. by {}\n", call, name);
    put(title.as_ptr(), title.len());
    for (word, count) in &words {
        let line = format!("{:>4} {}\n", count, word);
        put(line.as_ptr(), line.len());
    }
    words.len()
}
