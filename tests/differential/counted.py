#!/usr/bin/env python3
# Makes copies of the Rust sources and of the driver that count what a script reaches: counted.py SOURCES DRIVER.rs DIR
# DIR gets the layout of SOURCES, and the driver. The program built of them writes the same lines; its counts go to the file that the variable
# COUNTS names. The counting statements are those of places.py. A text that does not stand once in its function is an error, so sources of another
# version are refused.
import os
import sys

import places

IND, MONITOR = "industrial/types-ind/src/lib.rs", "industrial/iec61850-monitor/src/lib.rs"
CORE = "core/types/src/lib.rs"

# The counters: one for each place, and one for each name.
MODULE = """
/// Counts what a script reaches.
pub mod counted {
    extern crate std;
    use core::sync::atomic::{AtomicBool, AtomicU64, AtomicUsize, Ordering::Relaxed};
    use std::collections::BTreeMap;
    use std::string::{String, ToString};
    use std::sync::Mutex;

    static PLACES: [AtomicU64; MANY] = [const { AtomicU64::new(0) }; MANY];
    static LEVEL: AtomicUsize = AtomicUsize::new(0);
    static FAILED: AtomicBool = AtomicBool::new(false);
    static CALL: Mutex<String> = Mutex::new(String::new());
    static NAMED: Mutex<BTreeMap<String, u64>> = Mutex::new(BTreeMap::new());

    /// Counts a place.
    pub fn place(number: usize) {
        PLACES[number].fetch_add(1, Relaxed);
    }

    /// Keeps the level at which an element is read.
    pub fn level(number: usize) {
        LEVEL.store(number, Relaxed);
    }

    /// Whether an element is read at this level.
    pub fn at_level(number: usize) -> bool {
        LEVEL.load(Relaxed) == number
    }

    fn named(name: String) {
        *NAMED.lock().unwrap().entry(name).or_insert(0) += 1;
    }

    /// Keeps the name of the call.
    pub fn call(name: &[u8]) {
        *CALL.lock().unwrap() = String::from_utf8_lossy(name).to_string();
        FAILED.store(false, Relaxed);
    }

    /// Counts the call, which was made.
    pub fn made() {
        named(std::format!("call {}", CALL.lock().unwrap()));
    }

    /// Counts an error of the call.
    pub fn error(number: u32) {
        FAILED.store(true, Relaxed);
        named(std::format!("error {} {number}", CALL.lock().unwrap()));
    }

    /// Counts a result of the call, by its verdict, severities and codes; not the one beside an error.
    pub fn result(result: &super::InspectResult) {
        if FAILED.load(Relaxed) {
            return;
        }
        let mut name = std::format!("result {} {}", CALL.lock().unwrap(), if result.allowed { "allowed" } else { "refused" });
        for at in 0..usize::from(result.alert_count) {
            name += &std::format!(" {:?}:{}", result.alerts[at].severity, result.alert_codes[at] as u8);
        }
        named(name);
    }

    /// Writes the counts.
    pub fn save() {
        let mut text = String::new();
        for (number, count) in PLACES.iter().enumerate() {
            text += &std::format!("{} place {number}\\n", count.load(Relaxed));
        }
        for (name, count) in NAMED.lock().unwrap().iter() {
            text += &std::format!("{count} {name}\\n");
        }
        std::fs::write(std::env::var("COUNTS").unwrap(), text).unwrap();
    }
}
"""

# The statements in the driver: the function, the text, the statement, and whether it stands before the text.
IN_DRIVER = (
    ("fn make_call(", "match name {", "vs_types_ind::counted::call(name);", True),
    ("fn answer(", "    put_totals(line, m);", "vs_types_ind::counted::made();", True),
    ("fn put_error(", 'put(line, "error ", error as u32);', "vs_types_ind::counted::error(error as u32);", True),
    ("fn put_result(", "let many =", "vs_types_ind::counted::result(result);", True),
    ("fn main(", "    output.flush()", "vs_types_ind::counted::save();", True),
)


# The part of a source that is one function: from its head to the closing brace of the head's indentation.
def function_of(source, head):
    if source.count(head) != 1:
        sys.exit(f"counted: '{head}' stands {source.count(head)} times in the source, and not once")
    start = source.index(head)
    indentation = source.rfind("\n", 0, start) + 1
    spaces = len(source[indentation:start]) - len(source[indentation:start].lstrip(" "))
    return start, source.index("\n" + " " * spaces + "}\n", start)


# Where a statement beside a text of a function goes.
def place_of(source, head, text, before):
    start, end = function_of(source, head)
    if source.count(text, start, end) != 1:
        sys.exit(f"counted: '{text}' stands {source.count(text, start, end)} times in '{head}', and not once")
    return source.index(text, start) + (0 if before else len(text))


# A source with statements, each beside a text of a function. All places are found before one is used.
def with_statements(source, statements):
    found = [(place_of(source, head, text, before), statement) for head, text, statement, before in statements]
    for at, statement in sorted(found, key=lambda pair: pair[0], reverse=True):
        source = f"{source[:at]}\n{statement}\n{source[at:]}"
    return source


# The statement that counts a place.
def statement(number, condition):
    count = f"vs_types_ind::counted::place({number});"
    return f"if {condition} {{ {count} }}" if condition else count


# The statements for the sources of the monitor, and those for types-ind, which name the module by `crate`.
def statements(monitor):
    in_monitor, in_ind = [], []
    for number, place in enumerate(places.PLACES):
        text = statement(number, place.condition)
        if place.function in monitor:
            in_monitor.append((place.function, place.text, text, place.before))
        else:
            in_ind.append((place.function, place.text, text.replace("vs_types_ind::", "crate::"), place.before))
    for function, text, level in places.LEVEL_STATEMENTS:
        in_monitor.append((function, text, f"vs_types_ind::counted::level({level});", True))
    return in_monitor, in_ind


def read(*path):
    return open(os.path.join(*path)).read()


def write(text, *path):
    os.makedirs(os.path.dirname(os.path.join(*path)), exist_ok=True)
    open(os.path.join(*path), "w").write(text)


def main(rust, driver, made):
    in_monitor, in_ind = statements(read(rust, MONITOR))
    write(read(rust, CORE), made, CORE)
    write(with_statements(read(rust, MONITOR), in_monitor), made, MONITOR)
    write(with_statements(read(rust, IND), in_ind) + MODULE.replace("MANY", str(len(places.PLACES))), made, IND)
    write(with_statements(read(driver), IN_DRIVER), made, os.path.basename(driver))


if __name__ == "__main__":
    main(*sys.argv[1:])
