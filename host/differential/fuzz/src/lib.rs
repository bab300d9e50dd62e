//! One input of libFuzzer as a case, a JSON text or a rule sheet, on which library, model and Rust must agree. The variable `FUZZED` says which: `text`, `sheet`, else a case.

use cases::json::{Expect, TextCase};
use harness::library::lent::Extent;
use harness::runs::agreement::hold;
use harness::runs::compare::report;
use harness::runs::{fuzzed, json};
use std::sync::OnceLock;

/// What is made of an input: an error, told to the reader already, is a disagreement.
type Target = fn(&[u8]) -> Result<(), String>;

fn case(bytes: &[u8]) -> Result<(), String> {
    let Some(case) = fuzzed::case(bytes) else {
        return Ok(());
    };
    hold(&case).map(drop).map_err(|trouble| report(&case, &trouble, "an input of the fuzzer"))
}

fn text(bytes: &[u8]) -> Result<(), String> {
    let case = TextCase::new(bytes, Expect::Anything);
    json::hold(&case, Extent::Some).map(drop).map_err(|trouble| json::report(&case, &trouble, "an input of the fuzzer"))
}

fn sheet(bytes: &[u8]) -> Result<(), String> {
    json::hold_sheet(bytes, Extent::Some).map(drop).map_err(|trouble| json::report_sheet(bytes, &trouble, "an input of the fuzzer"))
}

static TARGET: OnceLock<Target> = OnceLock::new();

fn target() -> Target {
    match std::env::var("FUZZED").as_deref() {
        Ok("text") => text,
        Ok("sheet") => sheet,
        _ => case,
    }
}

/// # Safety
///
/// libFuzzer hands over as many bytes as it says.
#[no_mangle]
pub unsafe extern "C" fn LLVMFuzzerTestOneInput(data: *const u8, size: usize) -> i32 {
    let bytes = if size == 0 { &[] } else { std::slice::from_raw_parts(data, size) };
    if let Err(trouble) = TARGET.get_or_init(target)(bytes) {
        eprintln!("{trouble}");
        std::process::abort();
    }
    0
}
