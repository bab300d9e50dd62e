//! Writes a copy of the model for each fault of list.txt, and a module that names them all.

use std::path::{Path, PathBuf};
use std::{env, fs};

/// A fault: what it is, and the one text of a file that it replaces.
struct Fault<'a> {
    name: &'a str,
    file: &'a str,
    old: &'a str,
    new: &'a str,
}

fn main() {
    let here = PathBuf::from(env::var_os("CARGO_MANIFEST_DIR").expect("cargo names the package's folder"));
    let out = PathBuf::from(env::var_os("OUT_DIR").expect("cargo names a folder to write to"));
    let model = here.join("../model/src");
    let list = fs::read_to_string(here.join("list.txt")).expect("list.txt can be read");
    println!("cargo:rerun-if-changed=list.txt\ncargo:rerun-if-changed={}", model.display());
    let (mut modules, mut rows) = (String::new(), String::new());
    for (index, block) in list.split("\n\n").enumerate() {
        let fault = read(block);
        let folder = out.join(format!("fault_{index}"));
        plant(&fault, &model, &folder);
        let path = folder.join("mod.rs");
        modules.push_str(&format!("#[allow(dead_code, unused)]\n#[path = {path:?}]\npub mod fault_{index};\n"));
        rows.push_str(&format!(
            "    ({:?}, Faulty {{ answer: fault_{index}::answer, key_answer: fault_{index}::key_answer, load_answer: fault_{index}::load_answer, tally_answer: fault_{index}::tally_answer, wall_answer: fault_{index}::wall_answer, openings_answer: fault_{index}::openings_answer, message: fault_{index}::message, from_json: fault_{index}::from_json, to_json: fault_{index}::to_json }}),\n",
            fault.name
        ));
    }
    let table = format!("const FAULTS: &[(&str, Faulty)] = &[\n{rows}];\n");
    fs::write(out.join("faults.rs"), format!("{modules}\n{table}")).expect("the folder can be written to");
}

/// A name after `#`, then `file:`, `old:` and `new:`.
fn read(block: &str) -> Fault<'_> {
    let lines: Vec<&str> = block.trim().lines().collect();
    let [name, file, old, new] = lines[..] else {
        panic!("a fault of list.txt has other than four lines: {block}");
    };
    let part = |line: &'static str, from: &'_ str| -> usize {
        assert!(from.starts_with(line), "{from:?} does not begin with {line:?}");
        line.len()
    };
    Fault {
        name: &name[part("# ", name)..],
        file: &file[part("file: ", file)..],
        old: &old[part("old: ", old)..],
        new: &new[part("new: ", new)..],
    }
}

/// Copies the model with the fault in it, and with functions around its types.
fn plant(fault: &Fault, model: &Path, folder: &Path) {
    fs::create_dir_all(folder).expect("the folder can be written to");
    for entry in fs::read_dir(model).expect("the model can be read") {
        let path = entry.expect("the model can be read").path();
        let Some(name) = path.file_name().filter(|_| path.is_file()) else {
            continue;
        };
        let is_root = name == "lib.rs";
        let mut text = fs::read_to_string(&path).expect("the model can be read");
        if name == fault.file {
            assert_eq!(text.matches(fault.old).count(), 1, "{}: the text is not there exactly once", fault.name);
            text = text.replace(fault.old, fault.new);
        }
        if is_root {
            text.push_str(include_str!("src/around.rs"));
        }
        fs::write(folder.join(if is_root { "mod.rs".as_ref() } else { name }), text).expect("the folder can be written to");
    }
}
