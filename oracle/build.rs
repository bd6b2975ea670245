// Copies the given Rust, unchanged, beside the stand-ins for what it leans on, and writes the declarations of both as modules of this crate.
use std::path::{Path, PathBuf};
use std::{env, fs, process};

// What is compiled of the given sources.
const GIVEN: [&str; 7] = [
    "bpe/mod.rs",
    "bpe/pretoken_cache.rs",
    "token.rs",
    "input/mod.rs",
    "pretokenize/mod.rs",
    "pretokenize/pretoken.rs",
    "pretokenize/pretokenize_traits.rs",
];

// What stands in for files that were not given, and the file of stand-in/ that has it. No name: an empty module will do.
const OURS: [(&str, &str); 10] = [
    ("bpe/sentencepiece.rs", "sentencepiece.rs"),
    ("bpe/tiktoken.rs", "tiktoken.rs"),
    ("input/decompress.rs", ""),
    ("input/file_source.rs", ""),
    ("input/jsonl.rs", ""),
    ("input/parquet.rs", ""),
    ("pretokenize/fast.rs", "fast.rs"),
    ("pretokenize/options.rs", "options.rs"),
    ("pretokenize/reference.rs", "reference.rs"),
    ("pretokenize/unicode.rs", ""),
];

const MODULES: [(&str, &str); 4] =
    [("bpe", "bpe/mod.rs"), ("token", "token.rs"), ("input", "input/mod.rs"), ("pretokenize", "pretokenize/mod.rs")];

fn stop(why: String) -> ! {
    println!("cargo::error={why}");
    process::exit(1);
}

// The given file, with or without .txt, in the folder or in its src.
fn given(folder: &Path, name: &str) -> PathBuf {
    for place in [folder.to_path_buf(), folder.join("src")] {
        for ending in ["", ".txt"] {
            let path = place.join(format!("{name}{ending}"));
            if path.is_file() {
                return path;
            }
        }
    }
    let folder = folder.display();
    stop(format!(
        "the Rust sources are absent: {folder} has no src/{name}.txt, so set GIGATOKEN_SRC to the folder that has them"
    ))
}

fn write(path: &Path, text: &[u8]) {
    if let Some(folder) = path.parent() {
        let _ = fs::create_dir_all(folder);
    }
    if let Err(e) = fs::write(path, text) {
        stop(format!("{} cannot be written: {e}", path.display()));
    }
}

fn read(path: &Path) -> Vec<u8> {
    println!("cargo::rerun-if-changed={}", path.display());
    match fs::read(path) {
        Ok(text) => text,
        Err(e) => stop(format!("{} cannot be read: {e}", path.display())),
    }
}

fn main() {
    println!("cargo::rerun-if-env-changed=GIGATOKEN_SRC");
    println!("cargo::rerun-if-changed=build.rs");
    let here = PathBuf::from(env::var_os("CARGO_MANIFEST_DIR").unwrap());
    let out = PathBuf::from(env::var_os("OUT_DIR").unwrap()).join("given");
    let folder = match env::var_os("GIGATOKEN_SRC") {
        Some(folder) if !folder.is_empty() => PathBuf::from(folder),
        _ => here.join("../../shared/docs/src"),
    };
    for name in GIVEN {
        write(&out.join(name), &read(&given(&folder, name)));
    }
    for (name, ours) in OURS {
        let text = match ours {
            "" => Vec::new(),
            file => read(&here.join("stand-in").join(file)),
        };
        write(&out.join(name), &text);
    }
    let mut modules = String::new();
    for (name, file) in MODULES {
        modules += &format!("#[allow(warnings)]\n#[path = {:?}]\nmod {name};\n", out.join(file));
    }
    write(&out.join("modules.rs"), modules.as_bytes());
}
