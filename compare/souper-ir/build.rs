//! Copies the modules of souper-ir 2.1.0 from SOUPER_IR_SRC, by default ../shared/docs/src seen from the repository's root.
use std::{env, fs, path::Path, path::PathBuf};

/// The additions to the crate: ways to read what it keeps to itself.
const READABLE: &str = "
impl ParseError {
    /// The byte offset of the fault, where it is no fault of input or output.
    pub fn fault_offset(&self) -> Option<usize> {
        self.offset()
    }
}

/// How many tokens the lexer finds in a text, and the byte offset of its fault where it finds one.
pub fn lexed(source: &str) -> (u64, Option<usize>) {
    let mut lexer = Lexer::new(source);
    let mut tokens = 0;
    loop {
        match lexer.next_token() {
            Ok(Some(_)) => tokens += 1,
            Ok(None) => return (tokens, None),
            Err(fault) => return (tokens, fault.offset()),
        }
    }
}
";

const MODULES: [(&str, &str, &str); 3] =
    [("pub mod", "ast", ""), ("pub mod", "parse", READABLE), ("mod", "stringify", "")];

fn main() {
    println!("cargo:rerun-if-env-changed=SOUPER_IR_SRC");
    let source = source_folder();
    let out = PathBuf::from(env::var("OUT_DIR").unwrap());
    let mut list = String::new();
    for (keyword, name, addition) in MODULES {
        let from = source.join("src").join(name).with_extension("rs");
        println!("cargo:rerun-if-changed={}", from.display());
        let text = fs::read_to_string(&from).unwrap_or_else(|e| {
            panic!("{}: {}. Set SOUPER_IR_SRC to a folder whose src/ is that of souper-ir 2.1.0", from.display(), e)
        });
        let to = out.join(name).with_extension("rs");
        fs::write(&to, text + addition).unwrap();
        list += &format!("#[path = {:?}]\n{} {};\n", to, keyword, name);
    }
    fs::write(out.join("modules.rs"), list).unwrap();
}

fn source_folder() -> PathBuf {
    match env::var_os("SOUPER_IR_SRC") {
        Some(folder) => folder.into(),
        None => Path::new(env!("CARGO_MANIFEST_DIR")).join("../../../shared/docs/src"),
    }
}
