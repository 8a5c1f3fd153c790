//! Builds and runs programs for x86-64, the processor that libm25p.a is for: with the machine's own
//! compiler where it has that processor, elsewhere with the compiler and emulator of the Rattle kit.

use std::path::{Path, PathBuf};
use std::process::Command;
use std::sync::OnceLock;

/// Whether this machine runs programs for x86-64 by itself.
pub const NATIVE: bool = cfg!(target_arch = "x86_64");

/// The kit's tools for this machine.
struct Kit {
    tools: PathBuf,
    linker: PathBuf,
}

/// The kit, or a sentence that says what is missing. `rt doc` prints the path of a file at its top.
fn kit() -> Result<&'static Kit, String> {
    static KIT: OnceLock<Result<Kit, String>> = OnceLock::new();
    let found = KIT.get_or_init(|| {
        let page = printed(Command::new("rt").arg("doc"))?;
        let root = Path::new(page.trim()).parent().unwrap_or(Path::new(""));
        let kit = Kit { tools: root.join("toolchain"), linker: root.join("bin/rattle-link") };
        let emulator = kit.tools.join("bin/qemu-x86_64");
        for tool in [&emulator, &kit.tools.join("bin/clang"), &kit.linker] {
            if !tool.is_file() {
                return Err(format!("The Rattle kit has no {}.", tool.display()));
            }
        }
        Ok(kit)
    });
    found.as_ref().map_err(String::clone)
}

/// What stops this machine from building the file, in a sentence.
pub fn missing(source: &Path) -> Option<String> {
    let compiler = if NATIVE { compiler(source) } else { "cc" };
    let found = printed(Command::new(compiler).arg("--version"));
    let found = found.and_then(|_| if NATIVE { Ok(()) } else { kit().map(|_| ()) });
    found.err()
}

/// Builds a program of a C or C++ file over m25p.h, and links the archive.
pub fn build(source: &Path, flags: &[&str], archive: &Path, program: &Path) -> Result<(), String> {
    let include = Path::new(env!("CARGO_MANIFEST_DIR")).join("../../include");
    if NATIVE {
        let mut native = Command::new(compiler(source));
        native.args(flags).arg("-I").arg(include).args([source, archive]);
        return printed(native.arg("-o").arg(program)).map(|_| ());
    }
    let Kit { tools, linker } = kit()?;
    let object = program.with_extension("o");
    let mut clang = Command::new(tools.join("bin/clang"));
    clang.args(["--target=x86_64-linux-gnu", "-fPIE", "-nostdinc"]);
    for directory in header_directories()? {
        clang.args(["-isystem", &directory]);
    }
    clang.args(flags).arg("-I").arg(include).arg("-c").arg(source);
    printed(clang.arg("-o").arg(&object))?;
    let mut link = Command::new(linker);
    link.args(["--target", "x86_64-unknown-linux-gnu", "--toolchain"]).arg(tools);
    printed(link.arg("-o").args([program, &object, archive])).map(|_| ())
}

/// The command that runs a program for x86-64.
pub fn command(program: &Path) -> Result<Command, String> {
    if NATIVE {
        return Ok(Command::new(program));
    }
    let tools = &kit()?.tools;
    let mut command = Command::new(tools.join("bin/qemu-x86_64"));
    for (name, _) in std::env::vars_os() {
        if name.as_encoded_bytes().starts_with(b"QEMU_") {
            command.env_remove(name);
        }
    }
    // The emulator makes `rep movsb` byte by byte; a processor without it copies by vectors.
    command.args(["-cpu", "max,-erms"]).arg(tools.join("lib/ld-linux-x86-64.so.2"));
    command.arg("--library-path").arg(tools.join("lib")).arg(program);
    Ok(command)
}

/// The machine's own compiler for the file.
fn compiler(source: &Path) -> &'static str {
    match source.extension() {
        Some(extension) if extension == "cpp" => "c++",
        _ => "cc",
    }
}

/// Where the machine's own C compiler looks for headers: its list stands between two lines of what it
/// says, one directory to a line. What these headers declare is the same for both processors.
fn header_directories() -> Result<Vec<String>, String> {
    let said = printed(Command::new("cc").args(["-E", "-v", "-xc", "/dev/null"]))?;
    let behind = said.lines().skip_while(|line| !line.starts_with("#include <...>")).skip(1);
    let list = behind.take_while(|line| line.starts_with(' '));
    Ok(list.map(|line| line.trim().to_string()).collect())
}

/// What a command prints, on both its outputs; or why it did not succeed.
fn printed(command: &mut Command) -> Result<String, String> {
    let name = command.get_program().to_string_lossy().into_owned();
    let ended = command.output().map_err(|e| format!("{name} does not start: {e}."))?;
    let texts = [ended.stdout, ended.stderr];
    let text = texts.map(|bytes| String::from_utf8_lossy(&bytes).into_owned()).concat();
    match ended.status.success() {
        true => Ok(text),
        false => Err(format!("{name}: {}, having said\n{text}", ended.status)),
    }
}
