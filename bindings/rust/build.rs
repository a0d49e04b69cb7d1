//! Finds the library and has it linked; README.md says where it looks.

use std::env;
use std::path::{Path, PathBuf};
use std::process::Command;

/// How the library is linked.
#[derive(Clone, Copy)]
enum Kind {
    Static,
    Shared,
}

impl Kind {
    /// As `TRUFOLMESCA_LINK` asks for.
    fn wanted() -> Result<Self, String> {
        match env::var("TRUFOLMESCA_LINK").as_deref() {
            Err(env::VarError::NotPresent) | Ok("static") => Ok(Self::Static),
            Ok("shared") => Ok(Self::Shared),
            _ => Err("TRUFOLMESCA_LINK is neither static nor shared".into()),
        }
    }

    /// The name of a library's file.
    fn file(self, name: &str) -> String {
        match self {
            Self::Static => format!("lib{name}.a"),
            Self::Shared => format!("lib{name}.so"),
        }
    }

    /// The word that cargo has for it.
    fn word(self) -> &'static str {
        match self {
            Self::Static => "static",
            Self::Shared => "dylib",
        }
    }
}

/// A library that is there.
struct Library {
    folder: PathBuf,
    name: &'static str,
}

/// The library of this name in a folder, if it is there.
fn library_in(folder: &Path, name: &'static str, kind: Kind) -> Option<Library> {
    let folder = folder.to_path_buf();
    folder.join(kind.file(name)).is_file().then_some(Library { folder, name })
}

/// The library in a folder that was named, where it must be.
fn demanded(folder: &Path, kind: Kind, who: &str) -> Result<Library, String> {
    library_in(folder, "trufolmesca", kind)
        .ok_or_else(|| format!("{who} names {}, which has no {}", folder.display(), kind.file("trufolmesca")))
}

/// What pkg-config says, if it is there and knows what it is asked.
fn pkg_config(words: &[&str]) -> Option<String> {
    let program = env::var_os("PKG_CONFIG").unwrap_or_else(|| "pkg-config".into());
    let said = Command::new(program).args(words).output().ok().filter(|said| said.status.success())?;
    Some(String::from_utf8_lossy(&said.stdout).trim().to_owned())
}

/// The versions of the library that this crate is written for: first, and first that is not.
fn versions() -> (String, String) {
    let number =
        |name: &str| env::var(name).ok().and_then(|text| text.parse::<u32>().ok()).unwrap_or_default();
    let (major, minor) = (number("CARGO_PKG_VERSION_MAJOR"), number("CARGO_PKG_VERSION_MINOR"));
    (format!("{major}.{minor}"), format!("{major}.{}", minor + 1))
}

/// The folder of the installed library.
fn installed() -> Option<PathBuf> {
    let (first, end) = versions();
    pkg_config(&["--exists", &format!("trufolmesca >= {first}"), &format!("trufolmesca < {end}")])?;
    pkg_config(&["--variable=libdir", "trufolmesca"]).map(PathBuf::from)
}

/// The library that the repository around this crate has built.
fn built(kind: Kind) -> Option<Library> {
    let top = Path::new(&env::var_os("CARGO_MANIFEST_DIR")?).join("../..");
    // The archive that was proved comes before its copy, which may be older.
    library_in(&top.join("crates/export/out"), "export", kind)
        .or_else(|| library_in(&top.join("target/lib"), "trufolmesca", kind))
}

/// The library to link.
fn library(kind: Kind) -> Result<Library, String> {
    if let Some(folder) = env::var_os("TRUFOLMESCA_LIB_DIR") {
        return demanded(Path::new(&folder), kind, "TRUFOLMESCA_LIB_DIR");
    }
    if let Some(folder) = installed() {
        return demanded(&folder, kind, "pkg-config");
    }
    built(kind).ok_or_else(|| {
        format!(
            "the library, version {}, is not there: install it (make install), build it (make), or name the \
             folder of libtrufolmesca.a by TRUFOLMESCA_LIB_DIR",
            versions().0
        )
    })
}

/// Has the library linked, or says why it cannot be.
fn link() -> Result<(), String> {
    let target = |name: &str| env::var(format!("CARGO_CFG_TARGET_{name}")).unwrap_or_default();
    if target("ARCH") != "x86_64" || target("OS") != "linux" {
        return Err("the library is for x86-64 Linux alone".into());
    }
    let kind = Kind::wanted()?;
    let library = library(kind)?;
    println!("cargo::rerun-if-changed={}", library.folder.join(kind.file(library.name)).display());
    println!("cargo::rustc-link-search=native={}", library.folder.display());
    println!("cargo::rustc-link-lib={}={}", kind.word(), library.name);
    Ok(())
}

fn main() {
    println!("cargo::rerun-if-changed=build.rs");
    for name in
        ["TRUFOLMESCA_LIB_DIR", "TRUFOLMESCA_LINK", "PKG_CONFIG", "PKG_CONFIG_PATH", "PKG_CONFIG_LIBDIR"]
    {
        println!("cargo::rerun-if-env-changed={name}");
    }
    if let Err(why) = link() {
        println!("cargo::error={why}");
    }
}
