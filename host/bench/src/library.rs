//! A compiled relay as C calls it: the linked one, or an old one that is loaded apart from it. Both
//! are called by the same code through pointers to their functions.

use std::ffi::{c_char, c_int, c_void, CStr, CString, OsStr};
use std::mem::transmute_copy;
use std::os::unix::ffi::OsStrExt;
use std::path::{Path, PathBuf};
use std::process::Command;
use std::{env, fs, process};

pub type Length = unsafe extern "C" fn() -> usize;

pub type Count = unsafe extern "C" fn(usize) -> usize;

type SetUp = unsafe extern "C" fn(
    usize,
    *mut u64,
    usize,
    *mut u32,
    usize,
    *mut u32,
    usize,
    *mut u8,
    usize,
) -> usize;

pub type Receive = unsafe extern "C" fn(
    *mut u64,
    usize,
    *mut u32,
    usize,
    *mut u32,
    usize,
    *mut u8,
    usize,
    usize,
    usize,
    u32,
    *const u8,
    usize,
    *mut u8,
    usize,
    *mut u64,
    usize,
) -> usize;

pub type GiveUp =
    unsafe extern "C" fn(*mut u64, usize, *mut u32, usize, *mut u32, usize, usize, u32) -> usize;

/// As it was while every running time was known.
pub type ReceiveTimed = unsafe extern "C" fn(
    *mut u64,
    usize,
    *mut u32,
    usize,
    *mut u32,
    usize,
    *mut u8,
    usize,
    usize,
    u32,
    *const u8,
    usize,
    *mut u8,
    usize,
    *mut u64,
    usize,
) -> usize;

/// As it was while every call took the number of desks.
pub type ReceiveFor = unsafe extern "C" fn(
    usize,
    *mut u64,
    usize,
    *mut u32,
    usize,
    *mut u32,
    usize,
    *mut u8,
    usize,
    usize,
    u32,
    *const u8,
    usize,
    *mut u8,
    usize,
    *mut u64,
    usize,
) -> usize;

pub type GiveUpFor = unsafe extern "C" fn(
    usize,
    *mut u64,
    usize,
    *mut u32,
    usize,
    *mut u32,
    usize,
    usize,
    u32,
) -> usize;

pub type Character = unsafe extern "C" fn(usize, *const u8, usize, usize) -> usize;

pub type WellFormed = unsafe extern "C" fn(usize, *const u8, usize) -> bool;

/// The calls on a relay that was set up.
#[derive(Clone, Copy)]
pub enum Calls {
    /// The running time may be unknown.
    Now(Receive, GiveUp),
    /// Every running time is known; the number of desks stands in the memory.
    Timed(ReceiveTimed, GiveUp),
    /// Every running time is known, and every call takes the number of desks.
    WithDesks(ReceiveFor, GiveUpFor),
}

impl Calls {
    /// Where the kind of an outcome stands in a row; behind it stand its numbers.
    pub fn kind(&self) -> usize {
        match self {
            Calls::Now(..) => 3,
            Calls::Timed(..) | Calls::WithDesks(..) => 2,
        }
    }
}

/// The functions that are measured, and those that tell what memory they need.
#[derive(Clone, Copy)]
pub struct Library {
    pub place_size: Length,
    pub places: Count,
    pub rows: Count,
    pub marks: Count,
    pub stores: Count,
    pub set_up: SetUp,
    pub calls: Calls,
    pub character: Character,
    /// Older libraries do not have it.
    pub well_formed: Option<WellFormed>,
}

mod linked {
    use super::{Character, Count, GiveUp, Length, Receive, SetUp, WellFormed};

    macro_rules! linked {
        ($($constant:ident: $kind:ty = $name:ident($($arg:ident: $of:ty),*) -> $answer:ty;)*) => {
            extern "C" { $(fn $name($($arg: $of),*) -> $answer;)* }
            $(pub const $constant: $kind = $name;)*
        };
    }

    linked! {
        PLACE_SIZE: Length = spindlefig_place_size() -> usize;
        PLACES: Count = spindlefig_places(n: usize) -> usize;
        ROWS: Count = spindlefig_rows(n: usize) -> usize;
        MARKS: Count = spindlefig_marks(n: usize) -> usize;
        STORES: Count = spindlefig_stores(n: usize) -> usize;
        SET_UP: SetUp = spindlefig_set_up(n: usize, places: *mut u64, places_len: usize,
            rows: *mut u32, rows_len: usize, marks: *mut u32, marks_len: usize,
            stores: *mut u8, stores_len: usize) -> usize;
        RECEIVE: Receive = spindlefig_receive(places: *mut u64, places_len: usize,
            rows: *mut u32, rows_len: usize, marks: *mut u32, marks_len: usize,
            stores: *mut u8, stores_len: usize, desk: usize, known: usize, time: u32,
            rest: *const u8, rest_len: usize, out: *mut u8, out_len: usize,
            row: *mut u64, row_len: usize) -> usize;
        GIVE_UP: GiveUp = spindlefig_give_up(places: *mut u64, places_len: usize,
            rows: *mut u32, rows_len: usize, marks: *mut u32, marks_len: usize,
            desk: usize, time: u32) -> usize;
        CHARACTER: Character = spindlefig_character(u: usize, s: *const u8, s_len: usize, at: usize) -> usize;
        WELL_FORMED: WellFormed = spindlefig_well_formed(u: usize, s: *const u8, s_len: usize) -> bool;
    }
}

extern "C" {
    fn dlopen(name: *const c_char, flags: c_int) -> *mut c_void;
    fn dlsym(library: *mut c_void, name: *const c_char) -> *mut c_void;
}

const RTLD_NOW: c_int = 2;

impl Library {
    /// The proved relay that this program is linked with.
    pub fn linked() -> Library {
        Library {
            place_size: linked::PLACE_SIZE,
            places: linked::PLACES,
            rows: linked::ROWS,
            marks: linked::MARKS,
            stores: linked::STORES,
            set_up: linked::SET_UP,
            calls: Calls::Now(linked::RECEIVE, linked::GIVE_UP),
            character: linked::CHARACTER,
            well_formed: Some(linked::WELL_FORMED),
        }
    }

    /// A relay's static library (`.a`) or shared object, of any version of the calls.
    pub fn old(path: &Path) -> Result<Library, String> {
        if path.extension() != Some(OsStr::new("a")) {
            return load(path);
        }
        let shared = share(path)?;
        let library = load(&shared);
        fs::remove_file(&shared).map_err(|error| format!("{}: {error}", shared.display()))?;
        library
    }
}

/// Makes a shared object of a static library. Loaded apart, its names do not meet the linked ones:
/// it is bound to its own (`-Bsymbolic`), and `dlsym` asks this object alone.
fn share(archive: &Path) -> Result<PathBuf, String> {
    let shared = env::temp_dir().join(format!("spindlefig-old-{}.so", process::id()));
    let done = Command::new("cc")
        .args(["-shared", "-Wl,-Bsymbolic", "-o"])
        .arg(&shared)
        .arg("-Wl,--whole-archive")
        .arg(archive)
        .arg("-Wl,--no-whole-archive")
        .status()
        .map_err(|error| format!("cc: {error}"))?;
    match done.success() {
        true => Ok(shared),
        false => Err(format!(
            "cc makes no shared object of {}",
            archive.display()
        )),
    }
}

fn load(path: &Path) -> Result<Library, String> {
    let full = path
        .canonicalize()
        .map_err(|error| format!("{}: {error}", path.display()))?;
    let name = CString::new(full.as_os_str().as_bytes()).map_err(|error| error.to_string())?;
    // SAFETY: the name ends with a zero; a library of a relay has nothing that runs when it is loaded.
    let library = unsafe { dlopen(name.as_ptr(), RTLD_NOW) };
    if library.is_null() {
        return Err(format!("{} cannot be loaded", full.display()));
    }
    // SAFETY: these functions have had these types in every version of the library, and the last
    // one where it is there.
    unsafe {
        Ok(Library {
            place_size: symbol(library, c"spindlefig_place_size")?,
            places: symbol(library, c"spindlefig_places")?,
            rows: symbol(library, c"spindlefig_rows")?,
            marks: symbol(library, c"spindlefig_marks")?,
            stores: symbol(library, c"spindlefig_stores")?,
            set_up: symbol(library, c"spindlefig_set_up")?,
            calls: calls(library)?,
            character: symbol(library, c"spindlefig_character")?,
            well_formed: symbol(library, c"spindlefig_well_formed").ok(),
        })
    }
}

/// The calls, in the form that goes with the marks and the row: before the marks had a head there
/// were two a desk, and before an answer told whether the time is known it filled nine numbers.
fn calls(library: *mut c_void) -> Result<Calls, String> {
    let (receive, give_up) = (c"spindlefig_receive", c"spindlefig_give_up");
    // SAFETY: these two never changed, and what they answer tells which types the others have.
    unsafe {
        let marks: Count = symbol(library, c"spindlefig_marks")?;
        let row: Length = symbol(library, c"spindlefig_row")?;
        if marks(1) == 2 {
            let receive = symbol(library, receive)?;
            return Ok(Calls::WithDesks(receive, symbol(library, give_up)?));
        }
        let give_up = symbol(library, give_up)?;
        Ok(match row() {
            9 => Calls::Timed(symbol(library, receive)?, give_up),
            _ => Calls::Now(symbol(library, receive)?, give_up),
        })
    }
}

/// A function of a loaded library.
///
/// # Safety
/// `F` is a pointer to a function of the type that this name has in the library.
unsafe fn symbol<F: Copy>(library: *mut c_void, name: &CStr) -> Result<F, String> {
    let found = dlsym(library, name.as_ptr());
    if found.is_null() {
        return Err(format!("the old library has no {}", name.to_string_lossy()));
    }
    Ok(transmute_copy(&found))
}
