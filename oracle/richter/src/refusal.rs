//! Document 01's numbers for the errors and panics of the published code.

use std::{
    cell::{Cell, RefCell},
    fmt,
    io::ErrorKind,
    panic::{self, AssertUnwindSafe},
    sync::Once,
};

use crate::{common::bsp::BspFileError, probe};

/// Why there is no answer.
#[derive(Copy, Clone, Debug, Eq, PartialEq)]
pub enum Refusal {
    /// One of document 01's numbers.
    Number(u32),
    /// A trace was longer than the comparison waits for.
    GaveUp,
}

impl fmt::Display for Refusal {
    fn fmt(&self, f: &mut fmt::Formatter) -> fmt::Result {
        match self {
            Refusal::Number(n) => write!(f, "{}", n),
            Refusal::GaveUp => write!(f, "gave up"),
        }
    }
}

/// A panic of the published code.
#[derive(Clone, Debug)]
pub struct Caught {
    pub message: String,
    pub file: String,
    pub line: u32,
}

thread_local! {
    static CATCHING: Cell<bool> = Cell::new(false);
    static CAUGHT: RefCell<Option<Caught>> = RefCell::new(None);
}

static HOOK: Once = Once::new();

/// Runs `f`; a panic in it prints nothing and is handed back.
pub fn catch<T>(f: impl FnOnce() -> T) -> Result<T, Caught> {
    HOOK.call_once(|| {
        // the crate failure makes a trace of the stack for each error if one of these asks for it
        std::env::set_var("RUST_FAILURE_BACKTRACE", "0");
        std::env::remove_var("RUST_BACKTRACE");
        let usual = panic::take_hook();
        panic::set_hook(Box::new(move |info| {
            if !CATCHING.with(|c| c.get()) {
                return usual(info);
            }
            let message = match info.payload().downcast_ref::<&str>() {
                Some(text) => text.to_string(),
                None => match info.payload().downcast_ref::<String>() {
                    Some(text) => text.clone(),
                    None => String::new(),
                },
            };
            let (file, line) = match info.location() {
                Some(at) => (at.file().to_string(), at.line()),
                None => (String::new(), 0),
            };
            CAUGHT.with(|c| *c.borrow_mut() = Some(Caught { message, file, line }));
        }));
    });
    let outer = CATCHING.with(|c| c.replace(true));
    let answer = panic::catch_unwind(AssertUnwindSafe(f));
    CATCHING.with(|c| c.set(outer));
    answer.map_err(|_| CAUGHT.with(|c| c.borrow_mut().take()).expect("a panic leaves its message"))
}

impl Caught {
    fn is_index(&self) -> bool {
        self.message.starts_with("index out of bounds: ")
    }

    fn is_range(&self) -> bool {
        self.message.starts_with("range start index ")
            || self.message.starts_with("range end index ")
            || self.message.starts_with("slice index starts at ")
    }

    fn is_unwrap(&self) -> bool {
        self.message == "called `Option::unwrap()` on a `None` value"
    }

    fn is_in(&self, file: &str) -> bool {
        self.file.ends_with(file)
    }

    /// A panic that has no number is a fault of the comparison.
    fn unknown(&self) -> ! {
        panic!("a panic without a number: {:?} at {}:{}", self.message, self.file, self.line)
    }

    /// In a walk or a trace.
    pub fn of_walk(self) -> Refusal {
        match self.message.as_str() {
            probe::WALK_TOO_LONG => Refusal::Number(31),
            probe::TRACE_TOO_DEEP => Refusal::Number(32),
            probe::GAVE_UP => Refusal::GaveUp,
            _ if self.is_index() && self.is_in("common/bsp/mod.rs") => Refusal::Number(30),
            _ => self.unknown(),
        }
    }

    /// In `Trace::join`.
    pub fn of_join(self) -> Refusal {
        match self.message.as_str() {
            "Attempted to join after terminal trace" | "Attempted to join disjoint traces" => {
                Refusal::Number(19)
            }
            _ => self.unknown(),
        }
    }

    /// In `hull`: the list of three hulls, indexed by 3.
    pub fn of_hull(self) -> Refusal {
        if self.is_index() && self.is_in("common/bsp/mod.rs") {
            return Refusal::Number(20);
        }
        self.unknown()
    }

    /// In `get_pvs`: the leaf's number, the row's start, the row's end.
    pub fn of_pvs(self) -> Refusal {
        if self.is_index() && self.is_in("common/bsp/mod.rs") {
            return Refusal::Number(20);
        }
        if (self.is_range() || self.is_unwrap()) && self.is_in("common/bsp/mod.rs") {
            return Refusal::Number(33);
        }
        self.unknown()
    }

    /// In `load`: texture number, texture info, edge-list range, edge, vertex or leaf.
    pub fn of_load(self) -> Refusal {
        // a frame letter that is missing
        if probe::is_in_textures() {
            return Refusal::Number(14);
        }
        if (self.is_index() || self.is_range()) && self.is_in("common/bsp/load.rs") {
            return Refusal::Number(11);
        }
        self.unknown()
    }
}

/// An error of `load`.
pub fn of_error(error: failure::Error) -> Refusal {
    if let Some(error) = error.downcast_ref::<BspFileError>() {
        return Refusal::Number(match error {
            BspFileError::Io(error) => of_io(error),
            BspFileError::UnsupportedVersion(_) => 2,
            BspFileError::NegativeSectionOffset(_) => 3,
            BspFileError::NegativeSectionSize(_) => 4,
            BspFileError::InvalidSectionSize { .. } => 5,
            BspFileError::InvalidTextureFrameSpecifier(_) => 14,
            BspFileError::EmptyPrimaryAnimation(_) => 15,
        });
    }
    if let Some(error) = error.downcast_ref::<std::io::Error>() {
        return Refusal::Number(of_io(error));
    }
    if error.downcast_ref::<std::string::FromUtf8Error>().is_some() {
        return Refusal::Number(13);
    }
    let message = error.to_string();
    Refusal::Number(match message.as_str() {
        "Plane count exceeds MAX_PLANES"
        | "Vertex count exceeds MAX_VERTICES"
        | "Visibility data size exceeds MAX_VISLIST"
        | "Render node count exceeds MAX_RENDER_NODES"
        | "Collision node count exceeds MAX_COLLISION_NODES"
        | "Leaf count exceeds MAX_LEAVES"
        | "Edge count exceeds MAX_EDGES"
        | "Edge list count exceeds MAX_EDGELIST"
        | "No brush models (need at least 1 for worldmodel)"
        | "Model count exceeds MAX_MODELS" => 6,
        "BSP read misaligned" | "BSP read data misaligned" => 7,
        "Entity data exceeds MAX_ENTSTRING" => 8,
        "Failed to create string from entity data" => 9,
        _ if message.starts_with("Bad face extents") => 12,
        _ if message.starts_with("Invalid ") || message.starts_with("negative texture") => 10,
        _ => panic!("an error without a number: {}", message),
    })
}

fn of_io(error: &std::io::Error) -> u32 {
    match error.kind() {
        ErrorKind::UnexpectedEof => 1,
        _ => panic!("an input error without a number: {}", error),
    }
}
