//! The proved library, called through its boundary with rooms that have canaries around them.
use crate::table::{Rooms, HEAD, ROWS};
use std::ffi::{c_char, c_int, c_void, CStr, CString};

/// A row of features, which is eight numbers in memory.
#[repr(C)]
struct Feature([usize; ROWS[2]]);

/// What reading answers: a number and a place; with a refusal but 1 and 3 the line and its offset, with 0 the head, with 6 the sizes, else zeros.
#[repr(C)]
#[derive(Clone, Copy, PartialEq)]
pub struct Answer {
    pub number: usize,
    pub place: usize,
    pub line: usize,
    pub offset: usize,
    pub head: [usize; HEAD],
    pub sizes: [usize; 7],
}

impl Answer {
    /// A number and a place, and zeros.
    pub fn new(number: usize, place: usize) -> Answer {
        Answer { number, place, line: 0, offset: 0, head: [0; HEAD], sizes: [0; 7] }
    }

    /// It is 0 with this place and the head of these rooms.
    pub fn done(&self, rooms: &Rooms, place: usize) -> bool {
        self.head[..] == rooms.head[..] && *self == Answer { head: self.head, ..Answer::new(0, place) }
    }
}

/// What writing answers: a number, and how many bytes were written or are needed.
#[repr(C)]
struct Written {
    number: usize,
    count: usize,
}

/// An entry point that reads: the slice, the place and the strict switch, then each room and its length.
type Reader = unsafe extern "C" fn(
    *const u8, usize, usize, bool, *mut u8, usize, *mut usize, usize, *mut usize, usize, *mut Feature, usize, *mut usize, usize, *mut usize, usize, *mut u8, usize,
) -> Answer;

/// The same of a landing from before there was a switch.
type SwitchlessReader = unsafe extern "C" fn(
    *const u8, usize, usize, *mut u8, usize, *mut usize, usize, *mut usize, usize, *mut Feature, usize, *mut usize, usize, *mut usize, usize, *mut u8, usize,
) -> Answer;

#[derive(Clone, Copy)]
enum Reads {
    Switched(Reader),
    Switchless(SwitchlessReader),
}

/// An entry point that writes: the slice, each room and the head with their lengths, the width, and the three switches.
type Writer = unsafe extern "C" fn(
    *mut u8, usize, *const u8, usize, *const usize, usize, *const usize, usize, *const Feature, usize, *const usize, usize, *const usize, usize, *const u8, usize, *const usize, usize,
    usize, bool, bool, bool,
) -> Written;

#[link(name = "api_boundary", kind = "static")]
extern "C" {
    fn vilggodan_read(
        s: *const u8, s_length: usize, at: usize, strict: bool, texts: *mut u8, texts_length: usize, references: *mut usize, references_length: usize, comments: *mut usize,
        comments_length: usize, features: *mut Feature, features_length: usize, qualifiers: *mut usize, qualifiers_length: usize, locations: *mut usize,
        locations_length: usize, letters: *mut u8, letters_length: usize,
    ) -> Answer;
    fn vilggodan_write(
        out: *mut u8, out_length: usize, texts: *const u8, texts_length: usize, references: *const usize, references_length: usize, comments: *const usize,
        comments_length: usize, features: *const Feature, features_length: usize, qualifiers: *const usize, qualifiers_length: usize, locations: *const usize,
        locations_length: usize, letters: *const u8, letters_length: usize, head: *const usize, head_length: usize, width: usize, keep: bool, truncate: bool, escape: bool,
    ) -> Written;
}

extern "C" {
    fn dlopen(path: *const c_char, flags: c_int) -> *mut c_void;
    fn dlsym(object: *mut c_void, name: *const c_char) -> *mut c_void;
}

/// The entry points of a landing.
#[derive(Clone, Copy)]
pub struct Library {
    reader: Reads,
    writer: Writer,
}

pub const THIS: Library = Library { reader: Reads::Switched(vilggodan_read), writer: vilggodan_write };

/// Those of a shared object: the library of another landing whose rooms and answers have the same layout, with the switch or from before it.
pub fn opened(path: &str) -> Option<Library> {
    const NOW: c_int = 2;
    let path = CString::new(path).ok()?;
    let found = |object, name: &CStr| Some(unsafe { dlsym(object, name.as_ptr()) }).filter(|f| !f.is_null());
    let object = Some(unsafe { dlopen(path.as_ptr(), NOW) }).filter(|o| !o.is_null())?;
    let (reader, writer) = (found(object, c"vilggodan_read")?, found(object, c"vilggodan_write")?);
    let (switched, switchless, writer) = unsafe {
        (
            std::mem::transmute::<*mut c_void, Reader>(reader), std::mem::transmute::<*mut c_void, SwitchlessReader>(reader),
            std::mem::transmute::<*mut c_void, Writer>(writer),
        )
    };
    // a stray letter and then a byte that is 9: without a switch this is 9, whatever the arguments are taken for, and a refusal touches no room
    let this = Library { reader: Reads::Switched(switched), writer };
    let strays = this.read(b"LOCUS x\nORIGIN\nx-\n//\n", 0, true, &mut [], [&mut [], &mut [], &mut [], &mut [], &mut []], &mut []);
    Some(if strays.number == 16 { this } else { Library { reader: Reads::Switchless(switchless), writer } })
}

/// Reads into these rooms.
pub fn read(s: &[u8], at: usize, strict: bool, texts: &mut [u8], rows: [&mut [usize]; 5], letters: &mut [u8]) -> Answer {
    THIS.read(s, at, strict, texts, rows, letters)
}

/// Writes the table of the rooms; the number answered and the bytes written or needed.
pub fn write(out: &mut [u8], rooms: &Rooms, how: How) -> (usize, usize) {
    THIS.write(out, rooms, how)
}

impl Library {
    /// A library without the switch reads as with it off.
    pub fn read(self, s: &[u8], at: usize, strict: bool, texts: &mut [u8], rows: [&mut [usize]; 5], letters: &mut [u8]) -> Answer {
        let [references, comments, features, qualifiers, locations] = rows;
        unsafe {
            match self.reader {
                Reads::Switched(read) => read(
                    s.as_ptr(), s.len(), at, strict, texts.as_mut_ptr(), texts.len(), references.as_mut_ptr(), references.len(), comments.as_mut_ptr(), comments.len(),
                    features.as_mut_ptr().cast(), features.len() / ROWS[2], qualifiers.as_mut_ptr(), qualifiers.len(), locations.as_mut_ptr(), locations.len(),
                    letters.as_mut_ptr(), letters.len(),
                ),
                Reads::Switchless(read) => read(
                    s.as_ptr(), s.len(), at, texts.as_mut_ptr(), texts.len(), references.as_mut_ptr(), references.len(), comments.as_mut_ptr(), comments.len(),
                    features.as_mut_ptr().cast(), features.len() / ROWS[2], qualifiers.as_mut_ptr(), qualifiers.len(), locations.as_mut_ptr(), locations.len(),
                    letters.as_mut_ptr(), letters.len(),
                ),
            }
        }
    }

    pub fn write(self, out: &mut [u8], rooms: &Rooms, how: How) -> (usize, usize) {
        let Rooms { texts, references, comments, features, qualifiers, locations, letters, head } = rooms;
        let Written { number, count } = unsafe {
            (self.writer)(
                out.as_mut_ptr(), out.len(), texts.as_ptr(), texts.len(), references.as_ptr(), references.len(), comments.as_ptr(), comments.len(),
                features.as_ptr().cast(), features.len() / ROWS[2], qualifiers.as_ptr(), qualifiers.len(), locations.as_ptr(), locations.len(), letters.as_ptr(), letters.len(), head.as_ptr(),
                head.len(), how.width, how.keeping, how.truncate, how.escape,
            )
        };
        (number, count)
    }
}

/// How to write.
#[derive(Clone, Copy)]
pub struct How {
    pub keeping: bool,
    pub width: usize,
    pub truncate: bool,
    pub escape: bool,
}

/// A room with canaries before and after it.
pub struct Guarded<T> {
    cells: Vec<T>,
    canary: T,
}

const GUARD: usize = 8;

impl<T: Copy + PartialEq> Guarded<T> {
    pub fn new(length: usize, canary: T) -> Guarded<T> {
        Guarded { cells: vec![canary; length + 2 * GUARD], canary }
    }

    pub fn room(&mut self) -> &mut [T] {
        let end = self.cells.len() - GUARD;
        &mut self.cells[GUARD..end]
    }

    /// The room begins with `written`, and all else is as it was, also around the room.
    pub fn holds(&self, written: &[T]) -> bool {
        let end = GUARD + written.len();
        end + GUARD <= self.cells.len()
            && self.cells[GUARD..end] == *written
            && self.cells[..GUARD].iter().chain(&self.cells[end..]).all(|&cell| cell == self.canary)
    }
}

/// The rooms of one reading, each with canaries.
pub struct Lent {
    texts: Guarded<u8>,
    rows: [Guarded<usize>; 5],
    letters: Guarded<u8>,
}

impl Lent {
    /// Rooms of these lengths: texts, the five kinds of rows in numbers, letters.
    pub fn new(lengths: [usize; 7]) -> Lent {
        let [texts, rows @ .., letters] = lengths;
        let canary = 0xa5a5_a5a5_a5a5_a5a5;
        Lent {
            texts: Guarded::new(texts, 0xa5),
            rows: rows.map(|length: usize| Guarded::new(length, canary)),
            letters: Guarded::new(letters, 0xa5),
        }
    }

    pub fn read(&mut self, s: &[u8], at: usize, strict: bool) -> Answer {
        read(s, at, strict, self.texts.room(), self.rows.each_mut().map(Guarded::room), self.letters.room())
    }

    /// The rooms hold these and nothing else was touched.
    pub fn holds(&self, rooms: &Rooms) -> bool {
        let rows = [&rooms.references, &rooms.comments, &rooms.features, &rooms.qualifiers, &rooms.locations];
        self.texts.holds(&rooms.texts) && self.letters.holds(&rooms.letters) && self.rows.iter().zip(rows).all(|(lent, row)| lent.holds(row))
    }
}
