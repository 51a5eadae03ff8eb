//! The exported functions of `libvilggodan.a`, as api/vilggodan.h has them: a slice is a pointer and a length.

/// A text in the room of texts.
#[repr(C)]
#[derive(Clone, Copy, Debug, Default)]
pub struct Span {
    pub start: usize,
    pub length: usize,
}

/// A row of features.
#[repr(C)]
#[derive(Clone, Copy, Debug, Default)]
pub struct Feature {
    pub kind: Span,
    pub location: Span,
    /// The first qualifier's row, and how many there are.
    pub first: usize,
    pub count: usize,
    /// The first of the location's rows, and how many there are.
    pub row: usize,
    pub rows: usize,
}

/// What a record takes.
#[repr(C)]
#[derive(Clone, Copy, Debug)]
pub struct Sizes {
    pub texts: usize,
    pub references: usize,
    pub comments: usize,
    pub features: usize,
    pub qualifiers: usize,
    pub locations: usize,
    pub letters: usize,
}

/// How many numbers a head has.
pub const HEAD: usize = 33;

/// What reading answers.
#[repr(C)]
#[derive(Clone, Copy, Debug)]
pub struct Reading {
    pub number: usize,
    pub place: usize,
    /// The line that a refusal tells, and the offset of its first byte; 0 and 0 with 0, 1 and 3.
    pub line: usize,
    pub offset: usize,
    /// With 0 the head, else zeros.
    pub head: [usize; HEAD],
    /// With 6 what the record takes, else zeros.
    pub sizes: Sizes,
}

/// What writing answers.
#[repr(C)]
#[derive(Clone, Copy, Debug)]
pub struct Writing {
    pub number: usize,
    /// With 0 the bytes written, with 6 the bytes that it takes, else 0.
    pub count: usize,
}

extern "C" {
    pub fn vilggodan_read(
        s: *const u8,
        s_length: usize,
        at: usize,
        strict: bool,
        texts: *mut u8,
        texts_length: usize,
        references: *mut usize,
        references_length: usize,
        comments: *mut usize,
        comments_length: usize,
        features: *mut Feature,
        features_length: usize,
        qualifiers: *mut usize,
        qualifiers_length: usize,
        locations: *mut usize,
        locations_length: usize,
        letters: *mut u8,
        letters_length: usize,
    ) -> Reading;

    pub fn vilggodan_write(
        out: *mut u8,
        out_length: usize,
        texts: *const u8,
        texts_length: usize,
        references: *const usize,
        references_length: usize,
        comments: *const usize,
        comments_length: usize,
        features: *const Feature,
        features_length: usize,
        qualifiers: *const usize,
        qualifiers_length: usize,
        locations: *const usize,
        locations_length: usize,
        letters: *const u8,
        letters_length: usize,
        head: *const usize,
        head_length: usize,
        width: usize,
        keep: bool,
        truncate: bool,
        escape: bool,
    ) -> Writing;
}
