// A stand-in with names only: the published file is not among the sources here.

/// A name without contents.
#[derive(Debug)]
pub struct DuplicateRle;

/// A name without contents.
#[derive(Debug)]
pub struct DuplicateRleBuilder;
