// A stand-in with names only: the published file is not among the sources here.

/// A name without contents.
#[derive(Debug)]
pub struct Rpsi;

/// A name without contents.
#[derive(Debug)]
pub struct RpsiBuilder;
