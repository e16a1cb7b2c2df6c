// A stand-in with names only: the published file is not among the sources here.

/// A name without contents.
#[derive(Debug)]
pub struct DelaySinceLastReceiverReport;

/// A name without contents.
#[derive(Debug)]
pub struct DelaySinceLastReceiverReportBlock;

/// A name without contents.
#[derive(Debug)]
pub struct DelaySinceLastReceiverReportBlockBuilder;

/// A name without contents.
#[derive(Debug)]
pub struct DelaySinceLastReceiverReportBuilder;
