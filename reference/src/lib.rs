//! A second implementation of the column of a parcel locker wall, and of whole walls, written from documents 01 and 002 and not from the proved program or its
//! definitions, so that what the proofs hold the program to can be held to the documents: `trial` makes cases, this answers them, and the proved program must
//! answer the same. Where the documents are silent it reads them as docs/DECISIONS.md does.
//!
//! A section of document 01 is a module: `sizes` and `field` ("Sizes of a wall"), `decoder` (what the last round asks for), `column` ("Rounds", "Posting
//! by one column", "Refusals from the state"), `wall` and `listing` ("A whole wall", "Refusals from the input"). `calls` puts the same behind the calls
//! of include/column.h and include/wall.h, on bytes, and `cases` is how a case is stored.
pub mod calls;
pub mod cases;
pub mod column;
pub mod decoder;
pub mod field;
pub mod listing;
pub mod sizes;
pub mod wall;

/// The number that document 01 gives a refusal.
#[derive(Clone, Copy, PartialEq, Eq, Debug)]
pub struct Refusal(pub u8);
