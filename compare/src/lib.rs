//! The proved code, through its C surface, held against the second program: what each is handed, what each gives back.

pub mod captures;
pub mod frames;
pub mod histories;
pub mod layout;
pub mod outcome;
pub mod surface;
pub mod tally;
