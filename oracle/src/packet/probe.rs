//! Child of the given packet.rs: sees its private items.
pub(crate) mod bench;
mod ends;
mod gateway;
mod number;
mod reading;
pub(crate) mod version_2;
mod writing;

pub(crate) use ends::{ends, spaces};
pub(crate) use gateway::{gheader, gmask, gnumber, gsample, gsplit, gunmask};
pub(crate) use number::{pndec, pnenc, pnexp, pnlen, pnnew, pntag};
pub(crate) use reading::{decode, dump, finish, sample, split, walk};
pub(crate) use writing::{henc, hlen, hmask, whole};
