//! A log in etcd for [`camp::Shared`]: members of many machines share one repository.
//!
//! ```no_run
//! use camp::{Name, Questions, Shared};
//! use camp_etcd::EtcdLog;
//!
//! # fn main() -> Result<(), camp::Error> {
//! let log = EtcdLog::open(&["127.0.0.1:23791", "127.0.0.1:23792"], "notes")?;
//! let mut shared = Shared::open(log)?;
//! shared.branch(&Name::new("other")?, &Name::new("main")?)?;
//! println!("{}", shared.tree(&Name::new("main")?)?);
//! # Ok(())
//! # }
//! ```
#![forbid(unsafe_code)]
#![deny(missing_docs)]

mod entries;
mod etcd_log;
mod follower;
mod gateway;

pub use etcd_log::EtcdLog;
