//! What logs of packages have beside those of operators.
use crate::buffer::text_of;
use crate::error::Error;
use crate::kind::Package;
use crate::log::Log;
use crate::raw;
use crate::time::system_time;
use std::time::SystemTime;

/// The log of a package.
pub type PackageLog = Log<Package>;

/// What became of a release.
#[derive(Clone, Debug, PartialEq, Eq)]
pub enum ReleaseState {
    /// It can be had.
    Released {
        /// The digest of its content.
        content: String,
    },
    /// It was yanked.
    Yanked {
        /// The id of the key that signed the yank.
        by: String,
        /// The time of the yank's record.
        timestamp: SystemTime,
    },
}

/// A release.
#[derive(Clone, Debug, PartialEq, Eq)]
pub struct Release {
    /// The id of the record that released it.
    pub record_id: String,
    /// Its version.
    pub version: String,
    /// The id of the key that signed that record.
    pub by: String,
    /// The time of that record.
    pub timestamp: SystemTime,
    /// What became of it.
    pub state: ReleaseState,
}

impl Release {
    /// Whether the release was yanked.
    pub fn yanked(&self) -> bool {
        matches!(self.state, ReleaseState::Yanked { .. })
    }

    /// The digest of the release's content; none if it was yanked.
    pub fn content(&self) -> Option<&str> {
        match &self.state {
            ReleaseState::Released { content } => Some(content),
            ReleaseState::Yanked { .. } => None,
        }
    }

    // A release from its texts, which stand one behind the other, and their lengths.
    fn of(mut version: Vec<u8>, lengths: &raw::Release) -> Self {
        let mut record_id = version.split_off(lengths.version_len);
        let mut by = record_id.split_off(lengths.record_id_len);
        let state = text_of(by.split_off(lengths.key_id_len));
        Release {
            record_id: text_of(record_id),
            version: text_of(version),
            by: text_of(by),
            timestamp: system_time(lengths.seconds, lengths.nanos),
            state: if lengths.is_yanked == 0 {
                ReleaseState::Released { content: state }
            } else {
                ReleaseState::Yanked { by: state, timestamp: system_time(lengths.yanked_seconds, lengths.yanked_nanos) }
            },
        }
    }
}

impl PackageLog {
    /// The release that is not yanked, meets the requirement (as `>=1.2, <2`) and has the greatest version. The error is
    /// [`Error::BadArgument`] where the text is no requirement.
    #[doc(alias = "find_latest_release")]
    pub fn latest(&self, requirement: &str) -> Result<Option<Release>, Error> {
        // SAFETY: no other call has the log, and each pointer goes with the length of its slice (`raw`).
        self.found(|log, text, used, release| unsafe {
            let (at, len) = (requirement.as_ptr(), requirement.len());
            raw::warg_latest(log, at, len, text.as_mut_ptr(), text.len(), used, release)
        })
    }

    /// The release of a version, yanked or not. The error is [`Error::BadArgument`] where the text is no version.
    pub fn release(&self, version: &str) -> Result<Option<Release>, Error> {
        // SAFETY: no other call has the log, and each pointer goes with the length of its slice (`raw`).
        self.found(|log, text, used, release| unsafe {
            let (at, len) = (version.as_ptr(), version.len());
            raw::warg_release(log, at, len, text.as_mut_ptr(), text.len(), used, release)
        })
    }

    /// The releases, yanked ones included, in the order in which they were released; those of a resumed log come first, by the
    /// bytes of their versions.
    pub fn releases(&self) -> Releases<'_> {
        Releases { log: self, place: 0 }
    }

    fn found(
        &self,
        mut call: impl FnMut(*mut raw::Log, &mut [u8], &mut usize, &mut raw::Release) -> u32,
    ) -> Result<Option<Release>, Error> {
        let mut lengths = raw::Release::default();
        let found = self.said(0, |log, text, used| call(log, text, used, &mut lengths))?;
        Ok(found.map(|text| Release::of(text, &lengths)))
    }
}

/// The releases of a log, in order.
#[derive(Debug)]
pub struct Releases<'a> {
    log: &'a PackageLog,
    place: usize,
}

impl Iterator for Releases<'_> {
    type Item = Result<Release, Error>;

    fn next(&mut self) -> Option<Self::Item> {
        let place = self.place;
        // SAFETY: no other call has the log, and each pointer goes with the length of its slice (`raw`).
        let found = self.log.found(|log, text, used, release| unsafe {
            raw::warg_releases(log, place, text.as_mut_ptr(), text.len(), used, release)
        });
        self.place += 1;
        found.transpose()
    }
}
