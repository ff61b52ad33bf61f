//! What logs of operators have beside those of packages.
use crate::buffer::text_of;
use crate::error::Error;
use crate::kind::{Operator, OperatorPermission};
use crate::log::Log;
use crate::raw;

/// The log of a registry's operators.
pub type OperatorLog = Log<Operator>;

/// What a namespace is.
#[derive(Clone, Debug, PartialEq, Eq)]
pub enum NamespaceState {
    /// The registry's own.
    Defined,
    /// Its packages are those of another registry.
    Imported {
        /// The other registry's name.
        registry: String,
    },
}

impl OperatorLog {
    /// What a namespace is; none if the log has none of that name.
    pub fn namespace_state(&self, name: &str) -> Result<Option<NamespaceState>, Error> {
        let mut is_imported = 0;
        // SAFETY: no other call has the log, and each pointer goes with the length of its slice (`raw`).
        let found = self.said(0, |log, text, used| unsafe {
            let room = text.len();
            let to = text.as_mut_ptr();
            raw::warg_namespace(log, name.as_ptr(), name.len(), to, room, used, &mut is_imported)
        })?;
        Ok(found.map(|registry| match is_imported {
            0 => NamespaceState::Defined,
            _ => NamespaceState::Imported { registry: text_of(registry) },
        }))
    }

    /// Whether a key may sign checkpoints.
    pub fn key_has_permission_to_sign_checkpoints(&self, key_id: &str) -> Result<bool, Error> {
        self.holds(key_id, OperatorPermission::Commit)
    }
}
