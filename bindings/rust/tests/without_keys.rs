//! What needs no signature scheme.
use weoldrin::{library_version, Error, OperatorLog, PackageLog};

#[test]
fn empty_logs() -> Result<(), Error> {
    let log = PackageLog::new()?;
    assert_eq!((log.head()?, log.len()?, log.is_empty()?), (None, 0, true));
    assert_eq!(log.to_json()?, "{}");
    assert_eq!(OperatorLog::from_json("{}")?.head()?, None);
    assert!(library_version()?.contains('.'));
    Ok(())
}

#[test]
fn a_record_of_another_scheme() -> Result<(), Error> {
    let empty = [0x0a, 0x02, 0x1a, 0x00, 0x1a, 0x04, b't', b'o', b'y', b':'];
    let mut log = PackageLog::new()?;
    let answer = log.append(&empty, |_| true);
    let name = answer.err().and_then(|it| it.reason().map(|it| it.name.clone()));
    assert_eq!(name.as_deref(), Some("InitialRecordDoesNotInit"));
    Ok(())
}

/// A log moves between threads; the compiler refuses one that is shared by them.
#[test]
fn logs_are_sent() {
    fn is_sent<T: Send>() {}
    is_sent::<PackageLog>();
    is_sent::<OperatorLog>();
}
