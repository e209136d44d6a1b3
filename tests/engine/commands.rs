//! How a command ends. What the commands answer to texts is in tests/rows, and where reads and writes fail in
//! tests/growths.

use engine::Status;

#[test]
fn ends_with_a_status(rt: HostRuntime) {
    for (status, code, complaint) in [
        (Status::Good, 0, None),
        (Status::Refused, 3, None),
        (Status::NoMemory, 4, None),
        (Status::CannotRead, 5, Some("cannot read")),
        (Status::CannotWrite, 5, Some("cannot write")),
    ] {
        assert_eq!(rt; (status.code(), status.complaint()), (code, complaint));
    }
}
