//! Writes the stored answers to standard output: host/x86-host.sh run --release --bin answers > crates/replay/stdin

#[cfg(has_taffy)]
fn main() -> std::io::Result<()> {
    use std::io::Write;
    std::io::stdout().write_all(&host::stored::write(&host::answers::sample()))
}

#[cfg(not(has_taffy))]
fn main() -> std::process::ExitCode {
    host::say("taffy's float.rs is not at hand (TAFFY_FLOAT_RS, or ../shared beside the repository)");
    std::process::ExitCode::FAILURE
}
