//! Which parts are at hand: what is missing is said in one line, and what the gate needs must be there.

#[test]
fn what_is_missing_is_said() {
    if !cfg!(has_taffy) {
        host::say("taffy's float.rs is not at hand (TAFFY_FLOAT_RS, or ../shared beside the repository): only what does not need it is run");
    }
    for (part, here) in [("panel", cfg!(has_panel)), ("probe", cfg!(has_probe))] {
        if !here {
            host::say(&format!("crates/{part}/out/lib{part}.a is not there: its tests are not run"));
        }
    }
}

/// The gate names in HOST_NEEDS the archives of the crates that crates.txt lists, and taffy for the runs beside it.
#[test]
fn what_is_needed_is_here() {
    for part in std::env::var("HOST_NEEDS").unwrap_or_default().split(',').filter(|part| !part.is_empty()) {
        let here = match part {
            "taffy" => cfg!(has_taffy),
            "panel" => cfg!(has_panel),
            "probe" => cfg!(has_probe),
            _ => false,
        };
        assert!(here, "HOST_NEEDS names {part}, and the host was built without it");
    }
}
