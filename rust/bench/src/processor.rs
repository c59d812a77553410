//! The name of the processor.

/// What the system calls it, or at least its kind.
pub fn name() -> String {
    let told = std::fs::read_to_string("/proc/cpuinfo").unwrap_or_default();
    let named = ["model name", "Model", "Hardware"].iter().find_map(|key| {
        let line = told.lines().find(|line| line.starts_with(key))?;
        Some(line.split_once(':')?.1.trim().to_string())
    });
    let kind = std::env::consts::ARCH;
    match named {
        Some(name) => format!("{name} ({kind})"),
        None => kind.to_string(),
    }
}
