//! What the times were taken on.
use std::fs;
use std::process::Command;

/// The value after a colon in the first line of a file that begins with a name.
fn line(file: &str, name: &str) -> String {
    let text = fs::read_to_string(file).unwrap_or_default();
    let found = text.lines().find(|line| line.starts_with(name));
    let value = found.and_then(|line| line.split_once(':'));
    value.map_or("unknown".into(), |(_, value)| value.trim().to_string())
}

fn first_line(file: &str) -> String {
    let text = fs::read_to_string(file).unwrap_or("unknown".into());
    text.lines().next().unwrap_or_default().to_string()
}

/// The sizes of the first processor's caches.
fn caches() -> String {
    let folder = "/sys/devices/system/cpu/cpu0/cache";
    let of = |index: u32| {
        let part = |name| first_line(&format!("{folder}/index{index}/{name}"));
        format!("L{} {} {}", part("level"), part("type"), part("size"))
    };
    let there = |index: &u32| fs::exists(format!("{folder}/index{index}")).unwrap_or(false);
    let all: Vec<_> = (0..8).take_while(there).map(of).collect();
    all.join(", ")
}

fn version(program: &str, argument: &str) -> String {
    let output = Command::new(program).arg(argument).output();
    let text = output.map_or("unknown".into(), |output| output.stdout);
    String::from_utf8_lossy(&text).trim().to_string()
}

pub fn load() -> String {
    first_line("/proc/loadavg")
}

pub fn description() -> String {
    let processors = std::thread::available_parallelism().map_or(0, |number| number.get());
    let lines = [
        format!(
            "processor: {}, {processors} of it",
            line("/proc/cpuinfo", "model name")
        ),
        format!("caches: {}", caches()),
        format!("memory: {}", line("/proc/meminfo", "MemTotal")),
        format!("kernel: {}", first_line("/proc/sys/kernel/osrelease")),
        format!("load before: {}", load()),
        format!("Rust: {}", version("rustc", "--version")),
        format!("Rattle: {}", version("rt", "version")),
    ];
    lines.join("\n")
}
