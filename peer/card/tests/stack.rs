//! The stack that the archive's calls touch stays within what docs/HANDBOOK.md
//! says is enough: 4 KB for the step and the byte accesses, 32 KB for all.

mod host;

#[test]
fn calls_stay_within_the_handbooks_stack() {
    let text = host::printed("bench/c/stack.c", &["-std=gnu11", "-O2", "-Wl,-z,now"]);
    let bytes: Vec<(&str, u32)> = text
        .lines()
        .map(|line| line.split_once(' ').expect("a call and its bytes"))
        .map(|(call, bytes)| (call, bytes.parse().expect("a number")))
        .collect();
    assert_eq!(bytes.len(), 9);
    for (call, bytes) in bytes {
        let most = match call {
            "chimneyrye_step" | "chimneyrye_read_byte" | "chimneyrye_write_byte" | "chimneyrye_line" => 4096,
            _ => 32768,
        };
        assert!(bytes <= most, "{call} {bytes}");
    }
}
