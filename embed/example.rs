// Plays 60 frames and saves the state after the 30th: rustc -O -L . example.rs && ./example kernel.hex
#[repr(C)]
struct Answer {
    status: u32,
    latches: u32,
    length: u64,
}

/// uzebox_state, as bytes: it is saved by a copy.
#[repr(C, align(8))]
#[derive(Clone, Copy)]
struct State([u8; 5456]);

#[link(name = "uzebox_c", kind = "static")]
extern "C" {
    fn uzebox_reset(hex: *const u8, hex_length: usize, response: u32, state: *mut State) -> Answer;
    fn uzebox_frame(hex: *const u8, hex_length: usize, state: *mut State, one: u16, two: u16, clocks: u32,
                    records: *mut u8, room: usize) -> Answer;
}

fn main() {
    let hex = std::fs::read(std::env::args().nth(1).expect("a HEX file")).expect("it can be read");
    let mut state = State([0; 5456]);
    let mut saved = state;
    let mut records = vec![0; 1 << 18];
    assert_eq!(unsafe { uzebox_reset(hex.as_ptr(), hex.len(), 4, &mut state) }.status, 0);
    for frame in 1..=60 {
        let answer = unsafe {
            uzebox_frame(hex.as_ptr(), hex.len(), &mut state, 0, 0, 1_000_000, records.as_mut_ptr(), records.len())
        };
        println!("{frame}: status {}, {} rows, {} latches", answer.status, answer.length / 461, answer.latches);
        if frame == 30 {
            saved = state;
        }
    }
    let clock = (0..8).rev().fold(0u64, |sum, k| sum << 8 | u64::from(saved.0[k]));
    println!("the state after frame 30 was at clock {clock}");
}
