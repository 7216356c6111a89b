// Checks a HEX file against a certificate: rustc -O -L . run.rs && ./run ring.hex ring.cert
#[repr(C)]
struct Ran {
    status: u32,
    unused: u32,
    length: u64,
}

#[link(name = "uzebox_c", kind = "static")]
extern "C" {
    fn uzebox_run(words: *const u8, words_length: usize, files: *const u8, files_length: usize,
                  answer: *mut u8, room: usize) -> Ran;
}

/// Puts a text behind others: eight bytes of its length with the low one first, and the text.
fn put(texts: &mut Vec<u8>, text: &[u8]) {
    texts.extend_from_slice(&(text.len() as u64).to_le_bytes());
    texts.extend_from_slice(text);
}

fn main() {
    let (mut words, mut files, mut answer) = (Vec::new(), Vec::new(), vec![0; 1 << 20]);
    put(&mut words, b"check");
    for name in std::env::args().skip(1) {
        put(&mut words, name.as_bytes());
        put(&mut files, name.as_bytes());
        put(&mut files, &std::fs::read(&name).expect("it can be read"));
    }
    let ran = unsafe {
        uzebox_run(words.as_ptr(), words.len(), files.as_ptr(), files.len(), answer.as_mut_ptr(), answer.len())
    };
    assert!(ran.status < 256, "the call ended with {}", ran.status);
    let (length, text) = answer.split_at(8); // the first text of the answer is what the command prints
    let length = length.iter().rev().fold(0, |sum, byte| sum << 8 | usize::from(*byte));
    print!("{}", String::from_utf8_lossy(&text[..length]));
    std::process::exit(ran.status as i32);
}
