// Calls each way of writing and of reading a message of 64 bytes a fixed number of times, for a counter of instructions,
// and compares what they leave. usage: words_speed CALLS
use std::hint::black_box;

mod plain_words;
use plain_words::{plain_read, plain_write};

#[link(name = "stores_calls", kind = "static")]
extern "C" {
    fn stores_write_64(store: *mut u8, store_len: usize, at: usize, words: *const u16, words_len: usize) -> usize;
    fn stores_read_64(block: *const u8, block_len: usize, size: usize, k: usize, out: *mut u16, out_len: usize) -> usize;
}

fn main() {
    let calls: usize = std::env::args().nth(1).unwrap().parse().unwrap();
    let words: Vec<u16> = (0..32).map(|i| (i * 2053 + 517) as u16).collect();
    let (mut proved, mut plain) = (vec![7u8; 1024], vec![7u8; 1024]);
    let (mut proved_out, mut plain_out) = (vec![0u16; 32], vec![0u16; 32]);
    for _ in 0..calls {
        let n = unsafe { stores_write_64(black_box(proved.as_mut_ptr()), 1024, 128, words.as_ptr(), 32) };
        assert_eq!(n, 32);
        plain_write(black_box(&mut plain[128..192]), &words);
        let n = unsafe { stores_read_64(black_box(proved.as_ptr()), 1024, 1024, 2, proved_out.as_mut_ptr(), 32) };
        assert_eq!(n, 32);
        plain_read(black_box(&plain[128..192]), &mut plain_out);
    }
    assert_eq!(proved, plain);
    assert_eq!(proved_out, plain_out);
    assert_eq!(proved_out, words);
}
