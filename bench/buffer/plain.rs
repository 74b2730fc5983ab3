//! Eight producers push items into a vector behind a lock, and one thread drains it.
use std::sync::Mutex;
use std::time::Instant;

const PRODUCERS: u16 = 8;

#[derive(Clone, Copy)]
#[allow(dead_code)]
struct CmdId {
    client: u16,
    seq: u32,
    attempt: u16,
}

fn main() {
    let each: u32 = std::env::args().nth(1).and_then(|word| word.parse().ok()).unwrap_or(0);
    let buffer: Mutex<Vec<CmdId>> = Mutex::new(Vec::new());
    let want = each as usize * usize::from(PRODUCERS);
    let start = Instant::now();
    let taken = std::thread::scope(|scope| {
        for client in 1..=PRODUCERS {
            let buffer = &buffer;
            scope.spawn(move || {
                for seq in 0..each {
                    buffer.lock().unwrap().push(CmdId { client, seq, attempt: 1 });
                }
            });
        }
        let mut taken = 0;
        while taken < want {
            let items = std::mem::take(&mut *buffer.lock().unwrap());
            taken += items.len();
        }
        taken
    });
    println!("taken {taken} ms {}", start.elapsed().as_millis());
}
