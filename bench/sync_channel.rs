//! Passes signals from one thread to another through a `sync_channel` of std, for `bench/links`. The word is how many.
use std::env;
use std::process::exit;
use std::sync::mpsc::sync_channel;
use std::sync::Arc;
use std::thread;

/// As large as a signal of the kernel, which shares its view and is on the heap.
struct Signal {
    seq: u64,
    _view: Arc<[u64; 8]>,
    _rest: [u64; 19],
}

fn main() {
    let word = env::args().nth(1).expect("usage: sync_channel COUNT");
    let count: u64 = word.parse().expect("usage: sync_channel COUNT");
    let (tx, rx) = sync_channel::<Box<Signal>>(128);
    let sender = thread::spawn(move || {
        let view = Arc::new([0; 8]);
        for seq in 0..count {
            let signal = Signal { seq, _view: view.clone(), _rest: [seq; 19] };
            tx.send(Box::new(signal)).expect("the taker is gone");
        }
    });
    let in_order = (0..count).all(|seq| rx.recv().is_ok_and(|signal| signal.seq == seq));
    sender.join().expect("the sender is gone");
    println!("{}", if in_order { "in order" } else { "lost, or out of order" });
    exit(if in_order { 0 } else { 1 });
}
