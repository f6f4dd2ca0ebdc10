// The messages of products one after another, as three miners send them to each other, written by hand over sockets in plain Rust: three processes, the same
// frames in the same order, one write for each, buffered reads, and the arithmetic of the products. Tapes and shares are made here. No hellos, no code, no
// refusals and no proofs. `bench/trio_against_run.sh` builds it with `rustc -O`.
//
//     messages_by_hand PORT PRODUCTS ELEMENTS          starts itself three times, waits, and prints what the shares of the last product add up to
//     messages_by_hand PORT PRODUCTS ELEMENTS ME
use std::convert::TryInto;
use std::io::{BufReader, Read, Write};
use std::net::{TcpListener, TcpStream};
use std::process::{Command, Stdio};
use std::thread::sleep;
use std::time::Duration;

const BLOCK: usize = 512;

fn spread(k: u64) -> u64 {
    k.wrapping_mul(0x9E37_79B9_7F4A_7C15).rotate_left(17)
}

struct Miner {
    me: u64,
    drawn: u64,
    to_next: TcpStream,
    from_previous: BufReader<TcpStream>,
    bytes: Vec<u8>,
}

fn port_of(one: u64, other: u64, port: u16) -> u16 {
    port + (one + other) as u16 - 3
}

// The stream to a peer: the lower one listens.
fn joined(me: u64, peer: u64, port: u16, listener: Option<TcpListener>) -> TcpStream {
    let stream = match listener {
        Some(listener) => listener.accept().unwrap().0,
        None => loop {
            match TcpStream::connect(("127.0.0.2", port_of(peer, me, port))) {
                Ok(stream) => break stream,
                Err(_) => sleep(Duration::from_millis(1)),
            }
        },
    };
    stream.set_nodelay(true).unwrap();
    stream
}

impl Miner {
    fn draw(&mut self, count: usize) -> Vec<u64> {
        let from = self.drawn;
        self.drawn += count as u64;
        (from..self.drawn).map(|k| spread(k * 3 + self.me)).collect()
    }

    fn send(&mut self, parts: &[&[u64]]) {
        let count: usize = parts.iter().map(|part| part.len()).sum();
        self.bytes.clear();
        self.bytes.push(1);
        self.bytes.extend_from_slice(&(count as u32).to_le_bytes());
        for part in parts {
            for word in *part {
                self.bytes.extend_from_slice(&word.to_le_bytes());
            }
        }
        self.to_next.write_all(&self.bytes).unwrap();
    }

    fn receive(&mut self) -> Vec<u64> {
        let mut head = [0u8; 5];
        self.from_previous.read_exact(&mut head).unwrap();
        let count = u32::from_le_bytes(head[1..].try_into().unwrap()) as usize;
        self.bytes.resize(8 * count, 0);
        self.from_previous.read_exact(&mut self.bytes).unwrap();
        self.bytes.chunks_exact(8).map(|word| u64::from_le_bytes(word.try_into().unwrap())).collect()
    }

    // The product of a block of shares with itself.
    fn square(&mut self, u: &[u64]) -> Vec<u64> {
        let n = u.len();
        let own = self.draw(3 * n);
        self.send(&[&own]);
        let theirs = self.receive();
        let masked = |letter: usize, k: usize, word: u64| word.wrapping_add(own[letter * n + k]).wrapping_sub(theirs[letter * n + k]);
        let first: Vec<u64> = (0..n).map(|k| masked(0, k, u[k])).collect();
        let second: Vec<u64> = (0..n).map(|k| masked(1, k, u[k])).collect();
        self.send(&[&first, &second]);
        let other = self.receive();
        (0..n)
            .map(|k| {
                let mixed = first[k].wrapping_mul(second[k]).wrapping_add(first[k].wrapping_mul(other[n + k]));
                masked(2, k, mixed.wrapping_add(other[k].wrapping_mul(second[k])))
            })
            .collect()
    }
}

fn mine(port: u16, products: usize, elements: usize, me: u64) {
    let mut listeners: Vec<Option<TcpListener>> =
        (1..4).map(|peer| (peer > me).then(|| TcpListener::bind(("127.0.0.2", port_of(me, peer, port))).unwrap())).collect();
    let mut streams: Vec<Option<TcpStream>> = vec![None, None, None];
    for peer in 1..4u64 {
        if peer != me {
            let listener = listeners[peer as usize - 1].take();
            streams[peer as usize - 1] = Some(joined(me, peer, port, listener));
        }
    }
    let next = streams[(me % 3) as usize].as_ref().unwrap().try_clone().unwrap();
    let previous = streams[((me + 1) % 3) as usize].as_ref().unwrap().try_clone().unwrap();
    let mut miner = Miner { me, drawn: 0, to_next: next, from_previous: BufReader::new(previous), bytes: Vec::new() };
    let mut shares: Vec<u64> = (0..elements as u64).map(|k| if me == 3 { 3 + 2 * k } else { 0 }).collect();
    for _ in 0..products {
        let mut made = Vec::with_capacity(elements);
        for block in shares.chunks(BLOCK) {
            made.extend(miner.square(block));
        }
        shares = made;
    }
    println!("{}", shares[0]);
}

fn main() {
    let words: Vec<String> = std::env::args().collect();
    let number = |at: usize| words[at].parse::<usize>().unwrap();
    if let Some(me) = words.get(4) {
        return mine(number(1) as u16, number(2), number(3), me.parse().unwrap());
    }
    let children: Vec<_> = ["1", "2", "3"]
        .iter()
        .map(|me| Command::new("/proc/self/exe").args(&words[1..4]).arg(me).stdout(Stdio::piped()).spawn().unwrap())
        .collect();
    let sum = children.into_iter().fold(0u64, |sum, child| {
        let found = child.wait_with_output().unwrap();
        assert!(found.status.success());
        sum.wrapping_add(String::from_utf8(found.stdout).unwrap().trim().parse().unwrap())
    });
    println!("{sum}");
}
