// The tapes of three miners, for what is written by hand: words in memory, or of a tape file of `secrec`, which are read where they are drawn, as `secrec run`
// does.
use std::convert::TryInto;
use std::fs::File;
use std::os::unix::fs::FileExt;

pub enum Tapes {
    Held { words: [Vec<u64>; 3], drawn: [usize; 3] },
    Read { file: File, next: [u64; 3] },
}

impl Tapes {
    pub fn held(words: [Vec<u64>; 3]) -> Tapes {
        Tapes::Held { words, drawn: [0; 3] }
    }

    // Four lengths, of the tapes of the dealer and of miners 1, 2 and 3, stand before the words.
    pub fn of_file(path: &str) -> Tapes {
        let file = File::open(path).expect("the tape file can be read");
        let mut lengths = [0; 32];
        file.read_exact_at(&mut lengths, 0).expect("four lengths");
        let lengths = words_of(&lengths);
        let first = 32 + 8 * lengths[0];
        Tapes::Read { file, next: [first, first + 8 * lengths[1], first + 8 * (lengths[1] + lengths[2])] }
    }

    pub fn draw(&mut self, miner: usize, count: usize) -> Vec<u64> {
        match self {
            Tapes::Held { words, drawn } => {
                let from = drawn[miner];
                drawn[miner] += count;
                words[miner][from..from + count].to_vec()
            }
            Tapes::Read { file, next } => {
                let mut bytes = vec![0; 8 * count];
                file.read_exact_at(&mut bytes, next[miner]).expect("words that are left");
                next[miner] += 8 * count as u64;
                words_of(&bytes)
            }
        }
    }
}

fn words_of(bytes: &[u8]) -> Vec<u64> {
    bytes.chunks_exact(8).map(|word| u64::from_le_bytes(word.try_into().unwrap())).collect()
}
