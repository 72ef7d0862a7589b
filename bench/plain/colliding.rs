//! Keys that begin at one place of a hash table: `colliding numbers N` prints N of them that the auditor's set of
//! subscriptions may hold, `colliding ids N` N that the map of client-ids may. Both have the kit's default hasher,
//! `FoldHasher`, whose seed is fixed: it multiplies to 128 bits and joins the halves by xor. Its 64 bits are folded to 32
//! by xor. A table has a power of two of groups, of 9 keys each on average and of 12 at most; a key begins at the group
//! that the lowest bits of its hash name, and goes on to the next where that is full. So here these bits are 0.

const SEED: u64 = 0x243f_6a88_85a3_08d3;
const MULTIPLIER: u64 = 0x9e37_79b9_7f4a_7c15;

/// The state after so many octets more, at most eight: these are the number's lowest ones.
fn written(state: u64, octets: u64, length: u64) -> u64 {
    let product = u128::from(state ^ octets) * u128::from(MULTIPLIER ^ (2 * length));
    product as u64 ^ (product >> 64) as u64
}

/// The hash of a number.
fn of_number(number: u64) -> u64 {
    written(SEED, number, 8)
}

/// The hash of an octet string: its length is written, and then each octet by itself.
fn of_octets(octets: &[u8]) -> u64 {
    // Up to seven octets are read as a number of which some stand twice; of one all three are the same.
    let once = |state, octet: &u8| written(state, u64::from(*octet) * 0x01_01_01, 1);
    octets.iter().fold(written(SEED, octets.len() as u64, 8), once)
}

/// Whether a key of this hash begins at the first of so many groups.
fn is_first(hash: u64, groups: u32) -> bool {
    (hash ^ (hash >> 32)) as u32 & (groups - 1) == 0
}

/// Prints the first of these keys that begin at the first group of a table for so many.
fn print_first(count: usize, hash_of: impl Fn(u64) -> u64, print: impl Fn(u64)) {
    let mut groups = 1u32;
    while 9 * (groups as usize) < count {
        groups *= 2;
    }
    (0..).filter(|&it| is_first(hash_of(it), groups)).take(count).for_each(print);
}

/// The id of a number: seven letters.
fn id_of(number: u64) -> [u8; 7] {
    std::array::from_fn(|at| b'a' + (number / 26u64.pow(at as u32) % 26) as u8)
}

fn main() {
    let words: Vec<String> = std::env::args().skip(1).collect();
    let count: usize = words.get(1).and_then(|word| word.parse().ok()).expect("numbers or ids, and how many");
    match words[0].as_str() {
        "numbers" => print_first(count, of_number, |it| println!("{it}")),
        "ids" => print_first(count, |it| of_octets(&id_of(it)), |it| println!("{}", String::from_utf8_lossy(&id_of(it)))),
        _ => panic!("numbers or ids"),
    }
}
