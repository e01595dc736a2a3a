//! The same items as those of `parts_bench blocks`, in a plain list in blocks that promises nothing: at most 127 items a block, a full
//! one parted in the middle, or before its last item at the end of all.

const MOST: usize = 128;

#[derive(Clone, Copy)]
struct Item {
    key: u64,
    rest: [u64; 11],
}

fn item(key: u64) -> Item {
    Item { key, rest: [key; 11] }
}

fn put(blocks: &mut Vec<Vec<Item>>, block: usize, index: usize, item: Item) {
    blocks[block].insert(index, item);
    if blocks[block].len() < MOST {
        return;
    }
    let at_end = block + 1 == blocks.len() && index == MOST - 1;
    let cut = if at_end { MOST - 1 } else { MOST / 2 };
    let mut upper = Vec::with_capacity(MOST);
    upper.extend_from_slice(&blocks[block][cut..]);
    blocks[block].truncate(cut);
    blocks.insert(block + 1, upper);
}

fn main() {
    let words: Vec<u64> = std::env::args().skip(1).map(|it| it.parse().unwrap()).collect();
    let (ordered, others) = (words[0], words[1]);
    let mut blocks: Vec<Vec<Item>> = vec![Vec::with_capacity(MOST)];
    for number in 0..ordered {
        let last = blocks.len() - 1;
        let end = blocks[last].len();
        put(&mut blocks, last, end, item(number * 65_536));
    }
    let mut seed: u64 = 1;
    for _ in 0..others {
        seed = seed.wrapping_mul(6_364_136_223_846_793_005).wrapping_add(1_442_695_040_888_963_407);
        let key = (seed >> 16) % (ordered * 65_536 + 1);
        let count = blocks.partition_point(|block| block.first().is_some_and(|first| first.key < key));
        let block = count.saturating_sub(1);
        let index = blocks[block].partition_point(|it| it.key < key);
        put(&mut blocks, block, index, item(key));
    }
    let mut all: u64 = 0;
    let mut len = 0;
    for block in &blocks {
        for it in block {
            all = all.wrapping_mul(31).wrapping_add(it.key);
            len += usize::from(it.rest[0] == it.key);
        }
    }
    println!("{len} {all}");
}
