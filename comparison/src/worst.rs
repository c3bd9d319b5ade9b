//! Images that make load work hardest: blocks that call blocks, down to the deepest call depth, in lists that add no step.

const CALL: u32 = 25;
const DEPTH: u32 = 8;

/// An image of one rule over all actions, and of blocks, each given as its name and its list of actions.
fn image(blocks: &[[u32; 3]], actions: &[[u32; 2]]) -> Vec<u32> {
    let count = actions.len() as u32;
    let mut words = vec![5, 1, 0, 0, 0, 0, 0, 0, 0, count];
    words.resize(16, 0);
    for block in blocks {
        words.extend(block);
        words.extend([0; 5]);
    }
    let first_action = words.len() as u32;
    for action in actions {
        words.extend(action);
        words.extend([0; 6]);
    }
    let end = words.len() as u32;
    words.extend([256, DEPTH, 255, 255, 255]);
    words.extend([0, 16, first_action, first_action, first_action, end, end, end]);
    words
}

/// The deepest recursion: 506 calls, of which 505 give an empty list and the last the whole list again.
pub fn deepest() -> Vec<u32> {
    let mut actions = vec![[CALL, 1]; 505];
    actions.push([CALL, 2]);
    image(&[[1, 0, 0], [2, 0, 506]], &actions)
}

/// Refusal 16 by the number of actions: 200 calls of 200 calls of 40 calls of an empty list, each looked up among 64 blocks.
pub fn most_actions() -> Vec<u32> {
    let mut blocks = others(61);
    blocks.extend([[7, 200, 200], [9, 400, 40], [8, 0, 0]]);
    let calls = [(7, 200), (9, 200), (8, 40)];
    let actions: Vec<[u32; 2]> = calls.iter().flat_map(|&(name, count)| vec![[CALL, name]; count]).collect();
    image(&blocks, &actions)
}

/// As many as an accepted image found takes: 130 calls of a list of 310, which give nothing.
pub fn accepted_actions() -> Vec<u32> {
    let mut blocks = others(62);
    blocks.extend([[7, 130, 310], [8, 0, 0]]);
    let mut actions = vec![[CALL, 7]; 130];
    actions.extend([[CALL, 8]; 310]);
    image(&blocks, &actions)
}

/// Blocks of other names, in front of those that are called.
fn others(count: u32) -> Vec<[u32; 3]> {
    (100..100 + count).map(|name| [name, 0, 0]).collect()
}
