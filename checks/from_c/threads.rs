//! Four threads share a tree: each reads it, and each sends it an update now and then, under its lock. Each answer is compared with what the
//! last update said. `threads READS` has all of them together read so often, and prints `N passed, M failed`.
use accesskit_proved::{Error, Field, Filter, Id, Role, SharedTree, Tree, TreeName};
use std::sync::{Arc, Mutex};
use std::thread;

const THREADS: u64 = 4;
const NODES: u64 = 100;
const BETWEEN_UPDATES: u64 = 500;

/// Whether a question about a node, one of a kind for each remainder of `turn`, is answered as the node was sent.
fn is_right(tree: &mut Tree, node: u64, sent: u64, turn: u64) -> Result<bool, Error> {
    let id = Id { node, tree: 0 };
    let label = || Some(format!("Button {node} of {sent}"));
    Ok(match turn % 5 {
        0 => tree.label(id)? == label(),
        1 => tree.field_text(id, Field::Label)? == label(),
        2 => tree.parent(id)? == Some(Id { node: 1, tree: 0 }),
        3 => tree.filtered_parent(id, Filter::Common)? == Some(Id { node: 1, tree: 0 }),
        _ => tree.role(id)? == Role::BUTTON,
    })
}

fn send(tree: &mut Tree, node: u64, sent: u64) -> Result<(), Error> {
    tree.update(TreeName::Root, 1, |update| {
        update.node(node, Role::BUTTON)?.text(Field::Label, &format!("Button {node} of {sent}"))?;
        Ok(())
    })
}

/// How many of a thread's reads are answered wrongly.
fn run(tree: &SharedTree, sent: &Mutex<Vec<u64>>, number: u64, reads: u64) -> Result<u64, Error> {
    let mut wrong = 0;
    for turn in 0..reads {
        let node = 2 + (turn * 37 + number * 11) % NODES;
        // (the tree's lock guards what was sent too)
        let mut tree = tree.lock();
        let mut sent = sent.lock().unwrap();
        let times = &mut sent[node as usize];
        if turn % BETWEEN_UPDATES == number {
            *times += 1;
            send(&mut tree, node, *times)?;
        }
        wrong += u64::from(!is_right(&mut tree, node, *times, turn)?);
    }
    Ok(wrong)
}

fn main() -> Result<(), Error> {
    let reads: u64 = std::env::args().nth(1).and_then(|it| it.parse().ok()).expect("how many reads");
    let ids: Vec<String> = (2..NODES + 2).map(|id| id.to_string()).collect();
    let nodes: String = ids.iter().map(|id| format!("node {id} Button label=\"Button {id} of 0\"\n")).collect();
    let shared = SharedTree::new()?;
    shared.lock().feed(&format!("update root focus=1 root=1\nnode 1 Window children={}\n{nodes}end\n", ids.join(",")))?;
    let sent = Arc::new(Mutex::new(vec![0; NODES as usize + 2]));
    let threads: Vec<_> = (0..THREADS)
        .map(|number| {
            let (tree, sent) = (shared.clone(), sent.clone());
            thread::spawn(move || run(&tree, &sent, number, reads / THREADS))
        })
        .collect();
    let mut wrong = 0;
    for thread in threads {
        wrong += thread.join().expect("a thread has panicked")?;
    }
    println!("{} passed, {} failed", u64::from(wrong == 0), u64::from(wrong != 0));
    assert_eq!(wrong, 0, "answers are wrong");
    Ok(())
}
