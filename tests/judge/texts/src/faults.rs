//! Changes of a tree at one node: wrong kinds and names, keys missing, twice or too many.

use crate::junk;
use crate::names;
use crate::policy;
use crate::rng::Rng;
use crate::value::Value;

#[derive(Clone, Copy)]
pub enum Fault {
    /// Another kind: 0 string, 1 array, 2 object, 3 function.
    Kind(usize),
    /// Another name: a letter more, none at all, or one that the mapping knows.
    LongerName,
    NoName,
    KnownName,
    /// No children, or the child with this number gone.
    Bare,
    Drop(usize),
    /// A child's key or place taken once more, by anything, before or behind it.
    Before(usize),
    Behind(usize),
    /// A child's key changed.
    Misspell(usize),
    /// A key more, with a value that suits it or anything.
    SuitedKey(&'static str),
    JunkKey(&'static str),
    /// A child more that nobody asks for.
    Extra,
    Reverse,
}

/// Every fault that can be made at this node.
pub fn faults_of(node: &Value) -> Vec<Fault> {
    let (kind, children) = kind_and_children(node);
    let mut faults: Vec<Fault> = (0..4).filter(|&k| k != kind).map(Fault::Kind).collect();
    if kind == 2 || kind == 3 {
        faults.extend([Fault::LongerName, Fault::NoName, Fault::KnownName]);
    }
    if kind != 0 {
        faults.extend([Fault::Extra, Fault::Bare, Fault::Reverse]);
    }
    for child in 0..children {
        faults.extend([
            Fault::Drop(child),
            Fault::Before(child),
            Fault::Behind(child),
        ]);
    }
    if kind == 2 {
        faults.extend((0..children).map(Fault::Misspell));
        faults.extend(names::KEYS.map(Fault::SuitedKey));
        faults.extend(names::KEYS.map(Fault::JunkKey));
    }
    faults
}

fn kind_and_children(node: &Value) -> (usize, usize) {
    match node {
        Value::Text(_) => (0, 0),
        Value::Array(items) => (1, items.len()),
        Value::Object(_, entries) => (2, entries.len()),
        Value::Function(_, items) => (3, items.len()),
    }
}

/// Some fault at some node; containers more often than strings, which are many and alike.
pub fn spoil(rng: &mut Rng, tree: &mut Value) {
    let size = tree.size();
    let mut number = rng.below(size);
    for _ in 0..2 {
        if let Value::Text(_) = tree.node_mut(number) {
            number = rng.below(size);
        }
    }
    let node = tree.node_mut(number);
    let fault = *rng.pick(&faults_of(node));
    make(rng, node, fault);
}

/// Makes a fault that `faults_of` gave for this node.
pub fn make(rng: &mut Rng, node: &mut Value, fault: Fault) {
    if let Fault::Kind(kind) = fault {
        return change_kind(rng, node, kind);
    }
    match node {
        Value::Text(_) => {}
        Value::Array(items) => change_items(rng, items, fault),
        Value::Function(name, items) => {
            change_name(rng, name, fault);
            change_items(rng, items, fault);
        }
        Value::Object(name, entries) => {
            change_name(rng, name, fault);
            change_entries(rng, entries, fault);
            add_key(rng, entries, fault);
        }
    }
}

/// Keeps name and children where the other kind has room for them.
fn change_kind(rng: &mut Rng, node: &mut Value, kind: usize) {
    let (name, items) = match std::mem::replace(node, Value::Array(vec![])) {
        Value::Text(text) => (text.replace('-', "_"), vec![]),
        Value::Array(items) => (junk::identifier(rng), items),
        Value::Object(name, entries) => {
            (name, entries.into_iter().map(|(_, value)| value).collect())
        }
        Value::Function(name, items) => (name, items),
    };
    *node = match kind {
        0 => Value::Text(junk::string(rng)),
        1 => Value::Array(items),
        2 => Value::Object(
            name,
            items
                .into_iter()
                .map(|item| (junk::identifier(rng), item))
                .collect(),
        ),
        _ => Value::Function(name, items),
    };
}

fn change_name(rng: &mut Rng, name: &mut String, fault: Fault) {
    match fault {
        Fault::LongerName => name.push('s'),
        Fault::NoName => name.clear(),
        Fault::KnownName => *name = rng.pick(&names::ALL).to_string(),
        _ => {}
    }
}

fn change_items(rng: &mut Rng, items: &mut Vec<Value>, fault: Fault) {
    match fault {
        Fault::Bare => items.clear(),
        Fault::Drop(child) => {
            items.remove(child);
        }
        Fault::Before(child) => items.insert(child, junk::value(rng, 2)),
        Fault::Behind(child) => items.insert(child + 1, junk::value(rng, 2)),
        Fault::Extra => items.push(junk::value(rng, 2)),
        Fault::Reverse => items.reverse(),
        _ => {}
    }
}

fn change_entries(rng: &mut Rng, entries: &mut Vec<(String, Value)>, fault: Fault) {
    match fault {
        Fault::Bare => entries.clear(),
        Fault::Drop(child) => {
            entries.remove(child);
        }
        Fault::Before(child) => entries.insert(child, same_key(rng, &entries[child])),
        Fault::Behind(child) => entries.push(same_key(rng, &entries[child])),
        Fault::Misspell(child) => entries[child].0.push(*rng.pick(&['s', '_', '0'])),
        Fault::Extra => entries.insert(0, (junk::identifier(rng), junk::value(rng, 2))),
        Fault::Reverse => entries.reverse(),
        _ => {}
    }
}

fn same_key(rng: &mut Rng, (key, _): &(String, Value)) -> (String, Value) {
    let value = if rng.one_in(2) {
        policy::suiting(rng, key)
    } else {
        junk::value(rng, 2)
    };
    (key.clone(), value)
}

fn add_key(rng: &mut Rng, entries: &mut Vec<(String, Value)>, fault: Fault) {
    let (key, value) = match fault {
        Fault::SuitedKey(key) => (key, policy::suiting(rng, key)),
        Fault::JunkKey(key) => (key, junk::value(rng, 2)),
        _ => return,
    };
    let place = rng.between(0, entries.len());
    entries.insert(place, (key.to_string(), value));
}
