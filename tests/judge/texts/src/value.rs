//! The tree of a text, and the text of a tree with or without blanks.

use crate::rng::Rng;

#[derive(Clone)]
pub enum Value {
    Text(String),
    Array(Vec<Value>),
    Object(String, Vec<(String, Value)>),
    Function(String, Vec<Value>),
}

impl Value {
    pub fn object(name: &str, entries: Vec<(&str, Value)>) -> Value {
        let own = |(key, value): (&str, Value)| (key.to_string(), value);
        Value::Object(name.to_string(), entries.into_iter().map(own).collect())
    }

    pub fn strings(strings: &[String]) -> Value {
        Value::Array(strings.iter().cloned().map(Value::Text).collect())
    }

    fn children(&self) -> Vec<&Value> {
        match self {
            Value::Text(_) => Vec::new(),
            Value::Array(items) | Value::Function(_, items) => items.iter().collect(),
            Value::Object(_, entries) => entries.iter().map(|(_, value)| value).collect(),
        }
    }

    fn children_mut(&mut self) -> Vec<&mut Value> {
        match self {
            Value::Text(_) => Vec::new(),
            Value::Array(items) | Value::Function(_, items) => items.iter_mut().collect(),
            Value::Object(_, entries) => entries.iter_mut().map(|(_, value)| value).collect(),
        }
    }

    /// How many nodes the tree has.
    pub fn size(&self) -> usize {
        let below: usize = self.children().into_iter().map(Value::size).sum();
        1 + below
    }

    /// The node with this number, counted from 0 in the order of the openers.
    pub fn node_mut(&mut self, number: usize) -> &mut Value {
        if number == 0 {
            return self;
        }
        let mut left = number - 1;
        for child in self.children_mut() {
            let size = child.size();
            if left < size {
                return child.node_mut(left);
            }
            left -= size;
        }
        panic!("no node {number}")
    }

    /// The shortest text of the tree.
    pub fn plain(&self) -> Vec<u8> {
        let mut writer = Writer {
            out: Vec::new(),
            blanks: None,
        };
        writer.value(self);
        writer.out
    }

    /// A text of the tree with blanks at some of the places where the grammar has them.
    pub fn spaced(&self, rng: &mut Rng) -> Vec<u8> {
        let sparseness = *rng.pick(&[1, 2, 4, 16]);
        let mut writer = Writer {
            out: Vec::new(),
            blanks: Some((rng, sparseness)),
        };
        writer.value(self);
        writer.out
    }

    /// Either of the two.
    pub fn written(&self, rng: &mut Rng) -> Vec<u8> {
        if rng.one_in(2) {
            self.plain()
        } else {
            self.spaced(rng)
        }
    }
}

struct Writer<'a> {
    out: Vec<u8>,
    blanks: Option<(&'a mut Rng, usize)>,
}

impl Writer<'_> {
    fn gap(&mut self) {
        let Some((rng, sparseness)) = &mut self.blanks else {
            return;
        };
        if rng.one_in(*sparseness) {
            for _ in 0..rng.between(1, 3) {
                self.out.push(*rng.pick(b" \t\n\r"));
            }
        }
    }

    /// Blanks, then what may stand after them.
    fn part(&mut self, part: &str) {
        self.gap();
        self.out.extend_from_slice(part.as_bytes());
    }

    fn value(&mut self, value: &Value) {
        match value {
            Value::Text(text) => {
                self.part("\"");
                self.out.extend_from_slice(text.as_bytes());
                self.part("\"");
            }
            Value::Array(items) => self.items("[", items, "]"),
            Value::Function(name, items) => {
                self.part(name);
                self.items("(", items, ")");
            }
            Value::Object(name, entries) => {
                self.part(name);
                self.entries(entries);
            }
        }
    }

    fn items(&mut self, opener: &str, items: &[Value], closer: &str) {
        self.part(opener);
        for (index, item) in items.iter().enumerate() {
            self.comma_unless_first(index);
            self.value(item);
        }
        self.part(closer);
    }

    fn entries(&mut self, entries: &[(String, Value)]) {
        self.part("{");
        for (index, (key, value)) in entries.iter().enumerate() {
            self.comma_unless_first(index);
            self.part(key);
            self.part(":");
            self.value(value);
        }
        self.part("}");
    }

    fn comma_unless_first(&mut self, index: usize) {
        if index > 0 {
            self.part(",");
        }
    }
}
