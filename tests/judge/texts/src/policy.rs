//! Policies of every form and kind as trees, and the value that suits each key.

use crate::junk;
use crate::names;
use crate::rng::Rng;
use crate::value::Value;

#[derive(Clone, Copy)]
pub enum Form {
    Skip,
    ResponseOnly,
    Full,
}

/// A form and, where it has one, the key of its response list.
pub type Shape = (Form, &'static str);

pub const SHAPES: [Shape; 5] = [
    (Form::Skip, ""),
    (Form::ResponseOnly, names::INCLUSIONS),
    (Form::ResponseOnly, names::EXCLUSIONS),
    (Form::Full, names::INCLUSIONS),
    (Form::Full, names::EXCLUSIONS),
];

/// Request headers, query parameters, response headers.
pub type Lists = [Vec<String>; 3];

pub fn empty() -> Value {
    Value::object(names::EMPTY, vec![])
}

/// The policy as it is printed, but for the value of the key that is never looked into: `nothing`.
/// A form leaves out what it does not have.
pub fn policy(shape: Shape, lists: &Lists, nothing: Value) -> Value {
    let args = match shape.0 {
        Form::Skip => vec![(names::NO_CERTIFICATION, nothing)],
        Form::ResponseOnly => vec![(
            names::CERTIFICATION_KEY,
            certification((names::NO_REQUEST, nothing), shape.1, lists),
        )],
        Form::Full => vec![(
            names::CERTIFICATION_KEY,
            certification((names::REQUEST_KEY, request(lists)), shape.1, lists),
        )],
    };
    root(Value::object(names::VALIDATION_ARGS, args))
}

fn root(argument: Value) -> Value {
    Value::Function(names::DEFAULT_CERTIFICATION.to_string(), vec![argument])
}

fn certification(request: (&str, Value), response_list: &str, lists: &Lists) -> Value {
    let response = (names::RESPONSE_KEY, response(response_list, &lists[2]));
    Value::object(names::CERTIFICATION, vec![request, response])
}

fn request(lists: &Lists) -> Value {
    let entries = vec![
        (names::REQUEST_HEADERS, Value::strings(&lists[0])),
        (names::QUERY_PARAMETERS, Value::strings(&lists[1])),
    ];
    Value::object(names::REQUEST, entries)
}

fn response(key: &str, list: &[String]) -> Value {
    Value::object(names::RESPONSE, vec![(key, header_list(list))])
}

fn header_list(list: &[String]) -> Value {
    Value::object(
        names::HEADER_LIST,
        vec![(names::HEADERS, Value::strings(list))],
    )
}

pub fn random_policy(rng: &mut Rng) -> Value {
    let shape = SHAPES[rng.below(SHAPES.len())];
    let nothing = if rng.one_in(3) {
        junk::value(rng, 3)
    } else {
        empty()
    };
    policy(shape, &random_lists(rng), nothing)
}

fn random_lists(rng: &mut Rng) -> Lists {
    [(); 3].map(|_| {
        let count = *rng.pick(&[0, 0, 1, 1, 2, 3, 5]);
        (0..count).map(|_| junk::string(rng)).collect()
    })
}

/// A value that the mapping would take for this key; a list object may lack its list.
pub fn suiting(rng: &mut Rng, key: &str) -> Value {
    let lists = random_lists(rng);
    match key {
        names::CERTIFICATION_KEY => {
            certification((names::NO_REQUEST, empty()), names::INCLUSIONS, &lists)
        }
        names::REQUEST_KEY => request(&lists),
        names::RESPONSE_KEY => response(names::EXCLUSIONS, &lists[2]),
        names::INCLUSIONS | names::EXCLUSIONS if rng.one_in(3) => {
            Value::object(names::HEADER_LIST, vec![])
        }
        names::INCLUSIONS | names::EXCLUSIONS => header_list(&lists[2]),
        names::REQUEST_HEADERS | names::QUERY_PARAMETERS | names::HEADERS => {
            Value::strings(&lists[0])
        }
        _ => empty(),
    }
}
