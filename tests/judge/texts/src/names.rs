//! The names that the mapping knows, and one that printed policies use beside them.

pub const DEFAULT_CERTIFICATION: &str = "default_certification";
pub const VALIDATION_ARGS: &str = "ValidationArgs";
pub const NO_CERTIFICATION: &str = "no_certification";
pub const CERTIFICATION_KEY: &str = "certification";
pub const CERTIFICATION: &str = "Certification";
pub const NO_REQUEST: &str = "no_request_certification";
pub const REQUEST_KEY: &str = "request_certification";
pub const REQUEST: &str = "RequestCertification";
pub const REQUEST_HEADERS: &str = "certified_request_headers";
pub const QUERY_PARAMETERS: &str = "certified_query_parameters";
pub const RESPONSE_KEY: &str = "response_certification";
pub const RESPONSE: &str = "ResponseCertification";
pub const INCLUSIONS: &str = "certified_response_headers";
pub const EXCLUSIONS: &str = "response_header_exclusions";
pub const HEADER_LIST: &str = "ResponseHeaderList";
pub const HEADERS: &str = "headers";
pub const EMPTY: &str = "Empty";

pub const ALL: [&str; 17] = [
    DEFAULT_CERTIFICATION,
    VALIDATION_ARGS,
    NO_CERTIFICATION,
    CERTIFICATION_KEY,
    CERTIFICATION,
    NO_REQUEST,
    REQUEST_KEY,
    REQUEST,
    REQUEST_HEADERS,
    QUERY_PARAMETERS,
    RESPONSE_KEY,
    RESPONSE,
    INCLUSIONS,
    EXCLUSIONS,
    HEADER_LIST,
    HEADERS,
    EMPTY,
];

/// The keys that some object of a policy is asked for.
pub const KEYS: [&str; 10] = [
    NO_CERTIFICATION,
    CERTIFICATION_KEY,
    NO_REQUEST,
    REQUEST_KEY,
    REQUEST_HEADERS,
    QUERY_PARAMETERS,
    RESPONSE_KEY,
    INCLUSIONS,
    EXCLUSIONS,
    HEADERS,
];
