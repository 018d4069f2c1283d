//! Stand-in for the name of a topic's type, which the caches carry unread.

#[derive(Debug, Clone)]
pub struct TypeDesc;
