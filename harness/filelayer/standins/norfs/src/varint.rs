//! Empty: nothing that is compiled here names it.
