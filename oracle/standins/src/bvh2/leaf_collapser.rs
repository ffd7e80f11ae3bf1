//! Declared by a published file; the oracle uses nothing of it.
