//! Stand-in for a file that is not among the documents and that nothing compared here uses.
