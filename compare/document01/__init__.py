"""An independent reading of document 01: the tree text, the name faults by position, and the
walk of the Rust original with its early exit.

It was written from document 01 and its settled open points alone, and shares no code and no
definition with what it is compared with.  Python 3.11, standard library only.

    tree            the limits; a line as a Node; each word's fields and children; a tree's text
    reader          a text as a tree, or its refusal
    kinds           the built-in names, and the kinds of fault in the Rust's words
    faults          all faults of a tree, in document 01's order, by position
    answers         the calls check, report, message and name, and what `namecheck` prints
    rust_scopes     the Rust's stack of scopes, and the names that it collects ahead
    rust_walk       the Rust's first error
    random_trees    random trees
    damage          a text with one damage
    scripts         document 01's scripts, refusals and faults, with the answers to expect

Lines count from 1, the `tree` line.
"""
