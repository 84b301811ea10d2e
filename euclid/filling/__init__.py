"""Puts into proofs the lines that any reader sees: what the diagram shows, and plain sums.

How it works. `walk` goes through a proof with a `Reach` (reach.py): objects and facts as `elements`
keeps them, and all that follows from the facts by the rules of diagrams, drawn at once (closure.py)
by joins that are written and compiled for each predicate (joins.py), and undone at the end of a
block. For each literal that a step needs `supply` looks, in turn, whether it is allowed already; the
diagram shows it; one transfer gives it; arithmetic does; the facts, or its negation, are absurd;
transfers in a chain give it (`chaining`). If all fails, `supply` adds what magnitudes say of the
diagram, and tries again. Before lines are written the reasons of what is wanted are looked at
again, and of all instances that give a literal the cheapest in lines is taken: that halves them.
A line is written before the outermost block that it can stand before (`page`), and once.

`applying` puts in one use of an earlier theorem, of those that `candidates` finds with the joins of
`joining` over `theorems`, what `ties` makes equal, and what `deciding` refutes without arithmetic;
`ways` lists such uses. `strip` is the
reverse. `books` and `stripping` do this for the files of a command line, and ask `elements` of the
outcome; `sketches` compares a sketch with its book. Others use `fill_theorem` (engine.py) and
`ways_at` (ways.py).

What to know before a change. A blank of `apply` takes the least object that is allowed as the book
stands, so lines that are put in may change it: it is compared at the end. `a != b` turned round is
allowed at a need, and is no fact for `by`. Once the facts are absurd the closure grows without use,
so it then ends soon. A line before an outer block must not name an object of the inner one: each
object has a level. `x = x` has to be known, else transfers are missed where points coincide. What a
transfer into the diagram rests on is all known before it is added, also the sums that have to be
written first, so that reasons never go in a circle. Limits count work, and time ends a search only
as a failure, so the same text always gives the same lines. What takes long is looked at first as if
it were true (`Supplier.may_help`): most of it does not help then either.
"""
