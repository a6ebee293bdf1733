"""A second reading of the rules, made from docs/BEHAVIOUR.md and docs/MADE.md alone: the program and the package are held against
it."""
