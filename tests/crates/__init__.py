"""Public calls of the crates, in one program that `rt try --test` builds."""
