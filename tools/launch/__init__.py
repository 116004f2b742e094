"""What `wolzhyke` at the top of the repository does: it builds the program, proves it, and runs it.

`command` knows its words. `store` knows which program stands and whether its sources have changed. `checked` builds a program
with run-time checks and without its proof; `proved` proves every crate below the program. `kit` finds the toolchain, and
`crates` reads crates.txt."""
