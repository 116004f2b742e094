"""From the files that a linker is given to the manifest that the program reads.

`words` reads the linker's words, `response_files` those that stand in files, `search` finds libraries, `linker_script`
reads scripts, `archives` and `elf` read members and tables, `inputs` puts them in order, `linker_symbols` tells what a
linker defines itself, and `manifest` writes it all as one JSON value.
"""
