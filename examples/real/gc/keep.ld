SECTIONS {
    .text : { KEEP(*main.o(.text.odd)) *(.text .text.*) }
    .data : { KEEP(*(EXCLUDE_FILE(*limit.o) .data.v* SORT(.data.unused*))) *(.data .data.*) }
}
