/* Each function begins a page: an emulator can take half as long again over a loop that lies across two, and which loops do would be chance. */
SECTIONS { .text.pages : SUBALIGN(4096) { *(.text.*) } } INSERT AFTER .text;
