SECTIONS { /DISCARD/ : { *(.note.GNU-stack) } }
