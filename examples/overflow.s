# Loads an address that lies below 0: `link` refuses it, since the field has 32 bits and no sign.
.note ibt shstk
.global _start

.func _start
    movabs.4 rax, @_start-5242880
    ud2
.end
