# Calls a function that is defined nowhere: `link` refuses it.
.note ibt shstk
.global _start

.func _start
    call nowhere
    ud2
.end
