# There is no width of 2 bytes.
.func _start
    mov.2 rax, rbx
.end
