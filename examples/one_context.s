# One context, and two threads that try to take it. The one that takes it goes on at `fib`, the other behind its `switch`: each at a UD2.
# Program X of the tests in crates/cet/src/tests/programs.rt and crates/cet_asm/src/tests/objects.rt.
.note ibt shstk
.global _start

.func fib
    endbr64
    ud2
.end

.func w
    switch @__cet_fibers, @__cet_fibers+8
    ud2
.end

.func _start
    fibermake @__cet_fibers, @fib
    spawn w
    switch @__cet_fibers, @__cet_fibers+16
    ud2
.end

.section bss
.object __cet_fibers 24
