# Registers a signal action, calls a function through a register, and ends with status 0.
# Program P of the tests in crates/cet/src/tests/programs.rt and crates/cet_asm/src/tests/objects.rt.
.note ibt shstk
.global _start

.func restorer
    mov.8 rax, 15                  # rt_sigreturn
    syscall
.end

.func onsig
    endbr64
    ret
.end

.func callee
    endbr64
    ret
.end

.func _start
    action 10, @act                # rt_sigaction for SIGUSR1
    movabs.4 rax, @callee
    call rax
    movabs.4 rdi, 0
    movabs.4 rax, 231              # exit_group
    syscall
    ud2
.end

.section rodata
act: .word @onsig; .word 0x04000000; .word @restorer; .word 0
