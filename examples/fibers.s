# Threads, fibers, a signal, a throw past 300 frames and two branch tables. Its main thread writes `done`.
# Program W of the tests in crates/cet/src/tests/programs.rt and crates/cet_asm/src/tests/objects.rt.
.note ibt shstk
.global _start

.func restorer
    mov.8 rax, 15                  # rt_sigreturn
    syscall
.end

.func onsig
    endbr64
    inc.8 [@hits]
    ret
.end

.func c0; endbr64; ret; .end
.func c1; endbr64; ret; .end
.func c2; endbr64; push rbx; pop rbx; ret; .end
.func c3; endbr64; sub.8 rsp, 8; add.8 rsp, 8; ret; .end

# Two contexts: one goes to and fro with the threads, and one is never taken.
.func fib
    endbr64
fl: switch @__cet_fibers+8, @__cet_fibers
    jmp fl
.end

.func idle
    endbr64
    ud2
.end

.func worker
wl: switch @__cet_fibers+8, @__cet_fibers+16
    movabs.4 rax, 24               # sched_yield
    syscall
    jmp wl
.end

.func deep
    sub.8 rdi, 1
    je go
    call deep
    ret
go: throw
.end

.func _start
    sub.8 rsp, 56
    action 10, @act
    fibermake @__cet_fibers, @fib
    fibermake @__cet_fibers+24, @idle
    spawn worker
    spawn worker
    switch @__cet_fibers, @__cet_fibers+8
    land 0, @caught
    movabs.4 rdi, 300
    call deep
    release 0
    jmp on
caught:
    endbr64
on:
    movabs.4 rbx, 5
    cmp.4 rbx, 5
    ja k0
    mov.4 rbx, rbx
    jmp [rbx*8+@jt]
k1: endbr64; nop
k2: endbr64; nop
k3: endbr64; nop
k4: endbr64; nop
k5: endbr64; nop
k0: endbr64
    and.4 rbx, 3
    call [rbx*8+@ct]
    movabs.4 rdi, 1
    movabs.4 rsi, @msg
    movabs.4 rdx, 5
    movabs.4 rax, 1                # write
    syscall
    movabs.4 rdi, 0
    movabs.4 rax, 231              # exit_group
    syscall
    ud2
.end

.section rodata
act: .word @onsig; .word 0x04000000; .word @restorer; .word 0
jt: .word @k0; .word @k1; .word @k2; .word @k3; .word @k4; .word @k5
ct: .word @c0; .word @c1; .word @c2; .word @c3
msg: .byte 100; .byte 111; .byte 110; .byte 101; .byte 10

.section bss
.object __cet_fibers 32
.object hits 8
