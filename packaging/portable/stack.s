# What LLVM's code calls on Windows before it takes a page or more of the stack: it touches each page of %rax bytes, so that the system
# extends the stack. It changes no register.
    .globl ___chkstk_ms
___chkstk_ms:
    pushq %rcx
    pushq %rax
    leaq 24(%rsp), %rcx     # the stack of the caller
    jmp 2f
1:  subq $4096, %rcx
    orq $0, (%rcx)
    subq $4096, %rax
2:  cmpq $4096, %rax
    jae 1b
    subq %rax, %rcx
    orq $0, (%rcx)
    popq %rax
    popq %rcx
    ret
