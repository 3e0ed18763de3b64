/* program.ld for a program with a C library, which has thread-local variables: errno is one. They want a header of their own in the
   file. Their first values stand behind the data; each hart has its own at the top of its stack (start_libc.s). */
PHDRS
{
    thread_local PT_TLS;
}

INCLUDE program.ld

thread_locals = ADDR(.tdata);
thread_locals_end = thread_locals + SIZEOF(.tdata);
thread_locals_size = ALIGN(ADDR(.tbss) + SIZEOF(.tbss) - thread_locals, 16);

ASSERT(ALIGNOF(.tdata) <= 16 && ALIGNOF(.tbss) <= 16, "a thread-local variable wants more than a multiple of 16")
