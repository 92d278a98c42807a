/* Linked into Rust programs that run under an emulator, and into no others.
 *
 * When it starts, Rust's standard library asks for the bounds of the main thread's stack, only to word the message of a stack overflow better. The C
 * library answers by reading /proc/self/maps, and some releases of the emulator end with a fault of their own while they serve that file. This
 * answer, 'not available', is one that the standard library takes. */
int pthread_getattr_np(unsigned long thread, void *attributes) {
    (void)thread;
    (void)attributes;
    return 38; /* ENOSYS */
}
