/* What the two dylibs need of the system's library: lazy pointers are bound through it. */
void dyld_stub_binder(void) __asm__("dyld_stub_binder");

void dyld_stub_binder(void) {}
