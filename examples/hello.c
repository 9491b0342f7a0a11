/* Three functions that no other image can name: labels that begin with L leave no symbols. */
#define LOCAL(name) __asm__("L_" #name) __attribute__((visibility("hidden"), used, noinline))

int add(int a, int b) LOCAL(add);
int twice(int a) LOCAL(twice);
int fourth(int a) LOCAL(fourth);

int add(int a, int b) { return a + b; }
int twice(int a) { return add(a, a); }
int fourth(int a) { return twice(twice(a)); }
