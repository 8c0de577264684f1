/* built with -fno-openmp: a program whose library has started threads before main begins, and which loads another one that does so and waits for them; all ends. */
#include <dlfcn.h>
#include <stdio.h>

int begun(void);

int main(void) {
    void *library = dlopen("$ORIGIN/early_ends.loaded.so", RTLD_NOW | RTLD_LOCAL);
    int (*loaded)(void) = (int (*)(void))dlsym(library, "loaded");
    printf("%d %d\n", begun(), loaded());
}
