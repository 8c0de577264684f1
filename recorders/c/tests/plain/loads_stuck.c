/* built with -fno-openmp: a program without OpenMP, which loads a library that has it, and waits there. */
#include <dlfcn.h>

int main(void) {
    void *library = dlopen("$ORIGIN/loads_stuck.loaded.so", RTLD_NOW | RTLD_LOCAL);
    void (*crosses)(void) = (void (*)(void))dlsym(library, "crosses");
    crosses();
}
