/* A program that loads a library whose constructor waits for ever. */
#include <dlfcn.h>

int main(void) {
    dlopen("$ORIGIN/early_loaded.loaded.so", RTLD_NOW | RTLD_LOCAL);
}
