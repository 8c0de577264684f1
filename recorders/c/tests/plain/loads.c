/* built with -fno-openmp: a program without OpenMP, which loads a library that has it: twice it only takes its locks, and closes it; then it uses all, in two threads. */
#include <dlfcn.h>
#include <pthread.h>
#include <stdio.h>

static int use(const char *name, int closes) {
    void *library = dlopen("$ORIGIN/loads.loaded.so", RTLD_NOW | RTLD_LOCAL);
    int (*function)(void) = library != NULL ? (int (*)(void))dlsym(library, name) : NULL;
    int found = function != NULL ? function() : -1;
    if (closes && library != NULL) {
        dlclose(library);
    }
    return found;
}

static void *work(void *word) {
    *(int *)word = use("adds", 0);
    return NULL;
}

int main(void) {
    int found = -1;
    pthread_t thread;
    printf("%d\n", use("locks", 1));
    printf("%d\n", use("locks", 1));
    pthread_create(&thread, NULL, work, &found);
    pthread_join(thread, NULL);
    printf("%d\n", found);
    printf("%d\n", use("adds", 0));
}
