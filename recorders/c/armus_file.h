/* For the recorders of C and MPI: the file that a piece of code is of. Where the loader can tell it without a lock, it does: the thread that has that lock may wait for others in a
 * constructor, and a child that is forked while another thread has it would never get it. The name is empty, or that by which it was called, for the program itself. */
#include <dlfcn.h>
#include <link.h>
#include <stdbool.h>
#include <stdint.h>

static bool file_of(const void *code, Dl_info *info) {
#if __GLIBC_PREREQ(2, 35)
    struct dl_find_object found;
    if (_dl_find_object((void *)(uintptr_t)code, &found) != 0) {
        return false;
    }
    *info = (Dl_info){.dli_fname = found.dlfo_link_map->l_name, .dli_fbase = found.dlfo_map_start};
    return info->dli_fname != NULL;
#else
    return dladdr(code, info) != 0 && info->dli_fname != NULL;
#endif
}
