/* The memory of the library: the program's malloc, realloc and free. `pointer` is never null: where there is no memory it is the address
   of something that nobody uses, and `ok` is false. Linux is asked for huge pages in large blocks, where malloc puts them: it clears each
   page before it is first used, and one of 2 MiB sooner than the 512 that it stands for. errno is left as it was. */
#define _DEFAULT_SOURCE
#include <errno.h>
#include <stdbool.h>
#include <stddef.h>
#include <stdint.h>
#include <stdlib.h>
#include <sys/mman.h>

/* The bytes of a huge page. */
#define HUGE_PAGE ((size_t)1 << 21)

struct tried {
    bool ok;
    void *pointer;
};

/* Asks for huge pages where they lie wholly in a block. It is only a hint: an answer that the system gives is passed over. */
static void ask_for_huge_pages(void *block, size_t size) {
#ifdef MADV_HUGEPAGE
    if (size >= HUGE_PAGE) {
        size_t before = -(uintptr_t)block % HUGE_PAGE;
        size_t whole = (size - before) / HUGE_PAGE * HUGE_PAGE;
        if (whole > 0) madvise((char *)block + before, whole, MADV_HUGEPAGE);
    }
#else
    (void)block, (void)size;
#endif
}

/* The answer of a block that malloc or realloc gave, or of none; errno is to be as it was before them. */
static struct tried tried(void *block, size_t size, int before) {
    static const char nowhere = 0;
    struct tried answer = {block != NULL, block != NULL ? block : (void *)&nowhere};
    if (block != NULL) ask_for_huge_pages(block, size);
    errno = before;
    return answer;
}

struct tried rattle_alloc(size_t size, size_t align) {
    int before = errno;
    return tried(malloc(size != 0 ? size : align), size, before);
}

struct tried rattle_realloc(void *pointer, size_t kept, size_t size, size_t align) {
    int before = errno;
    (void)kept;
    return tried(realloc(pointer, size != 0 ? size : align), size, before);
}

void rattle_dealloc(void *pointer) {
    int before = errno;
    free(pointer);
    errno = before;
}
