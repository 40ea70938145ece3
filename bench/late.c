/* Has each thread begin as many seconds late as the environment's LATE says. It is preloaded into the program by bench/hostile.sh. */
#define _GNU_SOURCE
#include <dlfcn.h>
#include <pthread.h>
#include <stdlib.h>
#include <unistd.h>

struct work {
    void *(*body)(void *);
    void *with;
};

static void *late(void *given) {
    struct work work = *(struct work *)given;
    free(given);
    sleep((unsigned)atoi(getenv("LATE")));
    return work.body(work.with);
}

int pthread_create(pthread_t *thread, const pthread_attr_t *how, void *(*body)(void *), void *with) {
    int (*create)(pthread_t *, const pthread_attr_t *, void *(*)(void *), void *);
    struct work *work = malloc(sizeof *work);
    *(void **)&create = dlsym(RTLD_NEXT, "pthread_create");
    work->body = body;
    work->with = with;
    return create(thread, how, late, work);
}
