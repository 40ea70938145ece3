/* Gives the same bytes wherever random ones are asked for. It is preloaded into the program by bench/run.sh where instructions are
   counted: how full a place of a hashed map is depends on the seed that the program draws at its start. */
#include <stddef.h>

int getentropy(void *bytes, size_t count) {
    for (size_t at = 0; at < count; at++) ((unsigned char *)bytes)[at] = (unsigned char)(at * 37 + 11);
    return 0;
}
