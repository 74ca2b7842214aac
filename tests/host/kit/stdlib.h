#ifndef KIT_STDLIB_H
#define KIT_STDLIB_H
#include <stddef.h>
void *malloc(size_t);
void free(void *);
void exit(int);
long long strtoll(const char *, char **, int);
#endif
