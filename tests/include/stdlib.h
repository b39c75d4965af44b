#ifndef STDLIB_H
#define STDLIB_H
#include <stddef.h>
unsigned long strtoul(const char *text, char **end, int base);
void *malloc(size_t size);
void free(void *p);
#endif
