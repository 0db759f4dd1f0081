/* stdlib.h for the kit's clang, which has no headers: what examples/desk.c uses of it. */
void *malloc(__SIZE_TYPE__ bytes);
void free(void *p);
void exit(int status) __attribute__((noreturn));
