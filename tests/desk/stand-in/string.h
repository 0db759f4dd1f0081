/* string.h for the kit's clang, which has no headers: what examples/desk.c uses of it. */
void *memcpy(void *to, const void *from, __SIZE_TYPE__ bytes);
void *memset(void *to, int byte, __SIZE_TYPE__ bytes);
int memcmp(const void *one, const void *two, __SIZE_TYPE__ bytes);
int strcmp(const char *s, const char *t);
