/* stdio.h for the kit's clang, which has no headers: what examples/desk.c and README.md use of it. */
typedef struct FILE FILE;
extern FILE *stdout, *stderr;
int printf(const char *format, ...);
int fprintf(FILE *to, const char *format, ...);
int snprintf(char *to, __SIZE_TYPE__ room, const char *format, ...);
int putchar(int c);
FILE *fopen(const char *name, const char *how);
__SIZE_TYPE__ fread(void *to, __SIZE_TYPE__ size, __SIZE_TYPE__ count, FILE *from);
int ferror(FILE *file);
int fflush(FILE *file);
int fclose(FILE *file);
