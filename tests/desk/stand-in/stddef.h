/* stddef.h for the kit's clang, which has no headers: what include/beksanour.h and desk.c use of it.
   Found by -isystem tests/desk/stand-in (tests/desk/build). */
typedef __SIZE_TYPE__ size_t;
#define NULL ((void *)0)
