/* stdint.h for the kit's clang, which has no headers: what include/beksanour.h, desk.c and examples/desk.c use of it.
   Found by -isystem tests/desk/stand-in (tests/desk/build). */
typedef __UINT8_TYPE__ uint8_t;
typedef __UINT32_TYPE__ uint32_t;
typedef __UINT64_TYPE__ uint64_t;
typedef __INT8_TYPE__ int8_t;
typedef __INT32_TYPE__ int32_t;
typedef __INT64_TYPE__ int64_t;
#define UINT32_MAX __UINT32_MAX__
#define UINT64_MAX __UINT64_MAX__
