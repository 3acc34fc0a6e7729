/* As stdint.h beside it. */
typedef __SIZE_TYPE__ size_t;
