/* As stdint.h here. */
typedef __SIZE_TYPE__ size_t;
