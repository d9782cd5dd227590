/* What the host needs of this header, from the compiler's own names: the toolchain's compiler brings no headers. */
typedef __UINT8_TYPE__ uint8_t;
typedef __UINT32_TYPE__ uint32_t;
