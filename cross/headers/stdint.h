/* The fixed-width types that include/raimenolta.h names, for a compiler that comes without headers. */
#ifndef CROSS_STDINT_H
#define CROSS_STDINT_H
typedef __UINT8_TYPE__ uint8_t;
typedef __UINT16_TYPE__ uint16_t;
typedef __UINT32_TYPE__ uint32_t;
typedef __UINT64_TYPE__ uint64_t;
#endif
