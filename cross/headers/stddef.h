/* size_t, for a compiler that comes without headers. */
#ifndef CROSS_STDDEF_H
#define CROSS_STDDEF_H
typedef __SIZE_TYPE__ size_t;
#endif
