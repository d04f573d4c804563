// Numbers as the program has them: 64 bits wide, for pointers too.
#ifndef TYPES_H
#define TYPES_H

typedef __SIZE_TYPE__ size;
typedef __PTRDIFF_TYPE__ count;
typedef unsigned char byte;

#endif
