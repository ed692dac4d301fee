/* stddef.h for cpaverify: its integer types, of LP64, and of ILP32 where the compiler is called
   with -m32 (C11 7.19). */
#ifndef CPAVERIFY_STDDEF_H
#define CPAVERIFY_STDDEF_H
#ifdef __LP64__
typedef unsigned long size_t;
typedef long ptrdiff_t;
typedef int wchar_t;
#else
typedef unsigned int size_t;
typedef int ptrdiff_t;
typedef long wchar_t;
#endif
#endif
