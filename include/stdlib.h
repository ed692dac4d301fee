/* stdlib.h for cpaverify: the two calls that end an execution (C11 7.22.4). */
#ifndef CPAVERIFY_STDLIB_H
#define CPAVERIFY_STDLIB_H
#define EXIT_SUCCESS 0
#define EXIT_FAILURE 1
_Noreturn void abort(void);
_Noreturn void exit(int status);
#endif
